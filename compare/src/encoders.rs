//! Holds the words of the C header's encoders to the second program's listing
//! and to the library.
//!
//! Reads lines `mnemonic operand=value .. word answer` (tests/words.c). Each word
//! is the one that the listing has for this mnemonic and these operands, each cut
//! to its field; the library's answer to it, with a vector file in groups of one, is
//! 12 exactly where a register is out of range, and never 10, 11 or 1. With operands
//! at their bounds the library does with the word what the second program does with
//! the instruction: answer, machine, registers, marks, scalars, memory and vector
//! file, of a move by each group size. There are lines for every row that we carry
//! out and for no other.

#[allow(dead_code)] // steps alone are made here
mod library;

use model::moves::{Vectors, GROUPS, VECTOR_FILE_BYTES};
use model::{Bench, Kind, Lengths, Machine, LISTING, RULES};
use std::collections::BTreeSet;
use std::io::BufRead;

struct Line {
    mnemonic: String,
    operands: Vec<(String, u32)>,
    word: u32,
    answer: u64,
}

fn read(text: &str) -> Option<Line> {
    let mut parts: Vec<&str> = text.split(' ').collect();
    let answer = parts.pop()?.parse().ok()?;
    let word = parts.pop()?.parse().ok()?;
    let operands = parts[1..].iter().map(|part| {
        let (name, value) = part.split_once('=')?;
        Some((name.to_string(), value.parse().ok()?))
    });
    Some(Line {
        mnemonic: parts[0].to_string(),
        operands: operands.collect::<Option<_>>()?,
        word,
        answer,
    })
}

/// The word has the mnemonic's code and the operands in their fields.
fn encoded(line: &Line) -> bool {
    let operands: Vec<(&str, u32)> = line.operands.iter().map(|o| (o.0.as_str(), o.1)).collect();
    LISTING.iter().any(|row| row.name == line.mnemonic)
        && model::operands_of(&line.mnemonic).len() == operands.len()
        && model::assemble(&line.mnemonic, &operands) == line.word
}

/// The library takes the word for an instruction, or refuses its registers. Every tile is
/// empty, so that a move names lines past it.
fn answered(line: &Line) -> bool {
    match model::decode(line.word) {
        Ok(_) if is_move(line.word) => line.answer == 4,
        Ok(_) => line.answer == 0 || line.answer == 3,
        Err(number) => number == 12 && line.answer == 12,
    }
}

fn is_move(word: u32) -> bool {
    let moves = |kind| matches!(kind, Kind::MoveOut(_) | Kind::MoveIn(_));
    model::decode(word).is_ok_and(|found| moves(found.row.kind))
}

fn at_bounds(line: &Line) -> bool {
    line.operands.iter().all(|o| [0, 1, 3, 7, 8, 31, 8191].contains(&o.1))
}

fn bytes(numbers: &[u64]) -> Vec<u8> {
    numbers.iter().flat_map(|number| number.to_le_bytes()).collect()
}

fn numbers(m: &Machine) -> Vec<u64> {
    let (tile_m, tile_k, tile_n) = (m.tile_m, m.tile_k, m.tile_n);
    let mut ranges = m.seals.ranges.iter().flat_map(|&(start, length)| [start, length]);
    let mut numbers = vec![m.rlen, m.mlen, m.mtype, tile_m, tile_k, tile_n];
    numbers.extend(ranges.by_ref().take(2));
    numbers.extend([m.rule, m.elen, m.seals.number]);
    numbers.extend(ranges);
    numbers
}

/// A small machine of either ELEN with each legal mtype.
const MACHINES: [(Lengths, &[u64]); 2] =
    [((64, 128, 32), &[0, 1, 2, 8]), ((128, 256, 64), &[0, 1, 2, 3, 8, 9])];

/// A machine on which most words are done, all different bytes, and scalars that
/// are addresses in memory; x31 is 1, a line of a tile.
fn bench(lengths: Lengths, mtype: u64, rule: u64) -> (Bench, Vec<u64>) {
    let machine = Machine { mtype, tile_m: 2, tile_k: 2, tile_n: 2, ..Machine::of(lengths, rule) };
    let size = model::register_bytes(machine.mlen);
    let made = |at: usize, by: usize| (at * by + at / 7) as u8;
    let registers = (0..size).map(|at| made(at, 37)).collect();
    let memory = (0..200).map(|at| made(at, 91)).collect();
    (
        Bench { machine, registers, marks: vec![1; size], memory },
        (0..32).map(|slot| if slot == 31 { 1 } else { 2 * slot + 1 }).collect(),
    )
}

/// One step on both programs, on a machine of these lengths, this mtype and rule, with
/// groups of this size.
fn stepped_alike(word: u32, (lengths, mtype, rule): (Lengths, u64, u64), group: u64) -> bool {
    let (mut second, mut values) = bench(lengths, mtype, rule);
    let mut block = bytes(&numbers(&second.machine));
    let (mut registers, mut marks) = (second.registers.clone(), second.marks.clone());
    let (mut scalars, mut memory) = (bytes(&values), second.memory.clone());
    let file: Vec<u8> = (0..VECTOR_FILE_BYTES).map(|at| (at * 53 + at / 5) as u8).collect();
    let mut vectors = Vectors { file: file.clone(), group };
    let mut file = file;
    let given = library::step(
        word,
        group,
        &mut block,
        &mut registers,
        &mut marks,
        &mut scalars,
        &mut memory,
        &mut file,
    );
    let expected = model::vector_step(word, &mut second, &mut values, &mut vectors);
    given == expected.number + (expected.row << 16) + (expected.column << 32)
        && block == bytes(&numbers(&second.machine))
        && (registers, marks, memory) == (second.registers, second.marks, second.memory)
        && (scalars, file) == (bytes(&values), vectors.file)
}

fn main() {
    let (mut lines, mut steps, mut wrong) = (0u64, 0u64, 0u64);
    let mut names = BTreeSet::new();
    let mut states = Vec::new();
    for (lengths, mtypes) in MACHINES {
        for &mtype in mtypes {
            states.extend(RULES.map(|rule| (lengths, mtype, rule)));
        }
    }
    for text in std::io::stdin().lock().lines() {
        let text = text.expect("a line");
        let line = read(&text).expect("mnemonic, operands, word and answer");
        let mut right = encoded(&line) && answered(&line);
        if right && at_bounds(&line) {
            let groups = if is_move(line.word) { &GROUPS[..] } else { &GROUPS[..1] };
            right = states
                .iter()
                .all(|&state| groups.iter().all(|&group| stepped_alike(line.word, state, group)));
            steps += (states.len() * groups.len()) as u64;
        }
        lines += 1;
        if !right {
            wrong += 1;
            eprintln!(
                "{text}: the listing and the library say otherwise ({})",
                model::describe(line.word)
            );
        }
        names.insert(line.mnemonic);
    }
    for row in LISTING.iter().filter(|row| !names.contains(row.name)) {
        wrong += 1;
        eprintln!("{}: no encoder", row.name);
    }
    println!("{} encoders, {lines} words, {steps} steps: {wrong} wrong", names.len());
    std::process::exit(i32::from(wrong > 0));
}
