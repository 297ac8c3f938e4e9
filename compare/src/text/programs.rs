//! The programs `disassemble` and `assemble`, run on whole inputs, each held to the second
//! program's. The folder that holds them is named by BODLARINA_BIN.

use super::held::{shown, word_with_line};
use crate::random::Random;
use crate::suite::{each_case, Context, Outcome};
use crate::tally::{Call, Tally};
use model::text::{assembled, lines_in, listed, program, Turned, MOST_INPUT};
use std::io::Write;
use std::process::{Command, Stdio};

/// A program: its name, what the second program makes of a line, and its place in the
/// table.
#[derive(Clone, Copy)]
pub struct Program {
    pub name: &'static str,
    pub turn: fn(&[u8]) -> Turned,
    call: Call,
}

pub const DISASSEMBLE: Program =
    Program { name: "disassemble", turn: listed, call: Call::Disassembled };
pub const ASSEMBLE: Program = Program { name: "assemble", turn: assembled, call: Call::Assembled };
const PROGRAMS: [Program; 2] = [DISASSEMBLE, ASSEMBLE];

/// The folder of the programs.
pub fn folder() -> Result<String, String> {
    std::env::var("BODLARINA_BIN")
        .map_err(|_| "BODLARINA_BIN names no folder with disassemble and assemble".to_string())
}

/// All that a program writes.
pub fn output(program: Program, input: &[u8]) -> Result<Vec<u8>, String> {
    let path = format!("{}/{}", folder()?, program.name);
    let said = |error: std::io::Error| format!("{path}: {error}");
    let mut child =
        Command::new(&path).stdin(Stdio::piped()).stdout(Stdio::piped()).spawn().map_err(said)?;
    let mut pipe = child.stdin.take().expect("a pipe");
    let bytes = input.to_vec();
    // It may stop reading beyond the most that it takes: what is left over is not an error.
    let writer = std::thread::spawn(move || pipe.write_all(&bytes).is_ok());
    let output = child.wait_with_output().map_err(said)?;
    let whole = writer.join().expect("a writer");
    if !output.status.success() || !whole && input.len() <= MOST_INPUT {
        return Err(format!("{path} ended with {}", output.status));
    }
    Ok(output.stdout)
}

/// One input on a program and on the second one.
pub fn check_input(of: Program, input: &[u8], tally: &mut Tally) -> Result<(), String> {
    let given = output(of, input)?;
    let expected = program(of.turn, input);
    if given == expected.as_bytes() {
        if input.len() > MOST_INPUT {
            tally.count(of.call, 8);
            return Ok(());
        }
        for line in expected.lines() {
            let number = line.strip_prefix("answer ").and_then(|rest| rest.split(' ').next());
            tally.count(of.call, number.map_or(0, |number| number.parse().expect("a number")));
        }
        return Ok(());
    }
    let given_lines = lines_in(&given);
    let mut lines = expected.lines().zip(&given_lines).enumerate();
    let differs = lines.find(|(_, (second, library))| second.as_bytes() != **library);
    Err(match differs {
        Some((at, (second, library))) => format!(
            "{} of {} bytes, line {}: {}\nthe program {}\nsecond program {second:?}",
            of.name,
            input.len(),
            at + 1,
            lines_in(input)
                .get(at)
                .map_or(String::new(), |line| shown(&line[..line.len().min(200)])),
            shown(library)
        ),
        None => format!(
            "{} of {} bytes: the program writes {} bytes, the second one {}",
            of.name,
            input.len(),
            given.len(),
            expected.len()
        ),
    })
}

/// A good line of a program's input.
fn good_line(of: Program, random: &mut Random) -> Vec<u8> {
    let word = word_with_line(random);
    if of.name == DISASSEMBLE.name {
        format!("{word:08x}").into_bytes()
    } else {
        model::text::line_of(word).expect("a line").into_bytes()
    }
}

/// A line of a program's input: mostly good, else damaged in one byte, cut, of the other
/// program's form, or any bytes; of words also any word.
fn some_line(of: Program, random: &mut Random) -> Vec<u8> {
    let mut line = good_line(of, random);
    let at = random.below(line.len() as u64) as usize;
    match random.below(12) {
        0 => line[at] = random.next() as u8,
        1 => line.truncate(at),
        2 => line.push(random.pick(b"\r 0\0")),
        3 => line = random.bytes(at),
        4 => {
            line = good_line(if of.name == ASSEMBLE.name { DISASSEMBLE } else { ASSEMBLE }, random)
        }
        5 => line = format!("{:08x}", random.next() as u32 & !0x7F | 0x77).into_bytes(),
        6 => line = format!("{:08x}", random.next() as u32).into_bytes(),
        7 => line.make_ascii_uppercase(),
        _ => {}
    }
    line
}

/// As many lines as fit into a length, each with a line feed.
fn some_input(of: Program, random: &mut Random, length: usize) -> Vec<u8> {
    let mut input = Vec::new();
    loop {
        let line = some_line(of, random);
        if input.len() + line.len() + 1 > length {
            return input;
        }
        input.extend(line);
        input.push(b'\n');
    }
}

/// Ends of lines and of the input, and the most that is read.
pub fn line_ends(context: &mut Context) -> Outcome {
    each_case(context, "line ends", 2, |case, random, tally| {
        let of = PROGRAMS[case as usize];
        let good = good_line(of, random);
        let mut inputs: Vec<Vec<u8>> =
            [&b""[..], b"\n", b"\n\n", b"\r", b"\r\n", b" ", b"\0", b"\n\r\n", b"\xFF\n"]
                .map(|input| input.to_vec())
                .to_vec();
        for end in [&b""[..], b"\n", b"\n\n", b"\r\n", b"\r", b" ", b"\n ", b"\0\n", b"\n\0"] {
            inputs.push([&good, end].concat());
            inputs.push([end, &good].concat());
            inputs.push([&good[..], b"\n", &good, end].concat());
        }
        for length in [MOST_INPUT - 1, MOST_INPUT, MOST_INPUT + 1, 2 * MOST_INPUT, 1_000_000] {
            for byte in *b"\n0m\0" {
                inputs.push(vec![byte; length]);
            }
            // good lines, with bytes after the last line feed and without
            for filled in [b'\n', b'0'] {
                let mut input = Vec::new();
                while input.len() + good.len() < length {
                    input.extend([&good[..], b"\n"].concat());
                }
                input.resize(length, filled);
                inputs.push(input);
            }
            let mut input = some_input(of, random, length);
            input.resize(length, b'\n');
            inputs.push(input);
        }
        inputs.iter().try_for_each(|input| check_input(of, input, tally))
    })
}

/// Whole inputs of good and of faulty lines.
pub fn listings(context: &mut Context) -> Outcome {
    let cases = 60 * context.scale;
    each_case(context, "listings", cases, |case, random, tally| {
        let of = PROGRAMS[case as usize % 2];
        let length = random.pick(&[10, 100, 1000, 10_000, MOST_INPUT as u64]) as usize;
        let mut input = some_input(of, random, length);
        if random.chance(50) {
            input.pop();
        }
        check_input(of, &input, tally)
    })
}

/// What one program writes, given to the other, is the input again.
pub fn there_and_back(context: &mut Context) -> Outcome {
    // so many lines are at most 65,536 bytes in either form
    const LINES: usize = 1_900;
    let cases = 10 * context.scale;
    each_case(context, "there and back", cases, |case, random, tally| {
        let first = PROGRAMS[case as usize % 2];
        let second = PROGRAMS[1 - case as usize % 2];
        let mut input = Vec::new();
        for _ in 0..LINES {
            input.extend(good_line(first, random));
            input.push(b'\n');
        }
        check_input(first, &input, tally)?;
        let between = output(first, &input)?;
        check_input(second, &between, tally)?;
        if output(second, &between)? != input {
            return Err(format!("{} and {} leave another text", first.name, second.name));
        }
        Ok(())
    })
}

/// Words of the opcode through `disassemble`, in a long run all of them, and the lines of
/// those that have one through `assemble`.
pub fn every_word_listed(context: &mut Context) -> Outcome {
    const WORDS: u64 = MOST_INPUT as u64 / 9;
    let all = 1u64 << 25;
    let cases = if context.scale > 1 { all.div_ceil(WORDS) } else { 20 };
    each_case(context, "every word listed", cases, |case, random, tally| {
        let first = if cases == 20 { random.below(all - WORDS) } else { case * WORDS };
        let words = (first..all.min(first + WORDS)).map(|high| (high as u32) << 7 | 0x77);
        let input: String = words.map(|word| format!("{word:08x}\n")).collect();
        check_input(DISASSEMBLE, input.as_bytes(), tally)?;
        let text =
            String::from_utf8(output(DISASSEMBLE, input.as_bytes())?).map_err(|_| "no text")?;
        let pairs = input.lines().zip(text.lines()).filter(|pair| !pair.1.starts_with("answer"));
        let (words, lines): (Vec<&str>, Vec<&str>) = pairs.unzip();
        for (words, lines) in words.chunks(1900).zip(lines.chunks(1900)) {
            let back = output(ASSEMBLE, lines.join("\n").as_bytes())?;
            if back != (words.join("\n") + "\n").as_bytes() {
                return Err(format!(
                    "the lines of {} to {} do not give them back",
                    words[0],
                    words[words.len() - 1]
                ));
            }
        }
        Ok(())
    })
}
