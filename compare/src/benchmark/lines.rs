//! Times of lines of assembler text, 65,536 bytes each way, beside plain C with a table of
//! rows (c/listing.c).

use super::nanoseconds;
use crate::library;
use crate::random::Random;
use crate::text::held::word_with_line;
use crate::text::programs::{folder, ASSEMBLE, DISASSEMBLE};
use model::text::{line_of, program, MOST_INPUT};
use std::hint::black_box;
use std::process::{Command, Stdio};
use std::time::Instant;

extern "C" {
    fn plain_start();
    fn plain_line(word: u32, text: *mut u8, answer: *mut u32) -> usize;
    fn plain_word(text: *const u8, length: usize, word: *mut u32) -> usize;
    fn plain_list(input: *const u8, length: usize, out: *mut u8) -> usize;
    fn plain_assemble(input: *const u8, length: usize, out: *mut u8) -> usize;
}

/// Room for what either program writes.
const ROOM: usize = 16 * MOST_INPUT;

pub fn table() {
    println!();
    println!("lines of assembler text, {MOST_INPUT} bytes each way: MB of input a second");
    println!("{:44}{:>12}{:>12}{:>10}", "", "library", "plain C", "ratio");
    unsafe { plain_start() };
    for damaged in [false, true] {
        let kind = if damaged { "one line in eight refused" } else { "all accepted" };
        let [words, lines] = inputs(damaged);
        if [whole(plain_list, &words), whole(plain_assemble, &lines)]
            != [program(DISASSEMBLE.turn, &words), program(ASSEMBLE.turn, &lines)]
                .map(String::into_bytes)
        {
            println!("plain C writes another text");
        }
        functions(kind, &words, &lines);
        if folder().is_ok() {
            processes(kind, &words, &lines);
        } else {
            println!("the programs are left out: BODLARINA_BIN names no folder");
        }
    }
}

fn whole(call: unsafe extern "C" fn(*const u8, usize, *mut u8) -> usize, input: &[u8]) -> Vec<u8> {
    let mut out = vec![0; ROOM];
    let length = unsafe { call(input.as_ptr(), input.len(), out.as_mut_ptr()) };
    out.truncate(length);
    out
}

/// An input of words and one of lines; a damaged line has one byte changed.
fn inputs(damaged: bool) -> [Vec<u8>; 2] {
    let mut random = Random::for_case(1, "bench lines", 0);
    let mut make = |line: fn(u32) -> String| {
        let mut input = Vec::new();
        loop {
            let mut line = line(word_with_line(&mut random)).into_bytes();
            if damaged && random.chance(12) {
                let at = random.below(line.len() as u64) as usize;
                line[at] ^= 1;
            }
            line.push(b'\n');
            if input.len() + line.len() > MOST_INPUT {
                return input;
            }
            input.extend(line);
        }
    };
    [make(|word| format!("{word:08x}")), make(|word| line_of(word).expect("a line"))]
}

fn figures(name: String, bytes: usize, library: f64, plain: f64) {
    let speed = |time: f64| bytes as f64 / time * 1e3;
    println!("{name:44}{:>12.1}{:>12.1}{:>10.2}", speed(library), speed(plain), library / plain);
}

/// The C functions, line by line, without the digits of the words.
fn functions(kind: &str, words: &[u8], lines: &[u8]) {
    let numbers: Vec<u32> = model::text::lines_in(words)
        .into_iter()
        .filter_map(|line| model::text::digits_of(line).ok())
        .collect();
    let mut room = [0; 64];
    let ours = nanoseconds(|| {
        for &word in &numbers {
            black_box(library::word_text(word, &mut room[..32]));
        }
    });
    let mut answer = 0;
    let plain = nanoseconds(|| {
        for &word in &numbers {
            black_box(unsafe { plain_line(word, room.as_mut_ptr(), &mut answer) });
        }
    });
    figures(format!("a word's line, {kind}"), words.len(), ours, plain);
    let mut texts: Vec<Vec<u8>> =
        model::text::lines_in(lines).into_iter().map(|line| line.to_vec()).collect();
    let mut block = [0; 8];
    let ours = nanoseconds(|| {
        for line in &mut texts {
            black_box(library::text_word(line, &mut block));
        }
    });
    let mut word = 0;
    let plain = nanoseconds(|| {
        for line in &texts {
            black_box(unsafe { plain_word(line.as_ptr(), line.len(), &mut word) });
        }
    });
    figures(format!("a line's word, {kind}"), lines.len(), ours, plain);
}

/// The programs as processes from a file, less what they take for an empty one.
fn processes(kind: &str, words: &[u8], lines: &[u8]) {
    let folder = folder().expect("a folder of the programs");
    let path = std::env::temp_dir().join(format!("bodlarina-lines-{}", std::process::id()));
    for (of, letter, input) in [(DISASSEMBLE, "d", words), (ASSEMBLE, "a", lines)] {
        let ours = format!("{folder}/{}", of.name);
        let mut least = [[f64::MAX; 2]; 2];
        for _ in 0..100 {
            for (empty, bytes) in [input, b""].into_iter().enumerate() {
                std::fs::write(&path, bytes).expect("a file");
                for (plain, time) in least[empty].iter_mut().enumerate() {
                    let mut command = match plain {
                        0 => Command::new(&ours),
                        _ => Command::new(env!("LISTING_PROGRAM")),
                    };
                    command
                        .stdin(std::fs::File::open(&path).expect("a file"))
                        .stdout(Stdio::null());
                    if plain == 1 {
                        command.arg(letter);
                    }
                    let started = Instant::now();
                    command.status().expect("a program");
                    *time = time.min(started.elapsed().as_nanos() as f64);
                }
            }
        }
        let [full, empty] = least;
        figures(
            format!("{}, {kind}", of.name),
            input.len(),
            full[0] - empty[0],
            full[1] - empty[1],
        );
    }
    std::fs::remove_file(&path).expect("a file");
}
