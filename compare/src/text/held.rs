//! The library's two functions on lines, each held to the second program; words and
//! lines to try them on.

use crate::library;
use crate::random::Random;
use crate::states::words::any_operands;
use crate::tally::Tally;
use model::text::{line_of, read_line, write_line};
use model::LISTING;

/// What lent bytes hold before a call.
const BEFORE: u8 = 0xA5;

/// The word's line to room of this length, on both programs; the answer's number.
pub fn check_room(word: u32, length: usize, tally: &mut Tally) -> Result<u64, String> {
    let mut room = vec![BEFORE; length];
    let given = library::word_text(word, &mut room);
    let mut second = vec![BEFORE; length];
    let (number, written) = write_line(word, &mut second);
    if given != number + (written << 16) || room != second {
        return Err(format!(
            "word {word:#010x} to room of {length} bytes: {}\nlibrary {given:#x}, {}\n\
             second program {number} with length {written}, {}",
            model::describe(word),
            shown(&room),
            shown(&second)
        ));
    }
    tally.line_of(word, number);
    Ok(number)
}

/// A line to a word block of this length, on both programs; the answer's number.
pub fn check_line_to(line: &[u8], length: usize, tally: &mut Tally) -> Result<u64, String> {
    let mut text = line.to_vec();
    let mut block = vec![BEFORE; length];
    let given = library::text_word(&mut text, &mut block);
    let mut second = vec![BEFORE; length];
    let (number, column) = read_line(line, &mut second);
    if given != number + (column << 16) || block != second || text != line {
        return Err(format!(
            "line {} of {} bytes to a block of {length} bytes\nlibrary {given:#x} (answer {}, \
             column {}), block {block:02x?}{}\nsecond program answer {number}, column {column}, \
             block {second:02x?}",
            shown(&line[..line.len().min(200)]),
            line.len(),
            given & 0xFFFF,
            given >> 16,
            if text == line { "" } else { ", which wrote to the line" }
        ));
    }
    tally.read_line(line, number);
    Ok(number)
}

pub fn check_line(line: &[u8], tally: &mut Tally) -> Result<u64, String> {
    check_line_to(line, 8, tally)
}

/// A word to room of some lengths around its line's; its line back, also to blocks of
/// wrong lengths.
pub fn check_word(word: u32, tally: &mut Tally) -> Result<(), String> {
    let Ok(line) = line_of(word) else {
        for length in [0, 32] {
            check_room(word, length, tally)?;
        }
        return Ok(());
    };
    let length = line.len();
    for room in [0, length - 1, length, length + 1, 32, 64] {
        check_room(word, room, tally)?;
    }
    check_line(line.as_bytes(), tally)?;
    for block in [0, 4, 7, 9, 16] {
        check_line_to(line.as_bytes(), block, tally)?;
    }
    let mut read = [0; 8];
    if read_line(line.as_bytes(), &mut read) != (0, 0) || u64::from_le_bytes(read) != word as u64 {
        return Err(format!("{line} does not give {word:#010x} back"));
    }
    Ok(())
}

/// A word with a line, of a row.
pub fn word_with_line_of(random: &mut Random, name: &'static str) -> u32 {
    loop {
        let word = any_operands(random, name);
        if model::decode(word).is_ok() {
            return word;
        }
        let operands: Vec<(&str, u32)> = model::operands_of(name)
            .into_iter()
            .map(|(operand, _)| (operand, random.pick(&[0, 1, 7, 9, 10, 31, 8191])))
            .collect();
        let word = model::assemble(name, &operands);
        if model::decode(word).is_ok() {
            return word;
        }
    }
}

/// A word with a line, of any row.
pub fn word_with_line(random: &mut Random) -> u32 {
    let row = &LISTING[random.below(LISTING.len() as u64) as usize];
    word_with_line_of(random, row.name)
}

/// A text as it is printed in a report.
pub fn shown(bytes: &[u8]) -> String {
    format!("\"{}\"", bytes.escape_ascii())
}
