//! Words to lines and back.

use super::held::{check_line, check_room, check_word, word_with_line};
use crate::random::Random;
use crate::suite::{each_case, Context, Outcome};
use crate::tally::Tally;
use model::text::{line_of, ways};
use model::{LEFT_OUT, LISTING};

/// Immediates of thirteen bits at the bounds of their digits and of their field.
const WIDE: [u32; 22] = [
    0, 1, 7, 8, 9, 10, 11, 15, 16, 31, 32, 99, 100, 101, 819, 820, 999, 1000, 4095, 4096, 8190,
    8191,
];
/// Registers and immediates of five bits, at the same bounds.
const NARROW: [u32; 9] = [0, 1, 2, 7, 8, 9, 10, 16, 31];

fn values_of(operand: &str) -> &'static [u32] {
    match operand {
        "mtypei" | "mleni" => &WIDE,
        _ => &NARROW,
    }
}

/// Every row, ours or left out, with every bound of every operand; with each value of
/// each field; and with each fixed bit turned over.
pub fn lines_of_rows(context: &mut Context) -> Outcome {
    let names: Vec<&str> =
        LISTING.iter().map(|row| row.name).chain(LEFT_OUT.iter().map(|row| row.0)).collect();
    each_case(context, "lines of rows", names.len() as u64, |case, random, tally| {
        let name = names[case as usize];
        let fields = model::operands_of(name);
        let mut words = vec![model::assemble(name, &[])];
        for &(operand, low) in &fields {
            let with = |word: &u32| {
                let word = *word;
                values_of(operand).iter().map(move |value| word | value << low)
            };
            words = words.iter().flat_map(with).collect();
        }
        for &word in &words {
            check_word(word, tally)?;
        }
        for _ in 0..8 {
            let word = words[random.below(words.len() as u64) as usize];
            for &(_, low) in &fields {
                for value in 0..32 {
                    check_word(word & !(31 << low) | value << low, tally)?;
                }
            }
            for bit in (0..32).filter(|bit| model::fixed_bits(name) & 1 << bit != 0) {
                check_word(word ^ 1 << bit, tally)?;
                check_word(word ^ 1 << bit ^ 1 << random.below(7), tally)?;
            }
        }
        Ok(())
    })
}

/// Values of bits 19..15 and 11..7 around the bounds of register fields.
const FIELDS: [(u32, u32); 6] = [(0, 0), (1, 1), (8, 1), (2, 1), (1, 2), (31, 31)];

/// All values of bits 31..20 and 14..12.
pub fn lines_of_codes(context: &mut Context) -> Outcome {
    each_case(context, "lines of codes", 1 << 12, |case, _, tally| {
        for funct3 in 0..8 {
            for (middle, low) in FIELDS {
                let word = (case as u32) << 20 | middle << 15 | funct3 << 12 | low << 7 | 0x77;
                check_room(word, 32, tally)?;
            }
        }
        Ok(())
    })
}

/// Words of the opcode, of one bit beside it, and any.
pub fn random_lines(context: &mut Context) -> Outcome {
    let cases = 20_000 * context.scale;
    each_case(context, "random lines", cases, |_, random, tally| {
        let any = random.next() as u32;
        check_word(any & !0x7F | 0x77, tally)?;
        check_room((any & !0x7F | 0x77) ^ 1 << random.below(7), 32, tally)?;
        check_room(random.next() as u32, 32, tally)?;
        check_word(word_with_line(random), tally)
    })
}

/// Words of the opcode: in a long run all of them, else one in a thousand.
pub fn every_word(context: &mut Context) -> Outcome {
    let step = if context.scale > 1 { 1 } else { 1009 };
    let mut lines = 0u64;
    let mut words = 0u64;
    let outcome = each_case(context, "every word", 1 << 10, |case, random, tally| {
        let mut rest = random.below(step);
        while rest < 1 << 15 {
            words += 1;
            lines += every_way((case as u32) << 22 | (rest as u32) << 7 | 0x77, tally)?;
            rest += step;
        }
        Ok(())
    });
    // As many words have a line as there are lines.
    if step == 1 && context.only_case.is_none() && lines != ways() && outcome.is_ok() {
        return Err(format!("{lines} of {words} words have a line, and there are {}", ways()));
    }
    outcome.map(|summary| format!("{summary}, {words} words, {lines} of them with a line"))
}

/// A word to room that is just large enough, and its line back; how many lines it has.
fn every_way(word: u32, tally: &mut Tally) -> Result<u64, String> {
    let Ok(line) = line_of(word) else {
        check_room(word, 32, tally)?;
        return Ok(0);
    };
    check_room(word, line.len(), tally)?;
    check_line(line.as_bytes(), tally)?;
    Ok(1)
}

/// Two words never have the same line, and no line is longer than the header says: the
/// lines of many words in order, each beside the next.
pub fn lines_apart(context: &mut Context) -> Outcome {
    const LONGEST: usize = 32;
    let cases = 20 * context.scale;
    each_case(context, "lines apart", cases, |_, random: &mut Random, _| {
        let mut lines: Vec<(String, u32)> = (0..2_000)
            .map(|_| word_with_line(random))
            .map(|word| (line_of(word).expect("a line"), word))
            .collect();
        lines.sort();
        lines.dedup();
        if let Some(two) = lines.windows(2).find(|two| two[0].0 == two[1].0) {
            return Err(format!("{two:?}"));
        }
        match lines.iter().find(|line| line.0.len() > LONGEST) {
            Some(line) => Err(format!("{line:?} is longer than {LONGEST} bytes")),
            None => Ok(()),
        }
    })
}
