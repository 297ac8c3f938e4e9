//! Lines that are damaged, cut, or put together of two.

use super::held::{check_line, check_line_to, word_with_line, word_with_line_of};
use crate::suite::{each_case, Context, Outcome};
use crate::tally::Tally;
use model::text::line_of;
use model::LISTING;

/// Every single-byte change of lines, one of each row, and in a long run of some
/// thousand; every byte left out, put in, and exchanged with the next one.
pub fn damaged_lines(context: &mut Context) -> Outcome {
    let cases = LISTING.len() as u64 * context.scale;
    let mut changed = 0u64;
    let outcome = each_case(context, "damaged lines", cases, |case, random, tally| {
        let name = LISTING[case as usize % LISTING.len()].name;
        let line = line_of(word_with_line_of(random, name)).expect("a line").into_bytes();
        for at in 0..line.len() {
            changed += changes(&line, at, tally)?;
        }
        for byte in 0..=255 {
            check_line(&[&line[..], &[byte]].concat(), tally)?;
        }
        Ok(())
    });
    outcome.map(|summary| format!("{summary}, {changed} damaged lines"))
}

/// Every change at one place; how many there are.
fn changes(line: &[u8], at: usize, tally: &mut Tally) -> Result<u64, String> {
    let mut other = line.to_vec();
    for byte in 0..=255 {
        other[at] = byte;
        check_line(&other, tally)?;
    }
    other = line.to_vec();
    other.remove(at);
    check_line(&other, tally)?;
    other = line.to_vec();
    other.insert(at, b' ');
    for byte in [
        0, b'\n', b'\r', b'\t', b' ', b'-', b'+', b',', b'.', b'(', b')', b'0', b'1', b'9', b'x',
        b'm', b'A', 0x80, 0xFF,
    ] {
        other[at] = byte;
        check_line(&other, tally)?;
    }
    other = line.to_vec();
    if at + 1 < line.len() {
        other.swap(at, at + 1);
        check_line(&other, tally)?;
    }
    Ok(255 + 1 + 19)
}

/// Lines cut short at every place, going on at every place as another line does, and
/// going on past their end.
pub fn cut_lines(context: &mut Context) -> Outcome {
    let cases = 600 * context.scale;
    each_case(context, "cut lines", cases, |case, random, tally| {
        let name = LISTING[case as usize % LISTING.len()].name;
        let line = line_of(word_with_line_of(random, name)).expect("a line").into_bytes();
        let other = line_of(word_with_line(random)).expect("a line").into_bytes();
        for at in 0..=line.len() {
            check_line(&line[..at], tally)?;
            check_line(&line[at..], tally)?;
            check_line_to(&line[..at], random.pick(&[0, 7, 9]), tally)?;
            let from = random.below(other.len() as u64 + 1) as usize;
            check_line(&[&line[..at], &other[from..]].concat(), tally)?;
            check_line(&[&line[..at], &other[at.min(other.len())..]].concat(), tally)?;
        }
        for more in
            [&b"\n"[..], b"\r", b"\0", b" ", b"0", b"1", b", x0", b" # a note", &line, &other]
        {
            check_line(&[&line, more].concat(), tally)?;
        }
        Ok(())
    })
}

/// Numbers of every length and sign in place of each number of a line, and other names in
/// place of each register's.
pub fn numbers_of_lines(context: &mut Context) -> Outcome {
    let numbers: Vec<String> = (0..=130)
        .map(|number: u32| number.to_string())
        .chain(
            [815, 819, 820, 900, 999, 1000, 4096, 8190, 8191, 8192, 8199, 8200, 9000]
                .map(|n| n.to_string()),
        )
        .chain([10000, 81910, 65536, 4294967296u64, u64::MAX].map(|n| n.to_string()))
        .chain((0..=20).map(|number| format!("-{number}")))
        .chain((0..=20).map(|number| format!("0{number}")))
        .chain(
            ["", "-", "--1", "-01", "+1", "1.", "0x1", "00", "000", "1e1", " 1", "1 "]
                .map(String::from),
        )
        .collect();
    let names = ["x", "tr", "acc", "v", "", "X", "t", "a", "ac", "accq", "(x", "m"];
    each_case(context, "numbers of lines", LISTING.len() as u64, |case, random, tally| {
        let name = LISTING[case as usize].name;
        let line = line_of(word_with_line_of(random, name)).expect("a line");
        let start = name.len() + 1;
        let operands: Vec<&str> = line[start..].split(", ").collect();
        for (at, operand) in operands.iter().enumerate() {
            let put = |text: String| {
                let mut all: Vec<String> = operands.iter().map(|o| o.to_string()).collect();
                all[at] = text;
                format!("{name} {}", all.join(", ")).into_bytes()
            };
            let digits = operand.find(|c: char| c.is_ascii_digit() || c == '-').expect("a number");
            let end = operand.rfind(|c: char| c.is_ascii_digit()).expect("a number") + 1;
            for number in &numbers {
                let text = format!("{}{number}{}", &operand[..digits], &operand[end..]);
                check_line(&put(text), tally)?;
            }
            for other in names {
                check_line(&put(format!("{other}{}", &operand[digits..])), tally)?;
            }
        }
        for more in 0..5 {
            let all: Vec<&str> = operands.iter().copied().cycle().take(more).collect();
            check_line(format!("{name} {}", all.join(", ")).as_bytes(), tally)?;
        }
        check_line(
            format!("{name} {}", operands.iter().rev().copied().collect::<Vec<_>>().join(", "))
                .as_bytes(),
            tally,
        )?;
        Ok(())
    })
}

/// Lines of any length, also far beyond that of a listing: a C host may lend them.
pub fn long_lines(context: &mut Context) -> Outcome {
    let lengths = [0, 1, 31, 32, 33, 1000, 65_535, 65_536, 65_537, 1_000_000];
    each_case(context, "long lines", lengths.len() as u64, |case, random, tally| {
        let length = lengths[case as usize];
        for byte in *b"m0 \n\0" {
            check_line(&vec![byte; length], tally)?;
        }
        check_line(&random.bytes(length), tally)?;
        for _ in 0..20 {
            let line = line_of(word_with_line(random)).expect("a line");
            for byte in *b" 0\n" {
                let mut long = line.clone().into_bytes();
                long.resize(line.len() + length, byte);
                check_line(&long, tally)?;
            }
        }
        Ok(())
    })
}
