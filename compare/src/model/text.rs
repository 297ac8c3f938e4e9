//! Request Fourteen: a word as a line of assembler text, and back; and the two programs,
//! text to text.
//!
//! What each operand can be written as is listed, so that the accepted lines are all ways
//! of putting a row's texts together. How far a line goes on is then the longest
//! beginning that it has in common with one of them.

use crate::listing::Kind::*;
use crate::listing::Matrix::*;
use crate::listing::{Row, LISTING};
use crate::words::{assemble, columns_of, decode};
use std::collections::HashMap;
use std::sync::OnceLock;

/// What the answer 17 is given for.
pub const BAD_LINE: u64 = 17;

/// The longest input of either program, in bytes.
pub const MOST_INPUT: usize = 65_536;

/// The operands of a row in the draft's order: sections 4.1 to 4.4, of moves 6.1.3.
fn written(row: &Row) -> Vec<&'static str> {
    let has = |name| columns_of(row.columns).any(|column| column.text == name);
    match row.kind {
        SetType if has("mtypei") => vec!["rd", "mtypei"],
        SetSize(_) if has("mleni") => vec!["rd", "mleni"],
        SetType | SetSize(_) => vec!["rd", "rs1"],
        Load(..) => vec!["md", "(rs1)", "rs2"],
        Store(..) => vec!["ms3", "(rs1)", "rs2"],
        Multiply(_) | FloatMultiply => vec!["md", "ms1", "ms2"],
        Add(_) | Subtract(_) | ReverseSubtract(_) => vec!["md", "ms1"],
        Scale(_) if has("imm") => vec!["md", "ms1", "imm"],
        Scale(_) => vec!["md", "ms1", "rs2"],
        MoveOut(_) => vec!["vd", "ms1", "rs2"],
        MoveIn(_) => vec!["md", "vs1", "rs2"],
    }
}

/// What an operand can be written as, by the value of its field.
fn texts_of(row: &Row, operand: &str) -> Vec<String> {
    let numbered = |name: &str, count: u32| (0..count).map(|i| format!("{name}{i}")).collect();
    let a_or_b = matches!(row.kind, Load(A | B, ..) | Store(A | B, ..));
    let multiply = matches!(row.kind, Multiply(_) | FloatMultiply);
    match operand {
        "rd" | "rs1" | "rs2" => numbered("x", 32),
        "(rs1)" => (0..32).map(|i| format!("(x{i})")).collect(),
        "md" | "ms3" if a_or_b => numbered("tr", 8),
        "ms1" | "ms2" if multiply => numbered("tr", 8),
        "md" | "ms3" | "ms1" => numbered("acc", 2),
        "vd" | "vs1" => numbered("v", 32),
        "mtypei" | "mleni" => numbered("", 8192),
        // five bits, signed
        "imm" => (0..32).map(|i| if i < 16 { i } else { i - 32 }).map(|i| i.to_string()).collect(),
        other => unreachable!("{other} is no operand"),
    }
}

/// A piece of a row's lines: what it can be, and the operand if it is one.
struct Piece {
    operand: Option<&'static str>,
    texts: Vec<String>,
}

fn pieces_of(row: &Row) -> Vec<Piece> {
    let fixed = |text: String| Piece { operand: None, texts: vec![text] };
    let mut pieces = vec![fixed(format!("{} ", row.name))];
    for (at, operand) in written(row).into_iter().enumerate() {
        if at > 0 {
            pieces.push(fixed(", ".to_string()));
        }
        let named = operand.trim_matches(['(', ')']);
        pieces.push(Piece { operand: Some(named), texts: texts_of(row, operand) });
    }
    pieces
}

/// Every row that we carry out with the pieces of its lines.
fn forms() -> &'static [(&'static Row, Vec<Piece>)] {
    static FORMS: OnceLock<Vec<(&Row, Vec<Piece>)>> = OnceLock::new();
    FORMS.get_or_init(|| LISTING.iter().map(|row| (row, pieces_of(row))).collect())
}

/// How many ways there are of putting the texts of each row together.
pub fn ways() -> u64 {
    let of_row =
        |pieces: &Vec<Piece>| pieces.iter().map(|piece| piece.texts.len() as u64).product();
    forms().iter().map(|form| -> u64 { of_row(&form.1) }).sum()
}

/// The line of a word; an error is the number that stepping gives for the code.
pub fn line_of(word: u32) -> Result<String, u64> {
    let instruction = decode(word)?;
    let form = forms().iter().find(|form| form.0 == instruction.row).expect("a row of ours");
    let text = |piece: &Piece| {
        let at = piece.operand.map_or(0, |name| instruction.get(name));
        piece.texts[at as usize].clone()
    };
    Ok(form.1.iter().map(text).collect())
}

/// How many bytes two texts have in common from their start.
fn in_common(a: &[u8], b: &[u8]) -> usize {
    a.iter().zip(b).take_while(|(x, y)| x == y).count()
}

/// How many bytes of a text some way of putting the pieces together begins with; and if
/// one is the text as a whole, its values are pushed to `found`.
fn goes_on(
    text: &[u8],
    pieces: &[Piece],
    values: &mut Vec<(&'static str, u32)>,
    found: &mut Vec<Vec<(&'static str, u32)>>,
) -> usize {
    let Some(piece) = pieces.first() else {
        if text.is_empty() {
            found.push(values.clone());
        }
        return 0;
    };
    let mut furthest = 0;
    for (value, choice) in piece.texts.iter().enumerate() {
        let mut length = in_common(text, choice.as_bytes());
        if length == choice.len() {
            values.extend(piece.operand.map(|name| (name, value as u32)));
            length += goes_on(&text[length..], &pieces[1..], values, found);
            if piece.operand.is_some() {
                values.pop();
            }
        }
        furthest = furthest.max(length);
    }
    furthest
}

/// The word of a line; an error is the column of answer 17.
pub fn word_of(line: &[u8]) -> Result<u32, u64> {
    let mut furthest = 0;
    let mut words = Vec::new();
    for (row, pieces) in forms() {
        let mut found = Vec::new();
        furthest = furthest.max(goes_on(line, pieces, &mut Vec::new(), &mut found));
        words.extend(found.iter().map(|values| assemble(row.name, values)));
    }
    assert!(words.len() <= 1, "a line of two words");
    words.first().copied().ok_or(furthest as u64 + 1)
}

/// The word of eight digits; an error is the column of answer 17.
pub fn digits_of(line: &[u8]) -> Result<u32, u64> {
    let digit = |byte: &u8| byte.is_ascii_digit() || (b'a'..=b'f').contains(byte);
    let digits = line.iter().take(8).take_while(|byte| digit(byte)).count();
    if digits < 8 || line.len() > 8 {
        return Err(digits as u64 + 1);
    }
    let text = std::str::from_utf8(line).expect("digits");
    Ok(u32::from_str_radix(text, 16).expect("eight digits"))
}

/// The lines of an input: each line feed ends one, bytes after the last one are one too.
pub fn lines_in(input: &[u8]) -> Vec<&[u8]> {
    let mut lines: Vec<&[u8]> = input.split(|&byte| byte == b'\n').collect();
    if lines.last().is_some_and(|last| last.is_empty()) {
        lines.pop();
    }
    lines
}

/// What becomes of a line: a text, or an answer's number and column.
pub type Turned = Result<String, (u64, u64)>;

/// A line of the first program, which has words.
pub fn listed(line: &[u8]) -> Turned {
    let word = digits_of(line).map_err(|column| (BAD_LINE, column))?;
    line_of(word).map_err(|number| (number, 0))
}

/// A line of the second program, which has assembler text.
pub fn assembled(line: &[u8]) -> Turned {
    let word = word_of(line).map_err(|column| (BAD_LINE, column))?;
    Ok(format!("{word:08x}"))
}

/// A line of output.
pub fn shown(turned: &Turned) -> String {
    match turned {
        Ok(text) => format!("{text}\n"),
        Err((number, column)) => format!("answer {number} {column}\n"),
    }
}

/// What either program makes of its whole input.
pub fn program(turn: fn(&[u8]) -> Turned, input: &[u8]) -> String {
    if input.len() > MOST_INPUT {
        return shown(&Err((8, 0)));
    }
    // A line that comes again becomes the same.
    let mut before: HashMap<&[u8], String> = HashMap::new();
    let lines = lines_in(input).into_iter();
    lines.map(|line| before.entry(line).or_insert_with(|| shown(&turn(line))).clone()).collect()
}

/// The line of a word to the front of lent room: the answer's number, and the length of
/// what was written.
pub fn write_line(word: u32, room: &mut [u8]) -> (u64, u64) {
    let line = match line_of(word) {
        Ok(line) => line,
        Err(number) => return (number, 0),
    };
    if line.len() > room.len() {
        return (14, 0);
    }
    room[..line.len()].copy_from_slice(line.as_bytes());
    (0, line.len() as u64)
}

/// The word of a line to a block of eight bytes, low byte first: the answer's number, and
/// the column of 17.
pub fn read_line(line: &[u8], block: &mut [u8]) -> (u64, u64) {
    if block.len() != 8 {
        return (8, 0);
    }
    match word_of(line) {
        Ok(word) => {
            block.copy_from_slice(&(word as u64).to_le_bytes());
            (0, 0)
        }
        Err(column) => (BAD_LINE, column),
    }
}
