//! The tables of docs/INSTRUCTIONS.md, from the second program's listing; and the
//! library's constants held to it.
//!
//!     table FILE
//!     table encodings
//!
//! FILE is the source with the constants. The decode table goes to standard
//! output, in Markdown. If one of the 1,024 constants is not the listing's
//! number, that is said on standard error, and the exit status is 1.
//!
//! `encodings` writes a line for each instruction instead: its fields, what it
//! reads and writes, and the answers that it can give, which are those of
//! src/tally.rs.

#[allow(dead_code)] // only which answers can be met is asked here
mod tally;

use model::moves::Lines;
use model::{name_by_fixed_bits, Form, Kind, Matrix, Row, Size, LEFT_OUT, LISTING};

const BLOCKS: usize = 16;
const ROWS: usize = 8;
const FORMS: usize = 8;
/// The values of bits 14..12 that have entries: 100 has none.
const PRINTED_FORMS: [usize; 7] = [0, 1, 2, 3, 5, 6, 7];

/// The numbers that the listing prints, ours and then those left out, each in
/// its order. The transposed loads and stores have 9 to 32 again; 100 is added. To the
/// numbers of section 6.1.7 200 is added.
fn numbers() -> impl Iterator<Item = u8> {
    let transfers = (9..=20).chain(109..=120).chain(21..=32).chain(121..=132);
    let arithmetic = [33, 34, 35, 37, 38, 40, 42, 43, 45, 47, 48, 50, 52, 53, 55, 57, 58, 59, 60];
    let moves = [229, 230, 235, 236];
    let ours = (1..=8).chain(transfers).chain(arithmetic).chain(moves);
    let left_out = [36, 39, 41, 44, 46, 49, 51, 54, 56].into_iter().chain(61..=74);
    ours.chain(left_out)
}

fn number_of(name: &str) -> u8 {
    let names = LISTING.iter().map(|row| row.name).chain(LEFT_OUT.iter().map(|row| row.0));
    names.zip(numbers()).find(|row| row.0 == name).expect("a name of the listing").1
}

/// The name of the listing's row for bits 31..28, 27..25 and 14..12. A row that
/// fixes bits 24..20 fixes zeros.
fn name_at(block: usize, row: usize, form: usize) -> Option<&'static str> {
    name_by_fixed_bits((block << 28 | row << 25 | form << 12 | 0b1110111) as u32)
}

/// The table of a source: a line `const CODES_..` begins a block, a line
/// `[..], // ..` is a row of it; a block without entries is `[[0; 8]; 8]`. The lines
/// after `static CODES` name the blocks of the table in their order.
fn table(source: &str) -> Vec<Vec<u8>> {
    let mut blocks: Vec<(&str, Vec<u8>)> = Vec::new();
    let (constants, order) = source.split_once("static CODES").expect("the table");
    for line in constants.lines().map(str::trim) {
        if let Some(name) = line.strip_prefix("const ").and_then(|rest| rest.split(':').next()) {
            let entries = if line.ends_with("= [[0; 8]; 8];") { ROWS * FORMS } else { 0 };
            blocks.push((name, vec![0; entries]));
        } else if let Some(row) = line.strip_prefix('[').and_then(|rest| rest.split(']').next()) {
            let entries = row.split(',').map(|entry| entry.trim().parse::<u8>().expect("a number"));
            blocks.last_mut().expect("a block before its rows").1.extend(entries);
        }
    }
    let names = order.split_once("= [").and_then(|rest| rest.1.split(']').next());
    let names = names.expect("the blocks' names").split(',').map(str::trim);
    let found = |name: &str| blocks.iter().find(|block| block.0 == name).expect("a block").1.clone();
    names.filter(|name| !name.is_empty()).map(found).collect()
}

fn cell(name: Option<&str>) -> String {
    match name {
        None => "-".to_string(),
        Some(name) if LISTING.iter().any(|row| row.name == name) => format!("`{name}`"),
        Some(name) => format!("({name})"),
    }
}

fn print_block(block: usize) {
    println!("\nBits 31..28 = {block:04b}:\n");
    println!("| 27..25 | {} |", PRINTED_FORMS.map(|form| format!("{form:03b}")).join(" | "));
    println!("|---|{}", "---|".repeat(PRINTED_FORMS.len()));
    for row in 0..ROWS {
        let cells = PRINTED_FORMS.map(|form| cell(name_at(block, row, form)));
        println!("| {row:03b} | {} |", cells.join(" | "));
    }
}

/// A word's fields from bit 31 down: fixed bits as digits, operands by name.
fn fields(name: &str) -> String {
    let (fixed, word) = (model::fixed_bits(name), model::assemble(name, &[]));
    let operands = model::operands_of(name);
    let mut text = String::new();
    for bit in (0..32).rev() {
        if fixed >> bit & 1 == 1 {
            if bit < 31 && fixed >> (bit + 1) & 1 == 0
                || [6, 11, 14, 24].contains(&bit) && !text.ends_with(' ')
            {
                text.push(' ');
            }
            text.push(if word >> bit & 1 == 1 { '1' } else { '0' });
        } else if let Some(operand) = operands.iter().find(|operand| operand.1 == bit) {
            text += &format!(" {}", operand.0);
        }
    }
    text
}

/// The register that a load or store names, and its elements.
fn tile(matrix: Matrix, register: &str) -> String {
    match matrix {
        Matrix::A => format!("tr[{register}], m by k"),
        Matrix::B => format!("tr[{register}], k by n"),
        Matrix::C => format!("acc[{register}], m by n"),
    }
}

/// What a load or store reaches of memory; a transposed tile has the other shape.
fn memory(matrix: Matrix, form: Form) -> &'static str {
    match (form, matrix) {
        (Form::Plain, _) => "memory",
        (Form::Transposed, Matrix::A) => "memory, k by m",
        (Form::Transposed, Matrix::B) => "memory, n by k",
        (Form::Transposed, Matrix::C) => "memory, n by m",
    }
}

/// What a move takes of an accumulator.
fn lines(lines: Lines, register: &str) -> String {
    match lines {
        Lines::Rows => format!("rows of acc[{register}]"),
        Lines::Columns => format!("columns of acc[{register}]"),
    }
}

/// What an instruction reads and what it writes.
fn reads_writes(row: &Row) -> (String, String) {
    let has = |operand: &str| model::operands_of(row.name).iter().any(|o| o.0 == operand);
    let acc = "acc[md], m by n".to_string();
    match row.kind {
        Kind::SetType => (if has("rs1") { "rs1" } else { "-" }.into(), "mtype, rd".into()),
        Kind::SetSize(size) => {
            let tile = match size {
                Size::M => "tile_m",
                Size::K => "tile_k",
                Size::N => "tile_n",
            };
            (if has("rs1") { "rs1" } else { "-" }.into(), format!("{tile}, rd"))
        }
        Kind::Load(matrix, _, form) => {
            (format!("rs1, rs2, {}", memory(matrix, form)), tile(matrix, "md"))
        }
        Kind::Store(matrix, _, form) => {
            (format!("rs1, rs2, {}", tile(matrix, "ms3")), memory(matrix, form).into())
        }
        Kind::Multiply(_) | Kind::FloatMultiply => {
            (format!("tr[ms1], m by k, tr[ms2], k by n, {acc}"), acc)
        }
        Kind::Scale(_) if has("rs2") => ("acc[ms1], m by n, rs2".into(), acc),
        Kind::Scale(_) => ("acc[ms1], m by n".into(), acc),
        Kind::MoveOut(taken) => (format!("rs2, {}", lines(taken, "ms1")), "group of v[vd]".into()),
        Kind::MoveIn(taken) => ("rs2, group of v[vs1]".into(), lines(taken, "md")),
        _ => (format!("acc[ms1], m by n, {acc}"), acc),
    }
}

/// The answers beside 8 and 10, which every word can get. An element of 8 bits needs
/// SEW 8, where a size above its maximum is answer 8.
fn answers(row: &Row) -> String {
    let family = tally::family_of(model::assemble(row.name, &[]));
    let width = match row.kind {
        Kind::Load(_, width, _) | Kind::Store(_, width, _) => width,
        _ => 0,
    };
    let given = (0..tally::ANSWERS).filter(|&number| match number {
        8 | 10 => false,
        4 if width == 8 => false,
        _ => tally::reachable(family, number),
    });
    given.map(|number| number.to_string()).collect::<Vec<_>>().join(" ")
}

fn print_encodings() {
    println!("| Instruction | Bits 31 to 0 | Reads | Writes | Answers |");
    println!("|---|---|---|---|---|");
    for row in &LISTING {
        let (reads, writes) = reads_writes(row);
        println!(
            "| `{}` | `{}` | {reads} | {writes} | {} |",
            row.name,
            fields(row.name),
            answers(row)
        );
    }
}

fn main() {
    let Some(path) = std::env::args().nth(1) else {
        eprintln!("usage: table FILE | encodings");
        std::process::exit(2);
    };
    if path == "encodings" {
        print_encodings();
        return;
    }
    let blocks = table(&std::fs::read_to_string(&path).expect("the file with the constants"));
    assert!(blocks.len() == BLOCKS && blocks.iter().all(|block| block.len() == ROWS * FORMS));
    let mut wrong = 0;
    for (block, entries) in blocks.iter().enumerate() {
        let mut empty = true;
        for (at, &entry) in entries.iter().enumerate() {
            let (row, form) = (at / FORMS, at % FORMS);
            let name = name_at(block, row, form);
            empty &= name.is_none();
            if entry != name.map_or(0, number_of) {
                wrong += 1;
                eprintln!("{path}: {block:04b} {row:03b} {form:03b}: {entry}, but the listing has {name:?}");
            }
        }
        if !empty {
            print_block(block);
        }
    }
    std::process::exit(i32::from(wrong > 0));
}
