//! Document 01, "The unit and its papers": which row of the listing a word belongs to, and
//! its operands. A word that is none of ours gets 10, 11, 1 or 12 (request One).

use crate::listing::Kind::*;
use crate::listing::Matrix::*;
use crate::listing::{Row, LEFT_OUT, LISTING};
use crate::machine::Register;

/// Name and columns of every row of the listing, ours first.
pub(crate) fn printed_rows() -> impl Iterator<Item = (&'static str, &'static str)> {
    LISTING.iter().map(|row| (row.name, row.columns)).chain(LEFT_OUT)
}

/// One column of a row: its text, its lowest bit and how many bits it has.
pub(crate) struct Column {
    pub(crate) text: &'static str,
    low: u32,
    pub(crate) bits: u32,
}

impl Column {
    /// The fixed bits, if the column has digits.
    fn fixed(&self) -> Option<u32> {
        u32::from_str_radix(self.text, 2).ok()
    }

    fn of(&self, word: u32) -> u32 {
        (word >> self.low) & self.ones()
    }

    /// As many ones as the column has bits.
    fn ones(&self) -> u32 {
        (1 << self.bits) - 1
    }

    /// Columns that belong to a code: 31..28 and 14..12 of a setting word,
    /// 31..25 and 14..12 of the others. The opcode and the zeros in 27..20 and
    /// 24..20 are no part of it.
    fn of_code(&self) -> bool {
        self.fixed().is_some() && self.low != 0 && self.low != 20
    }
}

/// The columns of a row, from bit 31 down.
pub(crate) fn columns_of(printed: &'static str) -> impl Iterator<Item = Column> {
    let mut low = 32;
    printed.split(' ').map(move |text| {
        let bits = match text {
            "mtypei" | "mleni" => 13,
            "rd" | "rs1" | "rs2" | "md" | "ms1" | "ms2" | "ms3" | "vd" | "vs1" | "imm" => 5,
            digits => digits.len() as u32,
        };
        low -= bits;
        Column { text, low, bits }
    })
}

/// Whether a word has every bit that a row fixes.
fn has_fixed_bits(printed: &'static str, word: u32) -> bool {
    columns_of(printed).all(|column| column.fixed().is_none_or(|bits| bits == column.of(word)))
}

pub(crate) fn has_code(printed: &'static str, word: u32) -> bool {
    columns_of(printed)
        .filter(Column::of_code)
        .all(|column| column.fixed() == Some(column.of(word)))
}

fn printed_by_name(name: &str) -> &'static str {
    printed_rows().find(|row| row.0 == name).expect("a name of the listing").1
}

/// The name of the row, ours or left out, whose code a word has, whatever its
/// opcode and operands.
pub fn name_by_code(word: u32) -> Option<&'static str> {
    printed_rows().find(|row| has_code(row.1, word)).map(|row| row.0)
}

/// The name of the row, ours or left out, whose fixed bits a word has.
pub fn name_by_fixed_bits(word: u32) -> Option<&'static str> {
    printed_rows().find(|row| has_fixed_bits(row.1, word)).map(|row| row.0)
}

/// The bits that a row of either table fixes, as ones.
pub fn fixed_bits(name: &str) -> u32 {
    let fixed = columns_of(printed_by_name(name)).filter(|column| column.fixed().is_some());
    fixed.map(|column| column.ones() << column.low).sum()
}

/// Whether a row of either table fixes zeros beside its code.
pub fn has_zeros(name: &str) -> bool {
    columns_of(printed_by_name(name)).any(|column| column.fixed() == Some(0) && column.low == 20)
}

/// The operands of a row of either table, from bit 31 down: their names and
/// lowest bits.
pub fn operands_of(name: &str) -> Vec<(&'static str, u32)> {
    columns_of(printed_by_name(name))
        .filter(|column| column.fixed().is_none())
        .map(|column| (column.text, column.low))
        .collect()
}

/// A word of a row of either table, with operands by name; the other operands
/// are 0.
pub fn assemble(name: &str, operands: &[(&str, u32)]) -> u32 {
    let mut word = 0;
    for column in columns_of(printed_by_name(name)) {
        let named = operands.iter().find(|(operand, _)| *operand == column.text);
        let value = column.fixed().or(named.map(|n| n.1)).unwrap_or(0);
        word |= (value & column.ones()) << column.low;
    }
    word
}

/// A word in readable form: the row that has its code, and its operands.
pub fn describe(word: u32) -> String {
    let Some((name, printed)) = printed_rows().find(|row| has_code(row.1, word)) else {
        return "a code of no row".to_string();
    };
    let mut text = format!("the code of {name}");
    for column in columns_of(printed).filter(|column| !column.of_code()) {
        text += &format!(" {}={}", column.text, column.of(word));
    }
    text
}

#[derive(Clone, Copy, Debug)]
pub struct Instruction {
    pub row: &'static Row,
    word: u32,
}

impl Instruction {
    pub(crate) fn operand(&self, name: &str) -> Option<u32> {
        let column = columns_of(self.row.columns).find(|column| column.text == name);
        column.map(|column| column.of(self.word))
    }

    /// An operand that the row is known to have.
    pub(crate) fn get(&self, name: &str) -> u32 {
        self.operand(name).expect("an operand of this row")
    }

    /// The register that a load writes or a store reads, or a result's one.
    pub(crate) fn md(&self) -> Register {
        let number = self.operand("md").or(self.operand("ms3")).expect("a register operand");
        match self.row.kind {
            Load(A | B, ..) | Store(A | B, ..) => Register::Tile(number),
            _ => Register::Accumulator(number),
        }
    }

    /// The first source: a tile register of a multiply, else an accumulator.
    pub(crate) fn ms1(&self) -> Register {
        match self.row.kind {
            Multiply(_) | FloatMultiply => Register::Tile(self.get("ms1")),
            _ => Register::Accumulator(self.get("ms1")),
        }
    }

    pub(crate) fn ms2(&self) -> Register {
        Register::Tile(self.get("ms2"))
    }
}

fn register_in_range(register: Register) -> bool {
    match register {
        Register::Tile(number) => number <= 7,
        Register::Accumulator(number) => number <= 1,
    }
}

fn registers_in_range(instruction: &Instruction) -> bool {
    match instruction.row.kind {
        SetType | SetSize(_) => true,
        Load(..) | Store(..) => register_in_range(instruction.md()),
        Multiply(_) | FloatMultiply => [instruction.ms1(), instruction.ms2(), instruction.md()]
            .into_iter()
            .all(register_in_range),
        Add(_) | Subtract(_) | ReverseSubtract(_) | Scale(_) => {
            register_in_range(instruction.ms1()) && register_in_range(instruction.md())
        }
        MoveOut(_) => register_in_range(instruction.ms1()),
        MoveIn(_) => register_in_range(instruction.md()),
    }
}

pub(crate) const OPCODE: u32 = 0b1110111;

/// The instruction of a word; an error is the answer's number: 10, 11, 1 or 12.
pub fn decode(word: u32) -> Result<Instruction, u64> {
    if word & 0x7F != OPCODE {
        return Err(10);
    }
    let Some(row) = LISTING.iter().find(|row| has_fixed_bits(row.columns, word)) else {
        let left_out = LEFT_OUT.iter().any(|row| has_fixed_bits(row.1, word));
        return Err(if left_out { 11 } else { 1 });
    };
    let instruction = Instruction { row, word };
    if registers_in_range(&instruction) {
        Ok(instruction)
    } else {
        Err(12)
    }
}
