//! Document 01, "The unit and its papers": the listing of section 4.5 of document 000, in
//! its order and form, as two tables: the rows that we carry out, and those that we leave
//! out. Transposed loads and stores came in by request Two, `mfma.mm` by request Four, the
//! moves of section 6.1.7 by request Eleven.

use crate::moves::Lines;
use Form::*;
use Kind::*;
use Matrix::*;

#[derive(Clone, Copy, Debug, PartialEq, Eq)]
pub enum Size {
    M,
    K,
    N,
}

#[derive(Clone, Copy, Debug, PartialEq, Eq)]
pub enum Matrix {
    A,
    B,
    C,
}

/// How a tile lies in memory: as in the register, or with rows and columns
/// exchanged (request Two).
#[derive(Clone, Copy, Debug, PartialEq, Eq)]
pub enum Form {
    Plain,
    Transposed,
}

/// What an instruction does. Loads and stores name the element's width in
/// bits, the others how many times SEW their output is wide.
#[derive(Clone, Copy, Debug, PartialEq, Eq)]
pub enum Kind {
    SetType,
    SetSize(Size),
    Load(Matrix, i128, Form),
    Store(Matrix, i128, Form),
    Multiply(i128),
    /// On binary32 elements (request Four).
    FloatMultiply,
    Add(i128),
    Subtract(i128),
    ReverseSubtract(i128),
    Scale(i128),
    /// To and from vector registers (request Eleven).
    MoveOut(Lines),
    MoveIn(Lines),
}

/// A row of the listing that we carry out. Its columns stand as printed, from
/// bit 31 down: fixed bits as digits, operands by name.
#[derive(Debug, PartialEq, Eq)]
pub struct Row {
    pub name: &'static str,
    pub(crate) columns: &'static str,
    pub kind: Kind,
}

const fn row(name: &'static str, columns: &'static str, kind: Kind) -> Row {
    Row { name, columns, kind }
}

/// The rows that we carry out, in the listing's order, then those of section 6.1.7.
pub const LISTING: [Row; 79] = [
    row("msettypei", "0000 mtypei 111 rd 1110111", SetType),
    row("msettype", "0001 00000000 rs1 111 rd 1110111", SetType),
    row("msettilemi", "0010 mleni 111 rd 1110111", SetSize(Size::M)),
    row("msettilem", "0011 00000000 rs1 111 rd 1110111", SetSize(Size::M)),
    row("msettileki", "0100 mleni 111 rd 1110111", SetSize(Size::K)),
    row("msettilek", "0101 00000000 rs1 111 rd 1110111", SetSize(Size::K)),
    row("msettileni", "0110 mleni 111 rd 1110111", SetSize(Size::N)),
    row("msettilen", "0111 00000000 rs1 111 rd 1110111", SetSize(Size::N)),
    row("mlae8.m", "000001 0 rs2 rs1 000 md 1110111", Load(A, 8, Plain)),
    row("mlae16.m", "000001 0 rs2 rs1 001 md 1110111", Load(A, 16, Plain)),
    row("mlae32.m", "000001 0 rs2 rs1 010 md 1110111", Load(A, 32, Plain)),
    row("mlae64.m", "000001 0 rs2 rs1 011 md 1110111", Load(A, 64, Plain)),
    row("mlbe8.m", "000010 0 rs2 rs1 000 md 1110111", Load(B, 8, Plain)),
    row("mlbe16.m", "000010 0 rs2 rs1 001 md 1110111", Load(B, 16, Plain)),
    row("mlbe32.m", "000010 0 rs2 rs1 010 md 1110111", Load(B, 32, Plain)),
    row("mlbe64.m", "000010 0 rs2 rs1 011 md 1110111", Load(B, 64, Plain)),
    row("mlce8.m", "000000 0 rs2 rs1 000 md 1110111", Load(C, 8, Plain)),
    row("mlce16.m", "000000 0 rs2 rs1 001 md 1110111", Load(C, 16, Plain)),
    row("mlce32.m", "000000 0 rs2 rs1 010 md 1110111", Load(C, 32, Plain)),
    row("mlce64.m", "000000 0 rs2 rs1 011 md 1110111", Load(C, 64, Plain)),
    row("mlate8.m", "000101 0 rs2 rs1 000 md 1110111", Load(A, 8, Transposed)),
    row("mlate16.m", "000101 0 rs2 rs1 001 md 1110111", Load(A, 16, Transposed)),
    row("mlate32.m", "000101 0 rs2 rs1 010 md 1110111", Load(A, 32, Transposed)),
    row("mlate64.m", "000101 0 rs2 rs1 011 md 1110111", Load(A, 64, Transposed)),
    row("mlbte8.m", "000110 0 rs2 rs1 000 md 1110111", Load(B, 8, Transposed)),
    row("mlbte16.m", "000110 0 rs2 rs1 001 md 1110111", Load(B, 16, Transposed)),
    row("mlbte32.m", "000110 0 rs2 rs1 010 md 1110111", Load(B, 32, Transposed)),
    row("mlbte64.m", "000110 0 rs2 rs1 011 md 1110111", Load(B, 64, Transposed)),
    row("mlcte8.m", "000100 0 rs2 rs1 000 md 1110111", Load(C, 8, Transposed)),
    row("mlcte16.m", "000100 0 rs2 rs1 001 md 1110111", Load(C, 16, Transposed)),
    row("mlcte32.m", "000100 0 rs2 rs1 010 md 1110111", Load(C, 32, Transposed)),
    row("mlcte64.m", "000100 0 rs2 rs1 011 md 1110111", Load(C, 64, Transposed)),
    row("msae8.m", "000001 1 rs2 rs1 000 ms3 1110111", Store(A, 8, Plain)),
    row("msae16.m", "000001 1 rs2 rs1 001 ms3 1110111", Store(A, 16, Plain)),
    row("msae32.m", "000001 1 rs2 rs1 010 ms3 1110111", Store(A, 32, Plain)),
    row("msae64.m", "000001 1 rs2 rs1 011 ms3 1110111", Store(A, 64, Plain)),
    row("msbe8.m", "000010 1 rs2 rs1 000 ms3 1110111", Store(B, 8, Plain)),
    row("msbe16.m", "000010 1 rs2 rs1 001 ms3 1110111", Store(B, 16, Plain)),
    row("msbe32.m", "000010 1 rs2 rs1 010 ms3 1110111", Store(B, 32, Plain)),
    row("msbe64.m", "000010 1 rs2 rs1 011 ms3 1110111", Store(B, 64, Plain)),
    row("msce8.m", "000000 1 rs2 rs1 000 ms3 1110111", Store(C, 8, Plain)),
    row("msce16.m", "000000 1 rs2 rs1 001 ms3 1110111", Store(C, 16, Plain)),
    row("msce32.m", "000000 1 rs2 rs1 010 ms3 1110111", Store(C, 32, Plain)),
    row("msce64.m", "000000 1 rs2 rs1 011 ms3 1110111", Store(C, 64, Plain)),
    row("msate8.m", "000101 1 rs2 rs1 000 ms3 1110111", Store(A, 8, Transposed)),
    row("msate16.m", "000101 1 rs2 rs1 001 ms3 1110111", Store(A, 16, Transposed)),
    row("msate32.m", "000101 1 rs2 rs1 010 ms3 1110111", Store(A, 32, Transposed)),
    row("msate64.m", "000101 1 rs2 rs1 011 ms3 1110111", Store(A, 64, Transposed)),
    row("msbte8.m", "000110 1 rs2 rs1 000 ms3 1110111", Store(B, 8, Transposed)),
    row("msbte16.m", "000110 1 rs2 rs1 001 ms3 1110111", Store(B, 16, Transposed)),
    row("msbte32.m", "000110 1 rs2 rs1 010 ms3 1110111", Store(B, 32, Transposed)),
    row("msbte64.m", "000110 1 rs2 rs1 011 ms3 1110111", Store(B, 64, Transposed)),
    row("mscte8.m", "000100 1 rs2 rs1 000 ms3 1110111", Store(C, 8, Transposed)),
    row("mscte16.m", "000100 1 rs2 rs1 001 ms3 1110111", Store(C, 16, Transposed)),
    row("mscte32.m", "000100 1 rs2 rs1 010 ms3 1110111", Store(C, 32, Transposed)),
    row("mscte64.m", "000100 1 rs2 rs1 011 ms3 1110111", Store(C, 64, Transposed)),
    row("mma.mm", "000000 0 ms2 ms1 110 md 1110111", Multiply(1)),
    row("mfma.mm", "000000 1 ms2 ms1 110 md 1110111", FloatMultiply),
    row("mwma.mm", "000001 0 ms2 ms1 110 md 1110111", Multiply(2)),
    row("mqma.mm", "000010 0 ms2 ms1 110 md 1110111", Multiply(4)),
    row("maddc.mm", "000100 0 00000 ms1 110 md 1110111", Add(1)),
    row("mwaddc.mm", "000101 0 00000 ms1 110 md 1110111", Add(2)),
    row("mqaddc.mm", "000110 0 00000 ms1 110 md 1110111", Add(4)),
    row("msubc.mm", "000111 0 00000 ms1 110 md 1110111", Subtract(1)),
    row("mwsubc.mm", "001000 0 00000 ms1 110 md 1110111", Subtract(2)),
    row("mqsubc.mm", "001001 0 00000 ms1 110 md 1110111", Subtract(4)),
    row("mrsubc.mm", "001010 0 00000 ms1 110 md 1110111", ReverseSubtract(1)),
    row("mwrsubc.mm", "001011 0 00000 ms1 110 md 1110111", ReverseSubtract(2)),
    row("mqrsubc.mm", "001100 0 00000 ms1 110 md 1110111", ReverseSubtract(4)),
    row("memulc.mx", "001101 0 rs2 ms1 110 md 1110111", Scale(1)),
    row("mwemulc.mx", "001110 0 rs2 ms1 110 md 1110111", Scale(2)),
    row("mqemulc.mx", "001111 0 rs2 ms1 110 md 1110111", Scale(4)),
    row("memulc.mi", "010000 0 imm ms1 110 md 1110111", Scale(1)),
    row("mwemulc.mi", "010001 0 imm ms1 110 md 1110111", Scale(2)),
    row("mqemulc.mi", "010010 0 imm ms1 110 md 1110111", Scale(4)),
    row("mmvcr.v.m", "000000 0 rs2 ms1 101 vd 1110111", MoveOut(Lines::Rows)),
    row("mmvcr.m.v", "000000 1 rs2 vs1 101 md 1110111", MoveIn(Lines::Rows)),
    row("mmvcc.v.m", "000100 0 rs2 ms1 101 vd 1110111", MoveOut(Lines::Columns)),
    row("mmvcc.m.v", "000100 1 rs2 vs1 101 md 1110111", MoveIn(Lines::Columns)),
];

/// The rows that we leave out, in the listing's order: name and columns.
pub const LEFT_OUT: [(&str, &str); 23] = [
    ("mfwma.mm", "000001 1 ms2 ms1 110 md 1110111"),
    ("mfaddc.mm", "000100 1 00000 ms1 110 md 1110111"),
    ("mfwaddc.mm", "000101 1 00000 ms1 110 md 1110111"),
    ("mfsubc.mm", "000111 1 00000 ms1 110 md 1110111"),
    ("mfwsubc.mm", "001000 1 00000 ms1 110 md 1110111"),
    ("mfrsubc.mm", "001010 1 00000 ms1 110 md 1110111"),
    ("mfwrsubc.mm", "001011 1 00000 ms1 110 md 1110111"),
    ("mfemulc.mf", "001101 1 rs2 ms1 110 md 1110111"),
    ("mfwemulc.mf", "001110 1 rs2 ms1 110 md 1110111"),
    ("mfncvtc.f.fw.m", "011000 1 00000 ms1 110 md 1110111"),
    ("mfwcvtc.fw.f.m", "011000 0 00000 ms1 110 md 1110111"),
    ("mfcvtc.f.x.m", "011010 1 00000 ms1 110 md 1110111"),
    ("mfcvtc.x.f.m", "011010 0 00000 ms1 110 md 1110111"),
    ("mfncvtc.f.xw.m", "011011 1 00000 ms1 110 md 1110111"),
    ("mfwcvtc.xw.f.m", "011011 0 00000 ms1 110 md 1110111"),
    ("mfncvtc.f.xq.m", "011100 1 00000 ms1 110 md 1110111"),
    ("mfwcvtc.xq.f.m", "011100 0 00000 ms1 110 md 1110111"),
    ("mfwcvtc.fw.x.m", "011101 1 00000 ms1 110 md 1110111"),
    ("mfncvtc.x.fw.m", "011101 0 00000 ms1 110 md 1110111"),
    ("mfcvtc.fw.xw.m", "011110 1 00000 ms1 110 md 1110111"),
    ("mfcvtc.xw.fw.m", "011110 0 00000 ms1 110 md 1110111"),
    ("mfncvtc.fw.xq.m", "011111 1 00000 ms1 110 md 1110111"),
    ("mfwcvtc.xq.fw.m", "011111 0 00000 ms1 110 md 1110111"),
];
