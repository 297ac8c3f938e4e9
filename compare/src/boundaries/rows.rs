//! Rows of the listing by what they do, and a case of a row on a machine.

use crate::random::Random;
use crate::states::cases::{bench_of, moved_rows, Case};
use crate::states::machines::{lengths, lengths_at_64, machine_fitting_on, set_size, SIZES};
use crate::states::words::lines_of;
use model::{Kind, Lengths, Machine, Matrix, Row, Size, LISTING};

/// A row that is no move: src/moves has their boundaries.
pub fn row_where(random: &mut Random, wanted: impl Fn(&Row) -> bool) -> &'static Row {
    let among = |row: &&'static Row| lines_of(row.kind).is_none() && wanted(row);
    let rows: Vec<&'static Row> = LISTING.iter().filter(among).collect();
    random.pick(&rows)
}

pub fn is_store(row: &Row) -> bool {
    matches!(row.kind, Kind::Store(..))
}

pub fn is_load(row: &Row) -> bool {
    matches!(row.kind, Kind::Load(..))
}

pub fn is_scale(row: &Row) -> bool {
    matches!(row.kind, Kind::Scale(_))
}

/// Output times SEW of a multiply or element-wise row, else 0.
pub fn factor(row: &Row) -> i128 {
    match row.kind {
        Kind::Multiply(f) | Kind::Add(f) | Kind::Subtract(f) => f,
        Kind::ReverseSubtract(f) | Kind::Scale(f) => f,
        Kind::FloatMultiply => 1,
        _ => 0,
    }
}

pub fn is_multiply(row: &Row) -> bool {
    matches!(row.kind, Kind::Multiply(_) | Kind::FloatMultiply)
}

pub fn sizes_used(kind: Kind) -> Vec<Size> {
    match kind {
        Kind::SetType | Kind::SetSize(_) => vec![],
        Kind::Load(Matrix::A, ..) | Kind::Store(Matrix::A, ..) => vec![Size::M, Size::K],
        Kind::Load(Matrix::B, ..) | Kind::Store(Matrix::B, ..) => vec![Size::K, Size::N],
        Kind::Multiply(_) | Kind::FloatMultiply => SIZES.to_vec(),
        _ => vec![Size::M, Size::N],
    }
}

/// Lengths of an ELEN at which a row can be done.
pub fn lengths_fitting(random: &mut Random, row: &Row) -> Lengths {
    if row.name.contains("64") {
        random.pick(&lengths_at_64())
    } else {
        lengths(random)
    }
}

/// A machine for a row, with no tile size of 0.
pub fn machine_for(random: &mut Random, row: &Row) -> Machine {
    let lengths = lengths_fitting(random, row);
    machine_for_on(random, row, lengths)
}

pub fn machine_for_on(random: &mut Random, row: &Row, lengths: Lengths) -> Machine {
    let mut machine = machine_fitting_on(random, lengths, row.kind);
    for size in SIZES {
        let value = model::tile_size(&machine, size).max(1);
        set_size(&mut machine, size, value);
    }
    machine
}

pub fn case_on(random: &mut Random, row: &'static Row, machine: &Machine) -> Case {
    let lent = bench_of(random, machine);
    let operands = [("rs1", 1), ("rs2", 2), ("imm", 1)];
    let mut case = Case { word: model::assemble(row.name, &operands), lent };
    case.lent.set_scalar(1, 0);
    // A stride longer than a row, and a multiplier whose low 8 bits are not 0.
    let (rows, row_bytes) = moved_rows(row.kind, machine).unwrap_or((0, 0));
    let stride = 257.max(row_bytes + 1);
    case.lent.set_scalar(2, stride as u64);
    case.lent.memory = random.bytes((rows * stride) as usize);
    case
}
