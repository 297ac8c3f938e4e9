//! Loads and stores whose rows in memory overlap (request Seven): a store of which a
//! byte belongs to two rows gets 13, a load never. The answers are reckoned here from
//! the stride and the bytes of a row, the second program tries each byte.

use crate::boundaries::memory::{moving_on, seal, Moving};
use crate::boundaries::rows::{is_load, is_store, machine_for, row_where};
use crate::boundaries::{check_boundaries, Boundary, Made};
use crate::lent::state_text;
use crate::random::Random;
use crate::states::cases::Case;
use crate::states::faults::{put_state_fault, unmark_source};
use crate::states::machines::{fitting_mtypes, mtypes, set_size, usual_lengths, SIZES};
use crate::suite::{check_step, each_case, Context, Outcome};
use model::{
    maximum, memory_shape, sew, Kind, Lengths, Machine, Row, Size, LISTING, MILL, SMALLER,
};

// ---------------------------------------------------------------------------
// Every machine, load, store and mtype

/// Every load and store of every machine under every mtype that permits it, with
/// strides around its rows.
pub fn overlapping_rows(context: &mut Context) -> Outcome {
    let moves: Vec<_> = usual_lengths().into_iter().flat_map(moves).collect();
    each_case(context, "overlapping rows", moves.len() as u64, |case, random, tally| {
        let (machine, row) = moves[case as usize];
        for machine in shapes(random, row, machine) {
            let row_bytes = moving_on(random, row, &machine).row_bytes as i64;
            for stride in strides(row_bytes) {
                let moving = moving_on(random, row, &machine);
                let (memory, lowest, expected) = answer(row, &moving, stride);
                let moved = moving.lay(random, -lowest, stride, memory);
                let (number, _) = check_step(moved.word, &moved.lent, tally)?;
                if number != expected {
                    return Err(format!(
                        "{} at stride {stride}: both programs give {number}, the paper \
                         {expected}\n{}",
                        model::describe(moved.word),
                        state_text(&moved.lent)
                    ));
                }
            }
        }
        Ok(())
    })
}

/// A machine with each row and mtype that fits it; of ELEN 64 with those that are new
/// there.
fn moves(lengths: Lengths) -> Vec<(Machine, &'static Row)> {
    let machine = |mtype| Machine { mtype, ..Machine::of(lengths, SMALLER) };
    let rows = LISTING.iter().filter(|row| is_load(row) || is_store(row));
    rows.flat_map(|row| {
        let mtypes = fitting_mtypes(row.kind, lengths.2).into_iter();
        let is_new = |mtype: &u64| row.name.contains("64") || [3, 9].contains(mtype);
        mtypes
            .filter(move |mtype| lengths.2 == 32 || is_new(mtype))
            .map(move |mtype| (machine(mtype), row))
    })
    .collect()
}

/// Rows and columns in memory of the tile that a load or store moves.
fn sizes_in_memory(row: &Row) -> (Size, Size) {
    let (Kind::Load(matrix, _, form) | Kind::Store(matrix, _, form)) = row.kind else {
        unreachable!("a load or store");
    };
    memory_shape(matrix, form)
}

/// Tiles of all rows, of two, one and none, of all columns, some, one and none.
fn shapes(random: &mut Random, row: &Row, machine: Machine) -> Vec<Machine> {
    let (rows, columns) = sizes_in_memory(row);
    let [most_rows, most_columns] =
        [rows, columns].map(|size| maximum(&machine, size, sew(machine.mtype)));
    let some = random.range(1, most_columns as u64) as i128;
    let shapes = [
        (most_rows, most_columns),
        (most_rows, some),
        (most_rows, 1),
        (2, most_columns),
        (2, 1),
        (1, most_columns),
        (0, most_columns),
        (most_rows, 0),
    ];
    let sized = |(row_count, column_count)| {
        let mut sized = machine;
        set_size(&mut sized, rows, row_count);
        set_size(&mut sized, columns, column_count);
        sized
    };
    shapes.map(sized).to_vec()
}

/// None, shorter than a row, a row, longer, and far beyond memory, upward and
/// downward.
fn strides(row: i64) -> Vec<i64> {
    let upward = [1, row / 2, row - 1, row, row + 1, 2 * row, 1 << 32, 1 << 62, i64::MAX];
    let downward = upward.map(|stride| -stride);
    [&[0, i64::MIN], &upward[..], &downward].concat()
}

/// As much memory as the rows take, if it can be had; the lowest byte seen from row
/// 0; and the answer.
fn answer(row: &Row, moving: &Moving, stride: i64) -> (i128, i128, u64) {
    let (extent, lowest) = moving.extent(stride);
    if moving.rows == 0 || moving.row_bytes == 0 {
        return (0, 0, 0);
    }
    if extent > 40_000 {
        return (moving.row_bytes, 0, 6);
    }
    let meet = moving.rows > 1 && (stride.unsigned_abs() as i128) < moving.row_bytes;
    (extent, lowest, if is_store(row) && meet { 13 } else { 0 })
}

// ---------------------------------------------------------------------------
// Among the other answers

const BOUNDARIES: [Boundary; 11] = [
    ("a byte in two rows of a store", in_two_rows),
    ("one byte in two rows of a store", one_byte_in_two_rows),
    ("rows of a store that touch", touching_rows),
    ("one row of a store", one_row),
    ("rows of no byte", no_byte),
    ("in two rows of a load", in_two_rows_of_a_load),
    ("in two rows, and an unmarked element", and_unmarked),
    ("in two rows, and outside memory", and_outside),
    ("in two rows, and sealed", and_sealed),
    ("in two rows, and 2, 3 or 4", and_before),
    ("in two rows, and 8", and_state_fault),
];

pub fn overlapping_stores(context: &mut Context) -> Outcome {
    check_boundaries(context, &BOUNDARIES)
}

/// A load or store of at least two rows in memory.
fn of_rows(random: &mut Random, wanted: fn(&Row) -> bool) -> Moving {
    let row = row_where(random, wanted);
    let mut machine = machine_for(random, row);
    let (rows, _) = sizes_in_memory(row);
    let most = maximum(&machine, rows, sew(machine.mtype)) as u64;
    set_size(&mut machine, rows, random.range(2, most) as i128);
    moving_on(random, row, &machine)
}

/// Either sign.
fn signed(random: &mut Random, step: i64) -> i64 {
    if random.chance(50) {
        step
    } else {
        -step
    }
}

fn short_stride(random: &mut Random, moving: &Moving) -> i64 {
    let step = random.below(moving.row_bytes as u64) as i64;
    let step = random.pick(&[0, step, step, moving.row_bytes as i64 - 1]);
    signed(random, step)
}

/// Laid in memory, with some bytes before and after.
fn laid(random: &mut Random, moving: Moving, stride: i64) -> Case {
    let (extent, lowest) = moving.extent(stride);
    let before = random.below(5) as i128;
    let after = random.below(5) as i128;
    moving.lay(random, before - lowest, stride, before + extent + after)
}

fn laid_over_itself(random: &mut Random, wanted: fn(&Row) -> bool) -> Case {
    let moving = of_rows(random, wanted);
    let stride = short_stride(random, &moving);
    laid(random, moving, stride)
}

fn in_two_rows(random: &mut Random) -> Made {
    (laid_over_itself(random, is_store), 13)
}

fn one_byte_in_two_rows(random: &mut Random) -> Made {
    let moving = of_rows(random, is_store);
    let stride = signed(random, moving.row_bytes as i64 - 1);
    (laid(random, moving, stride), 13)
}

fn touching_rows(random: &mut Random) -> Made {
    let moving = of_rows(random, is_store);
    let stride = signed(random, moving.row_bytes as i64);
    (laid(random, moving, stride), 0)
}

fn one_row(random: &mut Random) -> Made {
    let row = row_where(random, is_store);
    let mut machine = machine_for(random, row);
    set_size(&mut machine, sizes_in_memory(row).0, 1);
    let moving = moving_on(random, row, &machine);
    let short = short_stride(random, &moving);
    let stride = random.pick(&[0, 1, -1, short, i64::MIN, i64::MAX]);
    (laid(random, moving, stride), 0)
}

/// Rows without columns at one address, or anywhere.
fn no_byte(random: &mut Random) -> Made {
    let row = row_where(random, is_store);
    let mut machine = machine_for(random, row);
    set_size(&mut machine, sizes_in_memory(row).1, 0);
    let moving = moving_on(random, row, &machine);
    let stride = random.pick(&[0, 1, -1, i64::MIN, i64::MAX]);
    let address = random.pick(&[0, 3, 8, u64::MAX as i128]);
    let memory = random.pick(&[0, 3, 100]);
    (moving.lay(random, address, stride, memory), 0)
}

fn in_two_rows_of_a_load(random: &mut Random) -> Made {
    (laid_over_itself(random, is_load), 0)
}

/// 5 comes first, and names the element.
fn and_unmarked(random: &mut Random) -> Made {
    let mut case = laid_over_itself(random, is_store);
    unmark_source(random, &mut case);
    (case, 5)
}

/// 6 comes first: memory ends one byte early, or the first row starts one too low.
fn and_outside(random: &mut Random) -> Made {
    let moving = of_rows(random, is_store);
    let stride = short_stride(random, &moving);
    let (extent, lowest) = moving.extent(stride);
    let (address, memory) = random.pick(&[(-lowest, extent - 1), (-lowest - 1, extent)]);
    (moving.lay(random, address, stride, memory), 6)
}

/// 7 comes after: a seal on one of the bytes, or on all.
fn and_sealed(random: &mut Random) -> Made {
    let moving = of_rows(random, is_store);
    let stride = short_stride(random, &moving);
    let (extent, lowest) = moving.extent(stride);
    let row = random.below(moving.rows as u64) as i128;
    let byte = random.below(moving.row_bytes as u64) as i128;
    let mut case = moving.lay(random, -lowest, stride, extent);
    let at = (-lowest + row * stride as i128 + byte) as u64;
    let (start, length) = random.pick(&[(at, 1), (0, u64::MAX)]);
    seal(random, &mut case, start, length);
    (case, 13)
}

/// Another mtype: mill is set, or the width is not permitted; or a size above its
/// maximum, SEW as it was.
fn and_before(random: &mut Random) -> Made {
    let mut case = laid_over_itself(random, is_store);
    let mut machine = case.lent.machine();
    let kind = model::decode(case.word).expect("a store").row.kind;
    let fitting = fitting_mtypes(kind, machine.elen);
    let legal = mtypes(machine.elen).iter().copied();
    let broken: Vec<u64> = legal.filter(|mtype| !fitting.contains(mtype)).collect();
    let too_large = SIZES.into_iter().find(|&size| {
        let Kind::Store(matrix, ..) = kind else { return false };
        let (rows, columns) = model::shape(matrix);
        let limit = maximum(&machine, size, sew(machine.mtype));
        (size == rows || size == columns) && limit < maximum(&machine, size, 8)
    });
    let expected = match (random.below(3), too_large) {
        (0, Some(size)) => {
            let limit = maximum(&machine, size, sew(machine.mtype));
            set_size(&mut machine, size, limit + 1);
            4
        }
        (1, _) => {
            machine.mtype = random.pick(&broken);
            3
        }
        _ => {
            machine.mtype = MILL;
            2
        }
    };
    case.lent.set_machine(&machine);
    (case, expected)
}

fn and_state_fault(random: &mut Random) -> Made {
    let mut case = laid_over_itself(random, is_store);
    put_state_fault(random, &mut case.lent);
    (case, 8)
}
