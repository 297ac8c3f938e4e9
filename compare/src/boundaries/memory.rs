//! Loads and stores at the ends of memory, with huge strides and beside sealed bytes.

use super::rows::{is_load, is_store, machine_for, row_where};
use super::Made;
use crate::lent::Lent;
use crate::random::Random;
use crate::states::cases::{bench_of, moved_rows, wrapping_stride, Case, WILD_STRIDES};
use crate::states::machines::{set_size, SIZES};
use crate::states::ranges::seals_with;
use model::{maximum, sew, Kind, Machine, Row};

/// A load or store with its address in x1 and its stride in x2.
pub struct Moving {
    pub word: u32,
    pub lent: Lent,
    pub rows: i128,
    pub row_bytes: i128,
}

fn moving(random: &mut Random, row: &'static Row) -> Moving {
    let machine = machine_for(random, row);
    moving_on(random, row, &machine)
}

pub fn moving_on(random: &mut Random, row: &'static Row, machine: &Machine) -> Moving {
    let lent = bench_of(random, machine);
    let (rows, row_bytes) = moved_rows(row.kind, machine).expect("a load or store");
    let register = random.below(2) as u32;
    let operands = [("md", register), ("ms3", register), ("rs1", 1), ("rs2", 2)];
    Moving { word: model::assemble(row.name, &operands), lent, rows, row_bytes }
}

fn any_moving(random: &mut Random) -> Moving {
    let row = row_where(random, |row| is_load(row) || is_store(row));
    moving(random, row)
}

impl Moving {
    /// A stride of either sign under which no rows overlap.
    fn clear_stride(&self, random: &mut Random) -> i64 {
        let stride = (self.row_bytes + random.below(4) as i128) as i64;
        if random.chance(50) {
            stride
        } else {
            -stride
        }
    }

    /// Bytes from the lowest to the highest, and the lowest seen from row 0.
    pub fn extent(&self, stride: i64) -> (i128, i128) {
        let spread = (self.rows - 1) * stride as i128;
        (spread.abs() + self.row_bytes, spread.min(0))
    }

    pub fn lay(mut self, random: &mut Random, address: i128, stride: i64, memory: i128) -> Case {
        self.lent.set_scalar(1, address as u64);
        self.lent.set_scalar(2, stride as u64);
        self.lent.memory = random.bytes(memory as usize);
        Case { word: self.word, lent: self.lent }
    }
}

pub fn whole_memory(random: &mut Random) -> Made {
    let moving = any_moving(random);
    let stride = moving.clear_stride(random);
    let (extent, lowest) = moving.extent(stride);
    (moving.lay(random, -lowest, stride, extent), 0)
}

pub fn one_past_the_end(random: &mut Random) -> Made {
    let moving = any_moving(random);
    let stride = moving.clear_stride(random);
    let (extent, lowest) = moving.extent(stride);
    let (more, memory) = random.pick(&[(1, extent), (0, extent - 1)]);
    (moving.lay(random, more - lowest, stride, memory), 6)
}

pub fn one_before_the_start(random: &mut Random) -> Made {
    let moving = any_moving(random);
    let stride = moving.clear_stride(random);
    let (extent, lowest) = moving.extent(stride);
    (moving.lay(random, -lowest - 1, stride, extent + 20), 6)
}

pub fn huge_stride(random: &mut Random) -> Made {
    let row = row_where(random, |row| is_load(row) || is_store(row));
    let mut machine = machine_for(random, row);
    for size in SIZES {
        let limit = maximum(&machine, size, sew(machine.mtype));
        set_size(&mut machine, size, limit);
    }
    let moving = moving_on(random, row, &machine);
    let stride = if moving.rows > 2 && random.chance(50) {
        wrapping_stride(random, moving.rows)
    } else {
        random.pick(&WILD_STRIDES)
    };
    let memory = moving.row_bytes + 100;
    let address = random.below(100) as i128;
    (moving.lay(random, address, stride, memory), 6)
}

pub fn huge_stride_one_row(random: &mut Random) -> Made {
    let row = row_where(random, |row| is_load(row) || is_store(row));
    let mut machine = machine_for(random, row);
    let (Kind::Load(matrix, _, form) | Kind::Store(matrix, _, form)) = row.kind else {
        unreachable!("a load or store was picked");
    };
    set_size(&mut machine, model::memory_shape(matrix, form).0, 1);
    let moving = moving_on(random, row, &machine);
    let stride = random.pick(&WILD_STRIDES);
    let memory = moving.row_bytes + 3;
    let address = random.below(4) as i128;
    (moving.lay(random, address, stride, memory), 0)
}

/// Rows that would come round to memory if addresses wrapped.
pub fn address_near_the_top(random: &mut Random) -> Made {
    let moving = any_moving(random);
    let stride = moving.row_bytes as i64;
    let back = random.range(1, 2 * moving.row_bytes as u64) as i128;
    let (extent, _) = moving.extent(stride);
    (moving.lay(random, -back, stride, extent + 20), 6)
}

/// A store laid well inside memory, its stride and its address.
fn laid_store(random: &mut Random) -> (Moving, i64, i128, i128) {
    let row = row_where(random, is_store);
    let moving = moving(random, row);
    let stride = moving.clear_stride(random);
    let (extent, lowest) = moving.extent(stride);
    (moving, stride, 5 - lowest, extent + 10)
}

/// A range, mostly alone, else among others that seal nothing in memory.
pub fn seal(random: &mut Random, case: &mut Case, start: u64, length: u64) {
    let mut machine = case.lent.machine();
    machine.seals = seals_with(random, (start, length));
    case.lent.set_machine(&machine);
}

pub fn seal_on_a_byte(random: &mut Random) -> Made {
    let (moving, stride, address, memory) = laid_store(random);
    let row = random.below(moving.rows as u64) as i128;
    let byte = random.below(moving.row_bytes as u64) as i128;
    let mut case = moving.lay(random, address, stride, memory);
    seal(random, &mut case, (address + row * stride as i128 + byte) as u64, 1);
    (case, 7)
}

pub fn seal_beside(random: &mut Random) -> Made {
    let (moving, _, _, memory) = laid_store(random);
    // Rows with a gap of one byte between them, and the byte before each.
    let stride = moving.row_bytes as i64 + 1;
    let row = random.below(moving.rows as u64 + 1) as i128;
    let memory = memory + moving.rows;
    let mut case = moving.lay(random, 5, stride, memory);
    seal(random, &mut case, (5 + row * stride as i128 - 1) as u64, 1);
    (case, 0)
}

pub fn seal_past_the_end(random: &mut Random) -> Made {
    let (moving, stride, address, memory) = laid_store(random);
    let (extent, lowest) = moving.extent(stride);
    let after = (address + lowest + extent) as u64;
    let mut case = moving.lay(random, address, stride, memory);
    let (start, expected) = random.pick(&[(after - 1, 7), (after, 0), (memory as u64, 0)]);
    let length = random.pick(&[memory as u64 + 7, u64::MAX - start]);
    seal(random, &mut case, start, length);
    (case, expected)
}

pub fn seal_of_nothing(random: &mut Random) -> Made {
    let (moving, stride, address, memory) = laid_store(random);
    let mut case = moving.lay(random, address, stride, memory);
    let start = random.pick(&[address as u64, u64::MAX, 0]);
    seal(random, &mut case, start, 0);
    (case, 0)
}

pub fn seal_at_the_top(random: &mut Random) -> Made {
    let (moving, stride, address, memory) = laid_store(random);
    let mut case = moving.lay(random, address, stride, memory);
    let start = random.pick(&[u64::MAX, 1 << 63, u64::MAX - 1, memory as u64]);
    let within = random.chance(50);
    seal(random, &mut case, start, u64::MAX - start + u64::from(!within));
    (case, if within { 0 } else { 8 })
}

pub fn sealed_load(random: &mut Random) -> Made {
    let row = row_where(random, is_load);
    let moving = moving(random, row);
    let stride = moving.clear_stride(random);
    let (extent, lowest) = moving.extent(stride);
    let mut case = moving.lay(random, -lowest, stride, extent);
    seal(random, &mut case, 0, u64::MAX);
    (case, 0)
}
