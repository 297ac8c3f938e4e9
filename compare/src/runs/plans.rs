//! Seeded plans of product runs, with a bench to run them on.

use crate::lent::{machine_of, Lent};
use crate::random::Random;
use crate::states::cases::{any_scalar, bench_of, wrapping_stride, WILD_STRIDES};
use crate::states::faults::put_bench_fault;
use crate::states::float_numbers::{any_style, number};
use crate::states::machines::{
    any_machine, any_widths, is_larger, lengths, SIZES, WIDTHS, WIDTHS_TO_64,
};
use crate::states::ranges::{any_range, number_of_ranges, seals_with};
use model::{maximum, Lengths, Machine, Matrix, Plan, Seal, Seals, Size, FLOAT, KINDS, PRODUCT};

pub const UNKNOWN_KINDS: [u64; 6] = [3, 4, 258, 1 << 32, (1 << 63) + 2, u64::MAX];

/// A size around a multiple of the block size.
fn size_around(random: &mut Random, machine: &Machine, size: Size, sew: u64) -> u64 {
    let block = maximum(machine, size, sew as i128) as u64;
    let sizes = [0, 1, 2, block - 1, block, block + 1, 2 * block - 1, 2 * block, 2 * block + 1];
    match random.below(12) {
        11 => random.range(0, 2 * block + 1),
        at => sizes[(at as usize).min(sizes.len() - 1)],
    }
}

/// A range of memory that rows of one matrix take up.
struct Rows {
    rows: i128,
    row_bytes: i128,
}

impl Rows {
    fn of(plan: &Plan, matrix: Matrix) -> Rows {
        let placed = plan.placed(matrix);
        Rows { rows: placed.rows, row_bytes: placed.columns * placed.width / 8 }
    }

    fn empty(&self) -> bool {
        self.rows == 0 || self.row_bytes == 0
    }

    /// Address and stride from the range's start, and its length.
    fn lay(&self, random: &mut Random, from: i128, may_overlap: bool) -> (u64, i64, i128) {
        if self.empty() {
            return (any_scalar(random), any_scalar(random) as i64, 0);
        }
        let gap = if random.chance(50) { 0 } else { random.below(9) as i128 };
        let mut step = self.row_bytes + gap;
        if may_overlap && random.chance(20) {
            step = random.below(self.row_bytes as u64) as i128;
        }
        if self.rows == 1 && random.chance(60) {
            let stride = random.pick(&WILD_STRIDES);
            return (from as u64, stride, self.row_bytes);
        }
        let spread = (self.rows - 1) * step;
        if random.chance(50) {
            (from as u64, step as i64, spread + self.row_bytes)
        } else {
            ((from + spread) as u64, -step as i64, spread + self.row_bytes)
        }
    }
}

/// What a run multiplies: its kind, SEW and factor.
pub type Numbers = (u64, (u64, u64));

/// Any kind, with widths that it permits.
pub fn any_numbers(random: &mut Random, elen: u64) -> Numbers {
    match random.pick(&KINDS) {
        FLOAT => (FLOAT, (32, 1)),
        kind => (kind, any_widths(random, elen)),
    }
}

/// A plan that is accepted on a bench of its own, with numbers and sizes as given.
pub fn good_plan(
    random: &mut Random,
    machine: &Machine,
    (kind, widths): Numbers,
    [m, k, n]: [u64; 3],
) -> (Plan, Lent) {
    let mut plan = unplaced(kind, widths, [m, k, n]);
    let [a, b, c] = [Matrix::A, Matrix::B, Matrix::C].map(|matrix| Rows::of(&plan, matrix));
    let mut end = random.below(4) as i128;
    let gap = |random: &mut Random| {
        if random.chance(50) {
            0
        } else {
            random.below(6) as i128
        }
    };
    if random.chance(25) && !a.empty() && !c.empty() {
        // C's rows in A's gaps.
        let both = Rows { rows: a.rows.max(c.rows), row_bytes: a.row_bytes + c.row_bytes };
        let (address, stride, length) = both.lay(random, end, false);
        plan.a_stride = stride;
        plan.c_stride = stride;
        (plan.a, plan.c) = if random.chance(50) {
            (address, address + a.row_bytes as u64)
        } else {
            (address + c.row_bytes as u64, address)
        };
        end += length + gap(random);
        let length;
        (plan.b, plan.b_stride, length) = b.lay(random, end, true);
        end += length;
    } else if random.chance(20) && !a.empty() && !b.empty() {
        // A and B over each other.
        let (length_a, length_b, length_c);
        (plan.a, plan.a_stride, length_a) = a.lay(random, end, true);
        let shift = random.below(length_a as u64 + 1) as i128;
        (plan.b, plan.b_stride, length_b) = b.lay(random, end + shift, true);
        end += length_a.max(shift + length_b) + gap(random);
        (plan.c, plan.c_stride, length_c) = c.lay(random, end, false);
        end += length_c;
    } else {
        let first = random.below(3);
        for turn in 0..3 {
            let length;
            match (first + turn) % 3 {
                0 => (plan.a, plan.a_stride, length) = a.lay(random, end, true),
                1 => (plan.b, plan.b_stride, length) = b.lay(random, end, true),
                _ => (plan.c, plan.c_stride, length) = c.lay(random, end, false),
            }
            end += length + gap(random);
        }
    }
    let memory = trimmed_end(&plan, end) + gap(random) as usize;
    let mut lent = bench_of(random, machine);
    lent.memory = random.bytes(memory);
    if kind == FLOAT {
        put_floats(random, &plan, &mut lent.memory);
    }
    for mark in lent.marks.iter_mut() {
        *mark = random.below(2) as u8;
    }
    (plan, lent)
}

/// Float numbers as the elements of A and B.
pub fn put_floats(random: &mut Random, plan: &Plan, memory: &mut [u8]) {
    let style = any_style(random);
    for placed in [Matrix::A, Matrix::B].map(|matrix| plan.placed(matrix)) {
        for i in 0..placed.rows {
            for j in 0..placed.columns {
                let at = placed.element(i, j) as usize;
                memory[at..at + 4].copy_from_slice(&number(random, style, false).to_le_bytes());
            }
        }
    }
}

/// A plan whose matrices are still to be placed.
fn unplaced(kind: u64, (sew, factor): (u64, u64), [m, k, n]: [u64; 3]) -> Plan {
    let (a, b, c) = (0, 0, 0);
    let (a_stride, b_stride, c_stride) = (0, 0, 0);
    Plan { kind, sew, factor, m, k, n, a, a_stride, b, b_stride, c, c_stride }
}

/// A plan on a machine, with sizes around its block sizes; on a larger machine all but
/// one of them small.
pub fn plan_around(random: &mut Random, lengths: Lengths) -> (Plan, Lent) {
    let machine = any_machine(random, lengths);
    let (kind, widths) = any_numbers(random, lengths.2);
    let mut sizes = SIZES.map(|size| size_around(random, &machine, size, widths.0));
    if is_larger(lengths) {
        let long = random.below(4) as usize;
        for (at, size) in sizes.iter_mut().enumerate() {
            *size = if at == long { 1024.min(*size) } else { (*size).min(random.range(1, 9)) };
        }
    }
    let (plan, mut lent) = good_plan(random, &machine, (kind, widths), sizes);
    if random.chance(40) {
        harmless_seals(random, &plan, &mut lent);
    }
    (plan, lent)
}

/// A plan of small sizes on any machine.
pub fn small_plan(random: &mut Random) -> (Plan, Lent) {
    let lengths = lengths(random);
    let machine = any_machine(random, lengths);
    let numbers = any_numbers(random, machine.elen);
    let sizes = SIZES.map(|_| random.range(0, 9));
    good_plan(random, &machine, numbers, sizes)
}

/// A plan of packed matrices, one behind the other, and the length of its memory.
/// C starts at a multiple of 8.
pub fn packed_plan(widths: (u64, u64), sizes: [u64; 3]) -> (Plan, usize) {
    packed_plan_of(PRODUCT, widths, sizes)
}

/// The same of a kind.
pub fn packed_plan_of(kind: u64, widths: (u64, u64), sizes: [u64; 3]) -> (Plan, usize) {
    let mut plan = unplaced(kind, widths, sizes);
    let [a, b, c] = [Matrix::A, Matrix::B, Matrix::C].map(|matrix| Rows::of(&plan, matrix));
    plan.b = (a.rows * a.row_bytes) as u64;
    plan.c = (plan.b + (b.rows * b.row_bytes) as u64).next_multiple_of(8);
    plan.a_stride = a.row_bytes as i64;
    plan.b_stride = b.row_bytes as i64;
    plan.c_stride = c.row_bytes as i64;
    (plan, plan.c as usize + (c.rows * c.row_bytes) as usize)
}

/// One past the last byte of the plan's matrices.
fn trimmed_end(plan: &Plan, end: i128) -> usize {
    let mut last = 0;
    for matrix in [Matrix::A, Matrix::B, Matrix::C] {
        let placed = plan.placed(matrix);
        if placed.columns > 0 {
            for i in 0..placed.rows {
                last = last.max(placed.element(i, placed.columns));
            }
        }
    }
    last.min(end) as usize
}

/// Puts ranges that hold no byte of C, each if one of four tries finds it.
fn harmless_seals(random: &mut Random, plan: &Plan, lent: &mut Lent) {
    let mut list = Vec::new();
    for _ in 0..number_of_ranges(random) {
        list.push(harmless_range(random, plan, lent).unwrap_or((0, 0)));
    }
    lent.set_machine(&Machine { seals: Seals::of(&list), ..lent.machine() });
}

/// A range that holds no byte of C, if one of four tries finds it.
pub fn harmless_range(random: &mut Random, plan: &Plan, lent: &Lent) -> Option<Seal> {
    (0..4).map(|_| any_range(random, lent.memory.len())).find(|&range| {
        let machine = Machine { seals: Seals::of(&[range]), ..lent.machine() };
        let placed = plan.placed(Matrix::C);
        let mut bytes = placed.bytes();
        !bytes.any(|(address, _)| model::sealed(&machine, address))
    })
}

/// Spoils a plan or its bench, by one or two changes.
pub fn spoil(random: &mut Random, plan: &mut Plan, lent: &mut Lent) {
    spoil_once(random, plan, lent);
    if random.chance(20) {
        spoil_once(random, plan, lent);
    }
}

fn spoil_once(random: &mut Random, plan: &mut Plan, lent: &mut Lent) {
    let row_bytes = (plan.n % 2048 * (plan.factor % 8) * (plan.sew % 128) / 8) as i64;
    let shift = |random: &mut Random| {
        let by = random.pick(&[1, 2, 7, 64, 1 << 20, 1 << 63]);
        if random.chance(50) {
            by
        } else {
            0u64.wrapping_sub(by)
        }
    };
    match random.below(20) {
        0 => plan.sew = random.pick(&[0, 1, 4, 7, 9, 24, 64, 128, 1 << 32, 1 << 61, u64::MAX]),
        1 => plan.factor = random.pick(&[0, 3, 5, 8, 1 << 32, 1 << 61, u64::MAX]),
        2 => {
            // Some of them are permitted at ELEN 64.
            let wide = [(32, 4), (64, 2), (64, 4), (128, 1), (4, 4)];
            (plan.sew, plan.factor) = random.pick(&[&WIDTHS_TO_64[..], &wide].concat());
        }
        3 => plan.m = random.pick(&[1025, 1026, 1 << 32, 1 << 63, u64::MAX]),
        4 => plan.k = random.pick(&[1025, 1026, 1 << 32, 1 << 63, u64::MAX]),
        5 => plan.n = random.pick(&[1025, 1026, 1 << 32, 1 << 63, u64::MAX]),
        6 => {
            if good_lengths(lent).is_some() {
                put_bench_fault(random, lent);
            }
        }
        7 => plan.a = plan.a.wrapping_add(shift(random)),
        8 => plan.b = plan.b.wrapping_add(shift(random)),
        9 => plan.c = plan.c.wrapping_add(shift(random)),
        10 => {
            let length = lent.memory.len().saturating_sub(random.range(1, 2) as usize);
            lent.memory.truncate(length);
        }
        11 => plan.a_stride = wild_stride(random, plan.placed(Matrix::A).rows as u64),
        12 => plan.b_stride = wild_stride(random, plan.k),
        13 => {
            let step = random.below(row_bytes.max(1) as u64) as i64;
            let wild = wild_stride(random, plan.m);
            plan.c_stride = random.pick(&[0, 1, -1, step, -step, wild]);
        }
        14 => plan.c = random.pick(&[plan.a, plan.a.wrapping_sub(1), plan.a.wrapping_add(1)]),
        15 => plan.c = random.pick(&[plan.b, plan.b.wrapping_sub(1), plan.b.wrapping_add(1)]),
        16 => seal_a_byte_of_c(random, plan, lent),
        17 => plan.kind = random.pick(&UNKNOWN_KINDS),
        // Another shape of A, or other widths, where the plan has laid these.
        18 => plan.kind = random.pick(&KINDS),
        _ => (plan.sew, plan.factor) = random.pick(&WIDTHS),
    }
}

/// The machine of a bench, if its lengths are permitted.
pub fn good_lengths(lent: &Lent) -> Option<Machine> {
    machine_of(&lent.machine).filter(|machine| model::lengths_permitted(machine.lengths()))
}

fn wild_stride(random: &mut Random, rows: u64) -> i64 {
    if random.chance(50) {
        wrapping_stride(random, rows as i128)
    } else {
        random.pick(&WILD_STRIDES)
    }
}

fn seal_a_byte_of_c(random: &mut Random, plan: &Plan, lent: &mut Lent) {
    if plan.m == 0 || plan.n == 0 || plan.m > 1024 || plan.n > 1024 {
        return;
    }
    let Some(mut machine) = machine_of(&lent.machine) else {
        return;
    };
    let placed = plan.placed(Matrix::C);
    let i = random.below(plan.m) as i128;
    let j = random.below(plan.n) as i128;
    let bytes = (placed.width / 8).clamp(1, 8) as u64;
    let address = placed.element(i, j) + random.below(bytes) as i128;
    machine.seals = seals_with(random, (address as u64, 1));
    lent.set_machine(&machine);
}
