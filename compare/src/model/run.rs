//! Document 01, "The product run", with A kept transposed (request Two) and on binary32
//! elements (request Four).

use crate::answers::{answer, state_at_fault, step, Answer};
use crate::floats;
use crate::listing::Matrix::*;
use crate::listing::{Matrix, Size};
use crate::loading::Placed;
use crate::machine::{Bench, Machine};
use crate::seals::sealed;
use crate::settings::{granted, maximum};
use crate::tiles::{put, signed};
use crate::words::assemble;

/// The kinds of a product run: A as it is, A kept transposed (request Two), and binary32
/// elements (request Four).
pub const PRODUCT: u64 = 0;
pub const A_TRANSPOSED: u64 = 1;
pub const FLOAT: u64 = 2;
pub const KINDS: [u64; 3] = [PRODUCT, A_TRANSPOSED, FLOAT];

#[derive(Clone, Copy, Debug, PartialEq, Eq)]
pub struct Plan {
    pub kind: u64,
    pub sew: u64,
    pub factor: u64,
    pub m: u64,
    pub k: u64,
    pub n: u64,
    pub a: u64,
    pub a_stride: i64,
    pub b: u64,
    pub b_stride: i64,
    pub c: u64,
    pub c_stride: i64,
}

impl Plan {
    /// A matrix in memory; A kept transposed has k rows of m elements.
    pub fn placed(&self, matrix: Matrix) -> Placed {
        let (address, stride, rows, columns, times) = match matrix {
            A if self.kind == A_TRANSPOSED => (self.a, self.a_stride, self.k, self.m, 1),
            A => (self.a, self.a_stride, self.m, self.k, 1),
            B => (self.b, self.b_stride, self.k, self.n, 1),
            C => (self.c, self.c_stride, self.m, self.n, self.factor),
        };
        Placed {
            address: address as i128,
            stride: stride as i128,
            rows: rows as i128,
            columns: columns as i128,
            width: self.sew as i128 * times as i128,
        }
    }
}

/// A step that a run hands out.
#[derive(Clone, Copy, Debug, PartialEq, Eq)]
pub struct Handed {
    pub word: u32,
    pub scalar_10: u64,
    pub scalar_11: u64,
}

#[derive(Clone, Debug, PartialEq, Eq)]
pub struct Run {
    pub steps: Vec<Handed>,
    pub place: usize,
}

pub fn plan_numbers_bad(plan: &Plan, elen: u64) -> bool {
    !KINDS.contains(&plan.kind)
        || ![8, 16, 32, 64].contains(&plan.sew)
        || ![1, 2, 4].contains(&plan.factor)
        || plan.factor as i128 * plan.sew as i128 > elen as i128
        || plan.kind == FLOAT && (plan.sew, plan.factor) != (32, 1)
        || [plan.m, plan.k, plan.n].iter().any(|&size| size > 1024)
}

fn plan_outside_memory(plan: &Plan, memory: &[u8]) -> bool {
    [A, B, C].into_iter().any(|matrix| {
        plan.placed(matrix)
            .bytes()
            .any(|(address, _)| address < 0 || address >= memory.len() as i128)
    })
}

/// The reasons of answer 9: a byte of C lies in two of its rows, in a row of
/// A, in a row of B, or in a sealed range.
pub fn overlaps(plan: &Plan, machine: &Machine) -> [bool; 4] {
    let row_of = plan.placed(C).first_rows();
    let meets = |matrix| plan.placed(matrix).bytes().any(|(at, _)| row_of.contains_key(&at));
    [plan.placed(C).rows_meet(), meets(A), meets(B), row_of.keys().any(|&at| sealed(machine, at))]
}

/// Starts a run; an error is the answer's number.
pub fn run_start(plan: &Plan, bench: &Bench) -> Result<Run, u64> {
    if state_at_fault(bench) || plan_numbers_bad(plan, bench.machine.elen) {
        return Err(8);
    }
    if plan_outside_memory(plan, &bench.memory) {
        return Err(6);
    }
    if overlaps(plan, &bench.machine).contains(&true) {
        return Err(9);
    }
    Ok(Run { steps: steps_of(plan, &bench.machine), place: 0 })
}

/// Where the blocks of a size start: each takes what a machine gives of the rest.
pub fn block_starts(total: i128, maximum: i128, rule: u64) -> Vec<i128> {
    let mut starts = Vec::new();
    let mut at = 0;
    while at < total {
        starts.push(at);
        at += granted(rule, total - at, maximum);
    }
    starts
}

/// The steps of a run, as the paper's nested loops.
pub fn steps_of(plan: &Plan, machine: &Machine) -> Vec<Handed> {
    let sew = plan.sew as i128;
    let wide = (plan.factor * plan.sew) as i128;
    let (m, k, n) = (plan.m as i128, plan.k as i128, plan.n as i128);
    let blocks =
        |total, size| block_starts(total, maximum(machine, size, sew), machine.rule).into_iter();

    let set = |name: &str, value: i128| Handed {
        word: assemble(name, &[("mtypei", value as u32), ("mleni", value as u32)]),
        scalar_10: 0,
        scalar_11: 0,
    };
    let move_tile = |name: String, register: u32, placed: Placed, i: i128, j: i128| Handed {
        word: assemble(&name, &[("md", register), ("ms3", register), ("rs1", 10), ("rs2", 11)]),
        scalar_10: placed.element(i, j) as u64,
        scalar_11: placed.stride as u64,
    };
    let reckon = |name: &str, ms2: u32| Handed {
        word: assemble(name, &[("md", 0), ("ms1", 0), ("ms2", ms2), ("imm", 0)]),
        scalar_10: 0,
        scalar_11: 0,
    };
    let (clear, multiply_words, maccq) = match plan.factor {
        _ if plan.kind == FLOAT => ("memulc.mi", "mfma.mm", 0),
        1 => ("memulc.mi", "mma.mm", 0),
        2 => ("mwemulc.mi", "mwma.mm", 0),
        _ => ("mqemulc.mi", "mqma.mm", 8),
    };
    let msew = match plan.sew {
        8 => 0,
        16 => 1,
        32 => 2,
        _ => 3,
    };

    let mut steps = vec![set("msettypei", maccq + msew)];
    for i in blocks(m, Size::M) {
        steps.push(set("msettilemi", m - i));
        for j in blocks(n, Size::N) {
            steps.push(set("msettileni", n - j));
            steps.push(reckon(clear, 0));
            for l in blocks(k, Size::K) {
                steps.push(set("msettileki", k - l));
                steps.push(match plan.kind {
                    A_TRANSPOSED => move_tile(format!("mlate{sew}.m"), 0, plan.placed(A), l, i),
                    _ => move_tile(format!("mlae{sew}.m"), 0, plan.placed(A), i, l),
                });
                steps.push(move_tile(format!("mlbe{sew}.m"), 1, plan.placed(B), l, j));
                steps.push(reckon(multiply_words, 1));
            }
            steps.push(move_tile(format!("msce{wide}.m"), 0, plan.placed(C), i, j));
        }
    }
    steps
}

/// The number of steps by the paper's formula.
pub fn step_count(plan: &Plan, machine: &Machine) -> u64 {
    let sew = plan.sew as i128;
    let blocks = |size: u64, of: Size| {
        let maximum = maximum(machine, of, sew);
        (size as i128 + maximum - 1) / maximum
    };
    let (m, k, n) = (blocks(plan.m, Size::M), blocks(plan.k, Size::K), blocks(plan.n, Size::N));
    (1 + m * (1 + n * (3 + 4 * k))) as u64
}

/// The next step; `None` past the last is answer 8.
pub fn run_next(run: &mut Run) -> Option<Handed> {
    let handed = run.steps.get(run.place).copied()?;
    run.place += 1;
    Some(handed)
}

/// Carries a handed out step out, with the run's own scalars.
pub fn carry_out_handed(handed: &Handed, bench: &mut Bench) -> Answer {
    let mut scalars = [0; 32];
    scalars[10] = handed.scalar_10;
    scalars[11] = handed.scalar_11;
    step(handed.word, bench, &mut scalars)
}

/// A turn: the next step is asked for and, if handed out, carried out. A
/// refusal changes nothing lent or held, so the place stays too.
pub fn run_turn(run: &mut Run, bench: &mut Bench) -> Answer {
    let place = run.place;
    let Some(handed) = run_next(run) else {
        return answer(8);
    };
    let given = carry_out_handed(&handed, bench);
    if given.number != 0 {
        run.place = place;
    }
    given
}

/// Up to `turns` turns, as far as they are answered 0; their number.
pub fn run_turns(turns: u64, run: &mut Run, bench: &mut Bench) -> u64 {
    let mut done = 0;
    while done < turns && run_turn(run, bench).number == 0 {
        done += 1;
    }
    done
}

/// A matrix's elements as memory holds them, signed.
pub fn elements(placed: Placed, memory: &[u8]) -> Vec<Vec<i128>> {
    let element = |i, j| {
        let first = placed.element(i, j) as usize;
        signed(&memory[first..first + placed.width as usize / 8])
    };
    (0..placed.rows).map(|i| (0..placed.columns).map(|j| element(i, j)).collect()).collect()
}

/// What C holds after a run: sums of products of what memory holds now, reduced to C's
/// width, signed; of a float run the bits of plain sums from +0 in rising k.
pub fn product(plan: &Plan, memory: &[u8]) -> Vec<Vec<i128>> {
    let a = elements(plan.placed(A), memory);
    let b = elements(plan.placed(B), memory);
    let of_a = |i: usize, l: usize| if plan.kind == A_TRANSPOSED { a[l][i] } else { a[i][l] };
    let element = |i: usize, j: usize| {
        let terms = (0..plan.k as usize).map(|l| (of_a(i, l), b[l][j]));
        if plan.kind == FLOAT {
            floats::accumulated(0, terms.map(|(a, b)| (a as u32, b as u32))) as i128
        } else {
            terms.map(|(a, b)| a * b).fold(0, i128::wrapping_add)
        }
    };
    let reduced = |value: i128| {
        let mut bytes = [0; 8];
        let bytes = &mut bytes[..(plan.factor * plan.sew / 8) as usize];
        put(value, bytes);
        signed(bytes)
    };
    let row = |i: usize| (0..plan.n as usize).map(|j| reduced(element(i, j))).collect();
    (0..plan.m as usize).map(row).collect()
}
