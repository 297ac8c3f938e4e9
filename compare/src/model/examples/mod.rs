//! The papers' own examples, others by hand, and the decisions on open points, on the
//! second program alone. Here: the machines, plans and bytes that several of them use.

mod answers;
mod float_products;
mod image_versions;
mod images;
mod larger;
mod moves;
mod overlapping;
mod rules;
mod salvage;
mod seals;
mod settings;
mod sheet;
mod text;
mod transposed;
mod words;

use crate::*;

/// A started machine of MLEN 256 and RLEN 64 with `memory` bytes of memory.
fn started(memory: usize) -> Bench {
    started_as((64, 256, 32), memory)
}

fn started_as(lengths: Lengths, memory: usize) -> Bench {
    started_by(SMALLER, lengths, memory)
}

fn started_by(rule: u64, lengths: Lengths, memory: usize) -> Bench {
    let registers = vec![0xA5; register_bytes(lengths.1)];
    let mut marks = vec![1; register_bytes(lengths.1)];
    let machine = start(lengths, rule, &[0, 0], &registers, &mut marks).expect("a good machine");
    Bench { machine, registers, marks, memory: vec![0; memory] }
}

fn number(word: u32, bench: &mut Bench, scalars: &mut [u64]) -> u64 {
    step(word, bench, scalars).number
}

fn plan(sew: u64, factor: u64, m: u64, k: u64, n: u64) -> Plan {
    let (a_row, b_row, c_row) = (k * sew / 8, n * sew / 8, n * factor * sew / 8);
    let (a, b) = (0, m * a_row);
    let c = b + k * b_row;
    Plan {
        kind: PRODUCT,
        sew,
        factor,
        m,
        k,
        n,
        a,
        a_stride: a_row as i64,
        b,
        b_stride: b_row as i64,
        c,
        c_stride: c_row as i64,
    }
}

/// The same with A kept transposed, in the same bytes.
fn transposed_plan(sew: u64, factor: u64, m: u64, k: u64, n: u64) -> Plan {
    let a_stride = (m * sew / 8) as i64;
    Plan { kind: A_TRANSPOSED, a_stride, ..plan(sew, factor, m, k, n) }
}

fn float_plan(m: u64, k: u64, n: u64) -> Plan {
    Plan { kind: FLOAT, ..plan(32, 1, m, k, n) }
}

/// Memory of a packed plan with these bits one after the other.
fn float_memory(bits: &[u32]) -> Vec<u8> {
    bits.iter().flat_map(|bits| bits.to_le_bytes()).collect()
}

/// Bits that are near each other, and some that are not finite.
fn some_bits(count: usize, seed: u32) -> Vec<u32> {
    let mut state = seed;
    let next = |_| {
        state = state.wrapping_mul(1_664_525).wrapping_add(1_013_904_223);
        match state >> 24 {
            0..=3 => [0x7FC0_0001, 0xFF80_0000, 0x7F80_0000, 0x8000_0000][(state >> 24) as usize],
            _ => (state >> 1 & 0x8000_0000) | (120 + (state >> 8) % 16) << 23 | (state >> 9),
        }
    };
    (0..count).map(next).collect()
}

/// A load or store with an address and a stride: its answer and the bench after.
fn moved(word: u32, (address, stride): (u64, i64), bench: &Bench) -> (Answer, Bench) {
    let mut after = bench.clone();
    let mut scalars = vec![0; 32];
    scalars[1] = address;
    scalars[2] = stride as u64;
    // rs1 x1, rs2 x2.
    let answer = step(word | 1 << 15 | 2 << 20, &mut after, &mut scalars);
    (answer, after)
}

/// Memory 1, 2, 3, .. of some length, and a machine of these sizes.
fn counting(memory: usize, [tile_m, tile_k, tile_n]: [u64; 3]) -> Bench {
    let mut bench = started(memory);
    bench.memory = (1..=memory as u8).collect();
    bench.machine = Machine { tile_m, tile_k, tile_n, ..bench.machine };
    bench
}

/// tr0 holds 1 2 / 3 4 / 5 6 as a 3 by 2 tile of 8 bits; memory is 0.
fn three_by_two(memory: usize) -> Bench {
    let mut bench = counting(0, [3, 2, 0]);
    bench.memory = vec![0; memory];
    for (i, row) in [[1, 2], [3, 4], [5, 6]].iter().enumerate() {
        bench.registers[8 * i..8 * i + 2].copy_from_slice(row);
        bench.marks[8 * i..8 * i + 2].fill(1);
    }
    bench
}

// msae8.m and msate8.m of tr0; in memory three_by_two() has 3 rows of 2 bytes or, the
// other way round, 2 rows of 3.
const MSAE8: u32 = 0x06000077;
const MSATE8: u32 = 0x16000077;
