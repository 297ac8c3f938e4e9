//! The word mfma.mm and float runs (request Four).

use super::*;
use crate::Matrix::*;

/// mfma.mm of acc0, tr0 and tr1.
const MFMA: u32 = 0x02106077;

/// A machine at SEW 32 with all bytes marked; A in tr0, B in tr1 and C in acc0 hold
/// these bits.
fn float_bench(a: &[&[u32]], b: &[&[u32]], c: &[&[u32]]) -> Bench {
    let mut bench = started(0);
    bench.marks.fill(1);
    let (tile_m, tile_k, tile_n) = (c.len() as u64, b.len() as u64, c[0].len() as u64);
    bench.machine = Machine { mtype: 2, tile_m, tile_k, tile_n, ..bench.machine };
    for (start, pitch, rows) in [(0, 8, a), (32, 8, b), (256, 32, c)] {
        for (i, row) in rows.iter().enumerate() {
            for (j, bits) in row.iter().enumerate() {
                let at = start + i * pitch + 4 * j;
                bench.registers[at..at + 4].copy_from_slice(&bits.to_le_bytes());
            }
        }
    }
    bench
}

/// An element of acc0.
fn bits_of_c(bench: &Bench, i: usize, j: usize) -> u32 {
    let at = 256 + 32 * i + 4 * j;
    u32::from_le_bytes(bench.registers[at..at + 4].try_into().unwrap())
}

#[test]
fn float_multiply_word() {
    const ONE: u32 = 0x3F80_0000;
    const MILLIONS: u32 = 0x4B80_0000;
    // 2^24 x 1 + 1 x 1 from 0, from 1, from -0; 1 x 2 + 3 x 1/2 from -1.
    let a: [&[u32]; 2] = [&[MILLIONS, ONE], &[ONE, 0x4040_0000]];
    let b: [&[u32]; 2] = [&[ONE, 0x4000_0000], &[ONE, 0x3F00_0000]];
    let before = float_bench(&a, &b, &[&[0, 0x8000_0000], &[ONE, 0xBF80_0000]]);
    let mut after = before.clone();
    assert_eq!(number(MFMA, &mut after, &mut [7; 32]), 0);
    let found = [(0, 0), (0, 1), (1, 0), (1, 1)].map(|(i, j)| bits_of_c(&after, i, j));
    // 2^24; 2^25 + 1/2; 1 + 1 + 3; -1 + 2 + 1 1/2.
    assert_eq!(found, [MILLIONS, 0x4C00_0000, 0x40A0_0000, 0x4020_0000]);
    // Nothing else changes.
    for at in 0..512 {
        let of_c = at >= 256 && at < 256 + 64 && (at - 256) % 32 < 8;
        assert!(of_c || after.registers[at] == before.registers[at], "{at}");
    }
    assert_eq!((after.machine, after.marks), (before.machine, before.marks));
}

#[test]
fn float_multiply_without_terms() {
    // A NaN is settled, -0 and infinity stay; md alone is read.
    let mut bench = float_bench(&[], &[], &[&[0xFF80_0001, 0x8000_0000], &[0x7F80_0000, 0]]);
    bench.marks[..256].fill(0);
    assert_eq!(number(MFMA, &mut bench, &mut [0; 32]), 0);
    let found = [(0, 0), (0, 1), (1, 0), (1, 1)].map(|(i, j)| bits_of_c(&bench, i, j));
    assert_eq!(found, [0x7FC0_0000, 0x8000_0000, 0x7F80_0000, 0]);
    bench.marks[256 + 32 + 5] = 0;
    let at = |row, column| Answer { number: 5, row, column };
    assert_eq!(step(MFMA, &mut bench, &mut [0; 32]), at(1, 1));
}

#[test]
fn answers_of_a_float_multiply() {
    let row: &[u32] = &[0, 0];
    let good = float_bench(&[row; 3], &[row; 2], &[row; 3]);
    let with = |change: fn(&mut Bench)| {
        let mut bench = good.clone();
        change(&mut bench);
        let before = bench.clone();
        let answer = step(MFMA, &mut bench, &mut [0; 32]);
        assert!(answer.number == 0 || bench == before);
        (answer.number, answer.row, answer.column)
    };
    assert_eq!(with(|_| ()), (0, 0, 0));
    assert_eq!(with(|bench| bench.machine.mtype = MILL), (2, 0, 0));
    // Another SEW: 3, before 4 and 5.
    for mtype in [0, 1, 8] {
        let mut bench = good.clone();
        bench.machine.mtype = mtype;
        assert_eq!(number(MFMA, &mut bench, &mut [0; 32]), 3);
        bench.machine.tile_n = 8;
        bench.marks.fill(0);
        assert_eq!(number(MFMA, &mut bench, &mut [0; 32]), 3);
    }
    // A size above its maximum at SEW 32: 4, before 5, also where C has no element.
    assert_eq!(with(|bench| bench.machine.tile_k = 3), (4, 0, 0));
    assert_eq!(with(|bench| bench.machine.tile_n = 3), (4, 0, 0));
    assert_eq!(with(|bench| (bench.machine.tile_m, bench.machine.tile_k) = (0, 3)), (4, 0, 0));
    // ms1, ms2, md.
    assert_eq!(with(|bench| bench.marks[256 + 4] = 0), (5, 0, 1));
    assert_eq!(with(|bench| (bench.marks[256], bench.marks[32 + 8]) = (0, 0)), (5, 1, 0));
    assert_eq!(with(|bench| (bench.marks[32], bench.marks[16 + 7]) = (0, 0)), (5, 2, 1));
    // Nothing is read where C has no element.
    assert_eq!(with(|bench| (bench.machine.tile_m, bench.marks) = (0, vec![0; 512])), (0, 0, 0));
    assert_eq!(with(|bench| (bench.machine.tile_n, bench.marks) = (0, vec![0; 512])), (0, 0, 0));
}

#[test]
fn words_of_a_float_run() {
    let bench = started(64);
    let of = |kind| run_start(&Plan { kind, ..float_plan(1, 3, 1) }, &bench).expect("accepted");
    let (float, integer) = (of(FLOAT).steps, of(PRODUCT).steps);
    // msettypei 2, one row, one column, memulc.mi by 0; then blocks of 2 and 1.
    let words: Vec<u32> = float.iter().map(|step| step.word).collect();
    let block = [0x04B52077, 0x08B520F7, MFMA];
    let mut expected = vec![0x00017077, 0x2000F077, 0x6000F077, 0x40006077];
    expected.extend([&[0x4001F077][..], &block, &[0x4000F077], &block, &[0x02B52077]].concat());
    assert_eq!(words, expected);
    // As the integer run, but for the multiply.
    for (float, integer) in float.iter().zip(&integer) {
        let word = if integer.word == 0x00106077 { MFMA } else { integer.word };
        assert_eq!(*float, Handed { word, ..*integer });
    }
    assert_eq!(float.len(), integer.len());
}

#[test]
fn starts_of_a_float_run() {
    let bench = started(64);
    let good = float_plan(1, 1, 1);
    assert!(run_start(&good, &bench).is_ok());
    for (sew, factor) in [(8, 1), (16, 1), (16, 2), (8, 4), (32, 2), (32, 4), (64, 1), (0, 1)] {
        assert_eq!(run_start(&Plan { sew, factor, ..good }, &bench), Err(8));
    }
    assert_eq!(run_start(&Plan { kind: 3, ..good }, &bench), Err(8));
    assert_eq!(run_start(&Plan { c: 61, ..good }, &bench), Err(6));
    assert_eq!(run_start(&Plan { c: 7, ..good }, &bench), Err(9));
    // A matrix without elements is not placed; the widths are judged all the same.
    assert!(run_start(&Plan { m: 0, c: u64::MAX, ..good }, &bench).is_ok());
    assert_eq!(run_start(&Plan { m: 0, sew: 16, ..good }, &bench), Err(8));
}

/// C of a float run on a machine, word by word, held to the plain sums.
fn float_product(plan: &Plan, memory: &[u8], lengths: Lengths) -> Vec<Vec<i128>> {
    let mut bench = started_as(lengths, 0);
    bench.memory = memory.to_vec();
    let mut run = run_start(plan, &bench).expect("accepted");
    let done = run_turns(u64::MAX, &mut run, &mut bench);
    assert_eq!(done, step_count(plan, &bench.machine));
    let c = elements(plan.placed(C), &bench.memory);
    assert_eq!(c, product(plan, memory), "{lengths:?}");
    c
}

#[test]
fn float_runs_by_hand() {
    const ONE: u32 = 0x3F80_0000;
    let lengths = (64, 256, 32);
    // 2^24 + 1 - 2^24 + 1, blocks of 2: the first 1 is lost, the second is not.
    let terms = [0x4B80_0000, ONE, 0xCB80_0000, ONE, ONE, ONE, ONE, ONE, 0];
    assert_eq!(
        float_product(&float_plan(1, 4, 1), &float_memory(&terms), lengths),
        [[ONE as i128]]
    );
    // A NaN in the first block is one in C.
    let terms = [0xFFFF_FFFF, ONE, ONE, ONE, ONE, ONE, 0];
    assert_eq!(
        float_product(&float_plan(1, 3, 1), &float_memory(&terms), lengths),
        [[0x7FC0_0000]]
    );
    // No term: +0. One that is -0: +0 + -0.
    assert_eq!(float_product(&float_plan(1, 0, 1), &float_memory(&[ONE]), lengths), [[0]]);
    let terms = [0x8000_0000, ONE, ONE];
    assert_eq!(float_product(&float_plan(1, 1, 1), &float_memory(&terms), lengths), [[0]]);
}

/// Products of 5 by 37 by 3: on every machine the same sums, other ones if the terms
/// come the other way round.
#[test]
fn float_runs_do_not_depend_on_the_machine() {
    let plan = float_plan(5, 37, 3);
    for (seed, finite) in [(1, true), (2, true), (3, false), (4, false)] {
        let finite_bits = |bits: &mut u32| *bits = if *bits << 1 < 0xFF00_0000 { *bits } else { 0 };
        let mut bits = some_bits(5 * 37 + 37 * 3, seed);
        if finite {
            bits.iter_mut().for_each(finite_bits);
        }
        let (a, b) = bits.split_at(5 * 37);
        let c = [0; 5 * 3];
        let memory = float_memory(&[a, b, &c].concat());
        let first = float_product(&plan, &memory, (64, 128, 32));
        let all = permitted_lengths().into_iter();
        for lengths in all.filter(|lengths| seed == 3 || lengths.1 <= 4096) {
            assert_eq!(float_product(&plan, &memory, lengths), first);
        }
        let a: Vec<u32> = a.chunks(37).flat_map(|row| row.iter().rev().copied()).collect();
        let b: Vec<u32> = b.chunks(3).rev().flatten().copied().collect();
        let backward = float_memory(&[&a, &b[..], &c].concat());
        assert!(!finite || float_product(&plan, &backward, (64, 128, 32)) != first);
    }
}
