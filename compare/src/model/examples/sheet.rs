//! Document 01, "Bench sheet", and the example of the program `product`.

use super::*;
use crate::Matrix::*;

#[test]
fn maxima() {
    let machine = started(0).machine;
    let maxima = |sew| [Size::M, Size::K, Size::N].map(|size| maximum(&machine, size, sew));
    assert_eq!(maxima(8), [4, 4, 8]);
    assert_eq!(maxima(16), [4, 4, 4]);
    assert_eq!(maxima(32), [4, 2, 2]);
}

#[test]
fn setting_words() {
    let mut scalars = vec![7; 32];
    let mut bench = started(0);
    assert_eq!(number(0x000472F7, &mut bench, &mut scalars), 0);
    assert_eq!((bench.machine.mtype, scalars[5]), (8, 8));

    let mut bench = started(0);
    scalars[10] = 16;
    assert_eq!(number(0x100572F7, &mut bench, &mut scalars), 0);
    assert_eq!((bench.machine.mtype, scalars[5]), (MILL, MILL));

    let mut bench = started(0);
    assert_eq!(number(0x2003F077, &mut bench, &mut scalars), 0);
    assert_eq!((bench.machine.tile_m, scalars[0]), (4, 7));

    let mut bench = started(0);
    assert_eq!(number(0x4001F377, &mut bench, &mut scalars), 0);
    assert_eq!((bench.machine.tile_k, scalars[6]), (3, 3));
}

/// Runs A times B, given by rows of memory, on MLEN 256 / RLEN 64: turns
/// answered 0, C.
pub fn run_product(plan: &Plan, a: &[i128], b: &[i128]) -> (u64, Vec<Vec<i128>>) {
    let mut bench = started(4096);
    for (matrix, values) in [(A, a), (B, b)] {
        let placed = plan.placed(matrix);
        for (at, &value) in values.iter().enumerate() {
            let (i, j) = (at as i128 / placed.columns, at as i128 % placed.columns);
            let first = placed.element(i, j) as usize;
            put(value, &mut bench.memory[first..first + placed.width as usize / 8]);
        }
    }
    let expected = product(plan, &bench.memory);
    let mut run = run_start(plan, &bench).expect("an accepted plan");
    assert_eq!(run.steps.len() as u64, step_count(plan, &bench.machine));
    let done = run_turns(u64::MAX, &mut run, &mut bench);
    let before = bench.clone();
    assert_eq!(run_turn(&mut run, &mut bench).number, 8);
    assert_eq!(bench, before);
    let c = elements(plan.placed(C), &bench.memory);
    assert_eq!(c, expected);
    (done, c)
}

#[test]
fn sums_of_products() {
    let (_, c) = run_product(&plan(8, 1, 1, 1, 1), &[100], &[100]);
    assert_eq!(c, [[16]]);
    let (_, c) = run_product(&plan(8, 2, 1, 1, 1), &[100], &[100]);
    assert_eq!(c, [[10000]]);
    let (_, c) = run_product(&plan(8, 2, 1, 2, 1), &[-128, -128], &[-128, -128]);
    assert_eq!(c, [[-32768]]);
    let (_, c) = run_product(&plan(8, 4, 1, 2, 1), &[-128, -128], &[-128, -128]);
    assert_eq!(c, [[32768]]);
}

#[test]
fn step_counts() {
    let machine = started(0).machine;
    assert_eq!(step_count(&plan(16, 1, 7, 8, 14), &machine), 91);
    assert_eq!(step_count(&plan(8, 1, 7, 8, 14), &machine), 47);
    assert_eq!(step_count(&plan(8, 1, 0, 8, 14), &machine), 1);
    assert_eq!(run_product(&plan(8, 1, 1, 0, 1), &[], &[]), (5, vec![vec![0]]));
}

#[test]
fn product_example() {
    let (done, c) =
        run_product(&plan(8, 4, 2, 3, 2), &[1, 2, 3, -4, 5, -6], &[7, 8, 9, 10, 11, 12]);
    assert_eq!(done, 9);
    assert_eq!(c, [[58, 64], [-49, -54]]);
}

#[test]
fn size_above_a_maximum_after_a_change_of_sew() {
    let mut bench = started(4096);
    let mut scalars = vec![0; 32];
    for word in [assemble("msettileni", &[("mleni", 8)]), assemble("msettypei", &[("mtypei", 1)])] {
        assert_eq!(number(word, &mut bench, &mut scalars), 0);
    }
    assert_eq!(number(assemble("mlbe16.m", &[]), &mut bench, &mut scalars), 4);
}

#[test]
fn size_1024_is_run() {
    let mut bench = started(4 * 1024 * 1024);
    for (m, k, n) in [(1024, 1, 1), (1, 1024, 1), (1, 1, 1024)] {
        assert!(run_start(&plan(8, 4, m, k, n), &bench).is_ok());
        let one_more = |size: u64| if size == 1024 { 1025 } else { size };
        let above = plan(8, 4, one_more(m), one_more(k), one_more(n));
        assert_eq!(run_start(&above, &bench), Err(8));
    }
    let mut run = run_start(&plan(8, 1, 1024, 1, 1), &bench).expect("accepted");
    assert_eq!(run_turns(u64::MAX, &mut run, &mut bench), 1 + 256 * (1 + 7));
}

#[test]
fn ends_of_memory() {
    let mut scalars = vec![0; 32];
    let store = assemble("msce8.m", &[("rs1", 1), ("rs2", 2)]);
    let load = assemble("mlce8.m", &[("rs1", 1), ("rs2", 2)]);
    let mut bench = started(32);
    bench.marks.fill(1);
    bench.machine.tile_m = 4;
    bench.machine.tile_n = 8;
    // The last byte at the end of memory; one further.
    scalars[2] = 8;
    assert_eq!(number(store, &mut bench, &mut scalars), 0);
    scalars[1] = 1;
    assert_eq!(number(store, &mut bench, &mut scalars), 6);
    // Downward from a good address; a row that would start at -1.
    scalars[2] = -8i64 as u64;
    scalars[1] = 24;
    assert_eq!(number(load, &mut bench, &mut scalars), 0);
    scalars[1] = 23;
    assert_eq!(number(load, &mut bench, &mut scalars), 6);
    // A tile with no element has no address to check.
    bench.machine.tile_m = 0;
    scalars[1] = u64::MAX;
    assert_eq!(number(store, &mut bench, &mut scalars), 0);
}
