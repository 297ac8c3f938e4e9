//! What a refusal leaves, the element that answer 5 names, what is not read, and the reasons
//! of answer 9.

use super::*;

#[test]
fn seals_and_refused_stores() {
    let mut bench = started(32);
    let mut scalars = vec![0; 32];
    bench.marks.fill(1);
    bench.machine.tile_m = 4;
    bench.machine.tile_n = 8;
    bench.machine.seals = Seals::of(&[(31, 1)]);
    scalars[2] = 8;
    let before = bench.clone();
    assert_eq!(number(assemble("msce8.m", &[("rs2", 2)]), &mut bench, &mut scalars), 7);
    assert_eq!(bench, before);
    assert_eq!(number(assemble("mlce8.m", &[("rs2", 2)]), &mut bench, &mut scalars), 0);
    // A seal's end may not exceed 2^64 - 1.
    bench.machine.seals = Seals::of(&[(u64::MAX, 1)]);
    assert_eq!(number(0x000472F7, &mut bench, &mut scalars), 8);
    bench.machine.seals = Seals::of(&[(u64::MAX, 0)]);
    assert_eq!(number(0x000472F7, &mut bench, &mut scalars), 0);
}

#[test]
fn first_element_without_a_mark() {
    let mut bench = started(0);
    let mut scalars = vec![0; 32];
    bench.marks.fill(1);
    bench.machine = Machine { tile_m: 4, tile_k: 4, tile_n: 4, mtype: 1, ..bench.machine };
    let multiply = assemble("mwma.mm", &[("ms1", 0), ("ms2", 1), ("md", 1)]);
    // Row 2, column 3 of md; then row 1, column 0 of ms2, which comes before.
    let acc1 = 256 + 128;
    bench.marks[acc1 + 2 * 32 + 3 * 4 + 1] = 0;
    let at = |row, column| Answer { number: 5, row, column };
    assert_eq!(step(multiply, &mut bench, &mut scalars), at(2, 3));
    bench.marks[32 + 8] = 0;
    assert_eq!(step(multiply, &mut bench, &mut scalars), at(1, 0));
    // Nothing is read where C has no element.
    bench.machine.tile_n = 0;
    assert_eq!(number(multiply, &mut bench, &mut scalars), 0);
}

#[test]
fn multiplier_0_reads_nothing() {
    let mut bench = started(0);
    let mut scalars = vec![0; 32];
    bench.machine.tile_m = 1;
    bench.machine.tile_n = 2;
    let by_scalar = assemble("mwemulc.mx", &[("rs2", 4), ("ms1", 1)]);
    scalars[4] = 0x101;
    assert_eq!(number(by_scalar, &mut bench, &mut scalars), 5);
    scalars[4] = 0x100;
    assert_eq!(number(by_scalar, &mut bench, &mut scalars), 0);
    assert_eq!(bench.registers[256..261], [0, 0, 0, 0, 0xA5]);
    assert_eq!(bench.marks[256..261], [1, 1, 1, 1, 0]);
    assert_eq!(bench.marks[..256], [0; 256]);
}

#[test]
fn sources_are_read_before_md_changes() {
    let mut bench = started(0);
    let mut scalars = vec![0; 32];
    bench.marks.fill(1);
    bench.machine.tile_m = 1;
    bench.machine.tile_n = 3;
    bench.registers[256..262].copy_from_slice(&[0x80, 2, 3, 4, 5, 6]);
    // md and ms1 acc0, output twice SEW: 0x0280, 0x0403, 0x0605 + -128, 2, 3.
    assert_eq!(number(assemble("mwaddc.mm", &[]), &mut bench, &mut scalars), 0);
    assert_eq!(bench.registers[256..262], [0x00, 0x02, 0x05, 0x04, 0x08, 0x06]);
}

#[test]
fn reasons_of_answer_9() {
    let bench = started(256);
    let good = Plan {
        kind: PRODUCT,
        sew: 8,
        factor: 1,
        m: 2,
        k: 2,
        n: 2,
        a: 0,
        a_stride: 8,
        b: 32,
        b_stride: 8,
        c: 2,
        c_stride: 8,
    };
    // C's rows in A's gaps are accepted, and A over B.
    assert!(run_start(&good, &bench).is_ok());
    assert!(run_start(&Plan { b: 0, ..good }, &bench).is_ok());
    assert_eq!(run_start(&Plan { c: 1, ..good }, &bench), Err(9));
    assert_eq!(run_start(&Plan { c: 33, ..good }, &bench), Err(9));
    assert_eq!(run_start(&Plan { c: 64, c_stride: 1, ..good }, &bench), Err(9));
    assert!(run_start(&Plan { c: 64, c_stride: 0, m: 1, ..good }, &bench).is_ok());
    let mut sealed = bench.clone();
    sealed.machine.seals = Seals::of(&[(11, 1)]);
    assert_eq!(run_start(&good, &sealed), Err(9));
    sealed.machine.seals = Seals::of(&[(12, 1)]);
    assert!(run_start(&good, &sealed).is_ok());
}
