//! Transposed loads and stores, and runs with A kept transposed (request Two).

use super::sheet::run_product;
use super::*;

#[test]
fn transposed_loads() {
    // A is 3 by 2; in memory it has 2 rows of 3: 1 2 3 and 5 6 7.
    let bench = counting(8, [3, 2, 0]);
    let (answer, after) = moved(0x140000F7, (0, 4), &bench);
    assert_eq!(answer.number, 0);
    let mut expected = bench.clone();
    for (place, value) in [(32, 1), (33, 5), (40, 2), (41, 6), (48, 3), (49, 7)] {
        expected.registers[place] = value;
        expected.marks[place] = 1;
    }
    assert_eq!(after, expected);

    // B is 2 by 3 of 16 bits; in memory it has 3 rows of 2, downward: 9 10 11 12,
    // 5 6 7 8, 1 2 3 4.
    let mut bench = counting(12, [0, 2, 3]);
    bench.machine.mtype = 1;
    let (answer, after) = moved(0x18001077, (8, -4), &bench);
    assert_eq!(answer.number, 0);
    assert_eq!(after.registers[..6], [9, 10, 5, 6, 1, 2]);
    assert_eq!(after.registers[8..14], [11, 12, 7, 8, 3, 4]);
    assert_eq!(after.marks.iter().filter(|&&mark| mark == 1).count(), 12);

    // C is 2 by 3 at 16 bits; in memory it has 3 rows of 2 which overlap: 1 2 3 4,
    // 3 4 5 6, 5 6 7 8.
    let bench = counting(8, [2, 0, 3]);
    let (answer, after) = moved(0x10001077, (0, 2), &bench);
    assert_eq!(answer.number, 0);
    assert_eq!(after.registers[256..262], [1, 2, 3, 4, 5, 6]);
    assert_eq!(after.registers[288..294], [3, 4, 5, 6, 7, 8]);
}

#[test]
fn transposed_stores() {
    let bench = three_by_two(8);
    let (answer, after) = moved(MSATE8, (1, 4), &bench);
    assert_eq!(answer.number, 0);
    assert_eq!(after.memory, [0, 1, 3, 5, 0, 2, 4, 6]);
    let (_, after) = moved(MSATE8, (4, -4), &bench);
    assert_eq!(after.memory, [2, 4, 6, 0, 1, 3, 5, 0]);
    // One byte past the end, and one before address 0; 2 rows of 3, not 3 of 2.
    assert_eq!(moved(MSATE8, (2, 4), &bench).0.number, 6);
    assert_eq!(moved(MSATE8, (3, -4), &bench).0.number, 6);
    assert_eq!(moved(MSATE8, (0, 5), &bench).0.number, 0);
    assert_eq!(moved(MSATE8, (0, 6), &bench).0.number, 6);
    assert_eq!(moved(MSATE8, (5, i64::MIN), &bench).0.number, 6);
    // The seal on one byte, and between the rows.
    let sealed = |start| {
        let machine = Machine { seals: Seals::of(&[(start, 1)]), ..bench.machine };
        let sealed = Bench { machine, ..bench.clone() };
        let (answer, after) = moved(MSATE8, (1, 4), &sealed);
        assert!(answer.number == 0 || after == sealed);
        answer.number
    };
    assert_eq!([0, 1, 2, 3, 4, 5, 6, 7].map(sealed), [0, 7, 7, 7, 0, 7, 7, 7]);
}

#[test]
fn unwritten_elements_of_a_transposed_store() {
    // (0, 1) comes before (1, 0) in the register, not in memory.
    let mut bench = three_by_two(0);
    bench.marks[8] = 0;
    bench.marks[1] = 0;
    let at = |row, column| Answer { number: 5, row, column };
    assert_eq!(moved(0x16000077, (0, 1), &bench).0, at(0, 1));
    bench.marks[1] = 1;
    assert_eq!(moved(0x16000077, (0, 1), &bench).0, at(1, 0));
    // No element: nothing to read, no address to check.
    for [tile_m, tile_k] in [[0, 2], [3, 0]] {
        bench.machine = Machine { tile_m, tile_k, ..bench.machine };
        let (answer, after) = moved(0x16000077, (u64::MAX, i64::MIN), &bench);
        assert_eq!((answer.number, after), (0, bench.clone()));
    }
}

#[test]
fn sizes_of_transposed_words() {
    // tile_n 5 at SEW 16, where its maximum is 4: B and C use it, A doesn't.
    let mut bench = counting(100, [1, 1, 5]);
    bench.machine.mtype = 1;
    assert_eq!(moved(0x14001077, (0, 8), &bench).0.number, 0);
    assert_eq!(moved(0x18001077, (0, 8), &bench).0.number, 4);
    assert_eq!(moved(0x10001077, (0, 8), &bench).0.number, 4);
    bench.machine.mtype = MILL;
    assert_eq!(moved(0x14001077, (0, 8), &bench).0.number, 2);
}

/// Request Two's theorem on one tile: a plain load, then the transposed store.
#[test]
fn plain_load_then_transposed_store() {
    // B is 2 by 3: 1 2 3 / 4 5 6 at stride 3; stored as 3 rows of 2 at 7, stride 3.
    let bench = counting(16, [0, 2, 3]);
    let (answer, loaded) = moved(0x08000077, (0, 3), &bench);
    assert_eq!(answer.number, 0);
    let (answer, stored) = moved(0x1A000077, (7, 3), &loaded);
    assert_eq!(answer.number, 0);
    assert_eq!(stored.memory, [1, 2, 3, 4, 5, 6, 7, 1, 4, 10, 2, 5, 13, 3, 6, 16]);
}

#[test]
fn product_with_a_transposed() {
    // The example's A by columns: 1 -4 / 2 5 / 3 -6.
    let kept = transposed_plan(8, 4, 2, 3, 2);
    let (done, c) = run_product(&kept, &[1, -4, 2, 5, 3, -6], &[7, 8, 9, 10, 11, 12]);
    assert_eq!(done, 9);
    assert_eq!(c, [[58, 64], [-49, -54]]);
    // 5 by 5 by 1: blocks of 4 and 1 in rows and in terms.
    let a: Vec<i128> = (1..=25).collect();
    let (done, c) = run_product(&transposed_plan(16, 2, 5, 5, 1), &a, &[1, 10, 100, 1000, 10000]);
    assert_eq!(done, 1 + 2 * (1 + 1 * (3 + 4 * 2)));
    // Column i of A's memory, 1 + i, 6 + i, .., 21 + i.
    assert_eq!(c, [[227161], [238272], [249383], [260494], [271605]]);
}

#[test]
fn words_with_a_transposed() {
    let bench = started(64);
    let kept = Plan { a: 7, a_stride: 5, b: 40, c: 50, ..transposed_plan(8, 1, 5, 5, 1) };
    let run = run_start(&kept, &bench).expect("accepted");
    // mlate8.m to tr0 from x10 with x11: A(0, 0), A(0, 4), A(4, 0), A(4, 4).
    let loads: Vec<_> = run.steps.iter().filter(|step| step.word == 0x14B50077).collect();
    let addresses: Vec<u64> = loads.iter().map(|step| step.scalar_10).collect();
    assert_eq!(addresses, [7, 27, 11, 31]);
    assert!(loads.iter().all(|step| step.scalar_11 == 5));
    assert!(run.steps.iter().all(|step| step.word != 0x04B50077));
}

#[test]
fn starts_with_a_transposed() {
    let bench = started(64);
    // A is 1 by 3: three rows of one byte in memory, at 40, 50 and 60.
    let kept = Plan { a: 40, a_stride: 10, b: 0, c: 20, ..transposed_plan(8, 1, 1, 3, 1) };
    assert!(run_start(&kept, &bench).is_ok());
    assert!(run_start(&Plan { a: 43, ..kept }, &bench).is_ok());
    assert_eq!(run_start(&Plan { a: 44, ..kept }, &bench), Err(6));
    assert!(run_start(&Plan { kind: PRODUCT, a: 44, ..kept }, &bench).is_ok());
    assert_eq!(run_start(&Plan { c: 50, ..kept }, &bench), Err(9));
    assert!(run_start(&Plan { c: 41, ..kept }, &bench).is_ok());
    assert_eq!(run_start(&Plan { kind: PRODUCT, c: 41, ..kept }, &bench), Err(9));
    for kind in [3, 4, 1 << 32, u64::MAX] {
        assert_eq!(run_start(&Plan { kind, ..kept }, &bench), Err(8));
    }
}
