//! Stores in which a byte belongs to two rows (request Seven).

use super::*;

/// The answer to a store, which has to leave everything if it is refused.
fn stored(word: u32, at: (u64, i64), bench: &Bench) -> u64 {
    let (answer, after) = moved(word, at, bench);
    assert!(answer.number == 0 || after == *bench);
    assert!(answer.number == 5 || (answer.row, answer.column) == (0, 0));
    answer.number
}

#[test]
fn stores_with_a_byte_in_two_rows() {
    let bench = three_by_two(16);
    let plain = |stride: i64| stored(MSAE8, (8, stride), &bench);
    assert_eq!([0, 1, -1].map(plain), [13, 13, 13]);
    // Rows that touch, upward and downward, and rows with a gap.
    assert_eq!([2, -2, 3, -3].map(plain), [0, 0, 0, 0]);
    let transposed = |stride: i64| stored(MSATE8, (8, stride), &bench);
    assert_eq!([0, 1, 2, -1, -2].map(transposed), [13, 13, 13, 13, 13]);
    assert_eq!([3, -3, 4, -4].map(transposed), [0, 0, 0, 0]);
    // What a store leaves that touches.
    assert_eq!(moved(MSATE8, (3, -3), &bench).1.memory[..6], [2, 4, 6, 1, 3, 5]);
}

#[test]
fn one_row_or_no_byte_meets_nothing() {
    let strides = [0, 1, -1, i64::MIN, i64::MIN + 1, i64::MAX];
    let mut bench = three_by_two(16);
    bench.machine.tile_m = 1;
    assert_eq!(strides.map(|stride| stored(MSAE8, (8, stride), &bench)), [0; 6]);
    // The same tile in memory's other shape: two rows of one byte.
    assert_eq!(strides.map(|stride| stored(MSATE8, (8, stride), &bench)), [13, 0, 0, 6, 6, 6]);
    bench.machine.tile_k = 0;
    assert_eq!(strides.map(|stride| stored(MSAE8, (8, stride), &bench)), [0; 6]);
    assert_eq!(strides.map(|stride| stored(MSATE8, (8, stride), &bench)), [0; 6]);
}

#[test]
fn rows_that_would_meet_if_addresses_wrapped() {
    // Row 2 of 3 would come round to row 0.
    let bench = three_by_two(16);
    assert_eq!(stored(MSAE8, (8, i64::MIN), &bench), 6);
    // Outside memory, and a byte in two rows: 6 comes first.
    assert_eq!(stored(MSAE8, (15, 0), &bench), 6);
    assert_eq!(stored(MSAE8, (u64::MAX, 0), &bench), 6);
    assert_eq!(stored(MSATE8, (14, 1), &bench), 6);
    assert_eq!(stored(MSATE8, (0, -1), &bench), 6);
}

#[test]
fn a_byte_in_two_rows_among_the_answers() {
    let with = |change: fn(&mut Machine)| {
        let mut bench = three_by_two(16);
        change(&mut bench.machine);
        [MSAE8, MSATE8].map(|word| stored(word, (8, 0), &bench))
    };
    assert_eq!(with(|_| ()), [13, 13]);
    // Before 7: the seal on the first stored byte, and on all of memory.
    assert_eq!(with(|machine| machine.seals = Seals::of(&[(8, 1)])), [13, 13]);
    assert_eq!(with(|machine| machine.seals = Seals::of(&[(0, u64::MAX)])), [13, 13]);
    // After 2, 3 and 8.
    assert_eq!(with(|machine| machine.mtype = MILL), [2, 2]);
    assert_eq!(with(|machine| machine.mtype = 1), [3, 3]);
    assert_eq!(with(|machine| machine.mtype = 3), [8, 8]);
    // After 5, which names the element.
    let mut bench = three_by_two(16);
    bench.marks[17] = 0;
    let at = Answer { number: 5, row: 2, column: 1 };
    assert_eq!([MSAE8, MSATE8].map(|word| moved(word, (8, 0), &bench).0), [at, at]);
    // After 4: SEW 32 with tile_k 3.
    let mut bench = started(64);
    bench.machine = Machine { tile_m: 2, tile_k: 3, mtype: 2, ..bench.machine };
    bench.marks.fill(1);
    assert_eq!([0x06002077, 0x16002077].map(|word| stored(word, (8, 0), &bench)), [4, 4]);
}

/// C at every width that a SEW permits: rows by the width stored, not by SEW.
#[test]
fn stores_of_c_over_themselves() {
    // mtype, the word, bytes of an element.
    let stores = [
        (0, 0x02000077, 1),
        (0, 0x02001077, 2),
        (8, 0x02002077, 4),
        (1, 0x02001077, 2),
        (1, 0x02002077, 4),
        (2, 0x02002077, 4),
    ];
    for (mtype, plain, bytes) in stores {
        let mut bench = started(256);
        bench.machine = Machine { tile_m: 3, tile_n: 2, mtype, ..bench.machine };
        bench.marks.fill(1);
        // Bit 28 makes mscte of it: 2 rows of 3 elements.
        for (word, row) in [(plain, 2 * bytes), (plain | 1 << 28, 3 * bytes)] {
            for (stride, expected) in [(row, 0), (row - 1, 13), (1, 13), (row + 1, 0)] {
                assert_eq!(stored(word, (100, stride), &bench), expected, "{word:#x} {stride}");
                assert_eq!(stored(word, (100, -stride), &bench), expected, "{word:#x} -{stride}");
            }
        }
    }
}

#[test]
fn loads_may_read_a_byte_twice() {
    // A is 3 by 2; all rows at one address, then by one byte.
    let bench = counting(4, [3, 2, 0]);
    let (answer, after) = moved(0x04000077, (1, 0), &bench);
    assert_eq!(answer.number, 0);
    assert_eq!([0, 8, 16].map(|at| after.registers[at..at + 2].to_vec()), [[2, 3], [2, 3], [2, 3]]);
    let (answer, after) = moved(0x14000077, (1, -1), &bench);
    assert_eq!(answer.number, 0);
    // Memory's rows 2 3 4 and 1 2 3 are columns here.
    assert_eq!([0, 8, 16].map(|at| after.registers[at..at + 2].to_vec()), [[2, 1], [3, 2], [4, 3]]);
}

/// A run on a machine that was changed: the store of C meets itself.
#[test]
fn a_turn_that_stores_over_itself() {
    let mut bench = started(64);
    let good = plan(8, 1, 2, 1, 2);
    let mut run = run_start(&good, &bench).expect("accepted");
    run_turns(run.steps.len() as u64 - 1, &mut run, &mut bench);
    bench.machine.tile_n = 3;
    bench.marks.fill(1);
    let before = (run.clone(), bench.clone());
    assert_eq!(run_turn(&mut run, &mut bench).number, 13);
    assert_eq!((&run, &bench), (&before.0, &before.1));
    bench.machine.tile_n = 2;
    assert_eq!(run_turn(&mut run, &mut bench).number, 0);
}
