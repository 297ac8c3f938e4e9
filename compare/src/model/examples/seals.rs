//! Several sealed ranges (request Twelve), by hand: starts, stores, runs, and images of
//! version 4.

use super::images::place;
use super::*;
use crate::images::{completed, groups, image, parts};

const LENGTHS: Lengths = (64, 256, 32);
const TOP: u64 = u64::MAX;

/// A machine with these ranges, every register byte marked, its C tile of 2 rows of 3
/// bytes, and 32 bytes of memory.
fn with(list: &[Seal]) -> Bench {
    let registers: Vec<u8> = (0..512).map(|at| at as u8 | 1).collect();
    let numbers: Vec<u64> = list.iter().flat_map(|&(start, length)| [start, length]).collect();
    let mut marks = vec![0; 512];
    let machine = start(LENGTHS, SMALLER, &numbers, &registers, &mut marks).expect("a good start");
    let machine = Machine { tile_m: 2, tile_n: 3, ..machine };
    Bench { machine, registers, marks: vec![1; 512], memory: vec![0; 32] }
}

/// msce8.m of acc0 at byte 8, its rows 8 bytes apart: bytes 8 to 10 and 16 to 18.
fn stored(bench: &Bench) -> (u64, Bench) {
    let mut after = bench.clone();
    let mut scalars = [0; 32];
    (scalars[1], scalars[2]) = (8, 8);
    let word = assemble("msce8.m", &[("rs1", 1), ("rs2", 2)]);
    let number = step(word, &mut after, &mut scalars).number;
    (number, after)
}

fn started(numbers: &[u64]) -> Result<Machine, u64> {
    start(LENGTHS, SMALLER, numbers, &[0; 512], &mut [0; 512])
}

#[test]
fn starts_with_none_to_eight_ranges() {
    for count in 0..20 {
        let numbers: Vec<u64> = (0..2 * count).collect();
        match started(&numbers) {
            Ok(machine) => {
                assert!(count <= 8);
                assert_eq!(machine.seals.number, count);
                let list: Vec<Seal> = (0..count).map(|at| (2 * at, 2 * at + 1)).collect();
                assert_eq!(machine.seals.list(), list);
            }
            Err(number) => assert!(count > 8 && number == 16),
        }
        // One number more is no range.
        assert_eq!(started(&[&numbers[..], &[0]].concat()), Err(8));
    }
}

#[test]
fn at_a_start_8_comes_before_16() {
    for count in 1..20 {
        for at in 0..count {
            let mut numbers = vec![0; 2 * count];
            (numbers[2 * at], numbers[2 * at + 1]) = (TOP, 1);
            assert_eq!(started(&numbers), Err(8));
            numbers[2 * at + 1] = 0;
            assert_eq!(started(&numbers).err(), (count > 8).then_some(16));
        }
    }
    let many = vec![0; 18];
    assert_eq!(start((64, 64, 32), SMALLER, &many, &[0; 512], &mut [0; 512]), Err(8));
    assert_eq!(start(LENGTHS, 2, &many, &[0; 512], &mut [0; 512]), Err(8));
    assert_eq!(start(LENGTHS, SMALLER, &many, &[0; 511], &mut [0; 512]), Err(8));
    let mut marks = [7; 512];
    assert_eq!(start(LENGTHS, SMALLER, &many, &[0; 512], &mut marks), Err(16));
    assert_eq!(marks, [7; 512]);
}

#[test]
fn a_byte_is_sealed_if_some_range_has_it() {
    // Bytes 8 to 10 and 16 to 18 are written; each range in each of eight places.
    for place in 0..8 {
        let number = |range: Seal| {
            let mut list = [(30, 1); 8];
            list[place] = range;
            let bench = with(&list);
            let (number, after) = stored(&bench);
            assert!(number == 0 || after == bench);
            number
        };
        for (range, expected) in [
            ((8, 1), 7),
            ((7, 1), 0),
            ((7, 2), 7),
            ((10, 1), 7),
            ((11, 5), 0),
            ((11, 6), 7),
            ((16, 1), 7),
            ((18, 1), 7),
            ((19, 13), 0),
            ((18, TOP - 18), 7),
            ((19, TOP - 19), 0),
            ((0, TOP), 7),
            ((9, 0), 0),
            ((TOP, 0), 0),
        ] {
            assert_eq!(number(range), expected, "{range:?} at {place}");
        }
    }
    // Over each other, and side by side.
    assert_eq!(stored(&with(&[(0, 8), (4, 4)])).0, 0);
    assert_eq!(stored(&with(&[(0, 8), (4, 5)])).0, 7);
    assert_eq!(stored(&with(&[(11, 5), (11, 5), (12, 0)])).0, 0);
    assert_eq!(stored(&with(&[])).0, 0);
}

#[test]
fn ranges_are_added_behind_the_others() {
    let mut bench = with(&[]);
    for count in 0..8 {
        assert_eq!(bench.machine.seals.number, count);
        let before = bench.clone();
        assert_eq!(seal((TOP, 1), &mut bench), 8);
        assert_eq!(bench, before);
        assert_eq!(seal((20 + count, count % 2), &mut bench), 0);
        let list: Vec<Seal> = (0..=count).map(|at| (20 + at, at % 2)).collect();
        let machine = Machine { seals: Seals::of(&list), ..before.machine };
        assert_eq!(bench, Bench { machine, ..before });
    }
    // The ninth gets 16, but 8 comes first: of a range, and of a state.
    let full = bench.clone();
    assert_eq!(seal((0, 0), &mut bench), 16);
    assert_eq!(seal((1, TOP), &mut bench), 8);
    assert_eq!(seal((0, TOP), &mut bench), 16);
    assert_eq!(bench, full);
    bench.marks[511] = 2;
    assert_eq!(seal((0, 0), &mut bench), 8);
}

#[test]
fn states_at_fault() {
    let numbers = |seals: Seals| {
        let machine = Machine { seals, ..with(&[(0, 1)]).machine };
        let mut bench = Bench { machine, ..with(&[]) };
        let at_fault = state_at_fault(&bench);
        assert_eq!(image(&bench).is_none(), at_fault);
        assert_eq!(stored(&bench).0 == 8, at_fault);
        assert_eq!(seal((0, 0), &mut bench) == 8, at_fault);
        at_fault
    };
    let eight = Seals::of(&[(1, 1); 8]);
    assert!(!numbers(eight));
    assert!(numbers(Seals { number: 9, ..eight }));
    assert!(numbers(Seals { number: TOP, ..eight }));
    assert!(numbers(Seals { number: 7, ..eight }));
    assert!(!numbers(Seals::default()));
    for slot in 0..8 {
        for (range, number) in [((1, 0), slot), ((0, 1), slot), ((TOP, 1), slot + 1)] {
            let mut seals = Seals { number: number as u64, ..Seals::default() };
            assert!(!numbers(seals));
            seals.ranges[slot] = range;
            assert!(numbers(seals));
        }
    }
}

#[test]
fn a_range_added_during_a_run() {
    let plan = Plan {
        kind: PRODUCT,
        sew: 8,
        factor: 1,
        m: 2,
        k: 1,
        n: 1,
        a: 0,
        a_stride: 1,
        b: 2,
        b_stride: 1,
        c: 8,
        c_stride: 8,
    };
    // Answer 9 by each of eight ranges, byte 16 is C's.
    for at in 0..8 {
        let mut list = [(9, 7); 8];
        list[at] = (16, 1);
        assert_eq!(run_start(&plan, &with(&list)), Err(9));
        list[at] = (17, 1);
        assert!(run_start(&plan, &with(&list)).is_ok());
    }
    let mut bench = with(&[]);
    bench.memory[..3].copy_from_slice(&[3, 4, 5]);
    let mut run = run_start(&plan, &bench).expect("a good plan");
    // msettypei, msettilemi, msettileni, the clear, msettileki, two loads, the multiply.
    assert_eq!(run_turns(8, &mut run, &mut bench), 8);
    let mut free = (run.clone(), bench.clone());
    assert_eq!(run_turn(&mut free.0, &mut free.1).number, 0);
    assert_eq!([free.1.memory[8], free.1.memory[16]], [15, 20]);
    assert_eq!(seal((16, 1), &mut bench), 0);
    let held = (run.clone(), bench.clone());
    assert_eq!(run_turn(&mut run, &mut bench).number, 7);
    assert_eq!(run_turns(3, &mut run, &mut bench), 0);
    assert_eq!((run, bench), held);
}

#[test]
fn version_4_byte_by_byte() {
    // 4, the rule, ELEN 32 is 2^5, RLEN 64 is 2^6, MLEN 256 is 2^8, mtype, m, k, n; no
    // range, no run.
    let mut bench = with(&[]);
    bench.marks.fill(0);
    assert_eq!(image(&bench).unwrap(), [4, 0, 5, 6, 8, 0, 2, 0, 3, 0, 0]);
    bench.machine.rule = HALVING;
    // Two ranges: 128 and 7, 2 and 0; one run of byte 3.
    bench.machine.seals = Seals::of(&[(128, 7), (2, 0)]);
    bench.marks[3] = 1;
    let by_hand = [4, 1, 5, 6, 8, 0, 2, 0, 3, 2, 0x80, 1, 7, 2, 0, 1, 3, 1, 3];
    assert_eq!(image(&bench).unwrap(), by_hand);
    assert_eq!(parts(&by_hand).unwrap().machine, bench.machine);
    // One range: the version without a number.
    bench.machine.seals = Seals::of(&[(128, 7)]);
    assert_eq!(image(&bench).unwrap()[..5], [2, 1, 6, 8, 0]);
    let machine = Machine { seals: Seals::of(&[]), ..Machine::of((4096, 65536, 64), SMALLER) };
    let largest = Bench { machine, registers: vec![0; 131_072], marks: vec![0; 131_072], ..bench };
    assert_eq!(image(&largest).unwrap(), [4, 0, 6, 12, 16, 0, 0, 0, 0, 0, 0]);
}

#[test]
fn places_in_version_4() {
    assert_eq!(place(&[4]), 1);
    assert_eq!(place(&[4, 2]), 1);
    assert_eq!(place(&[4, 0, 4]), 2);
    assert_eq!(place(&[4, 0, 7]), 2);
    assert_eq!(place(&[4, 0, 5, 5]), 3);
    assert_eq!(place(&[4, 0, 6, 6]), 3);
    assert_eq!(place(&[4, 0, 5, 13]), 3);
    // Every permitted machine, the old ones too.
    for rlen in 6..=12 {
        (0..=rlen).for_each(|mlen| assert_eq!(place(&[4, 0, 5, rlen, mlen]), 4));
        (rlen + 1..=16).for_each(|mlen| assert_eq!(place(&[4, 1, 5, rlen, mlen]), 5));
        assert_eq!(place(&[4, 0, 5, rlen, 17]), 4);
    }
    let front = [4, 0, 5, 6, 8, 0, 0, 0, 0];
    let place = |rest: &[u8]| place(&[&front, rest].concat()) - front.len();
    // None or two to eight ranges, each number a group.
    assert_eq!(place(&[]), 0);
    for number in (0..=255).filter(|number| ![0, 2, 3, 4, 5, 6, 7, 8].contains(number)) {
        assert_eq!(place(&[number]), 0);
        assert_eq!(place(&[number, 0, 0, 0]), 0);
    }
    (2..=8).for_each(|number| assert_eq!(place(&[number]), 1));
    assert_eq!(place(&[2, 0, 0, 0]), 4);
    assert_eq!(place(&[2, 0, 0, 0, 0]), 5);
    assert_eq!(place(&[2, 0, 0, 0, 0, 0, 9]), 6);
    // The second range ends at 2^64 - 1 at the most, whatever the first.
    let start = groups(TOP - 2);
    let second = |length: u8| place(&[&[2, 9, 9], &start[..], &[length]].concat());
    assert_eq!([0, 1, 2, 3, 0x80].map(second), [14, 14, 14, 13, 13]);
    // What goes on from each place.
    for number in [0, 2, 5, 8] {
        let whole = completed(&[&front[..], &[number]].concat()).expect("a sound beginning");
        assert_eq!(parts(&whole).unwrap().machine.seals, Seals::of(&vec![(0, 0); number as usize]));
    }
}

#[test]
fn machines_that_differ_have_other_images() {
    let lists: [&[Seal]; 10] = [
        &[],
        &[(0, 0)],
        &[(0, 0), (0, 0)],
        &[(0, 0), (0, 1)],
        &[(0, 1), (0, 0)],
        &[(1, 0), (0, 0)],
        &[(0, 0), (0, 0), (0, 0)],
        &[(2, 3), (4, 5)],
        &[(4, 5), (2, 3)],
        &[(0, 0); 8],
    ];
    let images: Vec<_> = lists.iter().map(|list| image(&with(list)).unwrap()).collect();
    for (at, image) in images.iter().enumerate() {
        assert_eq!(parts(image).unwrap().machine.seals, Seals::of(lists[at]));
        assert!(images[..at].iter().all(|other| other != image));
    }
}
