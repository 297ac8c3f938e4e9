//! The two rules of request Eight: sizes, unknown rules, and runs by either.

use super::*;
use crate::Matrix::*;

/// The three constraints of document 001, and what our two rules choose among them.
#[test]
fn granted_sizes() {
    for maximum in [1, 2, 3, 4, 8, 16, 64] {
        for asked in (0..4 * maximum + 3).chain([1 << 32, u64::MAX as i128]) {
            for rule in RULES {
                let size = granted(rule, asked, maximum);
                if asked <= maximum {
                    assert_eq!(size, asked);
                } else if asked < 2 * maximum {
                    assert!(asked <= 2 * size && size <= maximum);
                    let half = asked / 2 + asked % 2;
                    assert_eq!(size, if rule == HALVING { half } else { maximum });
                } else {
                    assert_eq!(size, maximum);
                }
            }
        }
    }
    // One above the maximum, and one below twice it; odd and even.
    let sizes = |asked: &[i128]| asked.iter().map(|&n| granted(HALVING, n, 8)).collect::<Vec<_>>();
    assert_eq!(sizes(&[7, 8, 9, 10, 11, 14, 15, 16, 17]), [7, 8, 5, 5, 6, 7, 8, 8, 8]);
}

/// What a setting of tile_n leaves on a halving machine of MLEN 256 and RLEN 64.
fn halved(name: &str, operands: &[(&str, u32)], bench: &mut Bench, scalar_9: u64) -> [u64; 2] {
    let mut scalars = vec![0; 32];
    scalars[9] = scalar_9;
    assert_eq!(number(assemble(name, operands), bench, &mut scalars), 0);
    [bench.machine.tile_n, scalars[3]]
}

#[test]
fn settings_by_the_halving_rule() {
    let mut bench = started_by(HALVING, (64, 256, 32), 0);
    // The maximum of n is 8.
    for (asked, size) in [(8, 8), (9, 5), (10, 5), (15, 8), (16, 8), (17, 8), (0, 0), (5, 5)] {
        let by_immediate = [("mleni", asked), ("rd", 3)];
        assert_eq!(halved("msettileni", &by_immediate, &mut bench, 0), [size, size]);
        let by_scalar = [("rs1", 9), ("rd", 3)];
        assert_eq!(halved("msettilen", &by_scalar, &mut bench, asked as u64), [size, size]);
        assert_eq!(halved("msettilen", &[("rs1", 9)], &mut bench, asked as u64), [size, 0]);
    }
    for asked in [u64::MAX, 1 << 63, 8191] {
        assert_eq!(halved("msettilen", &[("rs1", 9)], &mut bench, asked), [8, 0]);
    }
    // The maximum is asked for, and given.
    bench.machine.tile_n = 3;
    assert_eq!(halved("msettilen", &[("rd", 3)], &mut bench, 0), [8, 8]);
    // m and k: 5 and 6 of at most 4.
    let mut scalars = vec![0; 32];
    for (name, asked) in [("msettilemi", 5), ("msettileki", 6)] {
        assert_eq!(number(assemble(name, &[("mleni", asked)]), &mut bench, &mut scalars), 0);
    }
    assert_eq!((bench.machine.tile_m, bench.machine.tile_k), (3, 3));
}

#[test]
fn both_x0_on_a_halving_machine() {
    // The maximum at SEW 16 is 4: 5, 6 and 7 lie between it and twice it.
    for (before, after) in [(3, 3), (4, 4), (5, 4), (6, 4), (7, 4), (8, 4)] {
        let mut bench = started_by(HALVING, (64, 256, 32), 0);
        bench.machine = Machine { mtype: 1, tile_n: before, ..bench.machine };
        assert_eq!(halved("msettilen", &[], &mut bench, 0), [after, 0]);
        // The same number asked for is halved.
        bench.machine.tile_n = 0;
        let asked = granted(HALVING, before as i128, 4) as u64;
        assert_eq!(halved("msettilen", &[("rs1", 9)], &mut bench, before), [asked, 0]);
    }
}

#[test]
fn rules_that_are_unknown() {
    for rule in [2, 3, 256, 1 << 32, (1 << 63) + 1, u64::MAX] {
        let (registers, mut marks) = (vec![0; 512], vec![1; 512]);
        assert_eq!(start((64, 256, 32), rule, &[0, 0], &registers, &mut marks), Err(8));
        assert_eq!(marks, [1; 512]);
        let mut bench = started(64);
        let good = plan(8, 1, 1, 1, 1);
        let mut run = run_start(&good, &bench).expect("accepted");
        bench.machine.rule = rule;
        let before = bench.clone();
        // 8 comes before a wrong opcode.
        assert_eq!(number(0x000472F7, &mut bench, &mut [0; 32]), 8);
        assert_eq!(number(0, &mut bench, &mut [0; 32]), 8);
        assert_eq!(run_start(&good, &bench), Err(8));
        assert_eq!(run_turn(&mut run, &mut bench).number, 8);
        assert_eq!((bench, run.place), (before, 0));
    }
}

#[test]
fn blocks_by_either_rule() {
    assert_eq!(block_starts(7, 4, SMALLER), [0, 4]);
    assert_eq!(block_starts(7, 4, HALVING), [0, 4]);
    assert_eq!(block_starts(5, 4, HALVING), [0, 3]);
    assert_eq!(block_starts(9, 4, SMALLER), [0, 4, 8]);
    assert_eq!(block_starts(9, 4, HALVING), [0, 4, 7]);
    assert_eq!(block_starts(14, 8, HALVING), [0, 7]);
    assert_eq!(block_starts(0, 8, HALVING), []);
    // The count is that of the formula, and no block is larger than the maximum.
    for maximum in [2, 4, 8, 16, 32, 64] {
        for total in 0..=1024 {
            for rule in RULES {
                let starts = block_starts(total, maximum, rule);
                assert_eq!(starts.len() as i128, (total + maximum - 1) / maximum);
                let ends = starts.iter().skip(1).chain([&total]);
                assert!(starts.iter().zip(ends).all(|(start, end)| end - start <= maximum));
            }
        }
    }
}

/// A run of a plan by a rule, its memory filled by a seed: its steps, and C, which is
/// held to the product.
fn run_by(rule: u64, plan: &Plan, lengths: Lengths, seed: u32) -> (u64, Vec<Vec<i128>>) {
    let mut bench = started_by(rule, lengths, 0);
    bench.memory = float_memory(&some_bits(4096, seed));
    let expected = product(plan, &bench.memory);
    let mut run = run_start(plan, &bench).expect("accepted");
    let done = run_turns(u64::MAX, &mut run, &mut bench);
    assert_eq!((done, run.place), (step_count(plan, &bench.machine), run.steps.len()));
    let c = elements(plan.placed(C), &bench.memory);
    assert_eq!(c, expected);
    (done, c)
}

#[test]
fn runs_by_either_rule() {
    for rule in RULES {
        let steps = |plan: &Plan| run_by(rule, plan, (64, 256, 32), 1).0;
        assert_eq!(steps(&plan(16, 1, 7, 8, 14)), 91);
        assert_eq!(steps(&plan(8, 1, 7, 8, 14)), 47);
        assert_eq!(steps(&plan(8, 1, 0, 8, 14)), 1);
        assert_eq!(steps(&plan(8, 1, 1, 0, 1)), 5);
    }
    for lengths in permitted_lengths() {
        for seed in 0..if lengths.1 > 4096 { 1 } else { 4 } {
            let plans =
                [plan(8, 4, 9, 13, 11), transposed_plan(16, 2, 5, 9, 7), float_plan(3, 7, 5)];
            for plan in plans {
                let [smaller, halving] = RULES.map(|rule| run_by(rule, &plan, lengths, seed));
                assert_eq!(smaller, halving);
            }
        }
    }
}

#[test]
fn words_of_a_halving_run() {
    // 5 rows and 9 columns of at most 4 and 8: rows 0 to 2 and 3, 4; columns 0 to 4
    // and 5 to 8.
    let bench = started_by(HALVING, (64, 256, 32), 4096);
    let plan = Plan { a: 0, b: 100, c: 200, ..plan(8, 1, 5, 1, 9) };
    let run = run_start(&plan, &bench).expect("accepted");
    let settings = |code: u32| -> Vec<u32> {
        let words = run.steps.iter().map(|step| step.word);
        words.filter(|word| word >> 28 == code && word >> 12 & 7 == 7).collect()
    };
    assert_eq!(settings(2), [5, 2].map(|asked| assemble("msettilemi", &[("mleni", asked)])));
    assert_eq!(settings(6), [9, 4, 9, 4].map(|asked| assemble("msettileni", &[("mleni", asked)])));
    // msce8.m of acc0 from x10 with x11.
    let stores = run.steps.iter().filter(|step| step.word == 0x02B50077);
    let addresses: Vec<u64> = stores.map(|step| step.scalar_10).collect();
    assert_eq!(addresses, [200, 205, 227, 232]);
}

/// A run keeps its rule: its words are the same on a machine of the other one.
#[test]
fn a_machine_of_the_other_rule() {
    let mut bench = started_by(HALVING, (64, 256, 32), 4096);
    let plan = Plan { a: 0, b: 100, c: 200, ..plan(8, 1, 5, 1, 1) };
    let mut run = run_start(&plan, &bench).expect("accepted");
    bench.machine.rule = SMALLER;
    run_turns(2, &mut run, &mut bench);
    assert_eq!(bench.machine.tile_m, 4);
    let second = run.steps.iter().filter(|step| step.word >> 28 == 2).nth(1);
    assert_eq!(second.map(|step| step.word >> 15 & 0x1FFF), Some(2));
}
