//! The bench sheet's lines on the library, each with the values printed there.

use crate::lent::{library_run_start, library_run_turns, library_step, words_to_bytes, Lent};
use crate::library;
use crate::runs::plans::packed_plan;
use crate::suite::{Context, Outcome};
use model::{assemble, Matrix, Plan, MILL, RULES};

/// A started machine of MLEN 256 and RLEN 64.
fn started_by(rule: u64, memory: usize) -> Lent {
    crate::lent::started((64, 256, 32), rule, vec![0; model::register_bytes(256)], vec![0; memory])
}

fn answer(word: u32, lent: &mut Lent) -> u64 {
    library_step(word, lent) & 0xFFFF
}

/// On a machine of either rule.
pub fn bench_sheet(_: &mut Context) -> Outcome {
    let lines: Vec<(&str, bool)> = RULES.into_iter().flat_map(sheet_lines).collect();
    let wrong: Vec<&str> = lines.iter().filter(|line| !line.1).map(|line| line.0).collect();
    if wrong.is_empty() {
        Ok(format!("{} lines", lines.len()))
    } else {
        Err(format!("not as printed: {}", wrong.join(", ")))
    }
}

fn sheet_lines(rule: u64) -> Vec<(&'static str, bool)> {
    let mut lines = Vec::new();
    let started = |memory| started_by(rule, memory);

    for (mtype, maxima) in [(0, [4, 4, 8]), (1, [4, 4, 4]), (2, [4, 2, 2])] {
        let mut lent = started(0);
        answer(assemble("msettypei", &[("mtypei", mtype)]), &mut lent);
        for (name, slot) in [("msettilem", 1), ("msettilek", 2), ("msettilen", 3)] {
            answer(assemble(name, &[("rd", slot)]), &mut lent);
        }
        lines.push(("maxima", lent.scalar_values()[1..4] == maxima));
    }

    let mut lent = started(0);
    let done = answer(0x000472F7, &mut lent) == 0;
    lines.push(("0x000472F7", done && lent.machine().mtype == 8 && lent.scalar_values()[5] == 8));

    let mut lent = started(0);
    lent.set_scalar(10, 16);
    let done = answer(0x100572F7, &mut lent) == 0;
    lines.push(("0x100572F7", done && lent.machine().mtype == MILL));

    let mut lent = started(0);
    lent.set_scalar(0, 99);
    let done = answer(0x2003F077, &mut lent) == 0;
    lines.push(("0x2003F077", done && lent.machine().tile_m == 4 && lent.scalar_values()[0] == 99));

    let mut lent = started(0);
    let done = answer(0x4001F377, &mut lent) == 0;
    lines.push(("0x4001F377", done && lent.machine().tile_k == 3 && lent.scalar_values()[6] == 3));

    let mut lent = started(4096);
    answer(assemble("msettileni", &[("mleni", 8)]), &mut lent);
    answer(assemble("msettypei", &[("mtypei", 1)]), &mut lent);
    lines.push(("tile_n 8, then SEW 16", answer(assemble("mlbe16.m", &[]), &mut lent) == 4));

    let mut lent = started(32);
    lent.marks.fill(1);
    answer(assemble("msettilemi", &[("mleni", 4)]), &mut lent);
    answer(assemble("msettileni", &[("mleni", 8)]), &mut lent);
    let store = assemble("msce8.m", &[("rs1", 1), ("rs2", 2)]);
    let mut at = |address: u64, stride: i64| {
        let mut scalars = [0; 32];
        scalars[1] = address;
        scalars[2] = stride as u64;
        lent.scalars = words_to_bytes(&scalars);
        answer(store, &mut lent)
    };
    lines.push(("the end of memory", at(0, 8) == 0 && at(1, 8) == 6));
    lines.push(("stride -8", at(24, -8) == 0 && at(23, -8) == 6));

    lines.extend(run_lines(rule));
    lines
}

/// Steps done, and C, for A and B at SEW 8.
fn product(rule: u64, plan: &Plan, a: &[i8], b: &[i8]) -> (u64, Vec<i128>) {
    let mut lent = started_by(rule, 8192);
    lent.memory.fill(99);
    for (address, values) in [(plan.a, a), (plan.b, b)] {
        for (at, &value) in (address as usize..).zip(values) {
            lent.memory[at] = value as u8;
        }
    }
    let mut run = vec![0; library::RUN_BYTES];
    if library_run_start(plan, &mut lent, &mut run) != 0 {
        return (0, vec![]);
    }
    let done = library_run_turns(u64::MAX, &mut run, &mut lent);
    (done, model::elements(plan.placed(Matrix::C), &lent.memory).concat())
}

/// The lines that need a run.
fn run_lines(rule: u64) -> Vec<(&'static str, bool)> {
    let mut lines = Vec::new();
    let product = |plan: &Plan, a: &[i8], b: &[i8]| product(rule, plan, a, b);
    let plan = |sew, factor, sizes| packed_plan((sew, factor), sizes).0;

    let once = |factor| product(&plan(8, factor, [1, 1, 1]), &[100], &[100]).1;
    lines.push(("100 x 100", once(1) == [16] && once(2) == [10000]));
    let twice = |factor| product(&plan(8, factor, [1, 2, 1]), &[-128; 2], &[-128; 2]).1;
    lines.push(("-128 x -128 twice", twice(2) == [-32768] && twice(4) == [32768]));

    let steps = |sew, sizes| product(&plan(sew, 1, sizes), &[], &[]).0;
    lines.push(("7 by 8 by 14", steps(16, [7, 8, 14]) == 91 && steps(8, [7, 8, 14]) == 47));
    lines.push(("m = 0", steps(8, [0, 8, 14]) == 1));
    lines.push(("k = 0", product(&plan(8, 1, [1, 0, 1]), &[], &[]) == (5, vec![0])));

    // each of m, k and n, the other two 1; A and B of ones
    for (at, count) in [2049, 1029, 898].into_iter().enumerate() {
        let sized = |size| std::array::from_fn(|size_at| if size_at == at { size } else { 1 });
        let [m, k, n] = sized(1024);
        let ran =
            product(&plan(8, 4, [m, k, n]), &vec![1; (m * k) as usize], &vec![1; (k * n) as usize]);
        lines.push(("size 1,024", ran == (count, vec![i128::from(k); (m * n) as usize])));
        let mut run = vec![0; library::RUN_BYTES];
        let start =
            library_run_start(&plan(8, 4, sized(1025)), &mut started_by(rule, 8192), &mut run);
        lines.push(("size 1,025", start == 8));
    }

    let (done, c) = product(&plan(8, 4, [2, 3, 2]), &[1, 2, 3, -4, 5, -6], &[7, 8, 9, 10, 11, 12]);
    lines.push(("the product example", done == 9 && c == [58, 64, -49, -54]));

    lines
}
