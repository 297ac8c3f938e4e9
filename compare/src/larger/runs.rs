//! Runs on larger machines and at ELEN 64 (request Ten).

use crate::lent::ELEN;
use crate::lent::{
    bytes_to_words, library_run, library_run_start, library_run_turn, library_run_turns,
    words_to_bytes, Lent,
};
use crate::library;
use crate::random::Random;
use crate::runs::held::{check_run, compare_at_end, start_good};
use crate::runs::plans::{good_plan, plan_around, Numbers};
use crate::states::machines::{
    any_machine, larger_lengths, lengths_at_64, SIZES, UNKNOWN_ELENS, WIDTHS, WIDTHS_TO_64,
};
use crate::suite::{each_case, Context, Outcome};
use crate::tally::{Call, Tally};
use model::{Lengths, Machine, Plan, A_TRANSPOSED, ELENS, FLOAT, MILL, PRODUCT, RULES};

/// Accepted plans on every machine beyond the bounds of document 01, each turn compared.
pub fn larger_runs(context: &mut Context) -> Outcome {
    let lengths = larger_lengths();
    let count = 12 * lengths.len() as u64 * context.scale;
    each_case(context, "larger runs", count, |case, random, tally| {
        let good = plan_around(random, lengths[case as usize % lengths.len()]);
        let started = start_good(random, good, tally)?;
        check_run(random, started, tally)
    })
}

/// Numbers at the ends of 64, 32 and 16 bits.
const ENDS: [i64; 10] = [
    i64::MIN,
    i64::MIN + 1,
    i64::MAX,
    -1,
    1,
    0x8000_0000,
    0x7FFF_FFFF_8000_0000,
    0x8000_8000_8000_8000_u64 as i64,
    0x7FFF_8000_7FFF_8000,
    1 << 32,
];

/// Runs whose C has 64 bits, plain and with A kept transposed, by either rule on every
/// machine of ELEN 64: C is the wrapping sum. On the same machine with ELEN 32 they get 8.
pub fn runs_to_64(context: &mut Context) -> Outcome {
    let larger = larger_lengths().into_iter().filter(|lengths| lengths.2 == 64);
    let machines: Vec<Lengths> = lengths_at_64().into_iter().chain(larger).collect();
    let plans: Vec<(Numbers, u64)> = WIDTHS_TO_64
        .into_iter()
        .flat_map(|widths| [PRODUCT, A_TRANSPOSED].map(|kind| (kind, widths)))
        .flat_map(|numbers| RULES.map(|rule| (numbers, rule)))
        .collect();
    let count = (machines.len() * plans.len()) as u64 * context.scale;
    each_case(context, "64-bit runs", count, |case, random, tally| {
        let (numbers, rule) = plans[case as usize % plans.len()];
        let lengths = machines[case as usize / plans.len() % machines.len()];
        let machine = Machine { rule, ..any_machine(random, lengths) };
        let most = if lengths.1 > 4096 { 7 } else { 11 };
        let sizes = SIZES.map(|_| random.range(1, most));
        let (plan, mut lent) = good_plan(random, &machine, numbers, sizes);
        if random.chance(60) {
            for chunk in lent.memory.chunks_exact_mut(8) {
                chunk.copy_from_slice(&random.pick(&ENDS).to_le_bytes());
            }
        }
        refused_at_32(&plan, &lent, tally)?;
        check_sums(&plan, &lent)?;
        let started = start_good(random, (plan, lent), tally)?;
        check_run(random, started, tally)
    })
}

/// With ELEN 32 the plan's numbers are bad, on a machine that can have it.
fn refused_at_32(plan: &Plan, lent: &Lent, tally: &mut Tally) -> Result<(), String> {
    let mut narrow = lent.clone();
    narrow.set_machine(&Machine { elen: 32, mtype: 2, ..lent.machine() });
    let before = narrow.clone();
    let mut block = vec![0xEE; library::RUN_BYTES];
    let mut steps = vec![0xEE; library::STEPS_BYTES];
    let given = library_run_start(plan, &mut narrow, &mut block);
    let whole = library_run(plan, &mut narrow, &mut steps);
    tally.run(Call::RunStart, plan.kind, given);
    tally.run(Call::WholeRun, plan.kind, whole);
    let second = model::run_start(plan, &before.bench().expect("a whole block"));
    if (given, whole, second) != (8, 8, Err(8)) || narrow != before {
        return Err(format!("{plan:?} at ELEN 32: {given}, {whole}"));
    }
    Ok(())
}

/// C by the library in one call, beside wrapping sums of 64 bits.
fn check_sums(plan: &Plan, lent: &Lent) -> Result<(), String> {
    let mut after = lent.clone();
    let given = library_run(plan, &mut after, &mut [0; library::STEPS_BYTES]);
    let bytes = (plan.sew / 8) as usize;
    let number = |memory: &[u8], address: u64, bytes: usize| {
        let mut number = [0; 8];
        let at = address as usize;
        number[8 - bytes..].copy_from_slice(&memory[at..at + bytes]);
        i64::from_le_bytes(number) >> (64 - 8 * bytes)
    };
    let element = |start: u64, stride: i64, i: u64, j: u64, bytes: usize| {
        start.wrapping_add((i as i64 * stride) as u64) + j * bytes as u64
    };
    for (i, j) in (0..plan.m * plan.n).map(|at| (at / plan.n, at % plan.n)) {
        let mut sum = 0i64;
        for l in 0..plan.k {
            let (row, column) = if plan.kind == A_TRANSPOSED { (l, i) } else { (i, l) };
            let a = element(plan.a, plan.a_stride, row, column, bytes);
            let b = element(plan.b, plan.b_stride, l, j, bytes);
            let product =
                number(&lent.memory, a, bytes).wrapping_mul(number(&lent.memory, b, bytes));
            sum = sum.wrapping_add(product);
        }
        let found = number(&after.memory, element(plan.c, plan.c_stride, i, j, 8), 8);
        if given != 0 || found != sum {
            return Err(format!("{plan:?} gives {given}: C({i}, {j}) is {found}, not {sum}"));
        }
    }
    Ok(())
}

/// Sizes around multiples of 16 and 64, on machines whose blocks are as large; compared
/// at the end.
pub fn wide_runs(context: &mut Context) -> Outcome {
    let around = [15, 16, 17, 31, 33, 47, 49, 63, 64, 65, 66, 79, 81, 127, 128, 129, 193];
    let machines = [(512, 32_768), (1024, 65_536), (2048, 65_536), (4096, 65_536), (1024, 2048)];
    let mut numbers: Vec<Numbers> = vec![(FLOAT, (32, 1)), (FLOAT, (32, 1))];
    for kind in [PRODUCT, A_TRANSPOSED] {
        numbers.extend(WIDTHS.iter().chain(&WIDTHS_TO_64).map(|&widths| (kind, widths)));
    }
    let count = (machines.len() * numbers.len()) as u64 * context.scale;
    each_case(context, "wide runs", count, |case, random, tally| {
        let numbers = numbers[case as usize / machines.len() % numbers.len()];
        let (rlen, mlen) = machines[case as usize % machines.len()];
        let to_64 = WIDTHS_TO_64.contains(&numbers.1);
        let elen = if to_64 { 64 } else { random.pick(&ELENS) };
        let machine = any_machine(random, (rlen, mlen, elen));
        let columns = [random.pick(&around), random.pick(&[256, 257, 512, 513])];
        let sizes = [random.range(1, 5), random.pick(&around), random.pick(&columns)];
        let good = good_plan(random, &machine, numbers, sizes);
        let started = start_good(random, good, tally)?;
        compare_at_end(random, started, tally)
    })
}

/// A run block with an ELEN that is none, or not below its RLEN: 8. A run to 64 bits on a
/// machine that is given ELEN 32 between the turns: its words are carried out there.
pub fn other_elens(context: &mut Context) -> Outcome {
    let count = 40 * UNKNOWN_ELENS.len() as u64;
    each_case(context, "other ELENs", count, |case, random, tally| {
        let lengths = random.pick(&lengths_at_64());
        let (plan, mut lent) = plan_around(random, lengths);
        let mut block = vec![0; library::RUN_BYTES];
        let given = library_run_start(&plan, &mut lent, &mut block);
        let turns = random.below(model::step_count(&plan, &lent.machine()));
        let done = library_run_turns(turns, &mut block, &mut lent);
        if given != 0 || done != turns {
            return Err(format!("{plan:?}: {given}, {done} turns of {turns} are done"));
        }
        let elen = UNKNOWN_ELENS[case as usize % UNKNOWN_ELENS.len()];
        let elen = random.pick(&[elen, elen, lengths.0]);
        let mut forged = bytes_to_words(&block);
        forged[ELEN] = elen;
        nothing_done(&plan, words_to_bytes(&forged), &lent, tally)?;
        let mut other = lent.clone();
        other.set_machine(&Machine { elen, ..lent.machine() });
        let before = (other.clone(), block.clone());
        let turn = library_run_turn(&mut block, &mut other);
        let many = library_run_turns(5, &mut block, &mut other);
        tally.run(Call::RunTurn, plan.kind, turn);
        if (turn, many) != (8, 0) || (other, block) != before {
            return Err(format!("{plan:?}, machine of ELEN {elen}: {turn}, {many}"));
        }
        at_64_then_32(random, lengths, tally)
    })
}

/// A run block that is refused by each call.
fn nothing_done(
    plan: &Plan,
    mut block: Vec<u8>,
    lent: &Lent,
    tally: &mut Tally,
) -> Result<(), String> {
    let before = block.clone();
    let mut after = lent.clone();
    let mut step = [0xEE; library::STEP_BYTES];
    let given = [
        library_run_turn(&mut block, &mut after),
        library_run_turns(5, &mut block, &mut after),
        library::run_next(&mut block, &mut step),
        library::run_steps(&mut block),
    ];
    tally.run(Call::RunTurn, plan.kind, given[0]);
    tally.run(Call::RunNext, plan.kind, given[2]);
    let unchanged = block == before && after == *lent && step == [0xEE; library::STEP_BYTES];
    if given != [8, 0, 8, 0] || !unchanged {
        return Err(format!("{plan:?}, block {:?}: {given:?}", bytes_to_words(&before)));
    }
    Ok(())
}

/// A run at SEW 64, or to four times 16 bits, of which the machine has ELEN 32: its mtype
/// becomes illegal by the first word, and the next one gets 2. With ELEN 32 after the first
/// word the state is at fault.
fn at_64_then_32(random: &mut Random, lengths: Lengths, tally: &mut Tally) -> Result<(), String> {
    let (widths, mtype) = random.pick(&[((64, 1), 3), ((16, 4), 9)]);
    let machine = Machine { mtype: 0, ..any_machine(random, lengths) };
    let (plan, mut lent) = good_plan(random, &machine, (PRODUCT, widths), [1, 1, 1]);
    let mut block = vec![0; library::RUN_BYTES];
    let started = library_run_start(&plan, &mut lent, &mut block);
    let with_elen = |lent: &Lent, elen| {
        let mut other = lent.clone();
        other.set_machine(&Machine { elen, ..lent.machine() });
        other
    };
    let mut narrow = with_elen(&lent, 32);
    let mut narrow_block = block.clone();
    let first = library_run_turn(&mut narrow_block, &mut narrow);
    let second = library_run_turn(&mut narrow_block, &mut narrow);
    let illegal = narrow.machine().mtype;
    let wide = library_run_turn(&mut block, &mut lent);
    let held = lent.machine().mtype;
    let fault = library_run_turn(&mut block, &mut with_elen(&lent, 32));
    let found = (started, first, illegal, second, wide, held, fault);
    [first, second, wide, fault].iter().for_each(|&n| tally.run(Call::RunTurn, plan.kind, n));
    if found != (0, 0, MILL, 2, 0, mtype, 8) {
        return Err(format!("{plan:?}: {found:?}"));
    }
    Ok(())
}
