//! Whole runs in one call, the largest sizes, and larger products.

use super::held::{compare_at_end, machine_of_case, start_both, start_good, whole_run};
use super::plans::{any_numbers, good_plan, plan_around, spoil};
use crate::lent::{second_run_start, second_run_turns};
use crate::states::machines::{any_machine, usual_lengths, SIZES, WIDTHS, WIDTHS_TO_64};
use crate::suite::{each_case, Context, Outcome};
use model::{Plan, A_TRANSPOSED, FLOAT, PRODUCT};

/// Whole runs in one call, of good plans and of spoiled ones.
pub fn whole_runs(context: &mut Context) -> Outcome {
    let count = 3000 * context.scale;
    each_case(context, "whole runs", count, |case, random, tally| {
        let (mut plan, mut lent) = plan_around(random, machine_of_case(case));
        if random.chance(60) {
            spoil(random, &mut plan, &mut lent);
        }
        let mut after = lent.clone();
        let (answer, count) = match second_run_start(&plan, &lent) {
            Ok(mut run) => (0, second_run_turns(u64::MAX, &mut run, &mut after)),
            Err(number) => (number, 0),
        };
        whole_run(random, &plan, &lent, answer, &after, count, tally)
    })
}

/// The largest sizes, and one above.
pub fn largest_sizes(context: &mut Context) -> Outcome {
    let pairs = usual_lengths().len() as u64;
    each_case(context, "largest sizes", 4 * pairs, |case, random, tally| {
        let machine = any_machine(random, machine_of_case(case));
        let numbers = any_numbers(random, machine.elen);
        let large = random.pick(&[1023, 1024]);
        let mut sizes = SIZES.map(|_| random.range(1, 24));
        sizes[case as usize / pairs as usize % 3] = large;
        if case / pairs == 3 {
            sizes = random.pick(&[[1024, 0, 16], [0, 1024, 1024], [1024, 1024, 0]]);
        }
        let (plan, lent) = good_plan(random, &machine, numbers, sizes);
        let above = |size: u64| if size >= 1023 { 1025 } else { size };
        let too_large = Plan { m: above(plan.m), k: above(plan.k), n: above(plan.n), ..plan };
        if start_both(random, too_large, lent.clone(), tally)?.is_some() {
            return Err(format!("both accept {too_large:?}"));
        }
        let started = start_good(random, (plan, lent), tally)?;
        compare_at_end(random, started, tally)
    })
}

/// Larger plans, compared at the end only.
pub fn larger_products(context: &mut Context) -> Outcome {
    each_case(context, "larger products", 120, |case, random, tally| {
        let machine = any_machine(random, machine_of_case(case));
        let kind = random.pick(&[PRODUCT, A_TRANSPOSED]);
        let widths = match machine.elen {
            64 => WIDTHS_TO_64[case as usize % WIDTHS_TO_64.len()],
            _ => WIDTHS[case as usize % WIDTHS.len()],
        };
        let numbers = if case < 100 { (kind, widths) } else { (FLOAT, (32, 1)) };
        // Blocks of 64-bit elements are small, so there are many of them.
        let largest = match numbers {
            (FLOAT, _) => 100,
            (_, (64, _)) => 60,
            _ => 160,
        };
        let sizes = SIZES.map(|_| random.range(20, largest));
        let good = good_plan(random, &machine, numbers, sizes);
        let started = start_good(random, good, tally)?;
        compare_at_end(random, started, tally)
    })
}
