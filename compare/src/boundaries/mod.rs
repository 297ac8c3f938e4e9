//! Boundaries, each with the answer that the scope paper gives there. The
//! library and the second program must both give it.

pub mod memory;
pub mod rows;
pub mod settings;
pub mod tiles;
pub mod words;

use crate::random::Random;
use crate::states::cases::Case;
use crate::suite::{check_step, each_case, Context, Outcome};

/// A case and the answer it must get.
pub type Made = (Case, u64);
pub type Boundary = (&'static str, fn(&mut Random) -> Made);

const BOUNDARIES: [Boundary; 38] = [
    ("first and last byte of memory", memory::whole_memory),
    ("one byte past the end", memory::one_past_the_end),
    ("one byte before address 0", memory::one_before_the_start),
    ("huge strides", memory::huge_stride),
    ("huge stride, one row", memory::huge_stride_one_row),
    ("addresses near 2^64", memory::address_near_the_top),
    ("seal of one stored byte", memory::seal_on_a_byte),
    ("seal of one byte beside a store", memory::seal_beside),
    ("seal past the end of memory", memory::seal_past_the_end),
    ("seal of no byte", memory::seal_of_nothing),
    ("seal up to 2^64 - 1", memory::seal_at_the_top),
    ("loads of sealed bytes", memory::sealed_load),
    ("a used size above its maximum", tiles::used_size_too_large),
    ("an unused size above its maximum", tiles::unused_size_too_large),
    ("tiles with no element", tiles::no_element),
    ("multiply with tile_k 0", tiles::no_terms),
    ("md is ms1, wider output", tiles::same_register_wider),
    ("md is ms1, marked at SEW only", tiles::same_register_half_marked),
    ("multiplier 0, unmarked ms1", tiles::multiplier_0),
    ("multiplier not 0, unmarked ms1", tiles::multiplier_not_0),
    ("an unmarked element", tiles::unmarked_element),
    ("two unmarked elements of a store", tiles::two_unmarked_elements),
    ("settings with both x0", settings::both_x0),
    ("settings with both x0 while mill is set", settings::both_x0_and_mill),
    ("x0 asked as a maximum", settings::asked_maximum),
    ("mtype after each value", settings::new_mtype),
    ("a word while mill is set", settings::mill_set),
    ("64-bit loads and stores", settings::of_64_bits),
    ("float products at another SEW", settings::float_at_another_sew),
    ("state faults", settings::faulty_state),
    ("another opcode", words::wrong_opcode),
    ("words that are left out", words::left_out),
    ("left out but for bits 24..20", words::left_out_but_for_zeros),
    ("ours but for 27..20 or 24..20", words::ours_but_for_zeros),
    ("codes of no row", words::no_row),
    ("register fields out of range", words::bad_register),
    ("a bad register and another fault", words::bad_register_and_more),
    ("register fields at their bounds", words::last_registers),
];

pub fn boundaries(context: &mut Context) -> Outcome {
    check_boundaries(context, &BOUNDARIES)
}

/// Cases of each boundary, on both programs and held to its answer.
pub fn check_boundaries(context: &mut Context, boundaries: &[Boundary]) -> Outcome {
    let each = 500;
    let mut cases = 0;
    for &(name, make) in boundaries {
        each_case(context, name, each, |_, random, tally| {
            let (case, expected) = make(random);
            let (number, _) = check_step(case.word, &case.lent, tally)?;
            if number != expected {
                return Err(format!(
                    "{}: both programs give {number}, the paper {expected}\n{}",
                    model::describe(case.word),
                    crate::lent::state_text(&case.lent)
                ));
            }
            Ok(())
        })?;
        cases += each;
    }
    Ok(format!("{} boundaries, {cases} cases", boundaries.len()))
}
