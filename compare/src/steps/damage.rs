//! Damaged input to a start and a step: wrong block lengths, random bytes and
//! empty slices.

use crate::lent::{library_seal, library_start};
use crate::states::cases::good_case;
use crate::states::faults::wrong_length;
use crate::states::words::any_row;
use crate::suite::{check_step, each_case, Context, Outcome};

/// Steps on blocks of random bytes and random lengths.
pub fn damaged_steps(context: &mut Context) -> Outcome {
    each_case(context, "damaged steps", 5000, |_, random, tally| {
        let row = any_row(random);
        let case = good_case(random, row);
        let mut lent = case.lent;
        for buffer in [
            &mut lent.machine,
            &mut lent.registers,
            &mut lent.marks,
            &mut lent.scalars,
            &mut lent.vectors,
        ] {
            match random.below(5) {
                0 => *buffer = random.bytes(buffer.len()),
                1 => wrong_length(random, buffer),
                2 if random.chance(30) => buffer.clear(),
                _ => {}
            }
        }
        if random.chance(10) {
            lent.group = random.next() >> random.below(64);
        }
        check_step(case.word, &lent, tally).map(|_| ())
    })
}

/// Every slice empty, or all but one.
pub fn empty_slices(context: &mut Context) -> Outcome {
    each_case(context, "empty slices", 70, |case, random, tally| {
        let row = any_row(random);
        let mut lent = good_case(random, row).lent;
        let whole = case % 7;
        for (at, buffer) in [
            &mut lent.machine,
            &mut lent.registers,
            &mut lent.marks,
            &mut lent.scalars,
            &mut lent.memory,
            &mut lent.vectors,
        ]
        .into_iter()
        .enumerate()
        {
            if at as u64 != whole {
                buffer.clear();
            }
        }
        check_step(random.next() as u32, &lent, tally)?;
        let before = lent.clone();
        let given = library_start((64, 128, 32), case / 7 % 2, &mut [], &mut lent);
        let sealed = library_seal((0, 0), &mut lent);
        if (given, sealed) != (8, 8) || lent != before {
            return Err(format!("a start gives {given}, a seal {sealed}, or bytes change"));
        }
        Ok(())
    })
}
