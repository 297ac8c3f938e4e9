//! The sums that were reckoned by hand, on every machine and among other terms.

use super::desk::{machine_at_32, maxima, Desk};
use crate::random::Random;
use crate::states::float_numbers::SIGN;
use crate::states::machines::usual_lengths;
use crate::suite::{each_case, Context, Outcome};
use crate::tally::Tally;
use model::float_sums::{EXAMPLES, NANS};
use model::Machine;

pub const INFINITY: u32 = 0x7F80_0000;
const NAN: u32 = 0x7FC0_0000;
const ONE: u32 = 0x3F80_0000;

type Example = (String, u32, Vec<(u32, u32)>, u32);

/// The examples, and each form of a NaN in each place.
fn examples() -> Vec<Example> {
    let mut examples: Vec<Example> = EXAMPLES
        .iter()
        .map(|&(name, old, terms, stored)| (name.to_string(), old, terms.to_vec(), stored))
        .collect();
    for nan in NANS {
        let places = [
            (nan, vec![]),
            (nan, vec![(ONE, ONE)]),
            (ONE, vec![(nan, ONE)]),
            (ONE, vec![(ONE, nan)]),
            (0, vec![(nan, 0)]),
            (INFINITY, vec![(INFINITY, nan)]),
            (0, vec![(nan, ONE), (ONE, ONE), (ONE, ONE)]),
        ];
        let named = |(old, terms)| (format!("{nan:#010x}"), old, terms, NAN);
        examples.extend(places.map(named));
    }
    examples
}

/// Every example on every machine, at any place of a tile, its terms by words of one, of
/// some and of as many as the tile holds.
pub fn float_examples(context: &mut Context) -> Outcome {
    let lengths = usual_lengths();
    let examples = examples();
    let count = (examples.len() * lengths.len()) as u64;
    each_case(context, "float examples", count, |case, random, tally| {
        let machine = machine_at_32(lengths[case as usize % lengths.len()]);
        let example = &examples[case as usize / lengths.len()];
        let most = maxima(&machine)[1];
        for terms_a_word in [1, random.range(1, most), most] {
            check_example(random, &machine, example, terms_a_word, tally)?;
        }
        Ok(())
    })
}

fn check_example(
    random: &mut Random,
    machine: &Machine,
    (name, old, terms, expected): &Example,
    terms_a_word: u64,
    tally: &mut Tally,
) -> Result<(), String> {
    let [most_m, _, most_n] = maxima(machine);
    let (m, n) = (random.range(1, most_m), random.range(1, most_n));
    let (i, j) = (random.below(m), random.below(n));
    let mut desk = Desk::new(random, machine);
    desk.put(2, i, j, *old);
    let words: Vec<&[(u32, u32)]> = match terms.len() {
        0 => vec![&[]],
        _ => terms.chunks(terms_a_word as usize).collect(),
    };
    for word in words {
        desk.set_sizes([m, word.len() as u64, n]);
        for (l, &(a, b)) in (0..).zip(word) {
            desk.put(0, i, l, a);
            desk.put(1, l, j, b);
        }
        desk.multiply(tally)?;
    }
    let found = desk.get(2, i, j);
    if found != *expected {
        return Err(format!(
            "{name}: {old:#010x} with {terms:#010x?}, {terms_a_word} a word\nboth programs store \
             {found:#010x}, the paper {expected:#010x}"
        ));
    }
    Ok(())
}

/// The examples on tiles of more than 16 columns and with more than 16 terms, those of an
/// example anywhere among them: the others are -0 times 1, which leaves every sum as it is.
pub fn wide_floats(context: &mut Context) -> Outcome {
    let machines = [(512, 16_384, 32), (1024, 32_768, 64), (2048, 65_536, 32), (4096, 65_536, 64)];
    let examples = examples();
    let count = 6 * examples.len() as u64 * context.scale;
    each_case(context, "wide floats", count, |case, random, tally| {
        let machine = machine_at_32(random.pick(&machines));
        let (name, old, terms, expected) = &examples[case as usize % examples.len()];
        let [_, most_k, most_n] = maxima(&machine);
        let m = random.range(1, 3);
        let k = match random.pick(&[most_k, 15, 16, 17, 31, 33]) {
            some if some <= most_k => some.max(terms.len() as u64),
            _ => most_k,
        };
        let n = random.pick(&[most_n, most_n - 1, 16, 17, 31, 33, 65]).min(most_n);
        // No term: only the old value stands.
        let k = if terms.is_empty() { 0 } else { k };
        let ends = [0, n - 1, n.min(16) - 1, 16.min(n - 1), random.below(n)];
        let (i, j) = (random.below(m), random.pick(&ends));
        let mut desk = Desk::new(random, &machine);
        desk.set_sizes([m, k, n]);
        desk.put(2, i, j, *old);
        for l in 0..k {
            desk.put(0, i, l, SIGN);
            desk.put(1, l, j, ONE);
        }
        // In rising order, each at any place that leaves room for the rest.
        let mut from = 0;
        for (at, &(a, b)) in terms.iter().enumerate() {
            let l = random.range(from, k - (terms.len() - at) as u64);
            desk.put(0, i, l, a);
            desk.put(1, l, j, b);
            from = l + 1;
        }
        desk.multiply(tally)?;
        let found = desk.get(2, i, j);
        if found != *expected {
            return Err(format!(
                "{name}: {old:#010x} with {terms:#010x?} among {k} terms, column {j} of {n}\nboth \
                 programs store {found:#010x}, the paper {expected:#010x}"
            ));
        }
        Ok(())
    })
}
