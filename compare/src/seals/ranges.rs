//! Stores against each of eight ranges, and starts with as many ranges as there can be
//! and more.

use super::{meets, range_within};
use crate::boundaries::memory::moving_on;
use crate::boundaries::rows::{is_store, machine_for};
use crate::lent::{numbers_of, state_text, Lent};
use crate::library;
use crate::random::Random;
use crate::starts::check_started;
use crate::states::faults::wrong_length;
use crate::states::machines::{lengths, UNKNOWN_ELENS, UNKNOWN_RULES};
use crate::states::ranges::bad_range;
use crate::suite::{check_seal, check_step, each_case, Context, Outcome};
use model::{Machine, Row, Seal, Seals, LISTING, MOST_SEALS, RULES};

// ---------------------------------------------------------------------------
// Stores

/// The bytes before the lowest row, between rows and after the highest.
const GAP: u64 = 8;

/// Ranges around a row, from its first byte to its last, and the answer that a store of
/// it and of rows up to `high` gets; the lowest row starts at GAP.
fn around(first: u64, last: u64, high: u64, memory: u64) -> Vec<(Seal, u64)> {
    let (top, middle) = (u64::MAX, first + (last - first) / 2);
    let mut ranges = vec![
        ((first, 0), 0),
        ((middle, 0), 0),
        ((last, 0), 0),
        ((last + 1, 0), 0),
        ((0, GAP), 0),
        ((0, GAP + 1), 7),
        ((high, top - high), 7),
        ((high + 1, top - high - 1), 0),
        ((high + 1, 1 << 40), 0),
        ((memory - 1, 1), 0),
        ((memory, 7), 0),
        ((0, top), 7),
        ((top, 0), 0),
        ((top - 1, 1), 0),
        ((1 << 63, (1 << 63) - 1), 0),
        // In 32 bits, and in 63, it would be the row's first byte.
        ((first + (1 << 32), 1), 0),
        ((first + (1 << 63), 1), 0),
    ];
    // The row's first byte is the range's first, last or neither, and so for its last.
    for length in [1, 2, 5] {
        ranges.extend([
            ((first - length, length), 0),
            ((first - length + 1, length), 7),
            ((first, length), 7),
            ((middle, length), 7),
            ((last, length), 7),
            ((last + 1, length), 0),
        ]);
    }
    ranges
}

/// Every store row with each range around one of its rows as each of up to eight, among
/// others that lie over each other but hold no stored byte.
pub fn sealed_ranges(context: &mut Context) -> Outcome {
    let stores: Vec<&'static Row> = LISTING.iter().filter(|row| is_store(row)).collect();
    let count = (stores.len() * MOST_SEALS) as u64 * 3 * context.scale;
    let (mut done, mut refused) = (0, 0);
    let cases = each_case(context, "sealed ranges", count, |case, random, tally| {
        let slot = case as usize % MOST_SEALS;
        let row = stores[case as usize / MOST_SEALS % stores.len()];
        let machine = machine_for(random, row);
        let moving = moving_on(random, row, &machine);
        let (rows, row_bytes) = (moving.rows as u64, moving.row_bytes as u64);
        let step = row_bytes + GAP;
        let high = GAP + rows * step - GAP - 1;
        let memory = high + 1 + GAP;
        let upward = random.chance(50);
        let (address, stride) =
            if upward { (GAP, step as i64) } else { (high + 1 - row_bytes, -(step as i64)) };
        let made = moving.lay(random, address as i128, stride, memory as i128);
        let any = random.below(rows);
        let first = GAP + step * random.pick(&[0, rows / 2, rows - 1, any]);
        for (range, expected) in around(first, first + row_bytes - 1, high, memory) {
            let number = random.pick(&[slot + 1, MOST_SEALS]);
            let mut list: Vec<Seal> =
                (0..number).map(|_| beside(random, step, rows, high)).collect();
            list[slot] = range;
            let mut lent = made.lent.clone();
            lent.set_machine(&Machine { seals: Seals::of(&list), ..machine });
            let (given, after) = check_step(made.word, &lent, tally)?;
            let meeting = list.iter().any(|&range| {
                (0..rows).any(|i| meets(range, (GAP + i * step) as i128, row_bytes as i128))
            });
            let unchanged = after == lent;
            if given != expected || (given == 7) != meeting || given == 7 && !unchanged {
                return Err(format!(
                    "{} with ranges {list:?}: both programs give {given}, the paper {expected}, \
                     or bytes change\n{}",
                    model::describe(made.word),
                    state_text(&lent)
                ));
            }
            if given == 0 {
                done += 1;
            } else {
                refused += 1;
            }
        }
        Ok(())
    })?;
    Ok(format!("{cases}, {done} stores done, {refused} refused"))
}

/// A range that holds no stored byte: before the rows, in a gap, after them, or empty.
fn beside(random: &mut Random, step: u64, rows: u64, high: u64) -> Seal {
    match random.below(5) {
        0 => range_within(random, 0, GAP),
        1 => range_within(random, high + 1, high + 100),
        2 => (high + 1 + random.below(40), 1 << random.below(63)),
        3 => (random.below(high), 0),
        _ => {
            let row = GAP + step * random.below(rows);
            range_within(random, row + step - GAP, row + step)
        }
    }
}

// ---------------------------------------------------------------------------
// Starts

/// More ranges than a start is given anywhere else.
const MOST_GIVEN: usize = 20;

/// What is bad about a start but for its ranges.
const OTHER_FAULTS: u64 = 6;

/// Up to twenty ranges with nothing bad, with a number too many, with a bad range at each
/// place, and with something else that is bad: every 8 comes before 16. Machines that are
/// started have the ranges in order, and take others until they have eight.
pub fn starts_of_ranges(context: &mut Context) -> Outcome {
    let count = MOST_GIVEN as u64 + 1;
    let mut met = [0; 17];
    let cases = each_case(context, "starts of ranges", 3 * count, |case, random, tally| {
        let given = (case % count) as usize;
        let list: Vec<Seal> = (0..given).map(|at| good_range(random, at)).collect();
        let numbers = numbers_of(&list);
        let mut tries = vec![(numbers.clone(), false, if given > MOST_SEALS { 16 } else { 0 })];
        tries.push(([&numbers[..], &[random.below(9)]].concat(), false, 8));
        for at in 0..given {
            let mut bad = numbers.clone();
            (bad[2 * at], bad[2 * at + 1]) = bad_range(random);
            tries.push((bad.clone(), false, 8));
            if random.chance(20) {
                tries.push(([&bad[..], &[0]].concat(), random.chance(50), 8));
            }
        }
        tries.extend((0..OTHER_FAULTS).map(|_| (numbers.clone(), true, 8)));
        for (at, (numbers, other_fault, expected)) in tries.into_iter().enumerate() {
            let mut lengths = lengths(random);
            let mut rule = random.pick(&RULES);
            let size = model::register_bytes(lengths.1);
            let mut lent = Lent {
                machine: random.bytes(library::MACHINE_BYTES),
                registers: random.bytes(size),
                marks: random.bytes(size),
                scalars: vec![],
                memory: vec![],
                vectors: vec![],
                group: 1,
            };
            if other_fault {
                match at as u64 % OTHER_FAULTS {
                    0 => lengths.0 = random.pick(&[0, 63, lengths.1]),
                    1 => lengths.2 = random.pick(&UNKNOWN_ELENS),
                    2 => rule = random.pick(&UNKNOWN_RULES),
                    3 => wrong_length(random, &mut lent.machine),
                    4 => wrong_length(random, &mut lent.registers),
                    _ => wrong_length(random, &mut lent.marks),
                }
            }
            let (number, started) = check_started(lengths, rule, &numbers, &lent, tally)?;
            met[number as usize] += 1;
            if number != expected || number != 0 && started != lent {
                return Err(format!(
                    "{numbers:?}: both programs give {number}, the paper {expected}, or bytes change"
                ));
            }
            if number == 0 {
                filled_up(random, started, &list, tally)?;
            }
        }
        Ok(())
    })?;
    Ok(format!("{cases}, {} started, {} with 8, {} with 16", met[0], met[8], met[16]))
}

/// A range that a machine can hold.
fn good_range(random: &mut Random, at: usize) -> Seal {
    let start = random.pick(&[0, at as u64, 1 << 40, u64::MAX]);
    (start, random.pick(&[0, at as u64, u64::MAX - start]).min(u64::MAX - start))
}

/// A started machine has these ranges, and takes as many more as there can be.
fn filled_up(
    random: &mut Random,
    mut lent: Lent,
    list: &[Seal],
    tally: &mut crate::tally::Tally,
) -> Result<(), String> {
    let mut list = list.to_vec();
    loop {
        let machine = lent.machine();
        if machine.seals != Seals::of(&list) {
            return Err(format!("{list:?} became {:?}", machine.seals));
        }
        let range = good_range(random, list.len());
        let (bad, same) = check_seal(bad_range(random), &lent, tally)?;
        let (number, after) = check_seal(range, &lent, tally)?;
        let expected = if list.len() < MOST_SEALS { 0 } else { 16 };
        if (bad, number) != (8, expected) || same != lent {
            return Err(format!("a further range after {list:?} gives {number}, a bad one {bad}"));
        }
        if number == 16 {
            return if after == lent { Ok(()) } else { Err("a ninth changes bytes".to_string()) };
        }
        list.push(range);
        lent = after;
    }
}
