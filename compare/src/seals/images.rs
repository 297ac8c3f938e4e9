//! Images of version 4: every number of ranges but one, on every machine.

use crate::images::damage::{check_damaged, long_groups};
use crate::images::held::{check_handed_over, check_read, result_text, written};
use crate::images::machines::{bench_with_ranges, no_buffers, other_buffers};
use crate::lent::{hex, library_image_read, library_step, state_text, Lent};
use crate::powerup::pairs::{Met, Pair, Side};
use crate::powerup::words::word_list;
use crate::random::Random;
use crate::states::machines::{lengths, usual_lengths};
use crate::suite::{each_case, Context, Outcome};
use crate::tally::Tally;
use model::{Lengths, Machine, Seal, Seals, MOST_SEALS};

/// A machine with this number of ranges, and a pattern of few marks.
fn bench_with_few_marks(random: &mut Random, lengths: Lengths, number: usize) -> Lent {
    let pattern = random.pick(&[0, 2, 3, 4]);
    bench_with_ranges(random, lengths, number, pattern)
}

/// The bytes of version 4 before the number of ranges, and from that number on up to the
/// number of runs.
fn front_and_ranges(machine: &Machine) -> (Vec<u8>, Vec<u8>) {
    let [r, m, e] = [machine.rlen, machine.mlen, machine.elen].map(u64::trailing_zeros);
    let mut front = vec![4, machine.rule as u8, e as u8, r as u8, m as u8];
    for number in [machine.mtype, machine.tile_m, machine.tile_k, machine.tile_n] {
        front.extend(long_groups(number as u128, 0));
    }
    let mut ranges = vec![machine.seals.number as u8];
    for &(start, length) in machine.seals.list() {
        ranges.extend(long_groups(start as u128, 0));
        ranges.extend(long_groups(length as u128, 0));
    }
    (front, ranges)
}

/// Each machine with each number of ranges: its image by its numbers, cut at every byte,
/// and with other numbers of ranges. With one range it has no version 4.
pub fn image_ranges(context: &mut Context) -> Outcome {
    let machines = model::permitted_lengths();
    let numbers = MOST_SEALS + 1;
    let count = (machines.len() * numbers) as u64;
    let mut places = 0;
    let cases = each_case(context, "image ranges", count, |case, random, tally| {
        let (lengths, number) = (machines[case as usize / numbers], case as usize % numbers);
        let lent = bench_with_few_marks(random, lengths, number);
        let image = written(&lent, random, tally)?;
        check_handed_over(&lent, &image, random, tally)?;
        let (front, ranges) = front_and_ranges(&lent.machine());
        if number == 1 {
            if image[0] == 4 {
                return Err(format!("one range in version 4: {}", hex(&image)));
            }
            let counted = [&front[..], &ranges, &[0]].concat();
            return at_fault(&counted, front.len(), tally);
        }
        let beginning = [&front[..], &ranges].concat();
        if !image.starts_with(&beginning) {
            return Err(format!("{}, not {} ..", hex(&image), hex(&beginning)));
        }
        for cut in 0..image.len() {
            at_fault(&image[..cut], cut, tally)?;
        }
        at_fault(&[&image[..], &[0]].concat(), image.len(), tally)?;
        for other in (0..=12).chain(126..=137).chain([192, 255]) {
            let mut changed = image.clone();
            changed[front.len()] = other;
            if other == 1 || other > MOST_SEALS as u8 {
                at_fault(&changed, front.len(), tally)?;
            } else {
                check_damaged(&changed, &no_buffers(), random, tally)?;
            }
        }
        // A range whose end exceeds 2^64 - 1, as each of them.
        let machine = lent.machine();
        for at in 0..number {
            let (start, _) = machine.seals.ranges[at];
            let sound = Seals::of(&machine.seals.list()[..at]);
            let (_, mut bad) = front_and_ranges(&Machine { seals: sound, ..machine });
            bad[0] = number as u8;
            bad.extend(long_groups(start as u128, 0));
            let before = front.len() + bad.len();
            let longest = long_groups((u64::MAX - start) as u128, 0);
            let beyond = long_groups((u64::MAX - start) as u128 + 1, 0);
            let place = before + first_without(&beyond, u64::MAX - start);
            at_fault(&[&front[..], &bad, &beyond].concat(), place, tally)?;
            at_fault(&[&front[..], &bad, &longest].concat(), before + longest.len(), tally)?;
            places += 2;
        }
        Ok(())
    })?;
    Ok(format!("{cases}, {places} places of ends beside 2^64"))
}

/// The first byte of some groups at which no number up to the most can go on: the least
/// that begins with the groups so far is larger.
fn first_without(bytes: &[u8], most: u64) -> usize {
    let mut least = 0u128;
    for (at, &byte) in bytes.iter().enumerate() {
        least += ((byte & 0x7F) as u128) << (7 * at);
        // A further group is at least 1.
        let going_on = if byte >= 0x80 { least + (1 << (7 * (at + 1))) } else { least };
        if going_on > most as u128 {
            return at;
        }
    }
    bytes.len()
}

/// An image with a fault at a place.
fn at_fault(image: &[u8], place: usize, tally: &mut Tally) -> Result<(), String> {
    let (given, _) = check_read(image, &no_buffers(), tally)?;
    if given != 15 | (place as u64) << 16 {
        return Err(format!("{}: {}, not at {place}", hex(image), result_text(given)));
    }
    Ok(())
}

/// A machine and the one that is made of its image: both go on alike by the same words and
/// further ranges.
pub fn handed_on(context: &mut Context) -> Outcome {
    let count = 300 * context.scale;
    let mut all = [Met::default(); 5];
    let cases = each_case(context, "handed on", count, |case, random, tally| {
        let number = case as usize % (MOST_SEALS + 1);
        let lengths =
            if random.chance(80) { random.pick(&usual_lengths()) } else { lengths(random) };
        let mut lent = bench_with_few_marks(random, lengths, number);
        let memory = random.bytes(1500);
        lent.memory = memory.clone();
        // Ranges that words meet.
        let list: Vec<Seal> = (0..number).map(|_| (random.below(1500), random.below(30))).collect();
        lent.set_machine(&Machine { seals: Seals::of(&list), ..lent.machine() });
        let mut image = written(&lent, random, tally)?;
        let mut made = other_buffers(random, lengths.1);
        let given = library_image_read(&mut image, &mut made);
        let Lent { machine, registers, marks, .. } = made;
        if given != 0 || machine != lent.machine || marks != lent.marks {
            return Err(format!("an image gives {given:#x}\n{}", state_text(&lent)));
        }
        let other = Lent { machine, registers, marks, ..lent.clone() };
        let mut pair = Pair([lent, other].map(|lent| Side { lent, block: vec![] }));
        word_list(random, &mut pair, library_step, &mut all)
    })?;
    let [met, _, _, _, sealed] = all;
    let text = format!(
        "{cases}, {} words done, {} refused with 7, {} ranges added, {} ninths",
        met[0], met[7], sealed[0], sealed[16]
    );
    if context.only_case.is_none() && [met[0], met[7], sealed[0], sealed[16]].contains(&0) {
        return Err(text);
    }
    Ok(text)
}
