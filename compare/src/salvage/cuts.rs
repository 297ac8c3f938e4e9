//! Images that are cut, and sound ones. What a cut leaves is reckoned here from the marks of
//! the machine whose image it was, and from the bytes of the image alone.

use super::held::{check, check_to, shown, Given, Subject};
use crate::images::damage::long_groups;
use crate::images::held::{check_read, check_write};
use crate::images::machines::{bench_with_ranges, mark, other_buffers, PATTERNS};
use crate::lent::{second_image, state_text, Lent};
use crate::library;
use crate::random::Random;
use crate::states::machines::{larger_lengths, lengths};
use crate::suite::{each_case, Context, Outcome};
use crate::tally::Tally;
use model::{Lengths, Machine, HALVING, MOST_SEALS, RULES, SMALLER};

/// A machine's image, and where its parts end.
pub struct Known {
    pub lent: Lent,
    pub image: Vec<u8>,
    /// The first byte of the number of runs, and the first behind it.
    pub count_at: usize,
    pub header_end: usize,
    /// Of each run, the first byte behind it.
    pub ends: Vec<usize>,
}

impl Known {
    pub fn of(lent: Lent) -> Known {
        let image = second_image(&lent).expect("a sound machine");
        // Gap by gap and run by run through the marks.
        let (mut lengths, mut gap, mut run) = (vec![], 0, 0);
        for at in 0..=lent.marks.len() {
            match lent.marks.get(at) {
                Some(1) => run += 1,
                _ if run > 0 => {
                    let [groups, more] = [gap, run].map(|number| long_groups(number, 0).len());
                    lengths.push(groups + more + run as usize);
                    (gap, run) = (1, 0);
                }
                _ => gap += 1,
            }
        }
        let header_end = image.len() - lengths.iter().sum::<usize>();
        let count_at = header_end - long_groups(lengths.len() as u128, 0).len();
        let mut end = header_end;
        let ends = lengths.into_iter().map(|length| {
            end += length;
            end
        });
        let ends = ends.collect();
        Known { lent, image, count_at, header_end, ends }
    }

    /// The salvage of the image cut at a place.
    fn salvage(&self, cut: usize) -> Given {
        if cut < self.header_end {
            return Given::refused(15, cut);
        }
        let kept = self.ends.iter().take_while(|&&end| end <= cut).count();
        let end = if kept == 0 { self.header_end } else { self.ends[kept - 1] };
        let mut fresh = self.image[..self.count_at].to_vec();
        fresh.extend(long_groups(kept as u128, 0));
        fresh.extend(&self.image[self.header_end..end]);
        Given::done(fresh, [kept, self.ends.len(), cut])
    }

    /// The image cut at a place, held to this.
    pub fn check_cut(
        &self,
        subject: Subject,
        cut: usize,
        random: &mut Random,
        tally: &mut Tally,
    ) -> Result<Given, String> {
        let given = check(subject, &self.image[..cut], random, tally)?;
        let expected = self.salvage(cut);
        if given != expected {
            return Err(format!(
                "cut at {cut}: {}\n{given:?}\nby the marks: {expected:?}",
                shown(&self.image)
            ));
        }
        Ok(given)
    }

    /// The promise: the machine read from the salvage of a cut image has the numbers of the
    /// one whose image it was, and differs from it at most in marks that are taken away. Its
    /// image, as the library writes it, is the salvage.
    pub fn check_promise(
        &self,
        given: &Given,
        random: &mut Random,
        tally: &mut Tally,
    ) -> Result<(), String> {
        let sent = &self.lent;
        let before = other_buffers(random, sent.machine().mlen);
        let (result, made) = check_read(&given.fresh, &before, tally)?;
        let kept = |at: usize| match (sent.marks[at], made.marks[at]) {
            (1, 1) => made.registers[at] == sent.registers[at],
            (_, 0) => made.registers[at] == before.registers[at],
            _ => false,
        };
        let runs = model::images::runs(&made.marks).len() as u64;
        if result != 0
            || made.machine != sent.machine
            || !(0..sent.marks.len()).all(kept)
            || runs != given.report[0]
        {
            let text = state_text(sent);
            return Err(format!(
                "the salvage of a cut image is of another machine: {given:?}\n{text}"
            ));
        }
        let (_, written) = check_write(&made, given.fresh.len(), random, tally)?;
        if written != given.fresh {
            return Err(format!("its machine has another image: {given:?}\n{}", state_text(sent)));
        }
        Ok(())
    }
}

/// A machine with these lengths, rule, number of ranges and pattern of marks.
pub fn bench_by_rule(
    random: &mut Random,
    lengths: Lengths,
    rule: u64,
    number: usize,
    pattern: u64,
) -> Lent {
    let mut lent = bench_with_ranges(random, lengths, number, pattern);
    lent.set_machine(&Machine { rule, ..lent.machine() });
    lent
}

/// Lengths of a few hundred register bytes.
const SMALL: [Lengths; 4] = [(64, 128, 32), (64, 128, 32), (64, 256, 32), (128, 256, 32)];
const SMALL_AT_64: [Lengths; 4] = [(128, 256, 64), (128, 256, 64), (128, 256, 64), (256, 512, 64)];

/// A machine of each version in turn, with each pattern of marks, of few bytes; seldom a
/// larger one, of few marks.
pub fn bench_of_version(case: u64, random: &mut Random) -> Lent {
    let version = 1 + case % 4;
    let mut pattern = case / 4 % PATTERNS;
    let other_numbers = [0, 2, 3, 4, 5, 6, 7, 8];
    let number = if version == 4 { other_numbers[(case / 4 % 8) as usize] } else { 1 };
    let rule = match version {
        1 => SMALLER,
        2 => HALVING,
        _ => random.pick(&RULES),
    };
    let lengths = match version {
        1 | 2 => random.pick(&SMALL),
        _ if random.chance(8) => {
            pattern = random.pick(&[0, 2, 3, 4]);
            random.pick(&larger_lengths())
        }
        3 => random.pick(&SMALL_AT_64),
        _ => random.pick(&[&SMALL[..], &SMALL_AT_64].concat()),
    };
    bench_by_rule(random, lengths, rule, number, pattern)
}

/// Images of every version, cut at every byte.
pub fn salvaged_cuts(context: &mut Context) -> Outcome {
    let count = 4 * 8 * PATTERNS * context.scale;
    let mut cuts = [0; 4];
    let cases = each_case(context, "salvaged cuts", count, |case, random, tally| {
        let made = every_cut(library::image_salvage, case, random, tally)?;
        cuts[case as usize % 4] += made;
        Ok(())
    })?;
    Ok(format!("{cases}, by version {cuts:?} cuts"))
}

/// One image, cut at every byte; how many cuts there are.
pub fn every_cut(
    subject: Subject,
    case: u64,
    random: &mut Random,
    tally: &mut Tally,
) -> Result<usize, String> {
    let known = Known::of(bench_of_version(case, random));
    if u64::from(known.image[0]) != 1 + case % 4 {
        return Err(format!("another version is written: {}", shown(&known.image)));
    }
    // The same fresh image is the same machine.
    let mut read = vec![];
    for cut in 0..=known.image.len() {
        let given = known.check_cut(subject, cut, random, tally)?;
        if given.number == 0 && read != given.fresh {
            known.check_promise(&given, random, tally)?;
            read = given.fresh;
        }
    }
    Ok(known.image.len() + 1)
}

/// Every permitted machine by each rule, with any number of ranges: images with as many runs
/// as there can be, and of any pattern, cut around the parts of an image, and sound.
pub fn salvaged_machines(context: &mut Context) -> Outcome {
    let machines = model::permitted_lengths();
    let count = 4 * machines.len() as u64 * context.scale;
    each_case(context, "salvaged machines", count, |case, random, tally| {
        machine_case(library::image_salvage, case, random, tally)
    })
}

pub fn machine_case(
    subject: Subject,
    case: u64,
    random: &mut Random,
    tally: &mut Tally,
) -> Result<(), String> {
    let machines = model::permitted_lengths();
    let (lengths, way) = (machines[case as usize / 4 % machines.len()], case % 4);
    let pattern = if way < 2 { 7 } else { random.below(PATTERNS) };
    let number = if way % 2 == 0 { 1 } else { random.below(MOST_SEALS as u64 + 1) as usize };
    let rule = random.pick(&RULES);
    let mut lent = bench_by_rule(random, lengths, rule, number, pattern);
    if lengths.1 > 8192 && way > 0 {
        // Fewer marks, since the second program takes its time.
        let total = lent.marks.len();
        let from = random.below(total as u64) as usize;
        let to = (from + 300).min(total);
        lent.marks[..from].fill(0);
        lent.marks[to..].fill(0);
    }
    let known = Known::of(lent);
    let length = known.image.len();
    let any = random.below(length as u64 + 1) as usize;
    let mut cuts = vec![known.header_end - 1, known.header_end, any, length - 1, length];
    if let Some(&last) = known.ends.len().checked_sub(1).and_then(|_| known.ends.last()) {
        let some = random.pick(&known.ends);
        cuts.extend([some - 1, some, known.ends[0], last - 1]);
    }
    cuts.sort();
    cuts.dedup();
    if lengths.1 > 8192 {
        cuts.retain(|&cut| cut + 1 >= known.header_end && random.chance(40) || cut == length);
    }
    for cut in cuts {
        let given = known.check_cut(subject, cut, random, tally)?;
        if given.number == 0 {
            known.check_promise(&given, random, tally)?;
        }
    }
    Ok(())
}

/// Sound images, which come out as they are, in room of their length; with bytes too many,
/// which are left out, and whose first one is the place.
pub fn sound_salvages(context: &mut Context) -> Outcome {
    let count = 1_500 * context.scale;
    each_case(context, "sound salvages", count, |case, random, tally| {
        sound_case(library::image_salvage, case, random, tally)
    })
}

pub fn sound_case(
    subject: Subject,
    case: u64,
    random: &mut Random,
    tally: &mut Tally,
) -> Result<(), String> {
    let lent = match case % 3 {
        0 => bench_of_version(case / 3, random),
        _ => {
            let lengths = lengths(random);
            let pattern = random.below(PATTERNS);
            let number = random.below(MOST_SEALS as u64 + 1) as usize;
            let rule = random.pick(&RULES);
            let mut lent = bench_by_rule(random, lengths, rule, number, pattern);
            mark(random, 12, lengths.1, &mut lent.marks);
            lent
        }
    };
    let image = second_image(&lent).expect("a sound machine");
    let runs = model::images::runs(&lent.marks).len();
    let expected = Given::done(image.clone(), [runs, runs, image.len()]);
    let more = random.range(1, 30) as usize;
    for longer in [image.clone(), [&image[..], &random.bytes(more)].concat()] {
        for room in [image.len(), longer.len(), longer.len() + 9] {
            let lengths = [room, library::REPORT_BYTES];
            let given = check_to(subject, &longer, lengths, random, tally)?;
            if given != expected {
                return Err(format!("{} bytes of {}: {given:?}", longer.len(), shown(&image)));
            }
        }
    }
    Ok(())
}
