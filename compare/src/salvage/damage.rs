//! Images that are damaged in other ways than by a cut, bytes that are no image, and other
//! lengths of room and report.

use super::cuts::{bench_by_rule, Known};
use super::held::{check_damaged, check_to, Given, Subject};
use crate::images::damage::{damages, long_groups, renumbered, splice};
use crate::images::machines::small_image;
use crate::lent::hex;
use crate::library;
use crate::random::Random;
use crate::suite::{each_case, Context, Outcome};
use crate::tally::Tally;
use model::images::parts;
use model::{HALVING, SMALLER};

/// How often an image was salvaged whole, with fewer runs, and not.
#[derive(Default)]
pub struct Met([u64; 3]);

impl Met {
    fn count(&mut self, given: &Given) {
        let [kept, announced, _] = given.report;
        let at = match given.number {
            0 => usize::from(kept < announced),
            _ => 2,
        };
        self.0[at] += 1;
    }

    /// A summary, which fails if something was not met.
    fn summary(&self, context: &Context, cases: String) -> Outcome {
        let [whole, fewer, refused] = self.0;
        let text = format!("{cases}, {whole} with all runs, {fewer} with fewer, {refused} refused");
        match context.only_case {
            None if self.0.contains(&0) => Err(text),
            _ => Ok(text),
        }
    }
}

/// A case of these suites, on any salvage.
type Counted = fn(Subject, u64, &mut Random, &mut Tally, &mut Met) -> Result<(), String>;

/// Cases on the library, and how often an image was salvaged whole, with fewer runs and not.
fn counted(context: &mut Context, suite: &str, count: u64, check: Counted) -> Outcome {
    let count = count * context.scale;
    let mut met = Met::default();
    let cases = each_case(context, suite, count, |case, random, tally| {
        check(library::image_salvage, case, random, tally, &mut met)
    })?;
    met.summary(context, cases)
}

/// Small images with each byte changed, put in twice, preceded by another and left out, with
/// bytes behind their end, and with several of these at once.
pub fn salvaged_damage(context: &mut Context) -> Outcome {
    counted(context, "salvaged damage", 60, damage_case)
}

pub fn damage_case(
    subject: Subject,
    _: u64,
    random: &mut Random,
    tally: &mut Tally,
    met: &mut Met,
) -> Result<(), String> {
    let image = small_image(random);
    for at in 0..image.len() {
        for damaged in damages(random, &image, at) {
            met.count(&check_damaged(subject, &damaged, random, tally)?);
        }
    }
    for more in 1..5 {
        let longer = [&image[..], &random.bytes(more)].concat();
        met.count(&check_damaged(subject, &longer, random, tally)?);
    }
    for _ in 0..40 {
        let mut damaged = image.clone();
        for _ in 0..random.range(2, 5) {
            if damaged.is_empty() {
                break;
            }
            // Mostly behind the numbers of the machine.
            let length = damaged.len() as u64;
            let from = if random.chance(80) { length / 2 } else { 0 };
            let at = random.range(from, length - 1);
            let ways = damages(random, &damaged, at as usize);
            let way = random.range(1, ways.len() as u64 - 1);
            damaged = ways[way as usize].clone();
        }
        met.count(&check_damaged(subject, &damaged, random, tally)?);
    }
    Ok(())
}

/// An image of each version, with every value of each byte of its header, and with every
/// number of runs up to beyond the most.
pub fn salvaged_heads(context: &mut Context) -> Outcome {
    counted(context, "salvaged heads", 4, head_case)
}

pub fn head_case(
    subject: Subject,
    case: u64,
    random: &mut Random,
    tally: &mut Tally,
    met: &mut Met,
) -> Result<(), String> {
    // Some runs at the front of a small machine.
    let lengths = if case % 4 == 2 { (128, 256, 64) } else { (64, 128, 32) };
    let rule = [SMALLER, HALVING, HALVING, SMALLER][case as usize % 4];
    let number = if case % 4 == 3 { random.pick(&[0, 2, 3]) } else { 1 };
    let mut lent = bench_by_rule(random, lengths, rule, number, 12);
    lent.marks[60..].fill(0);
    lent.marks[random.range(0, 59) as usize] = 1;
    let Known { image, count_at, header_end, ends, .. } = Known::of(lent);
    for at in 0..header_end {
        for value in 0..=255 {
            let mut changed = image.clone();
            changed[at] = value;
            met.count(&check_damaged(subject, &changed, random, tally)?);
        }
    }
    let most = lengths.1 as usize;
    for count in 0..most + 140 {
        let groups = long_groups(count as u128, 0);
        let changed = [&image[..count_at], &groups, &image[header_end..]].concat();
        let given = check_damaged(subject, &changed, random, tally)?;
        met.count(&given);
        let moved = groups.len() as u64 + count_at as u64 - header_end as u64;
        // A number that is too large is at fault in one of its groups. Of fewer runs the rest is
        // too much; of more the last one is missing, if there is room for them.
        let as_announced = match given.number {
            15 => count > most && given.with < count_at as u64 + groups.len() as u64,
            _ if count <= ends.len() => {
                let end = if count == 0 { header_end } else { ends[count - 1] } as u64;
                given.report == [count as u64, count as u64, end + moved]
            }
            _ => given.report[1] == count as u64 && given.report[0] <= ends.len() as u64,
        };
        if !as_announced {
            return Err(format!("{count} runs in {}: {given:?}", hex(&image)));
        }
    }
    Ok(())
}

/// Images in which a number is another one or not in its shortest form; every second one is cut
/// as well.
pub fn salvaged_numbers(context: &mut Context) -> Outcome {
    counted(context, "salvaged numbers", 10_000, number_case)
}

pub fn number_case(
    subject: Subject,
    case: u64,
    random: &mut Random,
    tally: &mut Tally,
    met: &mut Met,
) -> Result<(), String> {
    let sound = parts(&small_image(random)).expect("a sound image");
    let mut image = renumbered(random, &sound);
    if case % 2 == 1 {
        image.truncate(random.below(image.len() as u64 + 1) as usize);
    }
    met.count(&check_damaged(subject, &image, random, tally)?);
    Ok(())
}

/// Arbitrary bytes, alone or behind the beginning of an image, and the beginning of one image
/// before the end of another.
pub fn salvaged_strings(context: &mut Context) -> Outcome {
    counted(context, "salvaged strings", 10_000, string_case)
}

pub fn string_case(
    subject: Subject,
    case: u64,
    random: &mut Random,
    tally: &mut Tally,
    met: &mut Met,
) -> Result<(), String> {
    let mut image = small_image(random);
    let length = random.below(40) as usize;
    match case % 5 {
        0 => image = random.bytes(length),
        1 => image = random.bytes(length).iter().map(|byte| byte % 16).collect(),
        2 | 3 => {
            // A header mostly, with a number of runs and what may be some.
            let end = image.len() as u64;
            let from = if case % 5 == 2 { 0 } else { end / 3 };
            image.truncate(random.range(from, end) as usize);
            let small = random.pick(&[2, 3, 8, 128, 255]);
            image.extend(random.bytes(length).iter().map(|byte| byte % small));
        }
        _ => splice(random, &mut image),
    }
    met.count(&check_damaged(subject, &image, random, tally)?);
    Ok(())
}

/// A sound image, a cut one or a damaged one.
fn any_image(case: u64, random: &mut Random) -> Vec<u8> {
    let mut image = small_image(random);
    let length = image.len() as u64;
    match case % 4 {
        0 => {}
        1 => image.truncate(random.below(length) as usize),
        2 => image.truncate(random.range(length / 2, length - 1) as usize),
        _ => {
            let at = random.below(length) as usize;
            let ways = damages(random, &image, at);
            image = ways[random.below(ways.len() as u64) as usize].clone();
        }
    }
    image
}

/// Room of every length up to beyond the fresh image's, or around it: 14 with the place
/// below its length, but 15 for a bad header in whatever room.
pub fn salvage_rooms(context: &mut Context) -> Outcome {
    let count = 400 * context.scale;
    let mut met = [0; 2];
    let cases = each_case(context, "salvage rooms", count, |case, random, tally| {
        room_case(library::image_salvage, case, random, tally, &mut met)
    })?;
    let text = format!("{cases}, {} without room, {} with a bad header and none", met[0], met[1]);
    match context.only_case {
        None if met.contains(&0) => Err(text),
        _ => Ok(text),
    }
}

pub fn room_case(
    subject: Subject,
    case: u64,
    random: &mut Random,
    tally: &mut Tally,
    met: &mut [u64; 2],
) -> Result<(), String> {
    let image = any_image(case, random);
    let full = check_damaged(subject, &image, random, tally)?;
    let needed = full.fresh.len();
    let around = if full.number == 0 { needed } else { image.len() };
    let rooms = (0..=around + 3).filter(|&room| around < 60 || room < 3 || room + 9 > around);
    for room in rooms.chain([image.len(), 2 * image.len() + 100]) {
        let given = check_to(subject, &image, [room, library::REPORT_BYTES], random, tally)?;
        let expected = match full.number {
            0 if room < needed => Given::refused(14, full.place() as usize),
            _ => full.clone(),
        };
        if given != expected {
            return Err(format!("{} to {room} bytes: {given:?}, not {expected:?}", hex(&image)));
        }
        met[0] += u64::from(given.number == 14);
        met[1] += u64::from(given.number == 15 && room < 10);
    }
    Ok(())
}

/// Report blocks of other lengths, which get 8 before anything else.
pub fn salvage_reports(context: &mut Context) -> Outcome {
    let count = 150 * context.scale;
    each_case(context, "salvage reports", count, |case, random, tally| {
        report_case(library::image_salvage, case, random, tally)
    })
}

pub fn report_case(
    subject: Subject,
    case: u64,
    random: &mut Random,
    tally: &mut Tally,
) -> Result<(), String> {
    let image = any_image(case, random);
    let lengths = (0..60).filter(|&length| length != library::REPORT_BYTES);
    for report in lengths.chain([72, 240, 256 + 24, 65_536 + 24]) {
        let room = random.pick(&[0, 5, image.len(), image.len() + 20]);
        let given = check_to(subject, &image, [room, report], random, tally)?;
        if given != Given::refused(8, 0) {
            return Err(format!("{} to a report of {report} bytes: {given:?}", hex(&image)));
        }
    }
    Ok(())
}
