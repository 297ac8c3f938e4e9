//! Hosts that salvage an image, read what comes out and go on: words and product runs, each
//! program on the machine that it made itself.

use super::cuts::Known;
use super::held::{check_damaged, Given, Subject};
use crate::images::damage::damages;
use crate::images::held::result_text;
use crate::images::machines::{mark, other_buffers, PATTERNS};
use crate::lent::{
    library_image_read, library_image_write, library_step, machine_of, packed, report,
    second_image, second_image_read, second_salvage, second_step, Lent,
};
use crate::library;
use crate::random::Random;
use crate::runs::held::{check_run, start_both};
use crate::runs::plans::plan_around;
use crate::states::machines::lengths;
use crate::states::words::bad_word;
use crate::steps::sequences::following_word;
use crate::suite::{each_case, Context, Outcome};
use crate::tally::Tally;
use model::images::parts;

/// What the hosts met: machines that lost runs, words done and refused with 5, runs of a
/// product.
#[derive(Default)]
pub struct Met {
    lost: u64,
    done: u64,
    unwritten: u64,
    runs: u64,
}

/// Machines whose images are cut or damaged on the way, and the hosts that go on with them.
pub fn salvage_hosts(context: &mut Context) -> Outcome {
    let count = 400 * context.scale;
    let mut met = Met::default();
    let cases = each_case(context, "salvage hosts", count, |case, random, tally| {
        host_case(library::image_salvage, case, random, tally, &mut met)
    })?;
    let Met { lost, done, unwritten, runs } = met;
    let text = format!(
        "{cases}, {lost} machines without some runs, {done} words done, {unwritten} refused with 5, \
         {runs} runs of a product"
    );
    match context.only_case {
        None if [lost, done, unwritten, runs].contains(&0) => Err(text),
        _ => Ok(text),
    }
}

pub fn host_case(
    subject: Subject,
    case: u64,
    random: &mut Random,
    tally: &mut Tally,
    met: &mut Met,
) -> Result<(), String> {
    let (plan, mut sender) = loop {
        let lengths = lengths(random);
        if lengths.1 <= 4096 {
            break plan_around(random, lengths);
        }
    };
    let any = random.below(PATTERNS);
    let pattern = random.pick(&[1, 5, 9, 10, 11, 11, 12, 12, any]);
    mark(random, pattern, sender.machine().mlen, &mut sender.marks);
    sender.memory.extend(random.bytes(300));
    let known = Known::of(sender.clone());
    let mut image = vec![0; known.image.len()];
    let written = library_image_write(&mut sender, &mut image);
    if written != (image.len() as u64) << 16 || image != known.image {
        return Err(format!("an image of {} bytes: {}", image.len(), result_text(written)));
    }
    let length = image.len() as u64;
    let only_cut = case % 4 != 0;
    if only_cut {
        image.truncate(random.range(known.header_end as u64, length) as usize);
    } else {
        let at = random.range(length / 3, length - 1) as usize;
        let ways = damages(random, &image, at);
        image = ways[random.below(ways.len() as u64) as usize].clone();
    }
    let given = check_damaged(subject, &image, random, tally)?;
    if given.number != 0 {
        return if only_cut { Err(format!("a cut gets {given:?}")) } else { Ok(()) };
    }
    met.lost += u64::from(given.report[0] < given.report[1]);
    if only_cut {
        known.check_promise(&given, random, tally)?;
    }
    let (library, second) = both_made(&image, &given, &sender, random)?;
    let after = words(random, library, second, tally, met)?;
    if let Some(started) = start_both(random, plan, after, tally)? {
        met.runs += 1;
        check_run(random, started, tally)?;
    } else if only_cut
        && machine_of(&sender.machine).is_some_and(|machine| machine.seals.number == 0)
    {
        return Err(format!("without a sealed range, {plan:?} is refused"));
    }
    Ok(())
}

/// The machine that the library reads from its salvage, and the one that the second program
/// reads from its own, each with the memory and the scalars of the sender.
fn both_made(
    image: &[u8],
    given: &Given,
    sender: &Lent,
    random: &mut Random,
) -> Result<(Lent, Lent), String> {
    let mlen = parts(&given.fresh).map_err(|_| "the salvage is no image")?.machine.mlen;
    let before = other_buffers(random, mlen);
    let mut library = before.clone();
    let mut fresh = given.fresh.clone();
    let result = library_image_read(&mut fresh, &mut library);
    let mut second = before.clone();
    let mut room = vec![0; image.len()];
    let salvaged = second_salvage(image, &mut room, &mut [0; library::REPORT_BYTES]);
    let expected = second_image_read(&room[..(salvaged >> 16) as usize], &mut second);
    if (result, expected) != (0, 0) || library != second || fresh != given.fresh {
        return Err(format!(
            "the salvage is read\n{}",
            report(&before, result, &library, expected, &second)
        ));
    }
    let with_memory = |made: Lent| Lent {
        machine: made.machine,
        registers: made.registers,
        marks: made.marks,
        ..sender.clone()
    };
    Ok((with_memory(library), with_memory(second)))
}

/// Words one after the other, each program on its own machine; what they leave.
fn words(
    random: &mut Random,
    mut library: Lent,
    mut second: Lent,
    tally: &mut Tally,
    met: &mut Met,
) -> Result<Lent, String> {
    for _ in 0..30 {
        let before = library.clone();
        let mut word = following_word(random, &mut library);
        if random.chance(3) {
            word = bad_word(random, word);
        }
        // The host's scalars and group size.
        (second.scalars, second.group) = (library.scalars.clone(), library.group);
        let given = library_step(word, &mut library);
        let answer = second_step(word, &mut second);
        if given != packed(answer) || library != second {
            return Err(format!(
                "after a salvage, word {word:#010x}: {}\n{}",
                model::describe(word),
                report(&before, given, &library, packed(answer), &second)
            ));
        }
        tally.step(word, answer.number, machine_of(&before.machine));
        met.done += u64::from(answer.number == 0);
        met.unwritten += u64::from(answer.number == 5);
    }
    if second_image(&second).is_none() {
        return Err("the machine is at fault after its words".to_string());
    }
    Ok(library)
}
