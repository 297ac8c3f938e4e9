//! The two rules by which a machine chooses its tile sizes (request Eight). What each
//! gives is reckoned here from the paper's sentence and from the constraints of document
//! 001, apart from the second program.

use crate::lent::{
    library_image_size, library_image_write, library_seal, library_start, library_step, Lent,
};
use crate::random::Random;
use crate::states::cases::{bench_of, good_case};
use crate::states::machines::{
    any_machine, lengths, mtypes, set_size, usual_lengths, UNKNOWN_RULES,
};
use crate::states::words::any_row;
use crate::steps::renewed::SETTINGS;
use crate::suite::{check_step, each_case, Context, Outcome};
use crate::tally::{Call, Tally};
use model::{maximum, sew, tile_size, Lengths, Machine, Size, HALVING, RULES};

// ---------------------------------------------------------------------------
// Asked sizes

/// Every machine, mtype, size and rule: all asked sizes up to beyond twice the maximum,
/// and large ones, by each form of the setting.
pub fn asked_sizes(context: &mut Context) -> Outcome {
    let machines = machines_of(&usual_lengths());
    let each = SETTINGS.len() * RULES.len();
    let count = (machines.len() * each) as u64;
    let (mut asked, mut halved) = (0, 0);
    let cases = each_case(context, "asked sizes", count, |case, random, tally| {
        let (lengths, mtype) = machines[case as usize / each];
        let rule = RULES[case as usize % 2];
        let (name, size) = SETTINGS[case as usize / 2 % SETTINGS.len()];
        let machine = Machine { mtype, ..Machine::of(lengths, rule) };
        let mut lent = bench_of(random, &machine);
        let most = maximum(&machine, size, sew(mtype)) as u64;
        for number in asked_numbers(random, most) {
            let given = size_given(rule, number, most)?;
            asked += 1;
            halved += u64::from(given != number.min(most));
            ask(random, &mut lent, (name, size), number, given, tally)?;
        }
        let widest = maximum(&machine, size, 8) as u64;
        let held: Vec<u64> = (0..=widest).collect();
        sized_by_x0(random, &mut lent, (name, size), most, &held, tally)
    })?;
    let text = format!("{cases}, {asked} sizes asked for, {halved} of them halved");
    if context.only_case.is_none() && halved == 0 {
        return Err(text);
    }
    Ok(text)
}

/// Lengths with each legal mtype.
pub fn machines_of(lengths: &[Lengths]) -> Vec<(Lengths, u64)> {
    let with_mtypes = |&lengths: &Lengths| mtypes(lengths.2).iter().map(move |&to| (lengths, to));
    lengths.iter().flat_map(with_mtypes).collect()
}

/// All up to beyond twice the maximum, then large ones.
fn asked_numbers(random: &mut Random, most: u64) -> Vec<u64> {
    let mut numbers: Vec<u64> = (0..=2 * most + 3).collect();
    numbers.extend([3 * most - 1, 4 * most, 8191, 8192, 1 << 32, (1 << 32) + most + 1]);
    numbers.extend([1 << 63, (1 << 63) + most + 1, u64::MAX - 1, u64::MAX]);
    numbers.extend([0u64.wrapping_sub(most), random.next()]);
    numbers
}

/// The size that a rule gives, which keeps the three constraints.
pub fn size_given(rule: u64, asked: u64, most: u64) -> Result<u64, String> {
    let between = most < asked && asked < 2 * most;
    let given = match rule {
        HALVING if between => asked.div_ceil(2),
        _ => asked.min(most),
    };
    let kept = (asked > most || given == asked)
        && (!between || asked.div_ceil(2) <= given && given <= most)
        && (asked < 2 * most || given == most);
    if kept {
        Ok(given)
    } else {
        Err(format!("{asked} of at most {most} by rule {rule}: {given}"))
    }
}

/// A size asked for by a scalar and, where it fits, by an immediate: it becomes the size
/// and goes to rd.
pub fn ask(
    random: &mut Random,
    lent: &mut Lent,
    (name, size): (&str, Size),
    number: u64,
    given: u64,
    tally: &mut Tally,
) -> Result<(), String> {
    let rs1 = random.range(1, 31) as u32;
    let rd = random.below(32) as u32;
    lent.set_scalar(rs1, number);
    let mut words = vec![model::assemble(name, &[("rs1", rs1), ("rd", rd)])];
    if number < 8192 {
        let immediate = [("mleni", number as u32), ("rd", rd)];
        words.push(model::assemble(&format!("{name}i"), &immediate));
    }
    for word in words {
        let (answer, after) = check_step(word, lent, tally)?;
        let found = tile_size(&after.machine(), size) as u64;
        let in_rd = rd == 0 || after.scalar_values()[rd as usize] == given;
        if answer != 0 || found != given || !in_rd {
            return Err(format!(
                "{}, {number} asked for: {answer}, size {found}, not {given}, or not in rd\n{:?}",
                model::describe(word),
                lent.machine()
            ));
        }
        *lent = after;
    }
    Ok(())
}

/// With rs1 x0 the maximum, whatever the rule; with both x0 the smaller of the size and
/// the maximum.
pub fn sized_by_x0(
    random: &mut Random,
    lent: &mut Lent,
    (name, size): (&str, Size),
    most: u64,
    held: &[u64],
    tally: &mut Tally,
) -> Result<(), String> {
    for &before in held {
        for (rd, given) in [(random.range(1, 31) as u32, most), (0, before.min(most))] {
            let mut machine = lent.machine();
            set_size(&mut machine, size, before as i128);
            lent.set_machine(&machine);
            let (answer, after) = check_step(model::assemble(name, &[("rd", rd)]), lent, tally)?;
            let found = tile_size(&after.machine(), size) as u64;
            let in_rd = rd == 0 || after.scalar_values()[rd as usize] == given;
            if answer != 0 || found != given || !in_rd {
                return Err(format!(
                    "{name} with rs1 x0 and rd x{rd}: {answer}, size {found}, not {given}, or not \
                     in rd\n{machine:?}"
                ));
            }
        }
    }
    Ok(())
}

// ---------------------------------------------------------------------------
// Unknown rules

/// Good starts, words, images and ranges on a machine whose rule is none: 8, and nothing
/// changes.
pub fn unknown_rules(context: &mut Context) -> Outcome {
    let count = 200 * UNKNOWN_RULES.len() as u64;
    each_case(context, "unknown rules", count, |case, random, tally| {
        let rule = UNKNOWN_RULES[case as usize % UNKNOWN_RULES.len()];
        let row = any_row(random);
        let good = good_case(random, row);
        refused(rule, good.lent, |lent| library_step(good.word, lent))?;
        tally.step(good.word, 8, None);

        let lengths = lengths(random);
        let machine = any_machine(random, lengths);
        let lent = bench_of(random, &machine);
        refused(rule, lent.clone(), library_image_size)?;
        tally.count(Call::ImageSize, 8);
        let mut room = random.bytes(3 * lent.registers.len());
        let held = room.clone();
        refused(rule, lent.clone(), |lent| library_image_write(lent, &mut room))?;
        if room != held {
            return Err(format!("rule {rule}: an image was written"));
        }
        tally.count(Call::ImageWrite, 8);

        refused(rule, lent.clone(), |lent| library_start(lengths, rule, &mut [0, 0], lent))?;
        tally.count(Call::MachineStart, 8);
        refused(rule, lent, |lent| library_seal((0, 0), lent))?;
        tally.count(Call::Seal, 8);
        Ok(())
    })
}

/// A call on a bench that is good but for its rule.
pub fn refused(
    rule: u64,
    mut lent: Lent,
    mut call: impl FnMut(&mut Lent) -> u64,
) -> Result<(), String> {
    let mut machine = lent.machine();
    machine.rule = rule;
    lent.set_machine(&machine);
    let before = lent.clone();
    let given = call(&mut lent);
    if given != 8 || lent != before {
        return Err(format!("rule {rule}: answer {given:#x}, or bytes change\n{machine:?}"));
    }
    Ok(())
}
