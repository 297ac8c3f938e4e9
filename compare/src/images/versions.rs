//! The versions of an image: which one a machine has, and what stands before mtype.

use super::damage::long_groups;
use super::held::{check_handed_over, check_read, result_text, written};
use super::machines::{any_seal, no_buffers, other_buffers, sound_bench};
use crate::lent::hex;
use crate::states::machines::old_lengths;
use crate::suite::{each_case, Context, Outcome};
use crate::tally::Tally;
use model::{Lengths, Machine, Seal, Seals, RULES};

/// The bytes of an image before mtype, each a number of one group; `counted` if there is
/// not one range.
pub fn head((rlen, mlen, elen): Lengths, rule: u64, counted: bool) -> Vec<u8> {
    let [r, m, e] = [rlen, mlen, elen].map(|length| length.trailing_zeros() as u8);
    if counted {
        vec![4, rule as u8, e, r, m]
    } else if rlen > 512 || mlen > 4096 || elen == 64 {
        vec![3, rule as u8, e, r, m]
    } else if rule == 1 {
        vec![2, 1, r, m]
    } else {
        vec![1, r, m]
    }
}

/// Where the head of an image is at fault, by the numbers that each version has there.
fn fault_in_head(image: &[u8]) -> Option<usize> {
    let check = |at: usize, from: u8, to: u8| match image.get(at) {
        Some(byte) if (from..=to).contains(byte) => None,
        _ => Some(at),
    };
    let at = |at: usize| image.get(at).copied().unwrap_or(0);
    let version = check(0, 1, 4);
    version.or_else(|| match image[0] {
        1 => check(1, 6, 9).or_else(|| check(2, at(1) + 1, 12)),
        2 => check(1, 1, 1).or_else(|| check(2, 6, 9)).or_else(|| check(3, at(2) + 1, 12)),
        _ => check(1, 0, 1).or_else(|| check(2, 5, 6)).or_else(|| check(3, at(2) + 1, 12)).or_else(
            || {
                // With ELEN 32 and RLEN up to 512, MLEN is the one beyond the old bounds,
                // but in version 4.
                let old = image[0] == 3 && at(2) == 5 && at(3) <= 9;
                check(4, if old { 13 } else { at(3) + 1 }, 16)
            },
        ),
    })
}

/// The image of each machine by each rule, with one range and with another number: its
/// version, and the machine made of it. Then each byte of its head with every other value,
/// and the head in every other version.
pub fn image_versions(context: &mut Context) -> Outcome {
    let machines = model::permitted_lengths();
    let old = old_lengths().len() as u64;
    let count = machines.len() as u64 + 3 * old;
    each_case(context, "image versions", count, |case, random, tally| {
        // The old machines come first, and come again.
        let at = case.checked_sub(machines.len() as u64).map_or(case, |more| more % old);
        let lengths = machines[at as usize];
        let pattern = if case < old { 0 } else { random.pick(&[0, 2, 3, 4, 9]) };
        let lent = sound_bench(random, lengths, pattern);
        let other = random.pick(&[0, 2, 3, 4, 5, 6, 7, 8]);
        for number in [1, other] {
            let list: Vec<Seal> = (0..number).map(|_| any_seal(random)).collect();
            let [plain, halving] = RULES.map(|rule| {
                let mut lent = lent.clone();
                lent.set_machine(&Machine { rule, seals: Seals::of(&list), ..lent.machine() });
                lent
            });
            let [one, two] = [&plain, &halving].map(|lent| written(lent, random, tally));
            let (one, two) = (one?, two?);
            let heads = RULES.map(|rule| head(lengths, rule, number != 1));
            let [rest, other_rest] = [(&one, &heads[0]), (&two, &heads[1])]
                .map(|(image, head)| image.strip_prefix(&head[..]));
            if rest.is_none() || rest != other_rest {
                return Err(format!("{lengths:?}, {list:?}: {} and {}", hex(&one), hex(&two)));
            }
            check_handed_over(&plain, &one, random, tally)?;
            check_handed_over(&halving, &two, random, tally)?;
            for image in [&one, &two] {
                changed_head(image, tally)?;
            }
            in_every_version(lengths, number != 1, rest.unwrap_or(&[]), tally)?;
        }
        Ok(())
    })
}

/// An image, held to the place of a fault in its head.
fn check_head(image: &[u8], tally: &mut Tally) -> Result<u64, String> {
    let (given, _) = check_read(image, &no_buffers(), tally)?;
    let at_fault = fault_in_head(image).map(|place| 15 | (place as u64) << 16);
    // Without a fault in the head, what follows decides.
    let right = match at_fault {
        Some(expected) => given == expected,
        None => given == 8 || given & 0xFFFF == 15 && given >> 16 > 2,
    };
    match right {
        true => Ok(given),
        false => Err(format!("{}: {}", hex(image), result_text(given))),
    }
}

/// Each byte of the head with every other value.
fn changed_head(image: &[u8], tally: &mut Tally) -> Result<(), String> {
    for at in 0..[3, 4, 5, 5][image[0] as usize - 1] {
        for value in (0..=255).filter(|&value| value != image[at]) {
            let mut changed = image.to_vec();
            changed[at] = value;
            check_head(&changed, tally)?;
        }
    }
    Ok(())
}

/// A machine's lengths in each version and with each rule: but for those that it has by
/// either rule they are refused, or are those of a machine of the other ELEN, or the rest
/// is read with a number of ranges that it does not have.
fn in_every_version(
    (rlen, mlen, elen): Lengths,
    counted: bool,
    rest: &[u8],
    tally: &mut Tally,
) -> Result<(), String> {
    let [r, m, e] = [rlen, mlen, elen].map(|length| length.trailing_zeros() as u8);
    let mut heads = vec![vec![1, r, m], vec![2, 0, r, m], vec![2, 1, r, m], vec![3, r, m]];
    for version in [3, 4] {
        for (rule, elen) in [(0, 5), (1, 5), (0, 6), (1, 6), (2, e)] {
            heads.push(vec![version, rule, elen, r, m]);
        }
    }
    for in_version in heads {
        let image = [&in_version[..], rest].concat();
        let given = check_head(&image, tally)?;
        let own = RULES.iter().any(|&rule| head((rlen, mlen, elen), rule, counted) == in_version);
        let as_written = (in_version[0] == 4) == counted;
        let same_elen = in_version.get(2) == Some(&e) || in_version[0] < 3;
        if own && given != 8 || !own && given == 8 && as_written && same_elen && elen == 32 {
            return Err(format!("{}: {}", hex(&image), result_text(given)));
        }
    }
    Ok(())
}

/// Heads of all versions around their bounds, each with nothing but zeros after it, cut
/// short at each byte, and with each mtype.
pub fn image_heads(context: &mut Context) -> Outcome {
    let exponents: Vec<(u8, u8)> = (4..=14).flat_map(|r| (5..=18).map(move |m| (r, m))).collect();
    let mut fronts: Vec<Vec<u8>> = vec![vec![0], vec![1], vec![5], vec![6]];
    fronts.extend((0..4).map(|rule| vec![2, rule]));
    for version in [3, 4] {
        let rules = (0..4).flat_map(|rule| (3..9).map(move |elen| vec![version, rule, elen]));
        fronts.extend(rules);
    }
    let count = fronts.len() as u64;
    let mut accepted = 0;
    let cases = each_case(context, "image heads", count, |case, random, tally| {
        for &(r, m) in &exponents {
            let head = [&fronts[case as usize][..], &[r, m]].concat();
            let image = [&head[..], &ZEROS[..zeros_after(&head)]].concat();
            let given = check_head(&image, tally)?;
            if (given == 8) != fault_in_head(&image).is_none() {
                return Err(format!("{}: {}", hex(&image), result_text(given)));
            }
            if given != 8 {
                continue;
            }
            accepted += 1;
            let made = other_buffers(random, 1 << m);
            let (given, made) = check_read(&image, &made, tally)?;
            let machine = made.machine();
            let elen = if image[0] >= 3 { 1 << image[2] } else { 32 };
            if given != 0 || machine.lengths() != (1 << r, 1 << m, elen) {
                return Err(format!("{}: {machine:?}", hex(&image)));
            }
            for cut in 0..image.len() {
                let (given, _) = check_read(&image[..cut], &no_buffers(), tally)?;
                if given != 15 | (cut as u64) << 16 {
                    return Err(format!("{}: {}", hex(&image[..cut]), result_text(given)));
                }
            }
            types_and_sizes(&head, elen, tally)?;
        }
        Ok(())
    })?;
    let text = format!("{cases}, {accepted} heads accepted");
    // 18 machines of either rule in versions 1 and 2, 70 in version 3, all of them in 4.
    if context.only_case.is_none() && accepted != 2 * (18 + 70 + 88) {
        return Err(text);
    }
    Ok(text)
}

const ZEROS: [u8; 7] = [0; 7];

/// The numbers from mtype on, all 0: one range and no run, or no range and no run.
fn zeros_after(head: &[u8]) -> usize {
    if head[0] == 4 {
        6
    } else {
        7
    }
}

/// Every mtype up to 16, and every tile size at its maximum and one above.
fn types_and_sizes(head: &[u8], elen: u64, tally: &mut Tally) -> Result<(), String> {
    let legal: &[u8] = if elen == 64 { &[0, 1, 2, 3, 8, 9] } else { &[0, 1, 2, 8] };
    for mtype in 0..=16 {
        let image = [head, &[mtype], &ZEROS[1..zeros_after(head)]].concat();
        let (given, _) = check_read(&image, &no_buffers(), tally)?;
        let at_fault = 15 | (head.len() as u64) << 16;
        if given != if legal.contains(&mtype) { 8 } else { at_fault } {
            return Err(format!("{}: {}", hex(&image), result_text(given)));
        }
    }
    let [r, m] = [head[head.len() - 2], head[head.len() - 1]];
    let (rows, columns) = (1u64 << (m - r), 1u64 << (r - 3));
    for (at, most) in [rows, rows.min(columns), columns].into_iter().enumerate() {
        for (size, fits) in [(most, true), (most + 1, false), (2 * most, false)] {
            let mut image = [head, &[0]].concat();
            for other in 0..zeros_after(head) - 1 {
                image.extend(long_groups(if other == at { size as u128 } else { 0 }, 0));
            }
            let (given, _) = check_read(&image, &no_buffers(), tally)?;
            if fits != (given == 8) {
                return Err(format!("{}: {}", hex(&image), result_text(given)));
            }
        }
    }
    Ok(())
}
