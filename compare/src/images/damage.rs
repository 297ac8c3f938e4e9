//! Images that are damaged: cut, with other bytes and with other numbers.

use super::held::check_read;
use super::machines::{other_buffers, small_image};
use super::versions::head;
use crate::lent::{hex, Lent};
use crate::random::Random;
use crate::suite::{each_case, Context, Outcome};
use crate::tally::Tally;
use model::images::{completed, parts, Parts};
use model::MOST_SEALS;

/// An image that may be damaged. What stands before the place of answer 15 is the
/// beginning of an image that the library accepts.
pub fn check_damaged(
    image: &[u8],
    before: &Lent,
    random: &mut Random,
    tally: &mut Tally,
) -> Result<(), String> {
    let (given, _) = check_read(image, before, tally)?;
    if given & 0xFFFF == 15 && random.chance(10) {
        let whole = completed(&image[..(given >> 16) as usize]).expect("a sound beginning");
        let mlen = parts(&whole).expect("a sound image").machine.mlen;
        let (given, _) = check_read(&whole, &other_buffers(random, mlen), tally)?;
        if given != 0 {
            return Err(format!("{} is refused: {given:#x}", hex(&whole)));
        }
    }
    Ok(())
}

/// An image cut before a byte, and with that byte changed, put in twice, preceded by
/// another or left out.
pub fn damages(random: &mut Random, image: &[u8], at: usize) -> Vec<Vec<u8>> {
    let (front, byte, rest) = (&image[..at], image[at], &image[at + 1..]);
    let other = random.next() as u8;
    let flipped = byte ^ 1 << random.below(8);
    let ends = [0, 1, 0x7F, 0x80, 0x81, 0xFF];
    let near = [byte ^ 0x80, byte.wrapping_add(1), byte.wrapping_sub(1), flipped, other];
    let mut damaged = vec![front.to_vec()];
    for value in ends.into_iter().chain(near) {
        damaged.push([front, &[value], rest].concat());
    }
    for value in [byte, other, random.pick(&ends)] {
        damaged.push([front, &[value, byte], rest].concat());
    }
    damaged.push([front, rest].concat());
    damaged
}

/// Small images damaged at each byte, and with a byte after their end.
pub fn damaged_images(context: &mut Context) -> Outcome {
    let count = 400 * context.scale;
    each_case(context, "damaged images", count, |_, random, tally| {
        let image = small_image(random);
        let before = other_buffers(random, parts(&image).expect("a sound image").machine.mlen);
        for at in 0..image.len() {
            for damaged in damages(random, &image, at) {
                check_damaged(&damaged, &before, random, tally)?;
            }
        }
        let longer = [image, random.bytes(1)].concat();
        check_damaged(&longer, &before, random, tally)
    })
}

/// A number in groups, with as many more that are 0.
pub fn long_groups(number: u128, more: usize) -> Vec<u8> {
    let mut bytes = Vec::new();
    let mut rest = number;
    while rest >= 128 {
        bytes.push(rest as u8 | 0x80);
        rest >>= 7;
    }
    bytes.push(rest as u8);
    for _ in 0..more {
        *bytes.last_mut().expect("a group") |= 0x80;
        bytes.push(0);
    }
    bytes
}

/// The numbers of an image, each with the most that can stand there, and the bytes
/// that follow it.
fn numbers(Parts { machine, runs }: &Parts) -> Vec<(u64, u64, Vec<u8>)> {
    let total = model::register_bytes(machine.mlen) as u64;
    let plain = |number: u64, most: u64| (number, most, vec![]);
    let rows = machine.mlen / machine.rlen;
    let ranges = machine.seals.list();
    let mut numbers: Vec<_> = head(machine.lengths(), machine.rule, ranges.len() != 1)
        .into_iter()
        .zip([4, 1, 6, 12, 16])
        .map(|(number, most)| plain(number as u64, most))
        .collect();
    numbers.extend([
        plain(machine.mtype, 1 << 63),
        plain(machine.tile_m, rows),
        plain(machine.tile_k, rows.min(machine.rlen / 8)),
        plain(machine.tile_n, machine.rlen / 8),
    ]);
    if ranges.len() != 1 {
        numbers.push(plain(machine.seals.number, MOST_SEALS as u64));
    }
    for &(start, length) in ranges {
        numbers.extend([plain(start, u64::MAX), plain(length, u64::MAX - start)]);
    }
    numbers.push(plain(runs.len() as u64, total / 2));
    let mut end = 0;
    for (index, (start, bytes)) in runs.iter().enumerate() {
        let room = total - end - 2 * (runs.len() - 1 - index) as u64;
        let gap = *start as u64 - end;
        numbers.push(plain(gap, room - 1));
        numbers.push((bytes.len() as u64, room - gap, bytes.clone()));
        end += gap + bytes.len() as u64;
    }
    numbers
}

/// Another number near the one that stands there or the most that can, or the same
/// with more groups than it needs: the number, and how many more.
fn other_number(random: &mut Random, number: u64, most: u64) -> (u128, usize) {
    let (number, most) = (number as u128, most as u128);
    let near = random.below(4) as u128;
    match random.below(7) {
        0 | 1 => (most + near, 0),
        2 => (most.saturating_sub(near), 0),
        3 => (number, 1 + near as usize),
        4 => (near, 0),
        5 => (number ^ 1 << random.below(70), 0),
        _ => ((1 << (7 * random.range(1, 10))) - near % 2, 0),
    }
}

/// The image of some parts in which one number is another one or not in its shortest form.
pub fn renumbered(random: &mut Random, sound: &Parts) -> Vec<u8> {
    let numbers = numbers(sound);
    let changed = random.below(numbers.len() as u64) as usize;
    let mut image = Vec::new();
    for (index, (number, most, mut bytes)) in numbers.into_iter().enumerate() {
        let (mut put, mut more) = (number as u128, 0);
        if index == changed {
            (put, more) = other_number(random, number, most);
            if !bytes.is_empty() && random.chance(80) {
                // As many bytes as the run then has.
                bytes.resize(put.min(3000) as usize, 7);
            }
        }
        image.extend(long_groups(put, more));
        image.extend(bytes);
    }
    image
}

/// Images in which a number is another one or not in its shortest form.
pub fn image_numbers(context: &mut Context) -> Outcome {
    let count = 60_000 * context.scale;
    each_case(context, "image numbers", count, |_, random, tally| {
        let sound = parts(&small_image(random)).expect("a sound image");
        let image = renumbered(random, &sound);
        let before = other_buffers(random, sound.machine.mlen);
        check_damaged(&image, &before, random, tally)
    })
}

/// Makes of an image its beginning before the end of another.
pub fn splice(random: &mut Random, image: &mut Vec<u8>) {
    let other = small_image(random);
    let at = random.below(image.len().min(other.len()) as u64) as usize;
    image.truncate(at);
    image.extend(&other[at..]);
}

/// Random bytes, alone or after the beginning of an image, and the beginning of one
/// image before the end of another.
pub fn random_images(context: &mut Context) -> Outcome {
    let count = 60_000 * context.scale;
    each_case(context, "random images", count, |case, random, tally| {
        let mut image = small_image(random);
        let before = other_buffers(random, parts(&image).expect("a sound image").machine.mlen);
        let length = random.below(40) as usize;
        match case % 4 {
            0 => image = random.bytes(length),
            1 => image = random.bytes(length).iter().map(|byte| byte % 16).collect(),
            2 => {
                image.truncate(random.below(image.len() as u64 + 1) as usize);
                let small = random.pick(&[3, 128, 255]);
                image.extend(random.bytes(length).iter().map(|byte| byte % small));
            }
            _ => splice(random, &mut image),
        }
        check_damaged(&image, &before, random, tally)
    })
}
