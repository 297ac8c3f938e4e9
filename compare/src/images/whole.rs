//! Images of every machine, of states at fault, and read into buffers of other lengths.

use super::held::{check_handed_over, check_read, check_size, check_write};
use super::machines::{other_buffers, small_image, sound_bench, PATTERNS};
use crate::lent::{hex, second_image, state_text, Lent};
use crate::random::Random;
use crate::states::faults::{put_bench_fault, wrong_length};
use crate::states::machines::{larger_lengths, lengths, usual_lengths};
use crate::suite::{each_case, Context, Outcome};
use crate::tally::Tally;
use model::images::parts;
use model::Lengths;

/// Images of every permitted machine: their size, the room they fit, and the machine
/// that is made of them. Of machines beyond the bounds of document 01 fewer.
pub fn images(context: &mut Context) -> Outcome {
    let usual: Vec<(Lengths, u64)> = usual_lengths()
        .into_iter()
        .flat_map(|lengths| (0..6 * PATTERNS).map(move |at| (lengths, at % PATTERNS)))
        .collect();
    let larger = larger_lengths();
    let count = (usual.len() + 4 * larger.len()) as u64;
    each_case(context, "images", count, |case, random, tally| {
        let (lengths, pattern) = match usual.get(case as usize) {
            Some(&case) => case,
            None => (larger[(case as usize - usual.len()) / 4], random.below(PATTERNS)),
        };
        let lent = sound_bench(random, lengths, pattern);
        check_size(&lent, tally)?;
        let image = second_image(&lent).ok_or("the machine is at fault")?;
        let more = image.len() + random.below(300) as usize;
        let less = random.below(image.len() as u64) as usize;
        for (room, number) in
            [(image.len(), 0), (more, 0), (image.len() - 1, 14), (less, 14), (0, 14)]
        {
            let (given, written) = check_write(&lent, room, random, tally)?;
            if given & 0xFFFF != number || number == 0 && written[..image.len()] != image {
                return Err(format!(
                    "a room of {room} bytes gives {given:#x}\n{}",
                    state_text(&lent)
                ));
            }
        }
        check_handed_over(&lent, &image, random, tally)?;
        check_alike(&lent, &image, random, tally)
    })
}

/// Another unmarked byte leaves the image; another marked byte or mark does not.
fn check_alike(
    lent: &Lent,
    image: &[u8],
    random: &mut Random,
    tally: &mut Tally,
) -> Result<(), String> {
    for change_mark in [false, true] {
        let mut other = lent.clone();
        let at = random.below(lent.marks.len() as u64) as usize;
        if change_mark {
            other.marks[at] ^= 1;
        } else {
            other.registers[at] ^= random.range(1, 255) as u8;
        }
        let (given, written) = check_write(&other, image.len() + 10, random, tally)?;
        let same = (given >> 16) as usize == image.len() && written.starts_with(image);
        if same != (!change_mark && lent.marks[at] == 0) {
            return Err(format!("byte {at}, mark changed: {change_mark}\n{}", state_text(lent)));
        }
    }
    Ok(())
}

/// States at fault: 8, in whatever room.
pub fn faulty_images(context: &mut Context) -> Outcome {
    each_case(context, "faulty images", 4000, |_, random, tally| {
        let lengths = lengths(random);
        let pattern = random.below(PATTERNS);
        let mut lent = sound_bench(random, lengths, pattern);
        let fitting = second_image(&lent).expect("a sound machine").len();
        put_bench_fault(random, &mut lent);
        check_size(&lent, tally)?;
        for room in [0, fitting - 1, fitting + 40] {
            check_write(&lent, room, random, tally)?;
        }
        Ok(())
    })
}

/// Buffers of the wrong length: 8, but 15 where the image is damaged too.
pub fn image_buffers(context: &mut Context) -> Outcome {
    each_case(context, "image buffers", 4000, |case, random, tally| {
        let image = small_image(random);
        let mlen = parts(&image).expect("a sound image").machine.mlen;
        let mut before = other_buffers(random, mlen);
        match case % 5 {
            0 => wrong_length(random, &mut before.machine),
            1 => wrong_length(random, &mut before.registers),
            2 => wrong_length(random, &mut before.marks),
            3 => before = other_buffers(random, 2 * mlen),
            _ => {
                for buffer in [&mut before.machine, &mut before.registers, &mut before.marks] {
                    wrong_length(random, buffer);
                }
            }
        }
        let (given, _) = check_read(&image, &before, tally)?;
        let cut = random.below(image.len() as u64) as usize;
        let (cut_given, _) = check_read(&image[..cut], &before, tally)?;
        if (given, cut_given) != (8, 15 | (cut as u64) << 16) {
            return Err(format!(
                "{given:#x}, and {cut_given:#x} at a cut of {cut}: {}",
                hex(&image)
            ));
        }
        let mut changed = image.clone();
        changed[cut] = random.next() as u8;
        check_read(&changed, &before, tally).map(|_| ())
    })
}
