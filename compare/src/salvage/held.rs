//! The salvage of an image, held to the second program. Each lent buffer lies between
//! other bytes, which show what is written beside it.

use crate::images::held::result_text;
use crate::images::machines::no_buffers;
use crate::lent::{
    bytes_to_words, differences, hex, library_image_read, second_image_read, second_salvage,
};
use crate::library;
use crate::random::Random;
use crate::tally::{Call, Tally};

/// The salvage that is tried: the library's, or a stand-in for it. Lent are the image, the
/// room and the report.
pub type Subject = fn(&mut [u8], &mut [u8], &mut [u8]) -> u64;

/// How many other bytes lie on each side of a lent buffer.
const BESIDE: usize = 16;

/// A lent buffer between other bytes.
#[derive(Clone, PartialEq)]
struct Between(Vec<u8>);

impl Between {
    fn new(random: &mut Random, lent: &[u8]) -> Between {
        Between([&random.bytes(BESIDE), lent, &random.bytes(BESIDE)].concat())
    }

    fn lent(&mut self) -> &mut [u8] {
        let end = self.0.len() - BESIDE;
        &mut self.0[BESIDE..end]
    }
}

/// What a salvage gives.
#[derive(Clone, Debug, PartialEq, Eq)]
pub struct Given {
    pub number: u64,
    /// Bits 63..16 of the result.
    pub with: u64,
    /// The fresh image; nothing if it is refused.
    pub fresh: Vec<u8>,
    /// The runs kept, the runs announced and the place; zeros if it is refused.
    pub report: [u64; 3],
}

impl Given {
    pub fn refused(number: u64, with: usize) -> Given {
        Given { number, with: with as u64, fresh: vec![], report: [0; 3] }
    }

    pub fn done(fresh: Vec<u8>, report: [usize; 3]) -> Given {
        Given {
            number: 0,
            with: fresh.len() as u64,
            fresh,
            report: report.map(|number| number as u64),
        }
    }

    /// The place of the fault, by whichever way it is said.
    pub fn place(&self) -> u64 {
        if self.number == 0 {
            self.report[2]
        } else {
            self.with
        }
    }
}

/// The salvage of an image to room and report of some lengths, on both programs.
pub fn check_to(
    subject: Subject,
    image: &[u8],
    [room, report]: [usize; 2],
    random: &mut Random,
    tally: &mut Tally,
) -> Result<Given, String> {
    let lent = [image.to_vec(), random.bytes(room), random.bytes(report)];
    let before = lent.map(|bytes| Between::new(random, &bytes));
    let (mut after, mut second) = (before.clone(), before.clone());
    let [image_after, room_after, report_after] = &mut after;
    let result = subject(image_after.lent(), room_after.lent(), report_after.lent());
    let [_, second_room, second_report] = &mut second;
    let expected = second_salvage(image, second_room.lent(), second_report.lent());
    if result != expected || after != second {
        let mut text = format!(
            "salvage of {} bytes to {room}, report of {report} bytes\nimage: {}\nlibrary: {}, \
             second program: {}\n(lent bytes from {BESIDE} on, others beside them)\n",
            image.len(),
            shown(image),
            result_text(result),
            result_text(expected),
        );
        for (at, name) in ["image", "room", "report"].into_iter().enumerate() {
            text += &differences(name, &before[at].0, &after[at].0, &second[at].0);
        }
        return Err(text);
    }
    let number = result & 0xFFFF;
    tally.count(Call::ImageSalvage, number);
    if number != 0 {
        return Ok(Given::refused(number, (result >> 16) as usize));
    }
    tally.image(2, image[0]);
    let [_, room, report] = &mut after;
    let fresh = room.lent()[..(result >> 16) as usize].to_vec();
    let report = bytes_to_words(report.lent()).try_into().expect("three numbers");
    Ok(Given { number, with: result >> 16, fresh, report })
}

/// The same to room for the whole image, or somewhat more.
pub fn check(
    subject: Subject,
    image: &[u8],
    random: &mut Random,
    tally: &mut Tally,
) -> Result<Given, String> {
    let room = image.len() + random.pick(&[0, 0, 1, 7, 40]);
    check_to(subject, image, [room, library::REPORT_BYTES], random, tally)
}

/// What holds of every salvage, by the library's reader alone: the place is that of Six, the
/// fresh image is sound, and its salvage is itself.
pub fn check_damaged(
    subject: Subject,
    image: &[u8],
    random: &mut Random,
    tally: &mut Tally,
) -> Result<Given, String> {
    let given = check(subject, image, random, tally)?;
    let wrong = |text: &str| Err(format!("{text}: {}\n{given:?}", shown(image)));
    if given.place() != place_by_reading(image)? {
        return wrong("not the place of reading");
    }
    if given.number == 15 {
        return Ok(given);
    }
    let Given { number, with, fresh, report: [kept, announced, place] } = &given;
    if *number != 0 || *with > image.len() as u64 || kept > announced {
        return wrong("not refused by the header, but by other numbers");
    }
    if kept == announced && !image.starts_with(fresh) {
        return wrong("all runs are kept, but the image is another one");
    }
    let sound = kept == announced && *place == image.len() as u64;
    if sound != (fresh == image) {
        return wrong("a sound image is changed, or another one is not");
    }
    if place_by_reading(fresh)? != fresh.len() as u64 {
        return wrong("the fresh image is not sound");
    }
    let again = check(subject, fresh, random, tally)?;
    if again.fresh != *fresh || again.report != [*kept, *kept, *with] {
        return wrong("the fresh image has another salvage");
    }
    Ok(given)
}

/// The place that reading an image names, or its length: without buffers a sound one gets 8.
fn place_by_reading(image: &[u8]) -> Result<u64, String> {
    let mut bytes = image.to_vec();
    let result = library_image_read(&mut bytes, &mut no_buffers());
    if result != second_image_read(image, &mut no_buffers()) {
        return Err(format!("{} read: {}", shown(image), result_text(result)));
    }
    Ok(if result == 8 { image.len() as u64 } else { result >> 16 })
}

/// An image in a report.
pub fn shown(image: &[u8]) -> String {
    match image.get(..600) {
        Some(front) => format!("{} .. ({} bytes)", hex(front), image.len()),
        None => hex(image),
    }
}
