//! Request Thirteen: salvage of a cut or damaged image.
//!
//! The place of the fault is that of the reader of images. What stands before it is gone on
//! with to some accepted image; its runs are measured from its end to its front, and each is
//! tried whether it lies before the place. The fresh image is that of a machine on which the
//! kept runs alone are marked.

use crate::images::{completed_parts, groups, image, parts, Parts};
use crate::machine::{register_bytes, Bench, Machine};

/// A run: where it starts, and its bytes.
pub type Stretch = (usize, Vec<u8>);

/// What a salvage reports.
#[derive(Clone, Copy, Debug, Default, PartialEq, Eq)]
pub struct Report {
    pub kept: u64,
    pub announced: u64,
    /// The place of the fault, the length if there is none.
    pub place: usize,
}

/// An accepted image that has in common with the given one all that stands before the
/// place of the fault.
#[derive(Clone, Debug)]
pub struct Announced {
    pub place: usize,
    pub machine: Machine,
    pub runs: Vec<Stretch>,
    /// The first byte behind the number of runs.
    pub header_end: usize,
    /// Of each run, the first byte behind it.
    pub ends: Vec<usize>,
}

pub fn announced(given: &[u8]) -> Announced {
    let place = parts(given).err().unwrap_or(given.len());
    let (whole, Parts { machine, runs }) =
        completed_parts(&given[..place]).expect("no fault before the place");
    let mut ends = vec![0; runs.len()];
    let mut end = whole.len();
    for (at, (start, bytes)) in runs.iter().enumerate().rev() {
        ends[at] = end;
        let before = if at == 0 { 0 } else { runs[at - 1].0 + runs[at - 1].1.len() };
        let numbers = [start - before, bytes.len()].map(|number| groups(number as u64).len());
        end -= numbers[0] + numbers[1] + bytes.len();
    }
    Announced { place, machine, runs, header_end: end, ends }
}

impl Announced {
    /// Whether a byte of the header is at fault or missing.
    pub fn header_at_fault(&self) -> bool {
        self.place < self.header_end
    }

    /// The runs that end before the place: their last byte does.
    pub fn kept(&self) -> Vec<Stretch> {
        let all = self.runs.iter().zip(&self.ends);
        all.filter(|&(_, &end)| end - 1 < self.place).map(|(run, _)| run.clone()).collect()
    }
}

/// The image of a machine with these runs, by the writer of images.
pub fn fresh(machine: &Machine, runs: &[Stretch]) -> Vec<u8> {
    let total = register_bytes(machine.mlen);
    let (mut registers, mut marks) = (vec![0; total], vec![0; total]);
    for (start, bytes) in runs {
        for (at, &byte) in (*start..).zip(bytes) {
            (registers[at], marks[at]) = (byte, 1);
        }
    }
    image(&Bench { machine: *machine, registers, marks, memory: vec![] }).expect("a sound machine")
}

/// Writes the salvage of an image; the length of the fresh one and the report, or the
/// answer's number and a report without counts.
pub fn salvage(given: &[u8], room: &mut [u8]) -> Result<(usize, Report), (u64, Report)> {
    let announced = announced(given);
    let place = announced.place;
    let refused = Report { place, ..Report::default() };
    if announced.header_at_fault() {
        return Err((15, refused));
    }
    let kept = announced.kept();
    let fresh = fresh(&announced.machine, &kept);
    if fresh.len() > room.len() {
        return Err((14, refused));
    }
    room[..fresh.len()].copy_from_slice(&fresh);
    let [kept, announced] = [kept.len(), announced.runs.len()].map(|count| count as u64);
    Ok((fresh.len(), Report { kept, announced, place }))
}
