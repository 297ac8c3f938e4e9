//! Request Six: machine images; those of halving machines (request Eight), of larger
//! machines (request Ten) and of machines with other than one sealed range (request
//! Twelve).
//!
//! The reader is the rules turned round: of each number it knows which ones some
//! accepted image has there, after all that stands before. A byte is at fault as
//! soon as none of them begins with the groups read so far.

use crate::answers::state_at_fault;
use crate::listing::Size;
use crate::machine::{buffers_fit, permitted_lengths, register_bytes, Bench, Machine};
use crate::seals::{Seals, MOST_SEALS};
use crate::settings::{maximum, mtype_can_arise, set_tile_size, HALVING, MILL, RULES};
use std::sync::OnceLock;

/// A number in groups of seven bits, low group first, the top bit set on all but
/// the last, in the shortest form.
pub fn groups(number: u64) -> Vec<u8> {
    let mut rest = number;
    let mut bytes = Vec::new();
    while rest >= 128 {
        bytes.push((rest % 128) as u8 + 128);
        rest /= 128;
    }
    bytes.push(rest as u8);
    bytes
}

/// Where each maximal stretch of marked bytes lies. The register bytes are lent in
/// the image's order: tr0 to tr7, acc0, acc1, row by row.
pub fn runs(marks: &[u8]) -> Vec<std::ops::Range<usize>> {
    let marked = |at: usize| marks[at] == 1;
    let mut runs = Vec::new();
    for start in (0..marks.len()).filter(|&at| marked(at) && (at == 0 || !marked(at - 1))) {
        let length = marks[start..].iter().take_while(|&&mark| mark == 1).count();
        runs.push(start..start + length);
    }
    runs
}

/// Whether a machine is within the bounds of 01, which knows no other ELEN than 32.
fn within_old_bounds(machine: &Machine) -> bool {
    machine.rlen <= 512 && machine.mlen <= 4096 && machine.elen == 32
}

/// Whether an image has the number of ranges before them.
fn counts_ranges(machine: &Machine) -> bool {
    machine.seals.number != 1
}

/// The numbers of an image up to the exponent of MLEN: the lowest version that can hold
/// the machine, what that version has of rule and ELEN, and the exponents.
fn head(machine: &Machine) -> Vec<u64> {
    let exponent = |length: u64| length.ilog2() as u64;
    let mut head = match machine.rule {
        rule if counts_ranges(machine) => vec![4, rule, exponent(machine.elen)],
        rule if !within_old_bounds(machine) => vec![3, rule, exponent(machine.elen)],
        HALVING => vec![2, HALVING],
        _ => vec![1],
    };
    head.extend([exponent(machine.rlen), exponent(machine.mlen)]);
    head
}

/// The heads of all images, each with its machine's lengths and rule, and with one range
/// or none.
pub(crate) fn heads() -> &'static [(Vec<u64>, Machine)] {
    static HEADS: OnceLock<Vec<(Vec<u64>, Machine)>> = OnceLock::new();
    HEADS.get_or_init(|| {
        let lengths = permitted_lengths().into_iter();
        let one = lengths.flat_map(|lengths| RULES.map(|rule| Machine::of(lengths, rule)));
        let machines = one.flat_map(|one| [one, Machine { seals: Seals::default(), ..one }]);
        machines.map(|machine| (head(&machine), machine)).collect()
    })
}

/// The image of a machine; `None` is answer 8.
pub fn image(bench: &Bench) -> Option<Vec<u8>> {
    if state_at_fault(bench) {
        return None;
    }
    let machine = &bench.machine;
    let runs = runs(&bench.marks);
    let mut numbers = head(machine);
    numbers.extend([machine.mtype, machine.tile_m, machine.tile_k, machine.tile_n]);
    if counts_ranges(machine) {
        numbers.push(machine.seals.number);
    }
    for &(start, length) in machine.seals.list() {
        numbers.extend([start, length]);
    }
    numbers.push(runs.len() as u64);
    let mut image: Vec<u8> = numbers.into_iter().flat_map(groups).collect();
    let mut end = 0;
    for run in runs {
        image.extend(groups((run.start - end) as u64));
        image.extend(groups(run.len() as u64));
        image.extend(&bench.registers[run.clone()]);
        end = run.end;
    }
    Some(image)
}

/// Writes a machine's image; its length, or the answer's number.
pub fn write(bench: &Bench, room: &mut [u8]) -> Result<usize, u64> {
    let image = image(bench).ok_or(8u64)?;
    if image.len() > room.len() {
        return Err(14);
    }
    room[..image.len()].copy_from_slice(&image);
    Ok(image.len())
}

/// The numbers that some accepted image has at a place.
pub enum Permitted {
    OneOf(Vec<u64>),
    /// All from the first, 0 or 1, to the second.
    Range(u64, u64),
}

impl Permitted {
    /// Whether the shortest form of one of them begins with some bytes, of which
    /// all but the last have their top bit set.
    pub fn begins(&self, bytes: &[u8]) -> bool {
        let (low, high) = match self {
            Permitted::OneOf(numbers) => {
                return numbers.iter().any(|&number| groups(number).starts_with(bytes));
            }
            Permitted::Range(low, high) => (*low as u128, *high as u128),
        };
        let last = bytes[bytes.len() - 1];
        let so_far = value(bytes);
        if last >= 128 {
            // More groups follow, the last of them not 0; the least number is that
            // with 1 in the next one.
            so_far + (1 << (7 * bytes.len())) <= high
        } else {
            let shortest = bytes.len() == 1 || last != 0;
            shortest && low <= so_far && so_far <= high
        }
    }
}

/// The number that groups stand for, or the low part of it.
fn value(bytes: &[u8]) -> u128 {
    bytes.iter().rev().fold(0, |number, byte| number * 128 + (byte % 128) as u128)
}

/// An image, and how far it was read.
struct Reader {
    image: Vec<u8>,
    at: usize,
    /// Whether an image that is cut short is gone on with, by the least byte that
    /// can stand there.
    complete: bool,
}

impl Reader {
    /// One more byte, which may go on from `first` if `fits`; else its place.
    fn byte(&mut self, first: usize, fits: impl Fn(&[u8]) -> bool) -> Result<u8, usize> {
        if self.at == self.image.len() && self.complete {
            self.image.push(0);
            while !fits(&self.image[first..]) {
                self.image[self.at] += 1;
            }
        }
        if self.at == self.image.len() || !fits(&self.image[first..=self.at]) {
            return Err(self.at);
        }
        self.at += 1;
        Ok(self.image[self.at - 1])
    }

    fn number(&mut self, permitted: Permitted) -> Result<u64, usize> {
        let first = self.at;
        while self.byte(first, |bytes| permitted.begins(bytes))? >= 128 {}
        Ok(value(&self.image[first..self.at]) as u64)
    }

    fn bytes(&mut self, count: usize) -> Result<Vec<u8>, usize> {
        let first = self.at;
        (0..count).map(|_| self.byte(first, |_| true)).collect()
    }

    /// Number by number, each one that some head has after those read so far.
    fn head(&mut self) -> Result<Machine, usize> {
        let mut left: Vec<_> = heads().iter().collect();
        let mut read = 0;
        while read < left[0].0.len() {
            let mut next: Vec<u64> = left.iter().map(|(head, _)| head[read]).collect();
            next.sort();
            next.dedup();
            let number = self.number(Permitted::OneOf(next))?;
            left.retain(|(head, _)| head[read] == number);
            read += 1;
        }
        Ok(left[0].1)
    }

    fn machine(&mut self) -> Result<Machine, usize> {
        let mut machine = self.head()?;
        let arising = |mtype: &u64| mtype_can_arise(*mtype, machine.elen);
        let mtypes = (0..16).chain([MILL]).filter(arising).collect();
        machine.mtype = self.number(Permitted::OneOf(mtypes))?;
        for size in [Size::M, Size::K, Size::N] {
            let widest = maximum(&machine, size, 8) as u64;
            let asked = self.number(Permitted::Range(0, widest))?;
            set_tile_size(&mut machine, size, asked);
        }
        let mut number = 1;
        if counts_ranges(&machine) {
            let not_one = (0..=MOST_SEALS as u64).filter(|&number| number != 1);
            number = self.number(Permitted::OneOf(not_one.collect()))?;
        }
        machine.seals = Seals::default();
        for _ in 0..number {
            let start = self.number(Permitted::Range(0, u64::MAX))?;
            let length = self.number(Permitted::Range(0, u64::MAX - start))?;
            machine.seals.add((start, length));
        }
        Ok(machine)
    }

    /// Where each run starts, and its bytes. A run that is still to come needs two
    /// bytes: one that is not marked and one that is.
    fn runs(&mut self, total: u64) -> Result<Vec<(usize, Vec<u8>)>, usize> {
        let mut most = 0;
        while least_room(most + 1) <= total {
            most += 1;
        }
        let count = self.number(Permitted::Range(0, most))?;
        let mut runs = Vec::new();
        let mut end = 0;
        for to_come in (0..count).rev() {
            let room = total - end - 2 * to_come;
            let least_gap = u64::from(!runs.is_empty());
            let gap = self.number(Permitted::Range(least_gap, room - 1))?;
            let length = self.number(Permitted::Range(1, room - gap))?;
            let start = (end + gap) as usize;
            runs.push((start, self.bytes(length as usize)?));
            end += gap + length;
        }
        Ok(runs)
    }

    fn parts(&mut self) -> Result<Parts, usize> {
        let machine = self.machine()?;
        let runs = self.runs(register_bytes(machine.mlen) as u64)?;
        if self.at < self.image.len() {
            return Err(self.at);
        }
        Ok(Parts { machine, runs })
    }
}

/// The register bytes that a number of runs take at the least.
fn least_room(count: u64) -> u64 {
    if count == 0 {
        0
    } else {
        2 * count - 1
    }
}

/// What an accepted image says.
#[derive(Clone, Debug, PartialEq, Eq)]
pub struct Parts {
    pub machine: Machine,
    /// Where each run starts, and its bytes.
    pub runs: Vec<(usize, Vec<u8>)>,
}

/// What an image says, or the place that answer 15 names.
pub fn parts(image: &[u8]) -> Result<Parts, usize> {
    Reader { image: image.to_vec(), at: 0, complete: false }.parts()
}

/// An accepted image that begins with some bytes, if there is one.
pub fn completed(bytes: &[u8]) -> Option<Vec<u8>> {
    completed_parts(bytes).map(|(image, _)| image)
}

/// The same, and what it says.
pub fn completed_parts(bytes: &[u8]) -> Option<(Vec<u8>, Parts)> {
    let mut reader = Reader { image: bytes.to_vec(), at: 0, complete: true };
    let parts = reader.parts().ok()?;
    Some((reader.image, parts))
}

/// Makes the machine whose image it is; or the answer's number and place.
pub fn read(image: &[u8], registers: &mut [u8], marks: &mut [u8]) -> Result<Machine, (u64, usize)> {
    let Parts { machine, runs } = parts(image).map_err(|place| (15, place))?;
    if !buffers_fit(machine.mlen, registers, marks) {
        return Err((8, 0));
    }
    marks.fill(0);
    for (start, bytes) in runs {
        registers[start..start + bytes.len()].copy_from_slice(&bytes);
        marks[start..start + bytes.len()].fill(1);
    }
    Ok(machine)
}
