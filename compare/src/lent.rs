//! What a host lends, as byte blocks, and both programs over it.

use crate::library;
use model::moves::Vectors;
use model::salvage::Report;
use model::{block_starts, maximum, Size, RULES};
use model::{Answer, Bench, Handed, Lengths, Machine, Plan, Run, Seal, Seals, MOST_SEALS};
use std::fmt::Write;

#[derive(Clone, Debug, PartialEq, Eq)]
pub struct Lent {
    pub machine: Vec<u8>,
    pub registers: Vec<u8>,
    pub marks: Vec<u8>,
    pub scalars: Vec<u8>,
    pub memory: Vec<u8>,
    pub vectors: Vec<u8>,
    pub group: u64,
}

/// An answer as the C interface packs it.
pub fn packed(answer: Answer) -> u64 {
    answer.number | answer.row << 16 | answer.column << 32
}

fn unpacked(result: u64) -> String {
    let (number, row, column) = (result & 0xFFFF, (result >> 16) & 0xFFFF, result >> 32);
    format!("answer {number} row {row} column {column}")
}

pub const BAD_ARGUMENTS: Answer = Answer { number: 8, row: 0, column: 0 };

pub fn words_to_bytes(words: &[u64]) -> Vec<u8> {
    words.iter().flat_map(|word| word.to_le_bytes()).collect()
}

pub fn bytes_to_words(bytes: &[u8]) -> Vec<u64> {
    bytes.chunks_exact(8).map(|chunk| u64::from_le_bytes(chunk.try_into().unwrap())).collect()
}

/// The first range stands where the only one stood, the number of them and the others
/// behind ELEN.
pub fn machine_block(machine: &Machine) -> Vec<u8> {
    let Seals { number, ranges } = machine.seals;
    let mut words = vec![
        machine.rlen,
        machine.mlen,
        machine.mtype,
        machine.tile_m,
        machine.tile_k,
        machine.tile_n,
        ranges[0].0,
        ranges[0].1,
        machine.rule,
        machine.elen,
        number,
    ];
    words.extend(numbers_of(&ranges[1..]));
    words_to_bytes(&words)
}

/// Start and length of each range, as a start is given them.
pub fn numbers_of(ranges: &[Seal]) -> Vec<u64> {
    ranges.iter().flat_map(|&(start, length)| [start, length]).collect()
}

/// The machine of a block; `None` if the block has the wrong length.
pub fn machine_of(block: &[u8]) -> Option<Machine> {
    if block.len() != library::MACHINE_BYTES {
        return None;
    }
    let words = bytes_to_words(block);
    let [rlen, mlen, mtype, tile_m, tile_k, tile_n] = words[..6].try_into().unwrap();
    let [rule, elen, number] = words[8..11].try_into().unwrap();
    let mut ranges = [(words[6], words[7]); MOST_SEALS];
    for (at, pair) in words[11..].chunks_exact(2).enumerate() {
        ranges[1 + at] = (pair[0], pair[1]);
    }
    let machine = Machine { rlen, mlen, mtype, rule, elen, ..Machine::default() };
    Some(Machine { tile_m, tile_k, tile_n, seals: Seals { number, ranges }, ..machine })
}

pub fn handed_block(handed: &Handed) -> Vec<u8> {
    words_to_bytes(&[handed.word as u64, handed.scalar_10, handed.scalar_11])
}

pub fn handed_of(block: &[u8]) -> Handed {
    let words = bytes_to_words(block);
    Handed { word: words[0] as u32, scalar_10: words[1], scalar_11: words[2] }
}

// ---------------------------------------------------------------------------
// Run blocks

// The numbers of a run block, by their places in it: those of the plan but for
// its kind, the machine's lengths, the place in the run (a word, then row, column
// and term), the kind, and the machine's rule and ELEN.
pub const FIELDS: usize = library::RUN_BYTES / 8;
pub const C_STRIDE: usize = 10;
pub const LENGTHS: usize = 11;
pub const WORD: usize = 13;
pub const PLACE: usize = 14;
pub const KIND: usize = 17;
pub const RULE: usize = 18;
pub const ELEN: usize = 19;

/// How many numbers each word's place has, of row, column and term.
pub const PLACE_NUMBERS: [usize; 10] = [0, 1, 2, 2, 3, 3, 3, 3, 2, 0];
pub const AT_END: u64 = 9;

/// The plan and the machine of a block.
pub fn plan_of(fields: &[u64]) -> (Plan, Machine) {
    let [sew, factor, m, k, n, a, a_stride, b, b_stride, c, c_stride] =
        fields[..LENGTHS].try_into().expect("the numbers of a plan");
    let [a_stride, b_stride, c_stride] = [a_stride, b_stride, c_stride].map(|stride| stride as i64);
    let kind = fields[KIND];
    let plan = Plan { kind, sew, factor, m, k, n, a, a_stride, b, b_stride, c, c_stride };
    let lengths = (fields[LENGTHS], fields[LENGTHS + 1], fields[ELEN]);
    (plan, Machine::of(lengths, fields[RULE]))
}

/// Whether a run can have these numbers: not a place that no turn reaches, outside the
/// matrices or where no block of them starts.
pub fn sound(fields: &[u64]) -> bool {
    let (plan, machine) = plan_of(fields);
    if model::plan_numbers_bad(&plan, machine.elen)
        || !model::lengths_permitted(machine.lengths())
        || !RULES.contains(&machine.rule)
        || fields[WORD] > AT_END
    {
        return false;
    }
    let sizes = [(Size::M, plan.m), (Size::N, plan.n), (Size::K, plan.k)];
    (0..3).zip(sizes).all(|(at, (size, total))| {
        let number = fields[PLACE + at];
        let most = maximum(&machine, size, plan.sew as i128);
        if at < PLACE_NUMBERS[fields[WORD] as usize] {
            block_starts(total as i128, most, machine.rule).contains(&(number as i128))
        } else {
            number == 0
        }
    })
}

/// A machine with one range that seals nothing, which the library started on register
/// bytes and memory, all marks 1 before, all scalars 0 and the vector file too, in groups
/// of one.
pub fn started(lengths: Lengths, rule: u64, registers: Vec<u8>, memory: Vec<u8>) -> Lent {
    let mut lent = Lent {
        machine: vec![0; library::MACHINE_BYTES],
        marks: vec![1; registers.len()],
        registers,
        scalars: vec![0; library::SCALARS_BYTES],
        memory,
        vectors: vec![0; library::VECTORS_BYTES],
        group: 1,
    };
    library_start(lengths, rule, &mut [0, 0], &mut lent);
    lent
}

impl Lent {
    pub fn machine(&self) -> Machine {
        machine_of(&self.machine).expect("a machine block of the right length")
    }

    pub fn set_machine(&mut self, machine: &Machine) {
        self.machine = machine_block(machine);
    }

    pub fn scalar_values(&self) -> Vec<u64> {
        bytes_to_words(&self.scalars)
    }

    pub fn set_scalar(&mut self, slot: u32, value: u64) {
        let at = 8 * slot as usize;
        self.scalars[at..at + 8].copy_from_slice(&value.to_le_bytes());
    }

    /// The bench without the scalars and the vector file; `None` is answer 8.
    pub fn bench(&self) -> Option<Bench> {
        Some(Bench {
            machine: machine_of(&self.machine)?,
            registers: self.registers.clone(),
            marks: self.marks.clone(),
            memory: self.memory.clone(),
        })
    }

    /// Takes what a bench holds; the scalars and the vector file stay.
    pub fn take(&mut self, bench: Bench) {
        self.machine = machine_block(&bench.machine);
        self.registers = bench.registers;
        self.marks = bench.marks;
        self.memory = bench.memory;
    }
}

// ---------------------------------------------------------------------------
// The library

pub fn library_start(lengths: Lengths, rule: u64, seals: &mut [u64], lent: &mut Lent) -> u64 {
    let Lent { machine, registers, marks, .. } = lent;
    library::start(lengths.into(), rule, seals, machine, registers, marks)
}

pub fn library_seal((start, length): Seal, lent: &mut Lent) -> u64 {
    let Lent { machine, registers, marks, .. } = lent;
    library::seal(start, length, machine, registers, marks)
}

pub fn library_step(word: u32, lent: &mut Lent) -> u64 {
    let Lent { machine, registers, marks, scalars, memory, vectors, group } = lent;
    library::step(word, *group, machine, registers, marks, scalars, memory, vectors)
}

pub fn library_run_start(plan: &Plan, lent: &mut Lent, run: &mut [u8]) -> u64 {
    let Lent { machine, registers, marks, memory, .. } = lent;
    library::run_start(plan, machine, registers, marks, memory, run)
}

pub fn library_run_turn(run: &mut [u8], lent: &mut Lent) -> u64 {
    let Lent { machine, registers, marks, memory, .. } = lent;
    library::run_turn(run, machine, registers, marks, memory)
}

pub fn library_run_turns(turns: u64, run: &mut [u8], lent: &mut Lent) -> u64 {
    let Lent { machine, registers, marks, memory, .. } = lent;
    library::run_turns(turns, run, machine, registers, marks, memory)
}

pub fn library_run(plan: &Plan, lent: &mut Lent, steps: &mut [u8]) -> u64 {
    let Lent { machine, registers, marks, memory, .. } = lent;
    library::run(plan, machine, registers, marks, memory, steps)
}

pub fn library_image_size(lent: &mut Lent) -> u64 {
    let Lent { machine, registers, marks, .. } = lent;
    library::image_size(machine, registers, marks)
}

pub fn library_image_write(lent: &mut Lent, room: &mut [u8]) -> u64 {
    let Lent { machine, registers, marks, .. } = lent;
    library::image_write(machine, registers, marks, room)
}

pub fn library_image_read(image: &mut [u8], lent: &mut Lent) -> u64 {
    let Lent { machine, registers, marks, .. } = lent;
    library::image_read(image, machine, registers, marks)
}

// ---------------------------------------------------------------------------
// The second program

/// The answer's number, as for the next one.
pub fn second_start(lengths: Lengths, rule: u64, seals: &[u64], lent: &mut Lent) -> u64 {
    if lent.machine.len() != library::MACHINE_BYTES {
        return BAD_ARGUMENTS.number;
    }
    match model::start(lengths, rule, seals, &lent.registers, &mut lent.marks) {
        Ok(machine) => {
            lent.set_machine(&machine);
            0
        }
        Err(number) => number,
    }
}

pub fn second_seal(range: Seal, lent: &mut Lent) -> u64 {
    let Some(mut bench) = lent.bench() else {
        return BAD_ARGUMENTS.number;
    };
    let number = model::seal(range, &mut bench);
    lent.take(bench);
    number
}

pub fn second_step(word: u32, lent: &mut Lent) -> Answer {
    let Some(mut bench) = lent.bench() else {
        return BAD_ARGUMENTS;
    };
    if lent.scalars.len() != library::SCALARS_BYTES {
        return BAD_ARGUMENTS;
    }
    let mut scalars = lent.scalar_values();
    let mut vectors = Vectors { file: lent.vectors.clone(), group: lent.group };
    let answer = model::vector_step(word, &mut bench, &mut scalars, &mut vectors);
    lent.take(bench);
    lent.vectors = vectors.file;
    lent.scalars = words_to_bytes(&scalars);
    answer
}

/// A run that was started, or the answer's number.
pub fn second_run_start(plan: &Plan, lent: &Lent) -> Result<Run, u64> {
    model::run_start(plan, &lent.bench().ok_or(BAD_ARGUMENTS.number)?)
}

pub fn second_run_turn(run: &mut Run, lent: &mut Lent) -> Answer {
    let Some(mut bench) = lent.bench() else {
        return BAD_ARGUMENTS;
    };
    let answer = model::run_turn(run, &mut bench);
    lent.take(bench);
    answer
}

/// How many turns are answered 0, of as many as are asked for.
pub fn second_run_turns(turns: u64, run: &mut Run, lent: &mut Lent) -> u64 {
    let Some(mut bench) = lent.bench() else {
        return 0;
    };
    let done = model::run_turns(turns, run, &mut bench);
    lent.take(bench);
    done
}

/// The image of a machine; `None` is answer 8.
pub fn second_image(lent: &Lent) -> Option<Vec<u8>> {
    model::images::image(&lent.bench()?)
}

/// The result of writing an image, as the C interface packs it.
pub fn second_image_write(lent: &Lent, room: &mut [u8]) -> u64 {
    let Some(bench) = lent.bench() else {
        return BAD_ARGUMENTS.number;
    };
    match model::images::write(&bench, room) {
        Ok(length) => (length as u64) << 16,
        Err(number) => number,
    }
}

/// The result of reading an image, as the C interface packs it.
pub fn second_image_read(image: &[u8], lent: &mut Lent) -> u64 {
    let mut read = lent.clone();
    let result = model::images::read(image, &mut read.registers, &mut read.marks);
    match result {
        Err((number, place)) => number | (place as u64) << 16,
        Ok(_) if lent.machine.len() != library::MACHINE_BYTES => BAD_ARGUMENTS.number,
        Ok(machine) => {
            read.set_machine(&machine);
            *lent = read;
            0
        }
    }
}

/// The result of the salvage of an image, as the C interface packs it.
pub fn second_salvage(image: &[u8], room: &mut [u8], report: &mut [u8]) -> u64 {
    if report.len() != library::REPORT_BYTES {
        return BAD_ARGUMENTS.number;
    }
    match model::salvage::salvage(image, room) {
        Err((number, Report { place, .. })) => number | (place as u64) << 16,
        Ok((length, Report { kept, announced, place })) => {
            report.copy_from_slice(&words_to_bytes(&[kept, announced, place as u64]));
            (length as u64) << 16
        }
    }
}

// ---------------------------------------------------------------------------
// Readable reports

/// Both answers, whatever differs, and the state both programs were given.
pub fn report(before: &Lent, given: u64, library: &Lent, expected: u64, second: &Lent) -> String {
    let mut text = String::new();
    writeln!(text, "library:        {}", unpacked(given)).unwrap();
    writeln!(text, "second program: {}", unpacked(expected)).unwrap();
    for (name, before, library, second) in [
        ("machine block", &before.machine, &library.machine, &second.machine),
        ("registers", &before.registers, &library.registers, &second.registers),
        ("marks", &before.marks, &library.marks, &second.marks),
        ("scalars", &before.scalars, &library.scalars, &second.scalars),
        ("memory", &before.memory, &library.memory, &second.memory),
        ("vectors", &before.vectors, &library.vectors, &second.vectors),
    ] {
        text += &differences(name, before, library, second);
    }
    text + "the state before:\n" + &state_text(before)
}

/// The bytes that differ, at most eight of them.
pub fn differences(name: &str, before: &[u8], library: &[u8], second: &[u8]) -> String {
    let places: Vec<usize> =
        (0..library.len().min(second.len())).filter(|&at| library[at] != second[at]).collect();
    let mut text = String::new();
    if places.is_empty() && library.len() == second.len() {
        return text;
    }
    writeln!(text, "{name}: {} bytes differ", places.len()).unwrap();
    for &at in places.iter().take(8) {
        let was = before.get(at).map_or("none".to_string(), |byte| format!("{byte:02x}"));
        writeln!(
            text,
            "  byte {at}: before {was}, library {:02x}, second program {:02x}",
            library[at], second[at]
        )
        .unwrap();
    }
    text
}

pub fn hex(bytes: &[u8]) -> String {
    bytes.iter().map(|byte| format!("{byte:02x}")).collect::<Vec<_>>().join(" ")
}

/// Bytes in lines of 32, or their number alone if they are many.
fn dump(name: &str, bytes: &[u8]) -> String {
    let mut text = format!("{name}: {} bytes\n", bytes.len());
    if bytes.len() <= 1024 {
        for (line, chunk) in bytes.chunks(32).enumerate() {
            writeln!(text, "  {:5}: {}", 32 * line, hex(chunk)).unwrap();
        }
    }
    text
}

pub fn state_text(lent: &Lent) -> String {
    let mut text = match machine_of(&lent.machine) {
        Some(machine) => format!("{machine:?}\n"),
        None => dump("machine block", &lent.machine),
    };
    for (slot, value) in lent.scalar_values().iter().enumerate().filter(|(_, value)| **value != 0) {
        write!(text, "x{slot}={value:#x} ").unwrap();
    }
    writeln!(text, "({} bytes of scalars)", lent.scalars.len()).unwrap();
    text += &dump("registers", &lent.registers);
    text += &marks_text(&lent.marks);
    text += &dump("memory", &lent.memory);
    text += &dump("vectors", &lent.vectors);
    writeln!(text, "groups of {}", lent.group).unwrap();
    text
}

/// Marks as ranges of equal value.
fn marks_text(marks: &[u8]) -> String {
    let mut text = format!("marks: {} bytes:", marks.len());
    let mut from = 0;
    for at in 1..=marks.len() {
        if at == marks.len() || marks[at] != marks[from] {
            write!(text, " {from}..{at}={}", marks[from]).unwrap();
            from = at;
        }
        if text.len() > 800 {
            text += " ...";
            break;
        }
    }
    text + "\n"
}
