//! How often each answer was met for each instruction family, for the calls of a run,
//! for those on images and for those on lines of assembler text.
//!
//! A word belongs to the family whose code it has, whatever its opcode and
//! operands; a family is ours or left out. Which cells can be met, by the scope
//! paper and the requests:
//!
//! - 0: every family of ours.
//! - 1: families in which the listing fixes zeros beside the code (settings by
//!   a scalar, adds, subtracts and conversions, float ones too), and words of
//!   no family.
//! - 2: every family but msettype and msettypei.
//! - 3: loads and stores, the double and quadruple forms, and the float product. Of
//!   the other words at the output width SEW no width rule can be broken.
//! - 4: loads, stores, multiplies, element-wise words and moves; quadruple forms at
//!   ELEN 64 alone: they need maccq, so at ELEN 32 SEW is 8, where a size above its
//!   maximum is answer 8. (tile_m's maximum is the same at every SEW, so loads and
//!   stores of A get 4 by tile_k, those of C by tile_n; a move gets it at any SEW by
//!   its slice.)
//! - 5: what reads registers: stores, multiplies, element-wise words and moves out.
//! - 6: loads and stores. 7 and 13: stores.
//! - 8: every word, since the state and the vector file are tested before the word.
//! - 9: no word.
//! - 10: every word, since the opcode is tested before the rest of it.
//! - 11: every family that is left out.
//! - 12: every family of ours but the settings, whose fields name scalars.
//!
//! The calls of a run are counted by its kind. A start, and a whole run, gives 0, 6,
//! 8 or 9, asking for the next step 0 or 8, all of them 8 for any other kind. A turn
//! never gives 1, 10, 11 or 12, since every word of a run is good; it gives 2 to 7
//! and 13 only on a machine or memory that was changed between turns, or for a run
//! block that no start made.
//!
//! The size of an image gives 0 or 8, writing one 14 too, reading one 0, 8 or 15, the
//! salvage of one (request Thirteen) 0, 8, 14 or 15. The
//! start of a machine and a further sealed range give 0, 8 or 16 (request Twelve).
//!
//! The line of a word (request Fourteen) gives 0 and 14 for every family of ours, and 10, 11,
//! 1 and 12 where a step does. Reading a line gives 0, 8 or 17; it belongs to the family whose
//! mnemonic it begins with, and no line without one gives 0. The program `disassemble` gives
//! for a line, or 8 for its whole input, what the line of a word does and 17, `assemble` 0, 8
//! and 17.
//!
//! Words are also counted by ELEN (request Ten): each cell has to be met at both; and by
//! the number of sealed ranges.

use model::text::BAD_LINE;
use model::{Kind, Machine, ELENS, KINDS, LEFT_OUT, LISTING, MOST_SEALS, RULES};
use std::collections::BTreeMap;

#[derive(Clone, Copy, Debug, PartialEq, Eq, PartialOrd, Ord)]
pub enum Call {
    MachineStart,
    Seal,
    /// By the name of the family's first row.
    Family(&'static str),
    OtherWord,
    // Of a run, by its kind.
    RunStart(u64),
    RunNext(u64),
    RunTurn(u64),
    WholeRun(u64),
    ImageSize,
    ImageWrite,
    ImageRead,
    ImageSalvage,
    // Lines, by the name of the family's first row.
    LineOf(&'static str),
    LineOfOther,
    LineRead(&'static str),
    OtherLineRead,
    Disassembled,
    Assembled,
}

#[derive(Default)]
pub struct Tally {
    counts: BTreeMap<(Call, u64), u64>,
    /// The same of words, by ELEN.
    by_elen: [BTreeMap<(Call, u64), u64>; ELENS.len()],
    pub steps: u64,
    /// Steps on machines of each number of sealed ranges.
    by_ranges: [u64; MOST_SEALS + 1],
    /// Runs compared after each turn, by kind, by the machine's rule and by ELEN.
    pub runs: [[[u64; ELENS.len()]; RULES.len()]; KINDS.len()],
    /// Images written, read and salvaged that were accepted, by version.
    pub images: [[u64; VERSIONS]; 3],
    /// Words that were held to their lines, and lines that were read.
    lines: [u64; 2],
    /// How often each reason of answer 9 was met alone, by kind.
    pub overlaps: [[u64; 4]; KINDS.len()],
}

/// The versions of an image are 1 to 4.
const VERSIONS: usize = 4;

// What is compared at the least, without `long`; steps on machines of each number of
// ranges; runs of each kind, of each kind by each rule, and of these at each ELEN; images
// of each version.
const LEAST_STEPS: u64 = 200_000;
const LEAST_STEPS_BY_RANGES: u64 = 5_000;
const LEAST_RUNS: u64 = 1_500;
const LEAST_RUNS_BY_RULE: u64 = 700;
const LEAST_RUNS_BY_ELEN: u64 = 300;
const LEAST_IMAGES: u64 = 500;
/// Lines of words, and as many lines that are read.
const LEAST_LINES: u64 = 200_000;

/// What every number counts as that is no kind.
const UNKNOWN: u64 = KINDS.len() as u64;

/// One more than the highest answer.
pub const ANSWERS: u64 = 18;

/// The listing's name up to an element width.
pub fn family_name(name: &'static str) -> &'static str {
    match name.find(|c: char| c.is_ascii_digit()) {
        Some(width) => &name[..width],
        None => name,
    }
}

/// The first row of each family of ours.
pub fn families() -> Vec<&'static str> {
    first_rows(LISTING.iter().map(|row| row.name))
}

/// The first row of each family that is left out.
fn families_left_out() -> Vec<&'static str> {
    first_rows(LEFT_OUT.iter().map(|row| row.0))
}

fn first_rows(names: impl Iterator<Item = &'static str>) -> Vec<&'static str> {
    let mut names: Vec<_> = names.collect();
    names.dedup_by_key(|name| family_name(name));
    names
}

/// The family of the row whose code a word has.
pub fn family_of(word: u32) -> Call {
    model::name_by_code(word).map_or(Call::OtherWord, |name| Call::Family(first_of_family(name)))
}

/// The name of the first row of a row's family.
pub fn first_of_family(name: &'static str) -> &'static str {
    let mut names = LISTING.iter().map(|row| row.name).chain(LEFT_OUT.iter().map(|row| row.0));
    let first = names.find(|other| family_name(other) == family_name(name));
    first.expect("every row has a family")
}

/// Whether a call can give an answer.
pub fn reachable(call: Call, number: u64) -> bool {
    let first = match call {
        Call::MachineStart | Call::Seal => return [0, 8, 16].contains(&number),
        Call::OtherWord => return [1, 8, 10].contains(&number),
        Call::RunStart(UNKNOWN) | Call::WholeRun(UNKNOWN) => return number == 8,
        Call::RunNext(UNKNOWN) | Call::RunTurn(UNKNOWN) => return number == 8,
        Call::RunStart(_) | Call::WholeRun(_) => return [0, 6, 8, 9].contains(&number),
        Call::RunNext(_) => return [0, 8].contains(&number),
        Call::RunTurn(_) => return number <= 8 && number != 1 || number == 13,
        Call::ImageSize => return [0, 8].contains(&number),
        Call::ImageWrite => return [0, 8, 14].contains(&number),
        Call::ImageRead => return [0, 8, 15].contains(&number),
        Call::ImageSalvage => return [0, 8, 14, 15].contains(&number),
        Call::LineOfOther => return [1, 10].contains(&number),
        Call::LineRead(_) | Call::Assembled => return [0, 8, BAD_LINE].contains(&number),
        Call::OtherLineRead => return [8, BAD_LINE].contains(&number),
        Call::Disassembled => return [0, 1, 8, 10, 11, 12, BAD_LINE].contains(&number),
        Call::LineOf(first) => {
            let of_word = [0, 1, 10, 11, 12].contains(&number);
            let ours = LISTING.iter().any(|row| row.name == first);
            return of_word && reachable(Call::Family(first), number) || number == 14 && ours;
        }
        Call::Family(first) => first,
    };
    let zeros = model::has_zeros(first);
    let Some(row) = LISTING.iter().find(|row| row.name == first) else {
        return [8, 10, 11].contains(&number) || number == 1 && zeros;
    };
    let setting = matches!(row.kind, Kind::SetType | Kind::SetSize(_));
    let load = matches!(row.kind, Kind::Load(..));
    let store = matches!(row.kind, Kind::Store(..));
    let factor = match row.kind {
        Kind::Multiply(f) | Kind::Add(f) | Kind::Subtract(f) => f,
        Kind::ReverseSubtract(f) | Kind::Scale(f) => f,
        _ => 0,
    };
    match number {
        0 | 8 | 10 => true,
        1 => zeros,
        2 => row.kind != Kind::SetType,
        3 => load || store || factor > 1 || row.kind == Kind::FloatMultiply,
        4 => !setting,
        5 => !setting && !load && !matches!(row.kind, Kind::MoveIn(_)),
        6 => load || store,
        7 | 13 => store,
        12 => !setting,
        _ => false,
    }
}

/// The same of a word at an ELEN.
fn reachable_at(elen: u64, call: Call, number: u64) -> bool {
    let quadruple = |row: &&model::Row| {
        let factors = [Kind::Multiply(4), Kind::Add(4), Kind::Subtract(4)];
        let others = [Kind::ReverseSubtract(4), Kind::Scale(4)];
        Call::Family(row.name) == call && [&factors[..], &others].concat().contains(&row.kind)
    };
    let never = elen == 32 && number == 4 && LISTING.iter().any(|row| quadruple(&row));
    reachable(call, number) && !never
}

impl Tally {
    pub fn count(&mut self, call: Call, number: u64) {
        *self.counts.entry((call, number)).or_insert(0) += 1;
    }

    /// A call of a run of a kind.
    pub fn run(&mut self, call: fn(u64) -> Call, kind: u64, number: u64) {
        self.count(call(kind.min(UNKNOWN)), number);
    }

    /// A word, with the machine if its block has the right length.
    pub fn step(&mut self, word: u32, number: u64, machine: Option<Machine>) {
        self.steps += 1;
        let family = family_of(word);
        self.count(family, number);
        let Some(machine) = machine else {
            return;
        };
        if let Some(at) = ELENS.iter().position(|&known| known == machine.elen) {
            *self.by_elen[at].entry((family, number)).or_insert(0) += 1;
        }
        if machine.seals.number <= MOST_SEALS as u64 {
            self.by_ranges[machine.seals.number as usize] += 1;
        }
    }

    /// The line of a word.
    pub fn line_of(&mut self, word: u32, number: u64) {
        self.lines[0] += 1;
        self.count(
            match family_of(word) {
                Call::Family(first) => Call::LineOf(first),
                _ => Call::LineOfOther,
            },
            number,
        );
    }

    /// A line that was read.
    pub fn read_line(&mut self, line: &[u8], number: u64) {
        self.lines[1] += 1;
        let row = LISTING.iter().find(|row| {
            let name = row.name.as_bytes();
            line.starts_with(name) && line.get(name.len()) == Some(&b' ')
        });
        let call = row.map(|row| Call::LineRead(first_of_family(row.name)));
        self.count(call.unwrap_or(Call::OtherLineRead), number);
    }

    /// A run of a kind that was compared after each turn.
    pub fn ran(&mut self, kind: u64, rule: u64, elen: u64) {
        self.runs[kind as usize][rule as usize][usize::from(elen == 64)] += 1;
    }

    /// An image that was written (0), read (1) or salvaged (2).
    pub fn image(&mut self, call: usize, version: u8) {
        self.images[call][version as usize - 1] += 1;
    }

    fn get(&self, call: Call, number: u64) -> u64 {
        self.counts.get(&(call, number)).copied().unwrap_or(0)
    }

    fn calls() -> Vec<(Call, String)> {
        let mut calls = vec![
            (Call::MachineStart, "machine start".to_string()),
            (Call::Seal, "further range".to_string()),
        ];
        for first in families().into_iter().chain(families_left_out()) {
            calls.push((Call::Family(first), family_name(first).to_string()));
        }
        calls.push((Call::OtherWord, "other words".to_string()));
        for kind in 0..=UNKNOWN {
            let name = if kind == UNKNOWN { "other".to_string() } else { kind.to_string() };
            calls.push((Call::RunStart(kind), format!("run start {name}")));
            calls.push((Call::RunNext(kind), format!("run next {name}")));
            calls.push((Call::RunTurn(kind), format!("run turn {name}")));
            calls.push((Call::WholeRun(kind), format!("whole run {name}")));
        }
        calls.push((Call::ImageSize, "image size".to_string()));
        calls.push((Call::ImageWrite, "image write".to_string()));
        calls.push((Call::ImageRead, "image read".to_string()));
        calls.push((Call::ImageSalvage, "image salvage".to_string()));
        calls.push((Call::Disassembled, "disassemble".to_string()));
        calls.push((Call::Assembled, "assemble".to_string()));
        calls
    }

    /// Lines of words, and lines that are read, by family.
    fn calls_on_lines() -> Vec<(Call, String)> {
        let mut calls = Vec::new();
        for first in families().into_iter().chain(families_left_out()) {
            calls.push((Call::LineOf(first), format!("line of {}", family_name(first))));
        }
        calls.push((Call::LineOfOther, "line of other words".to_string()));
        for first in families() {
            calls.push((Call::LineRead(first), format!("line read {}", family_name(first))));
        }
        calls.push((Call::OtherLineRead, "line read, other".to_string()));
        calls
    }

    pub fn print(&self) {
        println!("how often each answer was met; - stands where it cannot be");
        print!("{:16}", "answer");
        (0..ANSWERS).for_each(|number| print!("{number:>9}"));
        println!();
        for (call, name) in Tally::calls() {
            print!("{name:16}");
            for number in 0..ANSWERS {
                match (reachable(call, number), self.get(call, number)) {
                    (false, 0) => print!("{:>9}", "-"),
                    (_, count) => print!("{count:>9}"),
                }
            }
            println!();
        }
        self.print_lines();
        for (kind, [rows, a, b, seal]) in self.overlaps.iter().enumerate() {
            println!(
                "answer 9 by one reason alone, kind {kind}: two rows of C {rows}, A {a}, B {b}, \
                 a sealed range {seal}"
            );
        }
    }

    /// Each answer of a word's line, then of reading one, by family.
    fn print_lines(&self) {
        const WRITTEN: [u64; 6] = [0, 10, 11, 1, 12, 14];
        const READ: [u64; 3] = [0, 8, BAD_LINE];
        println!("the same of the line of a word, then of reading a line");
        print!("{:16}", "answer");
        WRITTEN.iter().chain(&READ).for_each(|number| print!("{number:>9}"));
        println!();
        let left_out = families_left_out();
        for first in families().into_iter().chain(left_out).map(Some).chain([None]) {
            let (of, read) = match first {
                Some(first) => (Call::LineOf(first), Call::LineRead(first)),
                None => (Call::LineOfOther, Call::OtherLineRead),
            };
            print!("{:16}", first.map_or("other", family_name));
            let calls = WRITTEN.map(|number| (of, number)).into_iter();
            for (call, number) in calls.chain(READ.map(|number| (read, number))) {
                match self.get(call, number) {
                    0 => print!("{:>9}", "-"),
                    count => print!("{count:>9}"),
                }
            }
            println!();
        }
    }

    /// Cells that can be met but were not, and those met that cannot be.
    pub fn check(&self) -> Result<String, String> {
        let mut faults = Vec::new();
        for (call, name) in Tally::calls().into_iter().chain(Tally::calls_on_lines()) {
            for number in 0..ANSWERS {
                match (reachable(call, number), self.get(call, number)) {
                    (true, 0) => faults.push(format!("{name} never gave {number}")),
                    (false, 1..) => faults.push(format!("{name} gave {number}")),
                    _ => {}
                }
                if !matches!(call, Call::Family(_) | Call::OtherWord) {
                    continue;
                }
                for (elen, counts) in ELENS.into_iter().zip(&self.by_elen) {
                    let met = counts.contains_key(&(call, number));
                    if met != reachable_at(elen, call, number) {
                        let gave = if met { "gave" } else { "never gave" };
                        faults.push(format!("{name} {gave} {number} at ELEN {elen}"));
                    }
                }
            }
        }
        if self.overlaps.as_flattened().contains(&0) {
            faults.push(format!("a reason of 9 was not met alone: {:?}", self.overlaps));
        }
        if faults.is_empty() {
            Ok("every cell that can be met was met, those of words at either ELEN".to_string())
        } else {
            Err(faults.join("\n"))
        }
    }

    /// Whether as much was compared as is asked for.
    pub fn amount(&self) -> Result<String, String> {
        let whole: Vec<u64> = KINDS.map(|kind| self.get(Call::WholeRun(kind), 0)).to_vec();
        let text = format!(
            "{} steps, by number of ranges {:?}; by kind, rule and ELEN {:?} runs turn by turn, by kind {whole:?} whole runs \
             in one call; by version {:?} images written, {:?} read, {:?} salvaged; {} lines of words, {} lines read",
            self.steps, self.by_ranges, self.runs, self.images[0], self.images[1], self.images[2], self.lines[0], self.lines[1]
        );
        let enough = self.runs.iter().all(|by_rule| {
            let of_rules = by_rule.map(|by_elen| by_elen.iter().sum::<u64>());
            of_rules.iter().sum::<u64>() >= LEAST_RUNS
                && of_rules.iter().all(|&runs| runs >= LEAST_RUNS_BY_RULE)
                && by_rule.as_flattened().iter().all(|&runs| runs >= LEAST_RUNS_BY_ELEN)
        });
        let images = self.images.as_flattened().iter().all(|&images| images >= LEAST_IMAGES);
        let ranges = self.by_ranges.iter().all(|&steps| steps >= LEAST_STEPS_BY_RANGES);
        let lines = self.lines.iter().all(|&lines| lines >= LEAST_LINES);
        if self.steps >= LEAST_STEPS && ranges && enough && images && lines {
            Ok(text)
        } else {
            Err(format!(
                "{text}; asked for: {LEAST_STEPS} steps, {LEAST_STEPS_BY_RANGES} of each number of \
                 ranges, {LEAST_RUNS} runs of each kind, \
                 {LEAST_RUNS_BY_RULE} of them by each rule, {LEAST_RUNS_BY_ELEN} of these at each \
                 ELEN, {LEAST_IMAGES} images of each version, {LEAST_LINES} lines of words and \
                 lines read"
            ))
        }
    }
}
