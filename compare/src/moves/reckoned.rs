//! A move with its operands and its bench, and what it has to leave, reckoned from the
//! paper's sentence without the second program: for each byte that a move may write, where
//! it comes from.

use crate::lent::{packed, report, Lent};
use crate::random::Random;
use crate::states::cases::{bench_of, Case};
use crate::states::machines::set_size;
use crate::states::words::{group_start, lines_of, sizes_of_lines};
use crate::suite::check_answer;
use crate::tally::Tally;
use model::moves::{Lines, GROUPS};
use model::{Answer, Kind, Lengths, Machine, Row, LISTING, RULES};

/// The four rows of moves.
pub fn rows_of_moves() -> Vec<&'static Row> {
    LISTING.iter().filter(|row| lines_of(row.kind).is_some()).collect()
}

/// A machine and a row of moves, and what a move can have there.
#[derive(Clone, Copy)]
pub struct Room {
    pub row: &'static Row,
    pub lengths: Lengths,
    pub mtype: u64,
    pub lines: Lines,
    /// The most lines of a tile, and the most elements of one.
    pub most_lines: u64,
    pub most_elements: u64,
    /// How many elements 128 bits hold.
    pub full: u64,
}

impl Room {
    pub fn new(row: &'static Row, lengths: Lengths, mtype: u64) -> Room {
        let lines = lines_of(row.kind).expect("a move");
        let sew = [8, 16, 32, 64][mtype as usize % 8];
        let (rows, columns) = (lengths.1 / lengths.0, lengths.0 / sew);
        let (most_lines, most_elements) = match lines {
            Lines::Rows => (rows, columns),
            Lines::Columns => (columns, rows),
        };
        Room { row, lengths, mtype, lines, most_lines, most_elements, full: 128 / sew }
    }

    pub fn sew(&self) -> u64 {
        128 / self.full
    }

    /// The group sizes of which a tile has as many lines.
    pub fn groups(&self) -> Vec<u64> {
        GROUPS.into_iter().filter(|&group| group <= self.most_lines).collect()
    }

    /// The longest line that is moved.
    pub fn longest(&self) -> u64 {
        self.most_elements.min(self.full)
    }
}

/// A move: its accumulator, the start of its group, the slot of its scalar, and what it is
/// lent.
pub struct Move {
    pub room: Room,
    pub accumulator: u32,
    pub start: u32,
    pub slot: u32,
    pub lent: Lent,
}

impl Move {
    /// A move of a group on a tile with so many lines of so many elements, from line
    /// `first` on; everything is marked.
    pub fn new(
        random: &mut Random,
        room: Room,
        group: u64,
        [count, elements, first]: [u64; 3],
    ) -> Move {
        let rule = random.pick(&RULES);
        let mut machine = Machine { mtype: room.mtype, ..Machine::of(room.lengths, rule) };
        let (size_of_count, size_of_elements) = sizes_of_lines(room.lines);
        set_size(&mut machine, size_of_count, count as i128);
        set_size(&mut machine, size_of_elements, elements as i128);
        let mut lent = bench_of(random, &machine);
        lent.memory = random.bytes(20);
        lent.group = group;
        let (accumulator, start) = (random.below(2) as u32, group_start(random, group));
        let slot = random.range(1, 31) as u32;
        lent.set_scalar(slot, first);
        Move { room, accumulator, start, slot, lent }
    }

    pub fn is_out(&self) -> bool {
        matches!(self.room.row.kind, Kind::MoveOut(_))
    }

    /// The word of a row of moves, with these operands.
    pub fn word_of(&self, row: &Row) -> u32 {
        let accumulators = [("ms1", self.accumulator), ("md", self.accumulator)];
        let vectors = [("vd", self.start), ("vs1", self.start), ("rs2", self.slot)];
        model::assemble(row.name, &[&accumulators[..], &vectors].concat())
    }

    pub fn word(&self) -> u32 {
        self.word_of(self.room.row)
    }

    /// The first line.
    pub fn first(&self) -> u64 {
        if self.slot == 0 {
            0
        } else {
            self.lent.scalar_values()[self.slot as usize]
        }
    }

    /// Row and column of an element by its line and its number there.
    pub fn element(&self, line: u64, at: u64) -> (u64, u64) {
        match self.room.lines {
            Lines::Rows => (line, at),
            Lines::Columns => (at, line),
        }
    }

    /// How many lines the tile has, and how many elements a line.
    pub fn sizes(&self) -> (u64, u64) {
        let machine = self.lent.machine();
        match self.room.lines {
            Lines::Rows => (machine.tile_m, machine.tile_n),
            Lines::Columns => (machine.tile_n, machine.tile_m),
        }
    }

    /// A line of the slice, and the number of an element in it.
    pub fn any_element(&self, random: &mut Random) -> (u64, u64) {
        let line = self.first() + random.below(self.lent.group);
        (line, random.below(self.sizes().1))
    }

    /// The first byte of an element among the register bytes.
    pub fn place(&self, (row, column): (u64, u64)) -> usize {
        let (rlen, mlen, _) = self.room.lengths;
        let of_row = mlen + self.accumulator as u64 * mlen / 2 + row * rlen / 2;
        (of_row + column * self.room.sew() / 8) as usize
    }

    /// Takes the mark of a byte of an element.
    pub fn unmark(&mut self, random: &mut Random, element: (u64, u64)) {
        let at = self.place(element) + random.below(self.room.sew() / 8) as usize;
        self.lent.marks[at] = 0;
    }

    /// Marks the elements of the slice, and nothing else.
    pub fn mark_slice_only(&mut self) {
        self.lent.marks.fill(0);
        let bytes = self.room.sew() as usize / 8;
        for line in self.first()..self.first() + self.lent.group {
            for at in 0..self.sizes().1 {
                let first = self.place(self.element(line, at));
                self.lent.marks[first..first + bytes].fill(1);
            }
        }
    }

    /// What the move leaves if it is done.
    fn left(&self) -> Lent {
        let mut after = self.lent.clone();
        let machine = self.lent.machine();
        let bytes = self.room.sew() / 8;
        let (first, group) = (self.first(), self.lent.group);
        if self.is_out() {
            for at in 0..after.vectors.len() as u64 {
                let (register, element, byte) = (at / 16, at % 16 / bytes, at % bytes);
                let in_group = (self.start as u64..self.start as u64 + group).contains(&register);
                if in_group && element < self.sizes().1 {
                    let line = first + register - self.start as u64;
                    let place = self.place(self.element(line, element));
                    after.vectors[at as usize] = self.lent.registers[place + byte as usize];
                }
            }
            return after;
        }
        let row_bytes = machine.rlen / 2;
        for at in 0..machine.mlen / 2 {
            let (row, column) = (at / row_bytes, at % row_bytes / bytes);
            let (line, element) = self.element(row, column);
            let in_tile = row < machine.tile_m && column < machine.tile_n;
            if in_tile && (first..first + group).contains(&line) {
                let register = self.start as u64 + line - first;
                let from = 16 * register + element * bytes + at % bytes;
                let to = self.place((0, 0)) + at as usize;
                after.registers[to] = self.lent.vectors[from as usize];
                after.marks[to] = 1;
            }
        }
        after
    }

    pub fn done(self) -> Made {
        let left = self.left();
        let expected = Answer { number: 0, row: 0, column: 0 };
        Made { case: Case { word: self.word(), lent: self.lent }, expected, left }
    }

    pub fn refused(self, number: u64) -> Made {
        Made::refused(Case { word: self.word(), lent: self.lent }, number)
    }

    /// Refused with 5.
    pub fn unwritten(self, (row, column): (u64, u64)) -> Made {
        let made = self.refused(5);
        Made { expected: Answer { number: 5, row, column }, ..made }
    }
}

/// A case, its answer, and what it has to leave.
pub struct Made {
    case: Case,
    expected: Answer,
    left: Lent,
}

impl Made {
    /// A refusal changes nothing.
    pub fn refused(case: Case, number: u64) -> Made {
        let left = case.lent.clone();
        Made { case, expected: Answer { number, row: 0, column: 0 }, left }
    }

    /// The case on both programs.
    pub fn check(&self, tally: &mut Tally) -> Result<(), String> {
        let Made { case: Case { word, lent }, expected, left } = self;
        let (given, after) = check_answer(*word, lent, tally)?;
        if given == *expected && after == *left {
            return Ok(());
        }
        Err(format!(
            "{}: both programs have the first, the paper the second\n{}",
            model::describe(*word),
            report(lent, packed(given), &after, packed(*expected), left)
        ))
    }
}
