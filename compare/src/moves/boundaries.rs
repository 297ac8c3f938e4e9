//! Boundaries of moves, each with the answer that the paper gives there and with what it
//! leaves.

use super::reckoned::{rows_of_moves, Made, Move, Room};
use crate::random::Random;
use crate::states::cases::{any_scalar, good_case};
use crate::states::faults::UNKNOWN_GROUPS;
use crate::states::machines::{larger_lengths, lengths, mtypes, set_size};
use crate::states::words::{any_row, left_out_word, sizes_of_lines};
use crate::suite::{each_case, Context, Outcome};
use model::moves::Lines;
use model::{maximum, Seals, Size, MILL};

type Boundary = (&'static str, fn(&mut Random) -> Made);

const BOUNDARIES: [Boundary; 31] = [
    ("lines from 0 on", from_the_start),
    ("lines from x0 on", from_x0),
    ("lines up to the last", up_to_the_end),
    ("one line past the tile", one_past_the_tile),
    ("lines far past the tile", far_past_the_tile),
    ("fewer lines than the group", too_few_lines),
    ("lines of no element", no_element),
    ("lines of no element past the tile", no_element_past_the_tile),
    ("lines of 128 bits", full_lines),
    ("lines one element longer", longer_by_one),
    ("lines that are longer by far", longer_by_far),
    ("long lines the other way", long_the_other_way),
    ("a move with tile_n above its maximum", columns_above_maximum),
    ("a move with tile_m above its maximum", rows_above_maximum),
    ("a move with tile_k above its maximum", terms_above_maximum),
    ("every start of a group", aligned),
    ("misaligned groups", misaligned),
    ("a move of no accumulator", bad_accumulator),
    ("a move: 12 before 2, 4 and 5", register_first),
    ("a move: 2 before 4 and 5", type_second),
    ("a move: 4 before 5", size_before_marks),
    ("a move: 8 before 12", state_before_register),
    ("a vector file of another length", bad_file),
    ("another group size", bad_group),
    ("any word with a bad file or group", bad_file_for_any_word),
    ("a move of an unmarked element", unmarked_element),
    ("a move of several unmarked elements", unmarked_elements),
    ("a move of all that is marked", marked_slice_only),
    ("an unmarked byte beside a move", unmarked_neighbour),
    ("moves in where nothing is marked", nothing_marked),
    ("a move beside a sealed memory", sealed_memory),
];

pub fn move_boundaries(context: &mut Context) -> Outcome {
    let each = 400;
    for (name, make) in BOUNDARIES {
        each_case(context, name, each, |_, random, tally| make(random).check(tally))?;
    }
    Ok(format!("{} boundaries, {} cases", BOUNDARIES.len(), each * BOUNDARIES.len() as u64))
}

/// A row of moves on a machine where what is asked for can be.
fn room_where(random: &mut Random, wanted: impl Fn(&Room) -> bool) -> Room {
    let row = random.pick(&rows_of_moves());
    loop {
        let larger = random.pick(&larger_lengths());
        let lengths = if random.chance(6) { larger } else { lengths(random) };
        let room = Room::new(row, lengths, random.pick(mtypes(lengths.2)));
        if wanted(&room) {
            return room;
        }
    }
}

/// A move that is done, of lines with an element at least.
fn move_in_room(random: &mut Random, room: Room) -> Move {
    let group = random.pick(&room.groups());
    let count = random.range(group, room.most_lines);
    let elements = random.range(1, room.longest());
    let first = random.range(0, count - group);
    Move::new(random, room, group, [count, elements, first])
}

fn move_where(random: &mut Random, wanted: impl Fn(&Room) -> bool) -> Move {
    let room = room_where(random, wanted);
    move_in_room(random, room)
}

fn any_move(random: &mut Random) -> Move {
    move_where(random, |_| true)
}

fn move_out(random: &mut Random) -> Move {
    loop {
        let made = any_move(random);
        if made.is_out() {
            return made;
        }
    }
}

// ---------------------------------------------------------------------------
// The lines that are moved

fn from(mut made: Move, first: u64) -> Move {
    made.lent.set_scalar(made.slot, first);
    made
}

fn from_the_start(random: &mut Random) -> Made {
    from(any_move(random), 0).done()
}

/// Slot 0 is read as 0, whatever it holds.
fn from_x0(random: &mut Random) -> Made {
    let mut made = any_move(random);
    made.slot = 0;
    let held = any_scalar(random);
    from(made, held).done()
}

fn up_to_the_end(random: &mut Random) -> Made {
    let made = any_move(random);
    let first = made.sizes().0 - made.lent.group;
    from(made, first).done()
}

fn one_past_the_tile(random: &mut Random) -> Made {
    let made = any_move(random);
    let first = made.sizes().0 - made.lent.group + 1;
    from(made, first).refused(4)
}

/// Also where the first or the last line would come round to the tile, if the scalar were
/// cut or the sum wrapped.
fn far_past_the_tile(random: &mut Random) -> Made {
    let made = any_move(random);
    let (count, group) = (made.sizes().0, made.lent.group);
    let good = made.first();
    let firsts = [
        count,
        count + random.below(9),
        good + (1 << 16),
        good + (1 << 32),
        good + (1 << 63),
        good | u64::MAX << 32,
        1 << 63,
        (1 << 63) - group,
        u64::MAX - group,
        u64::MAX - group + 1,
        u64::MAX - random.below(group),
        u64::MAX,
    ];
    from(made, random.pick(&firsts)).refused(4)
}

/// Also with lines of no element.
fn too_few_lines(random: &mut Random) -> Made {
    let room = room_where(random, |_| true);
    let group = random.pick(&[2, 4, 8]);
    let count = random.below(group.min(room.most_lines + 1));
    let elements = random.range(0, room.longest());
    let first = random.pick(&[0, 0, 1, count]);
    Move::new(random, room, group, [count, elements, first]).refused(4)
}

/// The same move on lines of so many elements.
fn with_elements(mut made: Move, elements: u64) -> Move {
    let mut machine = made.lent.machine();
    let (_, size) = sizes_of_lines(made.room.lines);
    set_size(&mut machine, size, elements as i128);
    made.lent.set_machine(&machine);
    made
}

fn no_element(random: &mut Random) -> Made {
    let mut made = with_elements(any_move(random), 0);
    made.lent.marks.fill(0);
    made.done()
}

fn no_element_past_the_tile(random: &mut Random) -> Made {
    let made = with_elements(any_move(random), 0);
    let last = made.sizes().0 - made.lent.group;
    let past = random.pick(&[last + 1, last + 2, last + 8, u64::MAX, 1 << 63]);
    from(made, past).refused(4)
}

/// At each SEW.
fn full_lines(random: &mut Random) -> Made {
    let full = random.pick(&[2, 4, 8, 16]);
    let made = move_where(random, |room| room.full == full && room.most_elements >= full);
    with_elements(made, full).done()
}

/// At each SEW.
fn longer_by_one(random: &mut Random) -> Made {
    let full = random.pick(&[2, 4, 8, 16]);
    let made = move_where(random, |room| room.full == full && room.most_elements > full);
    with_elements(made, full + 1).refused(4)
}

fn longer_by_far(random: &mut Random) -> Made {
    let made = move_where(random, |room| room.most_elements > room.full + 1);
    let Room { full, most_elements, .. } = made.room;
    with_elements(made, random.range(full + 2, most_elements)).refused(4)
}

/// Only the lines that are moved have to fit a vector register.
fn long_the_other_way(random: &mut Random) -> Made {
    let room = room_where(random, |room| room.most_lines > room.full);
    let group = random.pick(&room.groups());
    let count = random.range((room.full + 1).max(group), room.most_lines);
    let elements = random.range(1, room.longest());
    let first = random.range(0, count - group);
    Move::new(random, room, group, [count, elements, first]).done()
}

// ---------------------------------------------------------------------------
// Tile sizes

/// Everything else is within its bounds: rows still have 128 bits at most, and columns are
/// named that the tile has.
fn columns_above_maximum(random: &mut Random) -> Made {
    let room = room_where(random, |room| {
        room.sew() > 8 && (room.lines == Lines::Columns || room.most_elements < room.full)
    });
    let widest = room.lengths.0 / 8;
    let group = random.pick(&room.groups());
    let (count, elements) = match room.lines {
        Lines::Rows => {
            let elements = random.range(room.most_elements + 1, room.full.min(widest));
            (random.range(group, room.most_lines), elements)
        }
        Lines::Columns => {
            (random.range(room.most_lines + 1, widest), random.range(0, room.longest()))
        }
    };
    let first = random.range(0, count - group);
    Move::new(random, room, group, [count, elements, first]).refused(4)
}

/// tile_m has one maximum at every SEW, so that the state is at fault.
fn rows_above_maximum(random: &mut Random) -> Made {
    let mut made = any_move(random);
    let mut machine = made.lent.machine();
    machine.tile_m = machine.mlen / machine.rlen + random.pick(&[1, 1, 2, 1 << 32]);
    made.lent.set_machine(&machine);
    made.refused(8)
}

/// A move uses no tile_k.
fn terms_above_maximum(random: &mut Random) -> Made {
    loop {
        let mut made = any_move(random);
        let mut machine = made.lent.machine();
        let limit = maximum(&machine, Size::K, made.room.sew() as i128) as u64;
        let widest = maximum(&machine, Size::K, 8) as u64;
        if limit < widest {
            machine.tile_k = random.range(limit + 1, widest);
            made.lent.set_machine(&machine);
            return made.done();
        }
    }
}

// ---------------------------------------------------------------------------
// Registers

fn aligned(random: &mut Random) -> Made {
    let mut made = any_move(random);
    let group = made.lent.group as u32;
    let any = group * random.below(32 / group as u64) as u32;
    made.start = random.pick(&[any, any, 32 - group]);
    made.done()
}

/// A vector register at which no group of this size starts.
fn misalign(random: &mut Random, made: &mut Move) {
    let group = made.lent.group as u32;
    made.start += random.range(1, group as u64 - 1) as u32;
}

fn in_larger_groups(random: &mut Random) -> Move {
    loop {
        let made = any_move(random);
        if made.lent.group > 1 {
            return made;
        }
    }
}

fn misaligned(random: &mut Random) -> Made {
    let mut made = in_larger_groups(random);
    misalign(random, &mut made);
    made.refused(12)
}

fn bad_accumulator(random: &mut Random) -> Made {
    let mut made = any_move(random);
    let any = random.range(2, 31) as u32;
    made.accumulator = random.pick(&[2, 3, 4, 8, 16, 31, any]);
    made.refused(12)
}

/// Either reason of 12, or both.
fn put_bad_register(random: &mut Random) -> Move {
    let mut made = in_larger_groups(random);
    let which = random.below(3);
    if which != 0 {
        misalign(random, &mut made);
    }
    if which != 1 {
        made.accumulator = random.range(2, 31) as u32;
    }
    made
}

fn set_mill(made: &mut Move) {
    let mut machine = made.lent.machine();
    machine.mtype = MILL;
    made.lent.set_machine(&machine);
}

/// A reason of answer 4: a slice past the tile, or a line that is too long, if the machine
/// has any.
fn put_too_large(random: &mut Random, made: Move) -> Move {
    let Room { full, most_elements, .. } = made.room;
    if most_elements > full && random.chance(50) {
        return with_elements(made, random.range(full + 1, most_elements));
    }
    let past = made.sizes().0 - made.lent.group + 1;
    from(made, random.pick(&[past, u64::MAX]))
}

fn register_first(random: &mut Random) -> Made {
    let mut made = put_bad_register(random);
    if random.chance(50) {
        made = put_too_large(random, made);
    }
    if random.chance(50) {
        set_mill(&mut made);
    }
    made.lent.marks.fill(0);
    made.refused(12)
}

fn type_second(random: &mut Random) -> Made {
    let mut made = any_move(random);
    if random.chance(70) {
        made = put_too_large(random, made);
        made.lent.marks.fill(0);
    }
    set_mill(&mut made);
    made.refused(2)
}

fn size_before_marks(random: &mut Random) -> Made {
    let made = any_move(random);
    let mut made = put_too_large(random, made);
    made.lent.marks.fill(0);
    made.refused(4)
}

fn state_before_register(random: &mut Random) -> Made {
    let mut made = put_bad_register(random);
    if random.chance(50) {
        made.lent.group = random.pick(&UNKNOWN_GROUPS);
    } else {
        cut_file(random, &mut made.lent.vectors);
    }
    made.refused(8)
}

// ---------------------------------------------------------------------------
// The vector file and the group size

fn cut_file(random: &mut Random, vectors: &mut Vec<u8>) {
    let length = random.pick(&[0, 1, 16, 128, 256, 496, 511, 513, 528, 1024, 4096]);
    vectors.resize(length, 7);
}

fn bad_file(random: &mut Random) -> Made {
    let mut made = any_move(random);
    cut_file(random, &mut made.lent.vectors);
    made.refused(8)
}

fn bad_group(random: &mut Random) -> Made {
    let mut made = any_move(random);
    made.lent.group = random.pick(&UNKNOWN_GROUPS);
    made.refused(8)
}

/// Both come before the word is looked at.
fn bad_file_for_any_word(random: &mut Random) -> Made {
    let row = any_row(random);
    let mut case = good_case(random, row);
    let words = [case.word, case.word, left_out_word(random), random.next() as u32];
    case.word = random.pick(&words);
    if random.chance(50) {
        case.lent.group = random.pick(&UNKNOWN_GROUPS);
    } else {
        cut_file(random, &mut case.lent.vectors);
    }
    Made::refused(case, 8)
}

// ---------------------------------------------------------------------------
// Marks

fn unmarked_element(random: &mut Random) -> Made {
    let mut made = move_out(random);
    let (line, at) = made.any_element(random);
    let element = made.element(line, at);
    made.unmark(random, element);
    made.unwritten(element)
}

/// The first in the order of the accumulator's rows, and what is not read beside them.
fn unmarked_elements(random: &mut Random) -> Made {
    let mut made = move_out(random);
    if random.chance(30) {
        made.mark_slice_only();
    }
    let mut elements = Vec::new();
    for _ in 0..random.range(2, 4) {
        let (line, at) = made.any_element(random);
        elements.push(made.element(line, at));
    }
    for &element in &elements {
        made.unmark(random, element);
    }
    made.unwritten(*elements.iter().min().expect("some elements"))
}

fn marked_slice_only(random: &mut Random) -> Made {
    let mut made = any_move(random);
    made.mark_slice_only();
    made.done()
}

/// A byte right beside an element of the slice, in its row, above or below, in the other
/// accumulator, or anywhere.
fn unmarked_neighbour(random: &mut Random) -> Made {
    let mut made = any_move(random);
    let (line, at) = made.any_element(random);
    let place = made.place(made.element(line, at));
    let (rlen, mlen) = (made.room.lengths.0 as usize, made.room.lengths.1 as usize);
    let after = place + made.room.sew() as usize / 8;
    let anywhere = random.below(made.lent.marks.len() as u64) as usize;
    let other = if made.accumulator == 0 { place + mlen / 2 } else { place - mlen / 2 };
    let beside = [place - 1, after, place - rlen / 2, place + rlen / 2, other, anywhere];
    let all = made.lent.marks.clone();
    made.mark_slice_only();
    let slice = std::mem::replace(&mut made.lent.marks, all);
    let at = random.pick(&beside);
    if slice.get(at) == Some(&0) {
        made.lent.marks[at] = 0;
    }
    made.done()
}

fn nothing_marked(random: &mut Random) -> Made {
    loop {
        let mut made = any_move(random);
        if !made.is_out() {
            made.lent.marks.fill(0);
            return made.done();
        }
    }
}

fn sealed_memory(random: &mut Random) -> Made {
    let mut made = any_move(random);
    let mut machine = made.lent.machine();
    machine.seals = Seals::of(&[(0, u64::MAX)]);
    made.lent.set_machine(&machine);
    made.lent.memory.truncate(random.below(2) as usize);
    made.done()
}
