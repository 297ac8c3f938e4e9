//! Moves on every machine, out and back, and among other words.

use super::reckoned::{rows_of_moves, Move, Room};
use crate::lent::{library_step, state_text, Lent};
use crate::random::Random;
use crate::states::cases::{bench_of, Case};
use crate::states::faults::put_faults;
use crate::states::machines::{good_machine, mtypes};
use crate::states::words::bad_word;
use crate::steps::sequences::{following_word, word_of_row};
use crate::suite::{check_step, each_case, Context, Outcome};
use crate::tally::ANSWERS;
use model::moves::GROUPS;
use model::{Kind, Lengths, Row, LISTING};

// ---------------------------------------------------------------------------
// Every machine

/// The rows of moves, by group size and by SEW.
type Met = [[[u64; 4]; GROUPS.len()]; 4];

/// Every machine, mtype, row of moves and group size: a move that is done, if the machine
/// has a tile of so many lines, and the same with faults put in.
pub fn moves(context: &mut Context) -> Outcome {
    let rows = rows_of_moves();
    let mut cases: Vec<(usize, Lengths, u64, u64)> = Vec::new();
    for lengths in model::permitted_lengths() {
        for &mtype in mtypes(lengths.2) {
            for group in GROUPS {
                cases.extend((0..rows.len()).map(|row| (row, lengths, mtype, group)));
            }
        }
    }
    let mut met = Met::default();
    let count = cases.len() as u64 * context.scale;
    let said = each_case(context, "moves", count, |case, random, tally| {
        let (row, lengths, mtype, group) = cases[case as usize % cases.len()];
        let room = Room::new(rows[row], lengths, mtype);
        let count = random.range(group.min(room.most_lines), room.most_lines);
        let any = random.range(0, room.longest());
        let elements = random.pick(&[1, room.longest(), any]);
        let first = random.range(0, count.saturating_sub(group));
        let made = Move::new(random, room, group, [count, elements, first]);
        let mut faulty = Case { word: made.word(), lent: made.lent.clone() };
        if group <= count {
            made.done().check(tally)?;
            let msew = mtype as usize % 8;
            met[row][GROUPS.iter().position(|&size| size == group).unwrap()][msew] += 1;
        } else {
            made.refused(4).check(tally)?;
        }
        let percent = random.pick(&[8, 20, 40]);
        put_faults(random, &mut faulty, percent);
        check_step(faulty.word, &faulty.lent, tally).map(|_| ())
    })?;
    let done: u64 = met.as_flattened().as_flattened().iter().sum();
    let text = format!("{said} twice, {done} moves done");
    if context.only_case.is_none() && met.as_flattened().as_flattened().contains(&0) {
        return Err(format!("{text}; by row, group size and SEW: {met:?}"));
    }
    Ok(text)
}

// ---------------------------------------------------------------------------
// Far lines

/// Machines with many rows, and with many columns.
const FAR: [Lengths; 4] =
    [(64, 65_536, 32), (128, 65_536, 64), (4096, 8192, 32), (4096, 65_536, 64)];

/// Answer 5 in the lines of whole tiles of up to 1,024 rows and of up to 512 columns, also
/// if later elements are not marked either.
pub fn far_lines(context: &mut Context) -> Outcome {
    let rows: Vec<&'static Row> =
        rows_of_moves().into_iter().filter(|row| matches!(row.kind, Kind::MoveOut(_))).collect();
    let mut farthest = (0, 0);
    let count = 200 * (rows.len() * FAR.len()) as u64;
    let cases = each_case(context, "far lines", count, |case, random, tally| {
        let row = rows[case as usize % rows.len()];
        let lengths = FAR[case as usize / rows.len() % FAR.len()];
        let room = Room::new(row, lengths, random.pick(mtypes(lengths.2)));
        let group = random.pick(&room.groups());
        let last = room.most_lines - group;
        let any = random.range(0, last);
        let first = random.pick(&[last, last, any]);
        let mut made = Move::new(random, room, group, [room.most_lines, room.longest(), first]);
        let elements: Vec<(u64, u64)> = (0..random.range(1, 3))
            .map(|_| {
                let (line, at) = made.any_element(random);
                let line = random.pick(&[first, first + group - 1, line]);
                made.element(line, random.pick(&[0, room.longest() - 1, at]))
            })
            .collect();
        for &element in &elements {
            made.unmark(random, element);
        }
        let named = *elements.iter().min().expect("an element");
        farthest = (farthest.0.max(named.0), farthest.1.max(named.1));
        made.unwritten(named).check(tally)
    })?;
    let text = format!("{cases}, up to row {} and column {}", farthest.0, farthest.1);
    if context.only_case.is_none() && farthest != (1023, 511) {
        return Err(text);
    }
    Ok(text)
}

// ---------------------------------------------------------------------------
// Out and back

/// A slice moved out and at once moved back leaves everything but the vector file as it
/// was, on the library alone; the vector file is as after the move out. Marks beside the
/// slice are any; in some cases faults are put in, and the moves may be refused.
pub fn out_and_back(context: &mut Context) -> Outcome {
    let [mut both, mut refused] = [0, 0];
    let lengths = model::permitted_lengths();
    let out: Vec<&'static Row> =
        rows_of_moves().into_iter().filter(|row| matches!(row.kind, Kind::MoveOut(_))).collect();
    let count = 60 * lengths.len() as u64 * context.scale;
    let cases = each_case(context, "moved out and back", count, |case, random, _| {
        let lengths = lengths[case as usize % lengths.len()];
        let row = random.pick(&out);
        let room = Room::new(row, lengths, random.pick(mtypes(lengths.2)));
        let group = random.pick(&room.groups());
        let count = random.range(group, room.most_lines);
        let any = random.range(0, room.longest());
        let elements = random.pick(&[room.longest(), any]);
        let first = random.range(0, count - group);
        let mut made = Move::new(random, room, group, [count, elements, first]);
        made.mark_slice_only();
        for mark in made.lent.marks.iter_mut() {
            *mark |= random.below(2) as u8;
        }
        let back = row_back(row);
        let faulty = random.chance(20);
        let mut case = Case { word: made.word(), lent: made.lent.clone() };
        if faulty {
            put_faults(random, &mut case, 10);
        }
        let before = case.lent;
        let mut after = before.clone();
        let answer = library_step(made.word(), &mut after);
        let moved_out = after.clone();
        let answer_back = library_step(made.word_of(back), &mut after);
        if answer != 0 || answer_back != 0 {
            refused += 1;
            // What a move out accepts, the move back does.
            return match faulty && answer != 0 {
                true => Ok(()),
                false => Err(told("refused", &made, [answer, answer_back], &before)),
            };
        }
        both += 1;
        let expected = Lent { vectors: moved_out.vectors.clone(), ..before.clone() };
        if after != expected || moved_out != expected {
            return Err(told("not as before", &made, [answer, answer_back], &before));
        }
        Ok(())
    })?;
    let text = format!("{cases}, {both} moved out and back, {refused} refused");
    if context.only_case.is_none() && (refused == 0 || 2 * both < count) {
        return Err(text);
    }
    Ok(text)
}

fn told(what: &str, made: &Move, answers: [u64; 2], before: &Lent) -> String {
    let word = model::describe(made.word());
    format!("{word}, and back: {what}, {answers:x?}\nthe state before:\n{}", state_text(before))
}

/// The move in that undoes a move out.
fn row_back(out: &Row) -> &'static Row {
    let back = |row: &&'static Row| match (row.kind, out.kind) {
        (Kind::MoveIn(lines), Kind::MoveOut(same)) => lines == same,
        _ => false,
    };
    LISTING.iter().find(back).expect("a move back")
}

// ---------------------------------------------------------------------------
// Lists

/// Moves among other words on one machine, half of them moves: what loads, products and
/// element-wise words left is moved out, and what was moved in is read by them. The host
/// writes to the vector file now and then.
pub fn move_lists(context: &mut Context) -> Outcome {
    let rows = rows_of_moves();
    let mut met = [[0u64; ANSWERS as usize]; 4];
    let count = 600 * context.scale;
    let cases = each_case(context, "move lists", count, |_, random, tally| {
        let mut lent = fresh_bench(random);
        for _ in 0..60 {
            let row = random.below(rows.len() as u64) as usize;
            let is_move = random.chance(50);
            let mut word = match is_move {
                true => word_of_row(random, rows[row], &mut lent),
                false => following_word(random, &mut lent),
            };
            let is_bad = random.chance(3);
            if is_bad {
                word = bad_word(random, word);
            }
            if random.chance(10) {
                let at = 16 * random.below(32) as usize;
                lent.vectors[at..at + 16].copy_from_slice(&random.bytes(16));
            }
            let number;
            (number, lent) = check_step(word, &lent, tally)?;
            if is_move && !is_bad {
                met[row][number as usize] += 1;
            }
        }
        Ok(())
    })?;
    let [done, unwritten] = [0, 5].map(|number| met.map(|of_row| of_row[number]));
    let text = format!("{cases}, by row {done:?} moves done, {unwritten:?} refused with 5");
    let enough = done.iter().all(|&moves| moves >= count) && unwritten.iter().sum::<u64>() >= count;
    if context.only_case.is_none() && !enough {
        return Err(text);
    }
    Ok(text)
}

/// A machine with nothing marked, or with some rows of the accumulators.
fn fresh_bench(random: &mut Random) -> Lent {
    let machine = good_machine(random);
    let mut lent = bench_of(random, &machine);
    lent.memory = random.bytes(2000);
    let row = machine.rlen as usize / 2;
    let marked = random.below(3) as u8;
    for rows in lent.marks.chunks_mut(row) {
        rows.fill(u8::from(random.below(3) < marked as u64));
    }
    lent
}
