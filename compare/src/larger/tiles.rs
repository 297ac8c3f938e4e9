//! Tiles of many rows and columns, and random steps and sizes on every machine beyond the
//! bounds of document 01.

use super::elements::{around, content};
use super::elens::is_legal;
use crate::lent::packed;
use crate::random::Random;
use crate::rules::sizes::{ask, size_given, sized_by_x0};
use crate::states::cases::{bench_of, case_of, multiplier, Case};
use crate::states::faults::put_faults;
use crate::states::float_numbers;
use crate::states::machines::{
    fitting_mtypes, larger_lengths, machine_fitting_on, mtypes, set_size, SIZES,
};
use crate::states::words::{any_row, lines_of};
use crate::steps::renewed;
use crate::suite::{check_step, each_case, Context, Outcome};
use model::{
    assemble, maximum, sew, Answer, Kind, Lengths, Machine, Row, ELENS, LISTING, RULES, SMALLER,
};

/// Machines with rows of many elements, or with many terms.
const WIDE: [(u64, u64); 7] = [
    (512, 32_768),
    (1024, 2048),
    (1024, 65_536),
    (2048, 65_536),
    (4096, 8192),
    (4096, 65_536),
    (256, 65_536),
];

/// Multiplies and widening element-wise words of every width, floats too, on tiles with
/// columns around multiples of 16 and 64 and terms around multiples of 16.
pub fn wide_tiles(context: &mut Context) -> Outcome {
    let reckons = |row: &&'static Row| {
        let kind = row.kind;
        matches!(kind, Kind::Multiply(_) | Kind::FloatMultiply | Kind::Add(_))
            || matches!(kind, Kind::Subtract(_) | Kind::ReverseSubtract(_) | Kind::Scale(_))
    };
    let rows: Vec<&'static Row> = LISTING.iter().filter(reckons).collect();
    let mut cases: Vec<(Lengths, &'static Row, u64)> = Vec::new();
    for (rlen, mlen) in WIDE {
        for &row in &rows {
            let both = fitting_mtypes(row.kind, 64).into_iter();
            cases.extend(both.map(|mtype| ((rlen, mlen, 64), row, mtype)));
        }
    }
    let count = cases.len() as u64 * context.scale;
    each_case(context, "wide tiles", count, |case, random, tally| {
        let (mut lengths, row, mtype) = cases[case as usize % cases.len()];
        if is_legal(mtype, 32) && fitting_mtypes(row.kind, 32).contains(&mtype) {
            lengths.2 = random.pick(&ELENS);
        }
        let mut machine = Machine { mtype, ..Machine::of(lengths, random.pick(&RULES)) };
        let mut lent = bench_of(random, &machine);
        let multiplies = matches!(row.kind, Kind::Multiply(_) | Kind::FloatMultiply);
        let word = |random: &mut Random, ms1: u64, md: u64| {
            let imm = random.below(32) as u32;
            let (ms1, ms2, md) = (ms1 as u32, random.below(8) as u32, md as u32);
            let operands = [("ms1", ms1), ("ms2", ms2), ("md", md), ("imm", imm), ("rs2", 9)];
            assemble(row.name, &operands)
        };
        let [rows_of_tile, terms, columns] = SIZES.map(|size| maximum(&machine, size, sew(mtype)));
        for sample in 0..if multiplies { 24 } else { 8 } {
            if sample % 4 == 0 {
                lent.registers = match row.kind {
                    Kind::FloatMultiply => float_numbers::registers(random, machine.mlen),
                    _ => content(random, lent.registers.len()),
                };
            }
            let n = if sample == 0 { columns } else { around(random, columns) };
            let k = if random.chance(10) { 0 } else { around(random, terms) };
            // Few rows, since the second program takes its time.
            let m = rows_of_tile.min(random.range(1, 3) as i128);
            for (size, value) in SIZES.into_iter().zip([m, k, n]) {
                set_size(&mut machine, size, value);
            }
            lent.set_machine(&machine);
            lent.set_scalar(9, multiplier(random));
            let (ms1, md) = match multiplies {
                true => (random.below(8), random.below(2)),
                // Widening in place, but for one in four.
                false if sample % 4 < 3 => [(0, 0), (1, 1)][sample % 2],
                false => (random.below(2), random.below(2)),
            };
            let number;
            let word = word(random, ms1, md);
            (number, lent) = check_step(word, &lent, tally)?;
            if number != 0 {
                return Err(format!("{} gives {number} on {machine:?}", model::describe(word)));
            }
        }
        Ok(())
    })
}

/// Whole tiles of up to 1,024 rows and of up to 512 columns with a byte that is not
/// marked: row and column of its element, also if later elements are not marked either.
pub fn far_elements(context: &mut Context) -> Outcome {
    let lengths: [Lengths; 8] = [
        (64, 65_536, 32),
        (128, 65_536, 64),
        (256, 65_536, 32),
        (512, 65_536, 64),
        (2048, 65_536, 32),
        (4096, 65_536, 64),
        (4096, 8192, 32),
        (4096, 16_384, 64),
    ];
    // Moves have short lines: `far lines` is theirs.
    let reads = |row: &&'static Row| {
        let setting = matches!(row.kind, Kind::SetType | Kind::SetSize(_));
        !setting && !matches!(row.kind, Kind::Load(..)) && lines_of(row.kind).is_none()
    };
    let rows: Vec<&'static Row> = LISTING.iter().filter(reads).collect();
    let mut farthest = (0, 0);
    let count = 4 * (lengths.len() * rows.len()) as u64 * context.scale;
    let cases = each_case(context, "far elements", count, |case, random, tally| {
        let row = rows[case as usize % rows.len()];
        let mut lengths = lengths[case as usize / rows.len() % lengths.len()];
        if fitting_mtypes(row.kind, lengths.2).is_empty() {
            lengths = (lengths.0.max(128), lengths.1, 64);
        }
        let mtype = random.pick(&fitting_mtypes(row.kind, lengths.2));
        let mut machine = Machine { mtype, ..Machine::of(lengths, SMALLER) };
        for size in SIZES {
            let limit = maximum(&machine, size, sew(mtype));
            set_size(&mut machine, size, limit);
        }
        let mut lent = bench_of(random, &machine);
        lent.set_scalar(2, 1);
        let word = assemble(row.name, &[("ms1", 1), ("ms2", 2), ("rs2", 2), ("imm", 1)]);
        let sources = model::sources(
            &model::decode(word).expect("a good word"),
            &machine,
            &lent.scalar_values(),
        );
        let tile = random.pick(&sources);
        let mut far = |size: i128| {
            let places =
                [0, size - 1, size - 1, size / 2, size / 2 - 1, random.below(size as u64) as i128];
            random.pick(&places).max(0)
        };
        let (i, j) = (far(tile.rows), far(tile.columns));
        let mut unmark = |i, j| {
            let bytes = model::register_element(&machine, tile.register, i, j, tile.width);
            lent.marks[random.range(bytes.start as u64, bytes.end as u64 - 1) as usize] = 0;
        };
        unmark(i, j);
        if j + 1 < tile.columns {
            unmark(i, j + 1);
        }
        if i + 1 < tile.rows {
            unmark(i + 1, 0);
        }
        farthest = (farthest.0.max(i), farthest.1.max(j));
        let expected = packed(Answer { number: 5, row: i as u64, column: j as u64 });
        let (number, _) = check_step(word, &lent, tally)?;
        let given = crate::lent::library_step(word, &mut lent);
        if number != 5 || given != expected {
            return Err(format!("{} gives {given:#x}, not {expected:#x}", model::describe(word)));
        }
        Ok(())
    })?;
    let text = format!("{cases}, up to row {} and column {}", farthest.0, farthest.1);
    if context.only_case.is_none() && farthest != (1023, 511) {
        return Err(text);
    }
    Ok(text)
}

/// Good cases with faults put in, on every machine beyond the bounds of document 01.
pub fn larger_steps(context: &mut Context) -> Outcome {
    let lengths = larger_lengths();
    let count = 150 * lengths.len() as u64 * context.scale;
    each_case(context, "larger steps", count, |case, random, tally| {
        let lengths = lengths[case as usize % lengths.len()];
        let row = any_row(random);
        let machine = machine_fitting_on(random, lengths, row.kind);
        let mut case = case_of(random, row, &machine);
        let percent = random.pick(&[0, 0, 8, 30]);
        put_faults(random, &mut case, percent);
        let Case { word, lent } = case;
        check_step(word, &lent, tally).map(|_| ())
    })
}

/// Sizes asked for around the maximum and twice it, by either rule; sizes renewed after a
/// change of mtype, and tiles of these sizes moved.
pub fn larger_sizes(context: &mut Context) -> Outcome {
    let lengths = larger_lengths();
    let count = (lengths.len() * RULES.len()) as u64;
    each_case(context, "larger sizes", count, |case, random, tally| {
        let lengths = lengths[case as usize / 2];
        let rule = RULES[case as usize % 2];
        for named in renewed::SETTINGS {
            let mtype = random.pick(mtypes(lengths.2));
            let machine = Machine { mtype, ..Machine::of(lengths, rule) };
            let mut lent = bench_of(random, &machine);
            let most = maximum(&machine, named.1, sew(mtype)) as u64;
            let any = random.below(2 * most + 2);
            let asked =
                [0, 1, any, most - 1, most, most + 1, 2 * most - 1, 2 * most, 8191, 1 << 63];
            for number in asked {
                let given = size_given(rule, number, most)?;
                ask(random, &mut lent, named, number, given, tally)?;
            }
            let widest = maximum(&machine, named.1, 8) as u64;
            let held = [0, most - 1, most, widest.min(most + 1), widest];
            sized_by_x0(random, &mut lent, named, most, &held, tally)?;
        }
        let [from, to] = [0; 2].map(|_| random.pick(mtypes(lengths.2)));
        renewed::check_change(random, (lengths, from, to), rule, tally)
    })
}
