//! What each ELEN permits: values of mtype, and widths.

use crate::states::cases::bench_of;
use crate::states::machines::{mtypes, set_size, SIZES};
use crate::states::words::lines_of;
use crate::suite::{check_step, each_case, Context, Outcome};
use model::{assemble, Kind, Lengths, Machine, Matrix, LISTING, MILL, RULES, SMALLER};

/// The legal values of mtype, as the paper has them.
pub fn is_legal(mtype: u64, elen: u64) -> bool {
    [0, 1, 2, 8].contains(&mtype) || elen == 64 && [3, 9].contains(&mtype)
}

/// Every value up to beyond 15, and with a bit above, on every machine: asked for by both
/// forms of the setting, and in the state.
pub fn mtypes_by_elen(context: &mut Context) -> Outcome {
    let lengths = model::permitted_lengths();
    each_case(context, "mtypes", lengths.len() as u64, |case, random, tally| {
        let lengths = lengths[case as usize];
        let machine = Machine::of(lengths, random.pick(&RULES));
        let mut lent = bench_of(random, &machine);
        let above = (0..4).map(|low| low | 1 << random.range(4, 62));
        for value in (0..17).chain(above).chain([MILL | 3, MILL | 9]).collect::<Vec<_>>() {
            let legal = is_legal(value, lengths.2);
            lent.set_scalar(1, value);
            let mut words = vec![assemble("msettype", &[("rs1", 1), ("rd", 2)])];
            if value < 8192 {
                words.push(assemble("msettypei", &[("mtypei", value as u32), ("rd", 2)]));
            }
            for &word in &words {
                let (number, after) = check_step(word, &lent, tally)?;
                let new = if legal { value } else { MILL };
                let found = (number, after.machine().mtype, after.scalar_values()[2]);
                if found != (0, new, new) {
                    return Err(format!("mtype {value} asked of {machine:?}: {found:?}"));
                }
            }
            let mut held = lent.clone();
            held.set_machine(&Machine { mtype: value, ..machine });
            let (number, _) = check_step(words[0], &held, tally)?;
            let expected = if legal { 0 } else { 8 };
            if number != expected {
                return Err(format!("mtype {value} held by {machine:?}: {number}"));
            }
        }
        Ok(())
    })
}

/// Widths of C's elements, and how many times SEW an output may be, by ELEN and mtype.
fn permitted_widths(elen: u64, mtype: u64) -> (&'static [i128], &'static [i128]) {
    match (elen, mtype) {
        (_, 0) => (&[8, 16], &[1, 2]),
        (_, 1) => (&[16, 32], &[1, 2]),
        (_, 8) => (&[8, 16, 32], &[1, 2, 4]),
        (32, 2) => (&[32], &[1]),
        (64, 2) => (&[32, 64], &[1, 2]),
        (64, 3) => (&[64], &[1]),
        (64, 9) => (&[16, 32, 64], &[1, 2, 4]),
        _ => (&[], &[]),
    }
}

/// Every row under every legal mtype of small and large machines: 3, or done.
pub fn widths_by_elen(context: &mut Context) -> Outcome {
    let machines: [Lengths; 8] = [
        (64, 128, 32),
        (128, 256, 32),
        (128, 256, 64),
        (512, 4096, 64),
        (1024, 2048, 32),
        (1024, 2048, 64),
        (4096, 65_536, 32),
        (4096, 65_536, 64),
    ];
    let count = (machines.len() * LISTING.len()) as u64;
    each_case(context, "widths", count, |case, random, tally| {
        let row = &LISTING[case as usize % LISTING.len()];
        let lengths = machines[case as usize / LISTING.len()];
        for &mtype in mtypes(lengths.2) {
            let sew = [8, 16, 32, 64][mtype as usize % 8];
            let (of_c, factors) = permitted_widths(lengths.2, mtype);
            let fits = match row.kind {
                Kind::SetType | Kind::SetSize(_) => true,
                Kind::Load(Matrix::C, width, _) | Kind::Store(Matrix::C, width, _) => {
                    of_c.contains(&width)
                }
                Kind::Load(_, width, _) | Kind::Store(_, width, _) => width == sew,
                Kind::FloatMultiply => sew == 32,
                Kind::Multiply(f) | Kind::Add(f) | Kind::Subtract(f) => factors.contains(&f),
                Kind::ReverseSubtract(f) | Kind::Scale(f) => factors.contains(&f),
                Kind::MoveOut(_) | Kind::MoveIn(_) => true,
            };
            let mut machine = Machine { mtype, ..Machine::of(lengths, SMALLER) };
            SIZES.into_iter().for_each(|size| set_size(&mut machine, size, 2));
            let mut lent = bench_of(random, &machine);
            lent.memory = random.bytes(48);
            lent.set_scalar(1, 0);
            lent.set_scalar(2, 16);
            // A move of both lines, from x0 on.
            lent.group = 2;
            let rs2 = if lines_of(row.kind).is_some() { 0 } else { 2 };
            let word = assemble(row.name, &[("rs1", 1), ("rs2", rs2), ("imm", 5)]);
            let (number, _) = check_step(word, &lent, tally)?;
            if number != if fits { 0 } else { 3 } {
                return Err(format!("{} gives {number} on {machine:?}", row.name));
            }
        }
        Ok(())
    })
}
