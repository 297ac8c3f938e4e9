//! Sizes renewed after a change of mtype, by words with rs1 and rd both x0
//! (request Three).

use crate::lent::Lent;
use crate::random::Random;
use crate::states::cases::bench_of;
use crate::states::machines::{mtypes, set_size, usual_lengths, SIZES};
use crate::suite::{check_step, each_case, Context, Outcome};
use crate::tally::Tally;
use model::{maximum, sew, tile_size, Lengths, Machine, Size, RULES};

/// The settings by a scalar, and the sizes they set.
pub const SETTINGS: [(&str, Size); 3] =
    [("msettilem", Size::M), ("msettilek", Size::K), ("msettilen", Size::N)];

/// Every machine of either rule, and every change from one legal mtype to another.
pub fn renewed_sizes(context: &mut Context) -> Outcome {
    let changes = changes(&usual_lengths());
    let count = (RULES.len() * changes.len()) as u64;
    each_case(context, "renewed sizes", count, |case, random, tally| {
        check_change(random, changes[case as usize / 2], RULES[case as usize % 2], tally)
    })
}

/// A change of mtype, the sizes renewed, and tiles of these sizes moved.
pub fn check_change(
    random: &mut Random,
    (lengths, from, to): (Lengths, u64, u64),
    rule: u64,
    tally: &mut Tally,
) -> Result<(), String> {
    let mut lent = sized_bench(random, lengths, rule, from);
    renew(&mut lent, to, tally)?;
    move_tiles(&mut lent, to, tally)
}

/// Every change between legal mtypes of some machines.
fn changes(lengths: &[Lengths]) -> Vec<(Lengths, u64, u64)> {
    let mut changes = Vec::new();
    for &lengths in lengths {
        for &from in mtypes(lengths.2) {
            changes.extend(mtypes(lengths.2).iter().map(|&to| (lengths, from, to)));
        }
    }
    changes
}

/// A bench with sizes at or below their maxima under mtype.
fn sized_bench(random: &mut Random, lengths: Lengths, rule: u64, mtype: u64) -> Lent {
    let mut machine = Machine { mtype, ..Machine::of(lengths, rule) };
    for size in SIZES {
        let limit = maximum(&machine, size, sew(mtype));
        let value = random.pick(&[limit, limit, limit, limit - 1, limit / 2 + 1, 1, 0]);
        set_size(&mut machine, size, value);
    }
    let mut lent = bench_of(random, &machine);
    let rows = lengths.1 / lengths.0;
    lent.memory = random.bytes((rows * stride(lengths)) as usize);
    lent
}

/// At least as long as a row of elements of SEW bits.
fn stride((rlen, ..): Lengths) -> u64 {
    256.max(rlen / 8)
}

/// A step that has to be done.
fn done(
    name: &str,
    operands: &[(&str, u32)],
    lent: &mut Lent,
    tally: &mut Tally,
) -> Result<(), String> {
    let number;
    (number, *lent) = check_step(model::assemble(name, operands), lent, tally)?;
    match number {
        0 => Ok(()),
        _ => Err(format!("{name} gives {number} on {:?}", lent.machine())),
    }
}

/// mtype, then the three sizes: each becomes the smaller of itself and its maximum,
/// whatever the rule, and no scalar changes.
fn renew(lent: &mut Lent, mtype: u64, tally: &mut Tally) -> Result<(), String> {
    let before = lent.machine();
    done("msettypei", &[("mtypei", mtype as u32)], lent, tally)?;
    let scalars = lent.scalars.clone();
    for (name, size) in SETTINGS {
        done(name, &[], lent, tally)?;
        let expected = tile_size(&before, size).min(maximum(&before, size, sew(mtype)));
        let found = tile_size(&lent.machine(), size);
        if found != expected || lent.scalars != scalars {
            return Err(format!("{name} leaves {found}, not {expected}, or a scalar changes"));
        }
    }
    Ok(())
}

/// Loads and stores of the three matrices, none of which gets 4 any more.
fn move_tiles(lent: &mut Lent, mtype: u64, tally: &mut Tally) -> Result<(), String> {
    lent.set_scalar(1, 0);
    lent.set_scalar(2, stride(lent.machine().lengths()));
    for matrix in ["la", "sa", "lb", "sb", "lc", "sc"] {
        let name = format!("m{matrix}e{}.m", sew(mtype));
        done(&name, &[("rs1", 1), ("rs2", 2)], lent, tally)?;
    }
    Ok(())
}
