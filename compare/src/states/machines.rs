//! Lengths, machines, their mtypes and tile sizes.

use crate::random::Random;
use model::{maximum, sew, Kind, Lengths, Machine, Size, MILL, RULES};

pub const SIZES: [Size; 3] = [Size::M, Size::K, Size::N];

/// The legal values of mtype: 64 bits, and 4 x 16 bits, at ELEN 64 alone.
pub fn mtypes(elen: u64) -> &'static [u64] {
    match elen {
        64 => &[0, 1, 2, 3, 8, 9],
        _ => &[0, 1, 2, 8],
    }
}

/// SEW and factor of the outputs that are permitted.
pub const WIDTHS: [(u64, u64); 6] = [(8, 1), (8, 2), (8, 4), (16, 1), (16, 2), (32, 1)];
/// Those that are permitted at ELEN 64 alone.
pub const WIDTHS_TO_64: [(u64, u64); 3] = [(64, 1), (32, 2), (16, 4)];

/// One that an ELEN permits.
pub fn any_widths(random: &mut Random, elen: u64) -> (u64, u64) {
    if elen == 64 && random.chance(40) {
        random.pick(&WIDTHS_TO_64)
    } else {
        random.pick(&WIDTHS)
    }
}

/// Numbers that are no rule of a machine.
pub const UNKNOWN_RULES: [u64; 8] =
    [2, 3, 256, 257, 1 << 32, (1 << 32) + 1, (1 << 63) + 1, u64::MAX];

/// Numbers that are no ELEN.
pub const UNKNOWN_ELENS: [u64; 14] =
    [0, 1, 5, 6, 8, 16, 31, 33, 63, 65, 128, 1 << 32, (1 << 32) + 32, u64::MAX];

/// Whether RLEN or MLEN is beyond the bounds of document 01 (request Ten).
pub fn is_larger((rlen, mlen, _): Lengths) -> bool {
    rlen > 512 || mlen > 4096
}

/// The permitted lengths of document 01, small machines first.
pub fn old_lengths() -> Vec<Lengths> {
    usual_lengths().into_iter().filter(|lengths| lengths.2 == 32).collect()
}

/// The same and those of ELEN 64 within the same bounds.
pub fn usual_lengths() -> Vec<Lengths> {
    model::permitted_lengths().into_iter().filter(|&lengths| !is_larger(lengths)).collect()
}

/// The permitted lengths beyond these bounds.
pub fn larger_lengths() -> Vec<Lengths> {
    model::permitted_lengths().into_iter().filter(|&lengths| is_larger(lengths)).collect()
}

/// Permitted lengths, small machines more often, those of request Ten seldom.
pub fn lengths(random: &mut Random) -> Lengths {
    let lengths = match random.below(100) {
        0 => larger_lengths(),
        1..=29 => lengths_at_64(),
        _ => old_lengths(),
    };
    let among = match random.below(10) {
        0..=5 => 3,
        6..=8 => 9,
        _ => lengths.len(),
    };
    random.pick(&lengths[..among])
}

/// Lengths of ELEN 64 within the bounds of document 01.
pub fn lengths_at_64() -> Vec<Lengths> {
    usual_lengths().into_iter().filter(|lengths| lengths.2 == 64).collect()
}

/// Lengths of an ELEN at which an instruction keeps the width rules, mostly.
pub fn lengths_for(random: &mut Random, kind: Kind) -> Lengths {
    let lengths = lengths(random);
    if fitting_mtypes(kind, lengths.2).is_empty() && random.chance(80) {
        return random.pick(&lengths_at_64());
    }
    lengths
}

pub fn set_size(machine: &mut Machine, size: Size, value: i128) {
    match size {
        Size::M => machine.tile_m = value as u64,
        Size::K => machine.tile_k = value as u64,
        Size::N => machine.tile_n = value as u64,
    }
}

/// A tile size up to `limit`, often at it.
pub fn size_up_to(random: &mut Random, limit: i128) -> i128 {
    match random.below(20) {
        0 => 0,
        1 => 1.min(limit),
        2..=9 => limit,
        _ => random.range(0, limit as u64) as i128,
    }
}

/// A machine with a legal mtype and sizes within the maxima, of either rule.
pub fn good_machine(random: &mut Random) -> Machine {
    let lengths = lengths(random);
    let mtype = random.pick(mtypes(lengths.2));
    machine_within(random, lengths, mtype, sew(mtype))
}

/// The same with an mtype under which an instruction keeps the width rules, mostly.
pub fn machine_fitting(random: &mut Random, kind: Kind) -> Machine {
    let lengths = lengths_for(random, kind);
    machine_fitting_on(random, lengths, kind)
}

pub fn machine_fitting_on(random: &mut Random, lengths: Lengths, kind: Kind) -> Machine {
    let mtype = fitting_mtype(random, kind, lengths.2);
    machine_within(random, lengths, mtype, sew(mtype))
}

/// A machine that is not at fault, of any mtype that can arise.
pub fn any_machine(random: &mut Random, lengths: Lengths) -> Machine {
    let mtype = if random.chance(20) { MILL } else { random.pick(mtypes(lengths.2)) };
    machine_within(random, lengths, mtype, 8)
}

/// A machine whose sizes are within their maxima at a SEW.
fn machine_within(random: &mut Random, lengths: Lengths, mtype: u64, sew: i128) -> Machine {
    let rule = random.pick(&RULES);
    let mut machine = Machine { mtype, ..Machine::of(lengths, rule) };
    let limits = limits(random, &machine, sew);
    for (size, limit) in SIZES.into_iter().zip(limits) {
        set_size(&mut machine, size, size_up_to(random, limit));
    }
    machine
}

/// The maxima at a SEW; of a larger machine mostly all small, or all but one, since the
/// second program takes its time for a whole tile.
pub fn limits(random: &mut Random, machine: &Machine, sew: i128) -> [i128; 3] {
    let mut limits = SIZES.map(|size| maximum(machine, size, sew));
    if is_larger(machine.lengths()) && !random.chance(4) {
        let long = random.below(4) as usize;
        let most = if long < 3 { 5 } else { 24 };
        for (at, limit) in limits.iter_mut().enumerate() {
            if at != long {
                *limit = most.min(*limit);
            }
        }
    }
    limits
}

/// The values of mtype under which an instruction keeps the width rules.
pub fn fitting_mtypes(kind: Kind, elen: u64) -> Vec<u64> {
    let fits = |mtype: &u64| !model::width_rule_broken(kind, *mtype, elen);
    mtypes(elen).iter().copied().filter(fits).collect()
}

/// One of them, if there is one.
pub fn fitting_mtype(random: &mut Random, kind: Kind, elen: u64) -> u64 {
    let fitting = fitting_mtypes(kind, elen);
    if fitting.is_empty() {
        random.pick(mtypes(elen))
    } else {
        random.pick(&fitting)
    }
}

/// Sizes up to the maxima at SEW 8, above those under mtype if they can be.
pub fn raise_sizes(random: &mut Random, machine: &mut Machine) {
    let size = random.pick(&SIZES);
    let limit = maximum(machine, size, sew(machine.mtype));
    let widest = maximum(machine, size, 8);
    let value = if random.chance(50) {
        (limit + 1).min(widest)
    } else {
        random.range(0, widest as u64) as i128
    };
    set_size(machine, size, value);
}
