//! Document 01, "Setting mtype and tile sizes", with both x0 as request Three has it, the
//! two rules of request Eight and the mtypes of ELEN 64 (request Ten).

use crate::listing::Size;
use crate::machine::{scalar, set_scalar, Machine};
use crate::words::Instruction;

/// mtype's bit 63: the last new value was illegal.
pub const MILL: u64 = 1 << 63;

/// SEW of a legal mtype.
pub fn sew(mtype: u64) -> i128 {
    match mtype & 7 {
        0 => 8,
        1 => 16,
        2 => 32,
        _ => 64,
    }
}

pub(crate) fn maccq(mtype: u64) -> bool {
    mtype & 8 != 0
}

/// What mtype becomes when `value` is asked for.
pub fn new_mtype(value: u64, elen: u64) -> u64 {
    let elen = elen as i128;
    let illegal = value & 7 >= 4
        || value >> 4 != 0
        || sew(value) > elen
        || (maccq(value) && 4 * sew(value) > elen);
    if illegal {
        MILL
    } else {
        value
    }
}

/// The values of mtype that can arise.
pub(crate) fn mtype_can_arise(mtype: u64, elen: u64) -> bool {
    mtype == MILL || new_mtype(mtype, elen) == mtype
}

/// TMMAX, TKMAX or TNMAX at a SEW.
pub fn maximum(machine: &Machine, size: Size, sew: i128) -> i128 {
    let tmmax = machine.mlen as i128 / machine.rlen as i128;
    let tnmax = machine.rlen as i128 / sew;
    match size {
        Size::M => tmmax,
        Size::K => tmmax.min(tnmax),
        Size::N => tnmax,
    }
}

pub fn tile_size(machine: &Machine, size: Size) -> i128 {
    match size {
        Size::M => machine.tile_m as i128,
        Size::K => machine.tile_k as i128,
        Size::N => machine.tile_n as i128,
    }
}

pub(crate) fn set_tile_size(machine: &mut Machine, size: Size, value: u64) {
    match size {
        Size::M => machine.tile_m = value,
        Size::K => machine.tile_k = value,
        Size::N => machine.tile_n = value,
    }
}

/// The size a setting word asks for. With both rs1 and rd x0 nothing is asked: the
/// size as it stands is cut to the maximum (request Three), whatever the rule.
fn asked_size(instruction: &Instruction, scalars: &[u64], maximum: i128) -> Option<i128> {
    if let Some(immediate) = instruction.operand("mleni") {
        return Some(immediate as i128);
    }
    let (rs1, rd) = (instruction.get("rs1"), instruction.get("rd"));
    if rs1 != 0 {
        Some(scalar(scalars, rs1) as i128)
    } else if rd != 0 {
        Some(maximum)
    } else {
        None
    }
}

/// The rules by which a machine chooses its tile sizes (request Eight): the smaller of
/// the asked size and the maximum, or halving.
pub const SMALLER: u64 = 0;
pub const HALVING: u64 = 1;
pub const RULES: [u64; 2] = [SMALLER, HALVING];

/// The size that a machine gives of an asked size. Halving, it takes half the asked size,
/// rounded up, where that lies strictly between the maximum and twice it.
pub fn granted(rule: u64, asked: i128, maximum: i128) -> i128 {
    if rule == HALVING && maximum < asked && asked < 2 * maximum {
        (asked + 1) / 2
    } else {
        asked.min(maximum)
    }
}

pub(crate) fn set_type(instruction: &Instruction, machine: &mut Machine, scalars: &mut [u64]) {
    let asked = match instruction.operand("mtypei") {
        Some(immediate) => immediate as u64,
        None => scalar(scalars, instruction.get("rs1")),
    };
    machine.mtype = new_mtype(asked, machine.elen);
    set_scalar(scalars, instruction.get("rd"), machine.mtype);
}

pub(crate) fn set_size(
    instruction: &Instruction,
    size: Size,
    machine: &mut Machine,
    scalars: &mut [u64],
) {
    let maximum = maximum(machine, size, sew(machine.mtype));
    let new_size = match asked_size(instruction, scalars, maximum) {
        Some(asked) => granted(machine.rule, asked, maximum),
        None => tile_size(machine, size).min(maximum),
    };
    set_tile_size(machine, size, new_size as u64);
    set_scalar(scalars, instruction.get("rd"), new_size as u64);
}
