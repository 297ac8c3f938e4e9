//! Products of each format by the library on three machines and by those to which it is held,
//! beside gcc's.

use super::picture::{Figures, HEADING};
use super::runs::{
    anchor_float_product, anchor_product, library_product, plain_floats, plain_product, plan_bench,
    width_name, PlainFloats, PlainProduct,
};
use super::steps::{LARGE, LARGER, SMALL};
use crate::lent::Lent;
use crate::runs::plans::packed_plan_of;
use crate::states::machines::WIDTHS;
use model::{Lengths, Matrix, Plan, FLOAT, PRODUCT};
use std::process::Command;

#[cfg(clang)]
extern "C" {
    fn clang_anchor_product(
        width: i32,
        output: i32,
        m: usize,
        k: usize,
        n: usize,
        a: *const u8,
        b: *const u8,
        c: *mut u8,
    );
    fn clang_anchor_float_product(
        m: usize,
        k: usize,
        n: usize,
        a: *const f32,
        b: *const f32,
        c: *mut f32,
    );
}

/// The anchor as a compiler makes it.
type Compiled = (PlainProduct, PlainFloats);

const BY_GCC: Compiled = (anchor_product, anchor_float_product);
#[cfg(clang)]
const BY_CLANG: Option<Compiled> = Some((clang_anchor_product, clang_anchor_float_product));
#[cfg(not(clang))]
const BY_CLANG: Option<Compiled> = None;

/// One size for m, k and n.
pub const SIZE: u64 = 128;

/// A kind of run, and its widths.
type Format = (u64, (u64, u64));

fn formats() -> Vec<Format> {
    let integers = WIDTHS.into_iter().chain([(64, 1)]).map(|widths| (PRODUCT, widths));
    integers.chain([(FLOAT, (32, 1))]).collect()
}

fn format_name((kind, widths): Format) -> String {
    match kind {
        FLOAT => "float".to_string(),
        _ => format!("{} bits", width_name(widths)),
    }
}

/// The three machines of a format. Elements of 64 bits are on machines of ELEN 64, of which the
/// smallest has MLEN 256 and RLEN 128.
fn machines((_, (sew, _)): Format) -> [Lengths; 3] {
    match sew {
        64 => [(LARGE.0, LARGE.1, 64), LARGER[0], (128, 256, 64)],
        _ => [LARGE, LARGER[0], SMALL],
    }
}

/// Nanoseconds of the anchor, and the memory it leaves.
fn anchor((integers, floats): Compiled, plan: &Plan, lent: &Lent) -> (f64, Vec<u8>) {
    match plan.kind {
        FLOAT => plain_floats(floats, plan, lent),
        _ => plain_product(integers, plan, lent),
    }
}

/// Nanoseconds of each format's anchor in a program that is run by a command; none where one of the
/// two is not there.
fn emulated(command: &[&str], program: &str, formats: &[Format]) -> Vec<Option<f64>> {
    let numbers = formats.iter().map(|&(kind, (sew, factor))| match kind {
        FLOAT => 0,
        _ => 100 * sew + sew * factor,
    });
    let output = Command::new(command[0])
        .args(&command[1..])
        .arg(program)
        .arg(SIZE.to_string())
        .args(numbers.map(|number| number.to_string()))
        .output();
    let said = match output {
        Ok(output) if !program.is_empty() && output.status.success() => output.stdout,
        _ => Vec::new(),
    };
    let said = String::from_utf8_lossy(&said);
    let mut times = said.lines().map(|line| line.parse().ok());
    formats.iter().map(|_| times.next().flatten()).collect()
}

/// Nanoseconds a multiply-accumulate of the anchor under qemu-riscv64.
pub fn under_qemu(widths: (u64, u64)) -> Option<f64> {
    let times = emulated(&["qemu-riscv64"], env!("RISCV_PRODUCTS"), &[(PRODUCT, widths)]);
    times[0].map(|time| time / (SIZE * SIZE * SIZE) as f64)
}

pub fn table() {
    println!();
    println!("{HEADING}");
    println!(
        "of {SIZE} in each size, and what others take as a multiple of it: the same C by clang and"
    );
    println!(
        "under emulators (valgrind's two tools: none, memcheck), and the library by run_turns on"
    );
    println!("MLEN 4096 and MLEN 65536 of RLEN 512 and on MLEN 128 of RLEN 64 (64 bits: MLEN 256, RLEN 128)");
    println!("{}", Figures::columns());
    let formats = formats();
    let under = [
        emulated(&["qemu-riscv64"], env!("RISCV_PRODUCTS"), &formats),
        emulated(&["valgrind", "-q", "--tool=none"], env!("NATIVE_PRODUCTS"), &formats),
        emulated(&["valgrind", "-q", "--tool=memcheck"], env!("NATIVE_PRODUCTS"), &formats),
    ];
    for (place, format) in formats.into_iter().enumerate() {
        let (kind, widths) = format;
        let (plan, memory) = packed_plan_of(kind, widths, [SIZE; 3]);
        let elements = |memory: &[u8]| model::elements(plan.placed(Matrix::C), memory);
        let bench = plan_bench(machines(format)[0], &plan, memory);
        let (gcc, by_gcc) = anchor(BY_GCC, &plan, &bench);
        let right = elements(&by_gcc);
        let mut same = true;
        let clang = BY_CLANG.map(|compiled| {
            let (time, by_clang) = anchor(compiled, &plan, &bench);
            same &= elements(&by_clang) == right;
            time / gcc
        });
        let [large, larger, small] = machines(format).map(|machine| {
            let (time, left) = library_product(machine, &plan, memory);
            same &= elements(&left.memory) == right;
            Some(time / gcc)
        });
        let [riscv, none, memcheck] =
            [0, 1, 2].map(|i: usize| under[i][place].map(|time| time / gcc));
        let times = [clang, riscv, none, memcheck, large, larger, small];
        let per_mac = gcc / (SIZE * SIZE * SIZE) as f64;
        println!("{}", Figures { name: format_name(format), gcc: per_mac, times, same }.line());
    }
}
