//! What the aims of docs/PERFORMANCE.md name, beside them.

use super::nanoseconds;
use super::peers;
use super::runs::{anchor_product, library_product, plain_product, plan_bench, turn_times};
use super::steps::{full_bench, step_time, LARGE, LARGER, SMALL};
use crate::lent::{library_image_write, library_run_start};
use crate::library;
use crate::runs::plans::packed_plan;
use model::{assemble, Lengths};

/// One size for m, k and n, where an aim names none.
const SIZE: u64 = 256;

pub fn table() {
    println!();
    println!("aims: at most, found, and found divided by it (1 or less: reached)");
    println!("{:72}{:>12}{:>12}{:>8}", "", "at most", "found", "ratio");
    let aim = |name: &str, most: f64, found: f64| {
        println!("{name:72}{most:>12}{found:>12.3}{:>8.2}", found / most);
    };
    aim("ns a MAC, 8 to 32 bits, MLEN 4096 RLEN 512", 0.15, per_mac(LARGE, (8, 4), SIZE));
    aim(
        "ns a turn, 64 in each size, 8 to 32 bits, MLEN 128 RLEN 64",
        20.0,
        turn_times(SMALL, (8, 4), [64; 3]).1,
    );
    aim("ns a setting word, MLEN 128 RLEN 64", 22.0, setting(SMALL));
    aim("ns a setting word, MLEN 4096 RLEN 512", 110.0, setting(LARGE));
    aim("times gcc's anchor, 8 to 32 bits, MLEN 65536 RLEN 512", 1.2, to_anchor(LARGER[0], (8, 4)));
    aim(
        "times gcc's anchor, 64 to 64 bits, MLEN 65536 RLEN 512",
        2.0,
        to_anchor(LARGER[0], (64, 1)),
    );
    if let Some(time) = peers::under_qemu((8, 4)) {
        let ours = per_mac(SMALL, (8, 4), peers::SIZE);
        aim(
            "times the anchor under qemu-riscv64, 8 to 32 bits, MLEN 128 RLEN 64",
            1.0,
            ours / time,
        );
    }
    aim("ms of a run's start, 1,024 in each size, MLEN 4096 RLEN 512", 5.0, start() / 1e6);
    aim("ns a run of an image written, every second byte marked, MLEN 4096", 8.0, image_run());
}

/// Nanoseconds a multiply-accumulate of a product by run_turns.
fn per_mac(machine: Lengths, widths: (u64, u64), size: u64) -> f64 {
    let (plan, memory) = packed_plan(widths, [size; 3]);
    library_product(machine, &plan, memory).0 / (size * size * size) as f64
}

/// A product's time as a multiple of the anchor's.
fn to_anchor(machine: Lengths, widths: (u64, u64)) -> f64 {
    let (plan, memory) = packed_plan(widths, [SIZE; 3]);
    let bench = plan_bench(machine, &plan, memory);
    library_product(machine, &plan, memory).0 / plain_product(anchor_product, &plan, &bench).0
}

/// Nanoseconds of the longest of the setting words.
fn setting(machine: Lengths) -> f64 {
    let words = ["msettypei", "msettype", "msettilemi", "msettileki", "msettileni"];
    let operands = [("rs1", 1), ("rd", 3), ("mleni", 8), ("mtypei", 8)];
    words
        .map(|name| step_time(machine, 8, assemble(name, &operands)).0)
        .into_iter()
        .fold(0.0, f64::max)
}

/// Nanoseconds of a run's start.
fn start() -> f64 {
    let (plan, memory) = packed_plan((8, 4), [1024; 3]);
    let mut lent = full_bench(LARGE, 0, memory);
    let mut run = vec![0; library::RUN_BYTES];
    nanoseconds(|| {
        library_run_start(&plan, &mut lent, &mut run);
    })
}

/// Nanoseconds of an image with every second byte marked, divided by its runs.
fn image_run() -> f64 {
    let mut lent = full_bench(LARGE, 0, 0);
    lent.marks.iter_mut().enumerate().for_each(|(at, mark)| *mark = (at % 2) as u8);
    let runs = lent.marks.len() / 2;
    let mut image = vec![0; 3 * lent.marks.len()];
    let time = nanoseconds(|| {
        library_image_write(&mut lent, &mut image);
    });
    time / runs as f64
}
