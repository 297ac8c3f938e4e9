//! Times of product runs.

use super::nanoseconds;
use super::steps::{full_bench, machine_name, near_one, LARGE, LARGER, LARGE_TO_64, SMALL};
use crate::lent::{library_run_start, library_run_turn, library_run_turns, second_run_start, Lent};
use crate::library;
use crate::random::Random;
use crate::runs::plans::{packed_plan, packed_plan_of};
use crate::states::machines::{WIDTHS, WIDTHS_TO_64};
use model::{Lengths, Matrix, Plan, A_TRANSPOSED, FLOAT, PRODUCT};
use std::hint::black_box;
use std::time::Instant;

/// A plain C product of c/baseline.c: widths of the elements and of the sums in
/// bits, m, k, n, and the three matrices.
pub type PlainProduct =
    unsafe extern "C" fn(i32, i32, usize, usize, usize, *const u8, *const u8, *mut u8);

/// One of floats: m, k, n, and the three matrices.
pub type PlainFloats = unsafe extern "C" fn(usize, usize, usize, *const f32, *const f32, *mut f32);

extern "C" {
    pub fn anchor_product(
        width: i32,
        output: i32,
        m: usize,
        k: usize,
        n: usize,
        a: *const u8,
        b: *const u8,
        c: *mut u8,
    );
    fn slow_product(
        width: i32,
        output: i32,
        m: usize,
        k: usize,
        n: usize,
        a: *const u8,
        b: *const u8,
        c: *mut u8,
    );
    pub fn anchor_float_product(
        m: usize,
        k: usize,
        n: usize,
        a: *const f32,
        b: *const f32,
        c: *mut f32,
    );
}

/// A product is left out if it is foreseen to take longer, in nanoseconds.
const LONGEST: f64 = 10e9;

/// The size of the product that the second program is measured on.
const SECOND_SIZE: u64 = 64;

pub fn table() {
    println!();
    println!("Products: the best of as many as take a quarter of a second, of 3 at the least; C");
    println!("is cleared to 0 before each, outside the timed part; A and B are filled once; the");
    println!("start is timed on its own. Growth is the time divided by that of the line above.");
    println!("Two products in plain C (gcc -O3) are timed on the same matrices: the anchor, as a");
    println!("careful programmer writes it (k in the middle loop, along rows of B and C), and the");
    println!("slow loops, in the order i, j, k. The ratio that counts is the one to the anchor.");
    println!(
        "The second program is slow: it is timed on a product of {SECOND_SIZE} in each size on"
    );
    println!("the same machine, and its ratio is that of nanoseconds a multiply-accumulate (MAC).");
    start_checks();
    turns_on_the_smallest_machine();
    products(LARGE, (8, 4), &[128, 256, 512, 1024]);
    products(SMALL, (8, 4), &[32, 64, 128, 256]);
    widths(LARGE, &WIDTHS);
    widths(LARGE_TO_64, &WIDTHS_TO_64);
    for machine in LARGER {
        products(machine, (8, 4), &[128, 256, 512]);
        products(machine, (64, 1), &[128, 256, 512]);
    }
    transposed_runs();
    float_runs();
}

/// What a gross loss of speed is: a product by run_turns takes more than this many times the anchor's time, twice of what
/// docs/PERFORMANCE.md has.
const GROSS: [(&str, Lengths, u64, f64); 2] = [
    ("turns on the smallest machine", SMALL, 64, 40.0),
    ("a product on the largest machine of document 01", LARGE, 256, 2.3),
];

/// Whether there is no gross loss; each ratio is the least of up to five.
pub fn fast_enough() -> bool {
    GROSS.iter().all(|&(name, machine, size, most)| {
        let (plan, memory) = packed_plan((8, 4), [size; 3]);
        let bench = plan_bench(machine, &plan, memory);
        let mut least = f64::INFINITY;
        for _ in 0..5 {
            let (anchor, _) = plain_product(anchor_product, &plan, &bench);
            least = least.min(library_product(machine, &plan, memory).0 / anchor);
            if least <= most {
                break;
            }
        }
        println!("{name}, 8 to 32 bits: {least:.2} times the anchor's time, at most {most}");
        least <= most
    })
}

fn start_checks() {
    println!();
    println!("nanoseconds of a run's start (its check) on {}, 8 to 32 bits", machine_name(LARGE));
    let widths = (8, 4);
    let (packed, memory) = packed_plan(widths, [1024; 3]);
    let (narrow, _) = packed_plan(widths, [1024, 1, 1]);
    let woven = Plan { a_stride: 8192, c: 1024, c_stride: 8192, b: 8 << 20, ..packed };
    let downward = |plan: Plan| {
        let c = plan.c + 1023 * plan.c_stride as u64;
        Plan { c, c_stride: -plan.c_stride, ..plan }
    };
    for (name, plan) in [
        ("1,024 in each size, packed", packed),
        ("the same, C downward", downward(packed)),
        ("C's rows in A's gaps", woven),
        ("the same, C downward", downward(woven)),
        ("1,024 rows of 1", narrow),
    ] {
        let mut lent = full_bench(LARGE, 0, memory.max(10 << 20));
        let mut run = vec![0; library::RUN_BYTES];
        let mut answer = 0;
        let time = nanoseconds(|| answer = library_run_start(&plan, &mut lent, &mut run));
        println!("{name:28}{time:>20.0}   answer {answer}");
    }
}

/// Times of turns where the words have least to do, and of a usual product.
fn turns_on_the_smallest_machine() {
    println!();
    println!("nanoseconds a turn on {}: all turns by one run_turns, divided", machine_name(SMALL));
    println!("by their number, and each by a run_turn of its own");
    println!(
        "{:12}{:>12}{:>12}{:>10}{:>12}{:>12}",
        "m, k, n", "bits", "tiles", "turns", "run_turns", "run_turn"
    );
    for (widths, sizes, name, tiles) in [
        ((8, 1), [1024, 1, 1], "1,024, 1, 1", "2, 1, 1"),
        ((8, 1), [1, 1024, 1], "1, 1,024, 1", "1, 2, 1"),
        ((8, 1), [256, 256, 1], "256, 256, 1", "2, 2, 1"),
        ((8, 1), [64, 64, 64], "64, 64, 64", "2, 2, 8"),
        ((8, 4), [64, 64, 64], "64, 64, 64", "2, 2, 8"),
    ] {
        let bits = width_name(widths);
        let (turns, together, singly) = turn_times(SMALL, widths, sizes);
        println!("{name:12}{bits:>12}{tiles:>12}{turns:>10}{together:>12.1}{singly:>12.1}");
    }
}

/// The turns of a plan, and nanoseconds of one: by one run_turns for all, and by a run_turn for each.
pub fn turn_times(machine: Lengths, widths: (u64, u64), sizes: [u64; 3]) -> (u64, f64, f64) {
    let (plan, memory) = packed_plan(widths, sizes);
    let mut lent = plan_bench(machine, &plan, memory);
    let started = started_run(&plan, &mut lent);
    let mut turns = 0;
    let together = nanoseconds(|| {
        let mut run = started.clone();
        turns = library_run_turns(u64::MAX, &mut run, &mut lent);
    });
    let singly = nanoseconds(|| {
        let mut run = started.clone();
        while library_run_turn(&mut run, &mut lent) == 0 {}
    });
    (turns, together / turns as f64, singly / turns as f64)
}

pub fn width_name((sew, factor): (u64, u64)) -> String {
    format!("{sew} to {}", sew * factor)
}

/// A bench for a plan: A and B filled, with the same on each machine, C cleared.
pub fn plan_bench(machine: Lengths, plan: &Plan, memory: usize) -> Lent {
    let mut lent = full_bench(machine, 0, 0);
    lent.memory = match plan.kind {
        FLOAT => near_one(memory),
        _ => Random::for_case(1, "bench matrices", 0).bytes(memory),
    };
    lent.memory[plan.c as usize..].fill(0);
    lent
}

/// The block of a run that was started.
fn started_run(plan: &Plan, lent: &mut Lent) -> Vec<u8> {
    let mut run = vec![0; library::RUN_BYTES];
    library_run_start(plan, lent, &mut run);
    run
}

/// Nanoseconds of a call: the best of as many as take a quarter of a second, of 3 at the least.
/// What `prepare` does is not timed.
fn best<T: ?Sized>(state: &mut T, prepare: impl Fn(&mut T), call: impl Fn(&mut T)) -> f64 {
    let mut best = f64::INFINITY;
    let (mut count, mut spent) = (0, 0.0);
    while count < 3 || spent < 0.25e9 {
        prepare(state);
        let started = Instant::now();
        call(state);
        let time = started.elapsed().as_nanos() as f64;
        best = best.min(time);
        spent += time;
        count += 1;
    }
    best
}

/// Nanoseconds of all turns of a plan, and what they leave.
pub fn library_product(machine: Lengths, plan: &Plan, memory: usize) -> (f64, Lent) {
    let mut lent = plan_bench(machine, plan, memory);
    let started = started_run(plan, &mut lent);
    let mut state = (lent, started.clone());
    let time = best(
        &mut state,
        |(lent, run)| {
            lent.memory[plan.c as usize..].fill(0);
            run.copy_from_slice(&started);
        },
        |(lent, run)| {
            black_box(library_run_turns(u64::MAX, run, lent));
        },
    );
    (time, state.0)
}

/// Nanoseconds of a plain C product on the same matrices, and the memory it leaves.
pub fn plain_product(product: PlainProduct, plan: &Plan, lent: &Lent) -> (f64, Vec<u8>) {
    let memory = lent.memory.len();
    // Elements of more than a byte stand at multiples of their width.
    let mut aligned = vec![0u64; memory.div_ceil(8)];
    let bytes: &mut [u8] =
        unsafe { std::slice::from_raw_parts_mut(aligned.as_mut_ptr().cast(), memory) };
    bytes.copy_from_slice(&lent.memory);
    let time = best(
        bytes,
        |bytes| bytes[plan.c as usize..].fill(0),
        |bytes| call_plain(product, plan, bytes),
    );
    (time, bytes.to_vec())
}

/// A plain C product; `memory` starts at a multiple of 8.
fn call_plain(product: PlainProduct, plan: &Plan, memory: &mut [u8]) {
    let [m, k, n] = [plan.m, plan.k, plan.n].map(|size| size as usize);
    let (width, output) = (plan.sew as i32, (plan.sew * plan.factor) as i32);
    let start = memory.as_mut_ptr();
    // The three ranges lie in memory and do not overlap.
    unsafe {
        let a = start.add(plan.a as usize);
        let b = start.add(plan.b as usize);
        let c = start.add(plan.c as usize);
        product(width, output, m, k, n, a, b, c);
    }
}

/// Nanoseconds a multiply-accumulate of the second program, start left out.
fn second_rate(machine: Lengths, widths: (u64, u64)) -> f64 {
    second_rate_of(machine, PRODUCT, widths)
}

/// The same of a kind of run.
fn second_rate_of(machine: Lengths, kind: u64, widths: (u64, u64)) -> f64 {
    let (plan, memory) = packed_plan_of(kind, widths, [SECOND_SIZE; 3]);
    let lent = plan_bench(machine, &plan, memory);
    let run = second_run_start(&plan, &lent).expect("a packed plan is accepted");
    let bench = lent.bench().expect("a whole machine block");
    let time = best(
        &mut (run, bench),
        |(run, _)| run.place = 0,
        |(run, bench)| {
            black_box(model::run_turns(u64::MAX, run, bench));
        },
    );
    time / (SECOND_SIZE * SECOND_SIZE * SECOND_SIZE) as f64
}

fn product_heading(what: &str) {
    println!();
    println!("products by run_turns {what}");
    println!("(second: the second program, timed on {SECOND_SIZE} in each size)");
    println!("{:32}{:>40}{:>30}", "", "nanoseconds a MAC", "library's ratio to");
    print!("{:14}{:>10}{:>8}", "", "ms", "growth");
    print!("{:>10}{:>10}{:>10}{:>10}", "library", "anchor", "slow", "second");
    println!("{:>10}{:>10}{:>10}{:>8}", "anchor", "slow", "second", "same C");
}

/// One line: a product, its growth since a smaller one, and what it is held to.
fn product_line(
    name: &str,
    machine: Lengths,
    widths: (u64, u64),
    size: u64,
    before: Option<f64>,
    second: f64,
) -> f64 {
    let (plan, memory) = packed_plan(widths, [size; 3]);
    let (time, ours) = library_product(machine, &plan, memory);
    let bench = plan_bench(machine, &plan, memory);
    let (anchor, by_anchor) = plain_product(anchor_product, &plan, &bench);
    let (slow, by_slow) = plain_product(slow_product, &plan, &bench);
    let count = (size * size * size) as f64;
    let growth = before.map_or("".to_string(), |before| format!("{:.2}", time / before));
    let placed = plan.placed(Matrix::C);
    let ours = model::elements(placed, &ours.memory);
    let same = [by_anchor, by_slow].iter().all(|memory| model::elements(placed, memory) == ours);
    print!("{name:14}{:>10.3}{growth:>8}", time / 1e6);
    print!("{:>10.3}{:>10.3}{:>10.3}", time / count, anchor / count, slow / count);
    print!("{second:>10.1}{:>10.2}{:>10.2}", time / anchor, time / slow);
    println!("{:>10.4}{:>8}", time / count / second, if same { "yes" } else { "NO" });
    time
}

fn products(machine: Lengths, widths: (u64, u64), sizes: &[u64]) {
    let second = second_rate(machine, widths);
    let (name, bits) = (machine_name(machine), width_name(widths));
    product_heading(&format!("on {name}, {bits} bits, one size for m, k, n"));
    let mut before = None;
    for &size in sizes {
        if before.is_some_and(|time| 8.0 * time > LONGEST) {
            println!("{size:<14}left out: foreseen to take over {:.0} s", LONGEST / 1e9);
            return;
        }
        before = Some(product_line(&size.to_string(), machine, widths, size, before, second));
    }
}

fn widths(machine: Lengths, all: &[(u64, u64)]) {
    product_heading(&format!("of 256 in each size on {}", machine_name(machine)));
    for &widths in all {
        let name = format!("{} bits", width_name(widths));
        product_line(&name, machine, widths, 256, None, second_rate(machine, widths));
    }
}

/// Runs with A kept transposed beside plain ones, on the same sizes.
fn transposed_runs() {
    println!();
    println!("runs of 256 in each size on {}, by run_turns: A plain and", machine_name(LARGE));
    println!("kept transposed, each product held to the second program's");
    println!("{:14}{:>12}{:>16}{:>10}{:>8}", "", "plain ms", "transposed ms", "ratio", "same C");
    for widths in WIDTHS {
        let timed = [PRODUCT, A_TRANSPOSED].map(|kind| {
            let (plan, memory) = packed_plan_of(kind, widths, [256; 3]);
            let before = plan_bench(LARGE, &plan, memory);
            let (time, after) = library_product(LARGE, &plan, memory);
            let found = model::elements(plan.placed(Matrix::C), &after.memory);
            (time / 1e6, found == model::product(&plan, &before.memory))
        });
        let [(plain, right), (transposed, also_right)] = timed;
        let name = format!("{} bits", width_name(widths));
        print!("{name:14}{plain:>12.3}{transposed:>16.3}{:>10.2}", transposed / plain);
        println!("{:>8}", if right && also_right { "yes" } else { "NO" });
    }
}

/// Float runs beside integer ones of 32 bits and beside the anchor's loops on floats.
fn float_runs() {
    println!();
    println!(
        "float runs on {}, by run_turns, one size for m, k, n: nanoseconds",
        machine_name(LARGE)
    );
    println!(
        "a MAC, beside the integer run at 32 bits, the anchor's loops on floats in plain C and"
    );
    println!("the second program (timed on {SECOND_SIZE} in each size)");
    print!("{:14}{:>12}{:>12}{:>12}{:>12}", "", "library", "integer", "anchor", "second");
    println!("{:>18}{:>8}", "ratio to anchor", "same C");
    let second = second_rate_of(LARGE, FLOAT, (32, 1));
    for size in [64, 128, 256] {
        let count = (size * size * size) as f64;
        let (plan, memory) = packed_plan_of(FLOAT, (32, 1), [size; 3]);
        let (time, after) = library_product(LARGE, &plan, memory);
        let (integer, _) = library_product(LARGE, &Plan { kind: PRODUCT, ..plan }, memory);
        let (anchor, by_anchor) =
            plain_floats(anchor_float_product, &plan, &plan_bench(LARGE, &plan, memory));
        let [ours, plain] = [&after.memory, &by_anchor]
            .map(|memory| model::elements(plan.placed(Matrix::C), memory));
        let [time, integer, anchor] = [time, integer, anchor].map(|time| time / count);
        print!("{size:<14}{time:>12.3}{integer:>12.3}{anchor:>12.3}{second:>12.1}");
        println!("{:>18.2}{:>8}", time / anchor, if ours == plain { "yes" } else { "NO" });
    }
}

/// Nanoseconds of a plain C product of floats on the same matrices, and the memory it leaves.
pub fn plain_floats(product: PlainFloats, plan: &Plan, lent: &Lent) -> (f64, Vec<u8>) {
    let [m, k, n] = [plan.m, plan.k, plan.n].map(|size| size as usize);
    let mut numbers: Vec<f32> = lent
        .memory
        .chunks_exact(4)
        .map(|bytes| f32::from_bits(u32::from_le_bytes(bytes.try_into().unwrap())))
        .collect();
    let time = best(
        &mut numbers[..],
        |numbers| numbers[plan.c as usize / 4..].fill(0.0),
        // The three ranges lie in memory and do not overlap.
        |numbers| unsafe {
            let start = numbers.as_mut_ptr();
            let [a, b, c] = [plan.a, plan.b, plan.c].map(|address| start.add(address as usize / 4));
            product(m, k, n, a, b, c)
        },
    );
    (time, numbers.iter().flat_map(|number| number.to_bits().to_le_bytes()).collect())
}
