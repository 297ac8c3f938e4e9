//! Times through the C interface, all from one run. Nothing here can fail.

pub mod aims;
pub mod lines;
pub mod peers;
pub mod picture;
pub mod runs;
pub mod steps;

use self::steps::{step_time, SMALL};
use model::assemble;
use std::hint::black_box;
use std::time::Instant;

/// All tables.
pub fn tables() {
    println!("All times are of this one run, through the C interface, on one core, warm caches.");
    println!("Single steps: the best of 5 batches of at least 4 ms, after a second in which the");
    println!("core is kept busy; buffers are not cleared between repetitions. A ratio to the");
    println!("second program is the library's time divided by its time.");
    warm_up();
    steps::table();
    lines::table();
    runs::table();
    peers::table();
    aims::table();
}

/// Keeps the core busy until its clock has risen.
fn warm_up() {
    let started = Instant::now();
    while started.elapsed().as_secs() < 1 {
        black_box(step_time(SMALL, 0, assemble("msettypei", &[])));
    }
}

/// Nanoseconds of a call: the best of 5 batches of at least 4 ms, or of fewer
/// if they take more than a second.
pub fn nanoseconds(mut call: impl FnMut()) -> f64 {
    let mut batch = |repeats: u64| {
        let started = Instant::now();
        for _ in 0..repeats {
            call();
        }
        started.elapsed().as_nanos() as f64
    };
    let mut repeats = 1;
    let mut time = batch(repeats);
    while time < 4e6 {
        repeats *= 2;
        time = batch(repeats);
    }
    let mut best = time;
    let mut spent = time;
    for _ in 0..4 {
        if spent > 1e9 {
            break;
        }
        time = batch(repeats);
        best = best.min(time);
        spent += time;
    }
    best / repeats as f64
}
