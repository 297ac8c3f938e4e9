//! Times of single steps and of calls on images.

use super::nanoseconds;
use crate::lent::{
    library_image_read, library_image_size, library_image_write, library_step, started, Lent,
};
use crate::moves::reckoned::rows_of_moves;
use crate::random::Random;
use crate::states::float_numbers::near;
use crate::states::machines::{set_size, SIZES, WIDTHS};
use crate::tally::{families, family_name};
use model::{assemble, maximum, sew, Kind, Lengths, Seal, Seals, LISTING, SMALLER};
use std::hint::black_box;

pub const SMALL: Lengths = (64, 128, 32);
pub const LARGE: Lengths = (512, 4096, 32);
/// The same with 64-bit elements.
pub const LARGE_TO_64: Lengths = (512, 4096, 64);
/// The smallest machine with eight rows and eight columns, at SEW 8.
const EIGHT_LINES: Lengths = (64, 512, 32);
/// The largest MLEN, with many rows and with wide ones (request Ten).
pub const LARGER: [Lengths; 2] = [(512, 65_536, 64), (4096, 65_536, 64)];

pub fn table() {
    steps_by_family();
    transposed_moves();
    moves_of_groups();
    stores_beside_ranges();
    multiply_accumulates();
    against_the_second_program();
    images();
}

pub fn machine_name((rlen, mlen, elen): Lengths) -> String {
    match elen {
        64 => format!("MLEN {mlen} RLEN {rlen} ELEN 64"),
        _ => format!("MLEN {mlen} RLEN {rlen}"),
    }
}

/// A machine with everything marked and every size at its maximum.
pub fn full_bench(lengths: Lengths, mtype: u64, memory: usize) -> Lent {
    let mut random = Random::for_case(1, "bench", 0);
    let registers = random.bytes(model::register_bytes(lengths.1));
    let mut lent = started(lengths, SMALLER, registers, random.bytes(memory));
    lent.marks.fill(1);
    let mut machine = lent.machine();
    machine.mtype = mtype;
    for size in SIZES {
        let limit = maximum(&machine, size, sew(mtype));
        set_size(&mut machine, size, limit);
    }
    lent.set_machine(&machine);
    lent
}

/// Nanoseconds of a step, and the answer it gives.
pub fn step_time(machine: Lengths, mtype: u64, word: u32) -> (f64, u64) {
    let mut lent = full_bench(machine, mtype, 32768);
    // x1 is an address, a size and an mtype, x2 a stride and a multiplier
    // (whose low 8 bits are not 0).
    lent.set_scalar(1, 8);
    lent.set_scalar(2, machine.0 / 2 + 8);
    let mut given = 0;
    let time = nanoseconds(|| given = black_box(library_step(black_box(word), &mut lent)));
    (time, given & 0xFFFF)
}

fn steps_by_family() {
    println!();
    println!("nanoseconds a step at SEW 8, sizes at their maxima");
    let [small, large] = [SMALL, LARGE].map(machine_name);
    println!("{:28}{small:>20}{large:>20}{:>10}{:>10}", "", "ratio", "answers");
    let operands = [("rs1", 1), ("rs2", 2), ("rd", 3), ("imm", 3), ("mleni", 8), ("mtypei", 8)];
    let is_move = |name: &&str| rows_of_moves().iter().any(|row| row.name == *name);
    let mut words: Vec<(String, u32)> = families()
        .into_iter()
        .filter(|name| !is_move(name))
        .map(|name| (family_name(name).to_string(), assemble(name, &operands)))
        .collect();
    words.push(("mlce32".to_string(), assemble("mlce32.m", &operands)));
    words.push(("msce32".to_string(), assemble("msce32.m", &operands)));
    words.push(("mqemulc.mi by 0 (a clear)".to_string(), assemble("mqemulc.mi", &[])));
    words.push(("a wrong opcode".to_string(), 0));
    words.push(("a word that is left out".to_string(), assemble("mfwma.mm", &operands)));
    words.push(("a code of no row".to_string(), assemble("mlae8.m", &operands) | 1 << 31));
    words.push(("a register out of range".to_string(), assemble("mlae8.m", &[("md", 8)])));
    words.push(("a load of a wrong width".to_string(), assemble("mlae64.m", &operands)));
    for (name, word) in words {
        let [(small, first), (large, second)] =
            [SMALL, LARGE].map(|machine| step_time(machine, 8, word));
        let answers = format!("{first}, {second}");
        println!("{name:28}{small:>20.1}{large:>20.1}{:>10.2}{answers:>10}", large / small);
    }
}

/// Transposed loads and stores of whole tiles beside the plain ones.
fn transposed_moves() {
    println!();
    println!("nanoseconds of a load or store, sizes at their maxima: plain, transposed, ratio");
    let [small, large] = [SMALL, LARGE].map(machine_name);
    println!("{:28}{small:>30}{large:>30}{:>12}", "", "answers");
    for (width, mtype) in [(8, 0), (16, 1), (32, 2)] {
        for moved in ["la", "lb", "lc", "sa", "sb", "sc"] {
            let words = ["", "t"].map(|form| {
                let name = format!("m{moved}{form}e{width}.m");
                assemble(&name, &[("rs1", 1), ("rs2", 2)])
            });
            let mut answers = Vec::new();
            print!("{:28}", format!("m{moved}e{width}.m, m{moved}te{width}.m"));
            for machine in [SMALL, LARGE] {
                let [plain, transposed] = words.map(|word| {
                    let (time, answer) = step_time(machine, mtype, word);
                    answers.push(answer);
                    time
                });
                print!("{plain:>10.1}{transposed:>10.1}{:>10.2}", transposed / plain);
            }
            println!("{:>12}", answers.iter().map(u64::to_string).collect::<Vec<_>>().join(","));
        }
    }
}

/// Eight lines to and from eight vector registers; a row has as many elements as one holds.
fn moves_of_groups() {
    println!();
    println!("nanoseconds of a move of 8 rows or columns at SEW 8, of tiles 8 by 8 and 8 by 16");
    let [small, large] = [EIGHT_LINES, LARGE].map(machine_name);
    println!("{:28}{small:>20}{large:>20}{:>10}{:>10}", "", "ratio", "answers");
    for row in rows_of_moves() {
        let word = assemble(row.name, &[("vd", 8), ("vs1", 8)]);
        let [(small, first), (large, second)] = [EIGHT_LINES, LARGE].map(|machine| {
            let mut lent = full_bench(machine, 0, 0);
            let machine = lent.machine();
            lent.set_machine(&model::Machine { tile_n: machine.tile_n.min(16), ..machine });
            lent.group = 8;
            let mut given = 0;
            let time = nanoseconds(|| given = black_box(library_step(black_box(word), &mut lent)));
            (time, given & 0xFFFF)
        });
        let answers = format!("{first}, {second}");
        println!("{:28}{small:>20.1}{large:>20.1}{:>10.2}{answers:>10}", row.name, large / small);
    }
}

/// Stores of C on machines with one and with eight ranges, behind the rows or between the
/// first two of them.
fn stores_beside_ranges() {
    println!();
    println!("nanoseconds of a store of C at SEW 8 by the number of sealed ranges: 1, 8, ratio");
    let [small, large] = [SMALL, LARGE].map(machine_name);
    println!("{:28}{small:>30}{large:>30}{:>12}", "", "answers");
    for width in [8, 32] {
        for between in [false, true] {
            let name = format!("msce{width}.m");
            let word = assemble(&name, &[("rs1", 1), ("rs2", 2)]);
            let mut answers = Vec::new();
            print!("{:28}", format!("{name}, {}", if between { "between rows" } else { "behind" }));
            for machine in [SMALL, LARGE] {
                let [one, eight] = [1, 8].map(|number| {
                    let mut lent = full_bench(machine, 8, 32768);
                    lent.set_scalar(1, 8);
                    lent.set_scalar(2, machine.0 / 2 + 8);
                    let row_bytes = machine.0 / 8 * width / 8;
                    let range = |at| match between {
                        true => (8 + row_bytes + at, 1),
                        false => (20_000 + 100 * at, 50),
                    };
                    let list: Vec<Seal> = (0..number).map(range).collect();
                    let seals = Seals::of(&list);
                    lent.set_machine(&model::Machine { seals, ..lent.machine() });
                    let mut given = 0;
                    let time =
                        nanoseconds(|| given = black_box(library_step(black_box(word), &mut lent)));
                    answers.push(given & 0xFFFF);
                    time
                });
                print!("{one:>10.1}{eight:>10.1}{:>10.2}", eight / one);
            }
            println!("{:>12}", answers.iter().map(u64::to_string).collect::<Vec<_>>().join(","));
        }
    }
}

fn multiply_accumulates() {
    println!();
    println!("multiply-accumulates on {}, sizes at their maxima", machine_name(LARGE));
    println!(
        "{:28}{:>12}{:>12}{:>12}{:>14}{:>10}",
        "", "ns a step", "MACs", "ns a MAC", "MACs a second", "answer"
    );
    for (width, factor) in WIDTHS {
        let name = ["mma.mm", "mwma.mm", "mqma.mm"][factor as usize / 2];
        let mtype = match (width, factor) {
            (8, 4) => 8,
            (8, _) => 0,
            (16, _) => 1,
            _ => 2,
        };
        multiply_line(name, width, full_bench(LARGE, mtype, 0));
    }
    let mut lent = full_bench(LARGE, 2, 0);
    lent.registers = near_one(lent.registers.len());
    multiply_line("mfma.mm", 32, lent);
}

/// Float numbers near 1, as bytes.
pub fn near_one(length: usize) -> Vec<u8> {
    let mut random = Random::for_case(1, "bench floats", 0);
    (0..length / 4).flat_map(|_| near(&mut random, 120, 8, 23).to_le_bytes()).collect()
}

fn multiply_line(name: &str, width: u64, mut lent: Lent) {
    let word = assemble(name, &[("ms1", 0), ("ms2", 1)]);
    let mut answer = 0;
    let time = nanoseconds(|| answer = black_box(library_step(black_box(word), &mut lent)));
    let machine = lent.machine();
    let count = (machine.tile_m * machine.tile_k * machine.tile_n) as f64;
    println!(
        "{:28}{time:>12.1}{count:>12}{:>12.3}{:>14.2e}{:>10}",
        format!("{name} at SEW {width}"),
        time / count,
        count / time * 1e9,
        answer & 0xFFFF
    );
}

fn against_the_second_program() {
    let row = LISTING.iter().find(|row| row.kind == Kind::SetType).expect("a setting");
    println!();
    println!("one word, {}: nanoseconds", row.name);
    println!("{:28}{:>14}{:>16}{:>10}", "", "library", "second program", "ratio");
    for machine in [SMALL, LARGE] {
        let word = assemble(row.name, &[("mtypei", 8)]);
        let (time, _) = step_time(machine, 8, word);
        let mut bench = full_bench(machine, 8, 0).bench().expect("a whole machine block");
        let mut scalars = [0; 32];
        let second = nanoseconds(|| {
            black_box(model::step(black_box(word), &mut bench, &mut scalars));
        });
        println!("{:28}{time:>14.1}{second:>16.1}{:>10.4}", machine_name(machine), time / second);
    }
}

/// Images of the largest machine beside a copy of its register bytes.
fn images() {
    println!();
    println!("images on {}: nanoseconds, and GB of register bytes a second", machine_name(LARGE));
    println!("{:28}{:>12}{:>12}{:>12}{:>12}", "", "ns", "GB/s", "image", "answer");
    let mut lent = full_bench(LARGE, 0, 0);
    let total = lent.registers.len();
    let line = |name: String, time: f64, image: usize, answer: u64| {
        println!("{name:28}{time:>12.1}{:>12.2}{image:>12}{answer:>12}", total as f64 / time);
    };
    let mut copy = vec![0; total];
    let time = nanoseconds(|| black_box(&mut copy).copy_from_slice(black_box(&lent.registers)));
    line("memcpy".to_string(), time, 0, 0);
    let patterns: [(&str, fn(usize) -> bool); 3] =
        [("all marked", |_| true), ("every second", |at| at % 2 == 1), ("no mark", |_| false)];
    for (name, marked) in patterns {
        lent.marks.iter_mut().enumerate().for_each(|(at, mark)| *mark = u8::from(marked(at)));
        let mut image = vec![0; 3 * total];
        let mut answer = 0;
        let time = nanoseconds(|| answer = black_box(library_image_size(&mut lent)));
        let length = (answer >> 16) as usize;
        line(format!("{name}, size"), time, length, answer & 0xFFFF);
        let time = nanoseconds(|| answer = black_box(library_image_write(&mut lent, &mut image)));
        line(format!("{name}, written"), time, length, answer & 0xFFFF);
        image.truncate(length);
        let time = nanoseconds(|| answer = black_box(library_image_read(&mut image, &mut lent)));
        line(format!("{name}, read"), time, length, answer & 0xFFFF);
    }
}
