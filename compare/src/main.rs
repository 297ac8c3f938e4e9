//! Holds the static library to the second program, and times it.
//!
//!     compare [long|bench] [--seed N] [--suite NAME [--case N]]
//!     compare picture FILE
//!
//! Without a word: the suites at their usual length. `long`: ten million steps
//! and a hundred thousand runs, every word as a line. `bench`: one table of times, with
//! `--suite lines` that of lines of assembler text alone, with `--suite peers` and `--suite aims`
//! those of the same names. A reported difference names its suite, case and seed, which repeat it.
//! `picture` draws the table of peers that it reads from standard input.

mod benchmark;
mod boundaries;
mod floats;
mod images;
mod larger;
mod lent;
mod library;
mod moves;
mod powerup;
mod random;
mod rules;
mod runs;
mod salvage;
mod seals;
mod sheet;
mod starts;
mod states;
mod steps;
mod suite;
mod tally;
mod text;

use std::time::Instant;
use suite::{Context, Outcome, Suite};

const SUITES: [Suite; 99] = [
    ("bench sheet", sheet::bench_sheet),
    ("machine starts", starts::machine_starts),
    ("codes", steps::codes::codes),
    ("all codes", steps::codes::all_codes),
    ("rows", steps::codes::rows),
    ("boundaries", boundaries::boundaries),
    ("random steps", steps::single::random_steps),
    ("several faults", steps::single::several_faults),
    ("renewed sizes", steps::renewed::renewed_sizes),
    ("asked sizes", rules::sizes::asked_sizes),
    ("unknown rules", rules::sizes::unknown_rules),
    ("transposed tiles", steps::transposed::transposed_tiles),
    ("overlapping rows", steps::overlapping::overlapping_rows),
    ("overlapping stores", steps::overlapping::overlapping_stores),
    ("float examples", floats::examples::float_examples),
    ("float specials", floats::numbers::float_specials),
    ("wide floats", floats::examples::wide_floats),
    ("random floats", floats::numbers::random_floats),
    ("whole floats", floats::numbers::whole_floats),
    ("host floats", floats::numbers::host_floats),
    ("permitted lengths", larger::lengths::permitted_machines),
    ("mtypes", larger::elens::mtypes_by_elen),
    ("widths", larger::elens::widths_by_elen),
    ("64-bit products", larger::elements::products_to_64),
    ("64-bit elements", larger::elements::element_wise_at_64),
    ("wide tiles", larger::tiles::wide_tiles),
    ("far elements", larger::tiles::far_elements),
    ("larger steps", larger::tiles::larger_steps),
    ("larger sizes", larger::tiles::larger_sizes),
    ("move boundaries", moves::boundaries::move_boundaries),
    ("moves", moves::words::moves),
    ("far lines", moves::words::far_lines),
    ("moved out and back", moves::words::out_and_back),
    ("move lists", moves::words::move_lists),
    ("section 6.1.7", moves::listing::listing_of_vectors),
    ("sealed ranges", seals::ranges::sealed_ranges),
    ("starts of ranges", seals::ranges::starts_of_ranges),
    ("damaged ranges", seals::damage::damaged_ranges),
    ("faulty seals", seals::damage::faulty_seals),
    ("added ranges", seals::added::added_ranges),
    ("sequences", steps::sequences::sequences),
    ("power-up words", powerup::words::power_up_words),
    ("damaged steps", steps::damage::damaged_steps),
    ("empty slices", steps::damage::empty_slices),
    ("run starts", runs::turns::run_starts),
    ("turns", runs::turns::turns),
    ("disturbed turns", runs::turns::disturbed_turns),
    ("overlapping turns", runs::turns::overlapping_turns),
    ("whole runs", runs::whole::whole_runs),
    ("both rules", rules::runs::both_rules),
    ("unknown run rules", rules::runs::unknown_run_rules),
    ("float runs", floats::runs::float_runs),
    ("whole float runs", floats::runs::whole_float_runs),
    ("power-up runs", powerup::runs::power_up_runs),
    ("ranges of runs", seals::runs::ranges_of_runs),
    ("ranges added to runs", seals::runs::ranges_added_to_runs),
    ("largest sizes", runs::whole::largest_sizes),
    ("larger products", runs::whole::larger_products),
    ("larger runs", larger::runs::larger_runs),
    ("64-bit runs", larger::runs::runs_to_64),
    ("wide runs", larger::runs::wide_runs),
    ("other ELENs", larger::runs::other_elens),
    ("wrong run lengths", runs::damage::wrong_run_lengths),
    ("forged runs", runs::damage::forged_runs),
    ("empty run slices", runs::damage::empty_run_slices),
    ("images", images::whole::images),
    ("image versions", images::versions::image_versions),
    ("image heads", images::versions::image_heads),
    ("image ranges", seals::images::image_ranges),
    ("handed on", seals::images::handed_on),
    ("faulty images", images::whole::faulty_images),
    ("image buffers", images::whole::image_buffers),
    ("damaged images", images::damage::damaged_images),
    ("image numbers", images::damage::image_numbers),
    ("random images", images::damage::random_images),
    ("salvaged cuts", salvage::cuts::salvaged_cuts),
    ("salvaged machines", salvage::cuts::salvaged_machines),
    ("sound salvages", salvage::cuts::sound_salvages),
    ("salvaged damage", salvage::damage::salvaged_damage),
    ("salvaged heads", salvage::damage::salvaged_heads),
    ("salvaged numbers", salvage::damage::salvaged_numbers),
    ("salvaged strings", salvage::damage::salvaged_strings),
    ("salvage rooms", salvage::damage::salvage_rooms),
    ("salvage reports", salvage::damage::salvage_reports),
    ("salvage hosts", salvage::hosts::salvage_hosts),
    ("salvage stand-ins", salvage::stand_ins::salvage_stand_ins),
    ("lines of rows", text::lines::lines_of_rows),
    ("lines of codes", text::lines::lines_of_codes),
    ("random lines", text::lines::random_lines),
    ("every word", text::lines::every_word),
    ("lines apart", text::lines::lines_apart),
    ("damaged lines", text::damage::damaged_lines),
    ("cut lines", text::damage::cut_lines),
    ("numbers of lines", text::damage::numbers_of_lines),
    ("long lines", text::damage::long_lines),
    ("line ends", text::programs::line_ends),
    ("listings", text::programs::listings),
    ("there and back", text::programs::there_and_back),
    ("every word listed", text::programs::every_word_listed),
];

/// `long` takes this many times the random steps and runs: above ten million steps.
const LONG_SCALE: u64 = 28;

struct Arguments {
    long: bool,
    bench: bool,
    speed: bool,
    picture: Option<String>,
    seed: u64,
    suite: Option<String>,
    case: Option<u64>,
}

fn arguments() -> Option<Arguments> {
    let mut found = Arguments {
        long: false,
        bench: false,
        speed: false,
        picture: None,
        seed: 1,
        suite: None,
        case: None,
    };
    let mut words = std::env::args().skip(1);
    while let Some(word) = words.next() {
        match word.as_str() {
            "long" => found.long = true,
            "bench" => found.bench = true,
            "speed" => found.speed = true,
            "picture" => found.picture = Some(words.next()?),
            "--seed" => found.seed = words.next()?.parse().ok()?,
            "--suite" => found.suite = Some(words.next()?),
            "--case" => found.case = Some(words.next()?.parse().ok()?),
            _ => return None,
        }
    }
    Some(found)
}

fn main() {
    let Some(arguments) = arguments() else {
        eprintln!("usage: compare [long|bench|speed] [--seed N] [--suite NAME [--case N]]");
        eprintln!("       compare picture FILE");
        std::process::exit(2);
    };
    if arguments.bench {
        match arguments.suite.as_deref() {
            Some("lines") => benchmark::lines::table(),
            Some("peers") => benchmark::peers::table(),
            Some("aims") => benchmark::aims::table(),
            _ => benchmark::tables(),
        }
        return;
    }
    if let Some(file) = &arguments.picture {
        let drawn = std::io::read_to_string(std::io::stdin())
            .map_err(|error| error.to_string())
            .and_then(|text| benchmark::picture::draw(&text, file));
        if let Err(error) = drawn {
            eprintln!("{error}");
            std::process::exit(1);
        }
        return;
    }
    if arguments.speed {
        std::process::exit(i32::from(!benchmark::runs::fast_enough()));
    }
    if let Some(only) = &arguments.suite {
        if !SUITES.iter().any(|(name, _)| name == only) {
            eprintln!("no suite '{only}'");
            std::process::exit(2);
        }
    }
    println!("seed {}", arguments.seed);
    let mut context = Context {
        seed: arguments.seed,
        scale: if arguments.long { LONG_SCALE } else { 1 },
        only_case: arguments.case,
        tally: tally::Tally::default(),
    };
    let mut failed = 0;
    let mut passed = 0;
    let mut note = |name: &str, outcome: Outcome, seconds: f64| match outcome {
        Ok(summary) => {
            passed += 1;
            println!("{name:18} passed: {summary}, {seconds:.1} s");
        }
        Err(text) => {
            failed += 1;
            println!("{name:18} FAILED\n{text}");
        }
    };
    for (name, suite) in SUITES {
        if arguments.suite.as_deref().is_some_and(|only| only != name) {
            continue;
        }
        let started = Instant::now();
        let outcome = suite(&mut context);
        note(name, outcome, started.elapsed().as_secs_f64());
    }
    if arguments.suite.is_none() {
        context.tally.print();
        note("answers met", context.tally.check(), 0.0);
        note("amount", context.tally.amount(), 0.0);
    }
    println!("{passed} passed, {failed} failed");
    std::process::exit(i32::from(failed > 0));
}
