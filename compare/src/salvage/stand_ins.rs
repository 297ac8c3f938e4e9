//! Stand-ins for the library's salvage, each the second program's with one fault. The suites
//! have to find every one out, and the one without a fault never.

use super::cuts::{every_cut, machine_case, sound_case};
use super::damage::{damage_case, head_case, number_case, report_case, room_case, string_case};
use super::held::Subject;
use super::hosts::host_case;
use crate::lent::words_to_bytes;
use crate::library;
use crate::random::Random;
use crate::suite::{Context, Outcome};
use crate::tally::Tally;
use model::images::groups;
use model::salvage::{announced, fresh};

/// What is wrong with each.
#[derive(Clone, Copy, PartialEq, Eq)]
enum Fault {
    NoFault,
    LastByteMissing,
    PlaceOfFirstCutRun,
    AnnouncedCount,
    RoomBeforeHeader,
    ReportOnRefusal,
    ByteBehindFresh,
    LastWholeRunDropped,
    RunAtThePlaceDropped,
    NumberOfRunsGuessed,
    BareHeaderRefused,
    RoomForTheGivenImage,
    NoPlaceWithoutRoom,
    ReportLengthTestedLast,
    GivenImageChanged,
}

use Fault::*;

const STAND_INS: [(&str, Fault, Subject); 15] = [
    ("none", NoFault, stand_in::<0>),
    ("a run kept whose last byte is missing", LastByteMissing, stand_in::<1>),
    ("the place of the first cut run", PlaceOfFirstCutRun, stand_in::<2>),
    ("the announced count in the fresh image", AnnouncedCount, stand_in::<3>),
    ("14 before 15", RoomBeforeHeader, stand_in::<4>),
    ("the report written on a refusal", ReportOnRefusal, stand_in::<5>),
    ("one byte past the fresh image written", ByteBehindFresh, stand_in::<6>),
    ("the last whole run dropped", LastWholeRunDropped, stand_in::<7>),
    ("a run that ends at the place dropped", RunAtThePlaceDropped, stand_in::<8>),
    ("a number of runs whose last group is missing guessed", NumberOfRunsGuessed, stand_in::<9>),
    ("15 for a cut right behind the header", BareHeaderRefused, stand_in::<10>),
    ("14 if the given image does not fit", RoomForTheGivenImage, stand_in::<11>),
    ("14 without the place", NoPlaceWithoutRoom, stand_in::<12>),
    ("8 after 15 and 14", ReportLengthTestedLast, stand_in::<13>),
    ("a byte of the given image written", GivenImageChanged, stand_in::<14>),
];

fn stand_in<const AT: usize>(image: &mut [u8], room: &mut [u8], report: &mut [u8]) -> u64 {
    let fault = STAND_INS[AT].1;
    if report.len() != library::REPORT_BYTES && fault != ReportLengthTestedLast {
        return 8;
    }
    let whole = announced(image);
    let place = whole.place;
    let refused = |number: u64, report: &mut [u8]| {
        if fault == ReportOnRefusal {
            report.copy_from_slice(&words_to_bytes(&[0, 0, place as u64]));
        }
        match fault {
            NoPlaceWithoutRoom if number == 14 => 14,
            _ => number | (place as u64) << 16,
        }
    };
    if fault == RoomBeforeHeader && room.len() < place {
        return refused(14, report);
    }
    let header_at_fault = match fault {
        BareHeaderRefused => {
            whole.header_at_fault() || place == whole.header_end && !whole.runs.is_empty()
        }
        NumberOfRunsGuessed => {
            place + 1 < whole.header_end || place < whole.header_end && image[place - 1] < 0x80
        }
        _ => whole.header_at_fault(),
    };
    if header_at_fault {
        return refused(15, report);
    }
    let sound = place == image.len() && whole.ends.last().is_none_or(|&end| end == place);
    let mut kept = whole.kept().len();
    if fault == LastByteMissing {
        kept = whole.ends.iter().filter(|&&end| end <= place + 1).count();
    }
    if kept > 0 && !sound {
        match fault {
            LastWholeRunDropped => kept -= 1,
            RunAtThePlaceDropped if whole.ends[kept - 1] == place => kept -= 1,
            _ => {}
        }
    }
    let mut fresh = fresh(&whole.machine, &whole.runs[..kept]);
    let [count, of_kept] = [whole.runs.len(), kept].map(|count| groups(count as u64));
    if fault == AnnouncedCount {
        let at = whole.header_end - count.len();
        fresh.splice(at..at + of_kept.len(), count);
    }
    let needed = if fault == RoomForTheGivenImage { image.len() } else { fresh.len() };
    if room.len() < needed {
        return refused(14, report);
    }
    if report.len() != library::REPORT_BYTES {
        return 8;
    }
    if fault == GivenImageChanged {
        if let Some(byte) = image.get_mut(place) {
            *byte = 0;
        }
    }
    room[..fresh.len()].copy_from_slice(&fresh);
    if fault == ByteBehindFresh {
        if let Some(byte) = room.get_mut(fresh.len()) {
            *byte = 0;
        }
    }
    let named = match fault {
        PlaceOfFirstCutRun if kept < whole.runs.len() => {
            kept.checked_sub(1).map_or(whole.header_end, |last| whole.ends[last])
        }
        _ => place,
    };
    let numbers = [kept, whole.runs.len(), named].map(|number| number as u64);
    report.copy_from_slice(&words_to_bytes(&numbers));
    (fresh.len() as u64) << 16
}

/// A case of a suite, on any salvage.
type Check = fn(Subject, u64, &mut Random, &mut Tally) -> Result<(), String>;

/// The suites, and how many of their cases each stand-in is given.
const SUITES: [(&str, u64, Check); 10] = [
    ("salvaged cuts", 8, |subject, case, random, tally| {
        every_cut(subject, case, random, tally).map(|_| ())
    }),
    ("salvaged machines", 20, machine_case),
    ("sound salvages", 30, sound_case),
    ("salvaged damage", 3, |subject, case, random, tally| {
        damage_case(subject, case, random, tally, &mut Default::default())
    }),
    ("salvaged heads", 1, |subject, case, random, tally| {
        head_case(subject, case, random, tally, &mut Default::default())
    }),
    ("salvaged numbers", 100, |subject, case, random, tally| {
        number_case(subject, case, random, tally, &mut Default::default())
    }),
    ("salvaged strings", 100, |subject, case, random, tally| {
        string_case(subject, case, random, tally, &mut Default::default())
    }),
    ("salvage rooms", 24, |subject, case, random, tally| {
        room_case(subject, case, random, tally, &mut [0; 2])
    }),
    ("salvage reports", 8, report_case),
    ("salvage hosts", 16, |subject, case, random, tally| {
        host_case(subject, case, random, tally, &mut Default::default())
    }),
];

/// Each stand-in on cases of each suite: how many of them find it out. With one case, the
/// stand-in of that number, and what each suite reports first.
pub fn salvage_stand_ins(context: &mut Context) -> Outcome {
    let chosen = match context.only_case {
        Some(case) => {
            let at = case as usize % STAND_INS.len();
            at..at + 1
        }
        None => 0..STAND_INS.len(),
    };
    let names: Vec<&str> = SUITES.iter().map(|suite| suite.0).collect();
    let mut text =
        format!("{} stand-ins; cases that find each out, of {}:", chosen.len(), names.join(", "));
    let mut faults = Vec::new();
    for (name, fault, subject) in &STAND_INS[chosen] {
        let mut found = [0; SUITES.len()];
        for (at, (suite, count, check)) in SUITES.into_iter().enumerate() {
            // Some of the suite's own cases, counted nowhere.
            for case in (0..count * context.scale.min(4)).map(|case| 7 * case) {
                let mut random = Random::for_case(context.seed, suite, case);
                let outcome = check(*subject, case, &mut random, &mut Tally::default());
                if let Err(text) = outcome {
                    if found[at] == 0 && context.only_case.is_some() {
                        println!("suite '{suite}', case {case}\n{text}");
                    }
                    found[at] += 1;
                }
            }
        }
        text += &format!("\n    {name}: {found:?}");
        if (*fault == NoFault) != (found.iter().sum::<u64>() == 0) {
            faults.push(*name);
        }
    }
    match faults.is_empty() {
        true => Ok(text),
        false => Err(format!("{text}\n    wrong about: {}", faults.join("; "))),
    }
}
