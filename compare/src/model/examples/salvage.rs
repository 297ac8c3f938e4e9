//! Salvages worked out by hand from the paper, and what follows from its sentences (request
//! Thirteen).

use super::images::HEADER;
use super::*;
use crate::images::*;
use crate::salvage::*;

/// Bytes 3 and 4; after a gap of 4, byte 9; after a gap of 5, bytes 15 and 16.
const RUNS: [&[u8]; 3] = [&[3, 2, 3, 4], &[4, 1, 9], &[5, 2, 15, 16]];

/// The header, a number of runs and some of them.
fn with(count: u8, runs: &[&[u8]]) -> Vec<u8> {
    [&HEADER[..], &[count], &runs.concat()].concat()
}

/// The salvage in a room with five bytes more, which stay.
fn salvaged(given: &[u8]) -> Result<(Vec<u8>, [u64; 3]), (u64, Report)> {
    let mut room = vec![0xA5; given.len() + 5];
    let (length, Report { kept, announced, place }) = salvage(given, &mut room)?;
    assert!(length <= given.len());
    assert!(room[length..].iter().all(|&byte| byte == 0xA5));
    room.truncate(length);
    Ok((room, [kept, announced, place as u64]))
}

/// A bad header, at a place.
fn bad_header(place: usize) -> Result<(Vec<u8>, [u64; 3]), (u64, Report)> {
    Err((15, Report { kept: 0, announced: 0, place }))
}

/// Each place from 0 up to the length, with what a cut there gives: the header's end, and
/// the ends of the runs with the fresh image of all up to there.
fn every_cut(image: &[u8], header_end: usize, ends: &[usize], fresh: &[Vec<u8>]) {
    assert_eq!(ends.len() + 1, fresh.len());
    for cut in 0..=image.len() {
        let expected = if cut < header_end {
            bad_header(cut)
        } else {
            let kept = ends.iter().filter(|&&end| end <= cut).count();
            Ok((fresh[kept].clone(), [kept as u64, ends.len() as u64, cut as u64]))
        };
        assert_eq!(salvaged(&image[..cut]), expected, "cut at {cut}");
    }
    assert_eq!(fresh[ends.len()], image);
}

#[test]
fn every_cut_of_version_1() {
    // 9 bytes, the number of runs; the runs at 10, 14 and 17, the last ends at 21.
    let image = with(3, &RUNS);
    let fresh: Vec<_> = (0..=3).map(|kept| with(kept, &RUNS[..kept as usize])).collect();
    assert_eq!(fresh[1], [1, 6, 7, 0, 0, 0, 0, 0, 0, 1, 3, 2, 3, 4]);
    every_cut(&image, 10, &[14, 17, 21], &fresh);
}

#[test]
fn every_cut_of_version_2() {
    // The rule stands behind the version.
    let halving = |plain: Vec<u8>| [&[2, 1], &plain[1..]].concat();
    let image = halving(with(3, &RUNS));
    let fresh: Vec<_> = (0..=3).map(|kept| halving(with(kept, &RUNS[..kept as usize]))).collect();
    every_cut(&image, 11, &[15, 18, 22], &fresh);
}

#[test]
fn every_cut_of_version_3() {
    // As in version_3_byte_by_byte: halving, ELEN 64, RLEN 128, MLEN 256, mtype 9, sizes
    // 2, 1 and 16, a range at 128 of length 7; two runs: bytes 3 and 4, and byte 10.
    let header = [3, 1, 6, 7, 8, 9, 2, 1, 16, 0x80, 1, 7];
    let fresh = |count: u8, runs: &[u8]| [&header[..], &[count], runs].concat();
    let image = fresh(2, &[3, 2, 3, 4, 5, 1, 10]);
    let kept = [fresh(0, &[]), fresh(1, &[3, 2, 3, 4]), image.clone()];
    every_cut(&image, 13, &[17, 20], &kept);
    // The largest machine: one run, the last byte of 131,072, after a gap of three groups.
    let header = [3, 0, 5, 12, 16, 0, 16, 16, 0x80, 4, 0, 0];
    let image = [&header[..], &[1, 0xFF, 0xFF, 7, 1, 0xFF]].concat();
    let kept = [[&header[..], &[0]].concat(), image.clone()];
    every_cut(&image, 13, &[18], &kept);
}

#[test]
fn every_cut_of_version_4() {
    // Halving, ELEN 32, RLEN 64, MLEN 256, sizes 2, 0 and 3; the ranges 128 and 7, 2 and 0.
    let header = [4, 1, 5, 6, 8, 0, 2, 0, 3, 2, 0x80, 1, 7, 2, 0];
    let image = [&header[..], &[1, 3, 1, 3]].concat();
    let kept = [[&header[..], &[0]].concat(), image.clone()];
    every_cut(&image, 16, &[19], &kept);
    // No range, no run.
    let image = vec![4, 0, 5, 6, 8, 0, 2, 0, 3, 0, 0];
    every_cut(&image, 11, &[], std::slice::from_ref(&image));
    // Eight ranges of which the last ends at 2^64 - 1: its start takes one group, its length ten.
    let mut header = vec![4, 0, 6, 7, 8, 0, 0, 0, 0, 8];
    (0..7).for_each(|at| header.extend([at, 0]));
    header.push(1);
    header.extend([0xFE, 255, 255, 255, 255, 255, 255, 255, 255, 1]);
    assert_eq!(header.len(), 35);
    let fresh = |rest: &[u8]| [&header[..], rest].concat();
    let image = fresh(&[2, 0, 1, 7, 1, 1, 8]);
    every_cut(&image, 36, &[39, 42], &[fresh(&[0]), fresh(&[1, 0, 1, 7]), image.clone()]);
}

#[test]
fn bytes_too_many() {
    let image = with(3, &RUNS);
    for more in [&[0][..], &[3], &[255, 255], &[5, 1, 9]] {
        let longer = [&image[..], more].concat();
        assert_eq!(salvaged(&longer), Ok((image.clone(), [3, 3, 21])));
    }
    // Behind a machine without marks.
    assert_eq!(salvaged(&with(0, &RUNS)), Ok((with(0, &[]), [0, 0, 10])));
}

#[test]
fn other_numbers_of_runs() {
    // One less: the third run is bytes too many. One more: it is cut at its end.
    assert_eq!(salvaged(&with(2, &RUNS)), Ok((with(2, &RUNS[..2]), [2, 2, 17])));
    assert_eq!(salvaged(&with(4, &RUNS)), Ok((with(3, &RUNS), [3, 4, 21])));
    // 127 runs: at least 253 of 256 bytes, so the gap of 3 leaves no byte for a length of 2.
    assert_eq!(salvaged(&with(127, &RUNS)), Ok((with(0, &[]), [0, 127, 11])));
    // 128 is two groups, and the most: after 0x80 only 1 can follow, but it has to be there.
    assert_eq!(salvaged(&with(0x80, &[])), bad_header(10));
    assert_eq!(salvaged(&with(0x80, &[&[0]])), bad_header(10));
    assert_eq!(salvaged(&with(0x80, &[&[2]])), bad_header(10));
    assert_eq!(salvaged(&with(0x81, &RUNS)), bad_header(9));
    assert_eq!(salvaged(&with(0x80, &[&[1]])), Ok((with(0, &[]), [0, 128, 11])));
    // Of 256 bytes they leave one free: a gap of 2 once, then only gaps of 1.
    let runs: [&[u8]; 2] = [&[0, 1, 77], &[2, 1, 78]];
    let image = with(0x80, &[&[1], runs[0], runs[1], &[2, 1, 79]]);
    assert_eq!(salvaged(&image), Ok((with(2, &runs), [2, 128, 17])));
}

#[test]
fn faults_in_runs() {
    let changed = |at: usize, byte: u8| {
        let mut image = with(3, &RUNS);
        image[at] = byte;
        salvaged(&image)
    };
    let kept = |count: u8| with(count, &RUNS[..count as usize]);
    // A length of 0; a gap of 0, but that of the first run.
    assert_eq!(changed(11, 0), Ok((kept(0), [0, 3, 11])));
    assert_eq!(changed(14, 0), Ok((kept(1), [1, 3, 14])));
    assert_eq!(changed(18, 0), Ok((kept(2), [2, 3, 18])));
    assert_eq!(changed(10, 0), Ok((with(3, &[&[0, 2, 3, 4], RUNS[1], RUNS[2]]), [3, 3, 21])));
    // 246 bytes are left, so the gap is at most 245, which is 0x75 + 128.
    assert_eq!(changed(17, 0xF5), Ok((kept(2), [2, 3, 18])));
    assert_eq!(changed(17, 0xF6), Ok((kept(2), [2, 3, 17])));
    // A length of 2: its bytes are 9 and the next gap, the next run has 15 bytes, one of them there.
    let two = with(2, &[RUNS[0], &[4, 2, 9, 5]]);
    assert_eq!(changed(15, 2), Ok((two, [2, 3, 21])));
    // Another byte of a run is no fault.
    assert_eq!(changed(13, 99), Ok((with(3, &[&[3, 2, 3, 99], RUNS[1], RUNS[2]]), [3, 3, 21])));
}

#[test]
fn headers_at_fault_come_before_the_room() {
    for (image, place) in [
        (vec![], 0),
        (vec![0], 0),
        (vec![5, 0, 0, 0], 0),
        (vec![0x81, 0], 0),
        (vec![1, 6, 6], 2),
        (vec![1, 6, 7, 3, 0], 3),
        (vec![2, 0], 1),
        (vec![3, 0, 5, 6, 7], 4),
        (vec![4, 0, 5, 6, 7, 0, 0, 0, 0, 1], 9),
        (vec![4, 0, 5, 6, 7, 0, 0, 0, 0, 9], 9),
        // A range at 1 has a length of at most 2^64 - 2, so its lowest group is not 0x7F here.
        (vec![1, 6, 7, 0, 0, 0, 0, 1, 255, 255, 255, 255, 255, 255, 255, 255, 255, 1], 16),
        (vec![1, 6, 7, 0, 0, 0, 0, 1, 254, 255, 255, 255, 255, 255, 255, 255, 255, 1], 18),
    ] {
        assert_eq!(salvaged(&image), bad_header(place), "{image:?}");
        for room in 0..20 {
            let mut bytes = vec![0xA5; room];
            assert_eq!(salvage(&image, &mut bytes).unwrap_err().0, 15);
            assert!(bytes.iter().all(|&byte| byte == 0xA5));
        }
    }
}

#[test]
fn the_room_is_for_the_fresh_image() {
    // Cut in the third run: 17 bytes are kept.
    let image = &with(3, &RUNS)[..20];
    for length in 0..24 {
        let mut room = vec![0xA5; length];
        let given = salvage(image, &mut room);
        if length < 17 {
            assert_eq!(given, Err((14, Report { kept: 0, announced: 0, place: 20 })));
            assert!(room.iter().all(|&byte| byte == 0xA5));
        } else {
            assert_eq!(given, Ok((17, Report { kept: 2, announced: 3, place: 20 })));
            assert_eq!(room[..17], with(2, &RUNS[..2]));
        }
    }
}

/// Images of all versions, with few runs, none, and as many as there can be.
fn some_images() -> Vec<Vec<u8>> {
    let mut images = Vec::new();
    for lengths in [(64, 128, 32), (128, 256, 64)] {
        let total = register_bytes(lengths.1);
        let registers: Vec<u8> = (0..total).map(|at| at as u8 ^ 0x5C).collect();
        for (rule, seals) in
            [(SMALLER, &[9, 9][..]), (HALVING, &[9, 9]), (SMALLER, &[]), (HALVING, &[1, 2, 3, 400])]
        {
            for pattern in 0..5 {
                let mut marks = vec![0; total];
                let machine = start(lengths, rule, seals, &registers, &mut marks).expect("good");
                for (at, mark) in marks.iter_mut().enumerate() {
                    *mark = match pattern {
                        0 => 0,
                        1 => u8::from(at / 7 % 3 == 0 && at < 40),
                        2 => u8::from(at % 2 == 0 && (at < 20 || lengths.1 == 128)),
                        3 => u8::from((150..290).contains(&at)),
                        _ => u8::from([0, 1, 130, total - 1].contains(&at)),
                    };
                }
                let bench = Bench { machine, registers: registers.clone(), marks, memory: vec![] };
                images.push(image(&bench).expect("a sound machine"));
            }
        }
    }
    images
}

/// The same by trying: a run does not lie before the place if it may have another last
/// byte, the number of runs if there may be none as well as one.
fn kept_by_trying(given: &[u8]) -> Option<usize> {
    let before = &given[..parts(given).err().unwrap_or(given.len())];
    let whole = parts(&completed(before).expect("no fault before")).expect("an accepted image");
    let Parts { machine, runs } = whole;
    let goes_on = |runs: &[Stretch]| fresh(&machine, runs).starts_with(before);
    if goes_on(&[]) && goes_on(&[(0, vec![0])]) {
        return None;
    }
    let free = |at: &usize| {
        let mut others = runs.clone();
        *others[*at].1.last_mut().expect("a byte") ^= 1;
        goes_on(&others)
    };
    Some((0..runs.len()).find(free).unwrap_or(runs.len()))
}

fn check_by_trying(given: &[u8]) {
    // A group of 0x80 may be gone on with in one way alone: then the number is not there.
    let kept = salvaged(given).ok().map(|(_, [kept, ..])| kept as usize);
    let place = parts(given).err().unwrap_or(given.len());
    if place != 0 && given[place - 1] >= 0x80 && kept.is_none() {
        return;
    }
    assert_eq!(kept, kept_by_trying(given), "{given:02x?}");
}

#[test]
fn runs_kept_by_trying_each() {
    // Every third has each pattern, rule and number of ranges.
    for image in some_images().into_iter().step_by(3) {
        let step = if image.len() > 200 { 17 } else { 1 };
        for cut in (0..=image.len()).step_by(step) {
            check_by_trying(&image[..cut]);
        }
        for at in (0..image.len()).step_by(step) {
            for byte in [0, 1, 0x80, image[at] ^ 1] {
                let mut changed = image.clone();
                changed[at] = byte;
                check_by_trying(&changed);
            }
        }
    }
}

/// A fresh image is sound, and its salvage is itself; its machine is that of a cut image but
/// for marks that are taken away.
#[test]
fn salvages_of_cuts() {
    for image in some_images() {
        let total = register_bytes(parts(&image).expect("sound").machine.mlen);
        let (mut registers, mut marks) = (vec![0; total], vec![0; total]);
        let machine = read(&image, &mut registers, &mut marks).expect("sound");
        for cut in 0..=image.len() {
            let Ok((fresh, [kept, ..])) = salvaged(&image[..cut]) else {
                continue;
            };
            let (mut other, mut other_marks) = (vec![0x77; total], vec![0; total]);
            assert_eq!(read(&fresh, &mut other, &mut other_marks), Ok(machine));
            for at in 0..total {
                assert!(other_marks[at] <= marks[at]);
                assert_eq!(other[at], if other_marks[at] == 1 { registers[at] } else { 0x77 });
            }
            let length = fresh.len() as u64;
            assert_eq!(salvaged(&fresh), Ok((fresh, [kept, kept, length])));
        }
    }
}
