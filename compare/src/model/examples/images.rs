//! Images made by hand from the paper, and what follows from its sentences (request Six).

use super::*;
use crate::images::*;
use std::collections::HashSet;

/// A machine of MLEN 128 and RLEN 64, whose 256 register bytes count up, with marks
/// on some of them.
pub fn marked(places: impl IntoIterator<Item = usize>) -> Bench {
    let registers: Vec<u8> = (0..=255).collect();
    let mut marks = vec![1; 256];
    let machine = start((64, 128, 32), SMALLER, &[0, 0], &registers, &mut marks);
    let machine = machine.expect("a good machine");
    for at in places {
        marks[at] = 1;
    }
    Bench { machine, registers, marks, memory: vec![] }
}

/// Version 1, RLEN 64, MLEN 128, all else 0 up to the number of runs.
pub const HEADER: [u8; 9] = [1, 6, 7, 0, 0, 0, 0, 0, 0];

fn with_header(rest: &[u8]) -> Vec<u8> {
    [&HEADER, rest].concat()
}

/// The place of answer 15.
pub fn place(image: &[u8]) -> usize {
    parts(image).expect_err("a damaged image")
}

/// The same after the header.
fn place_after_header(rest: &[u8]) -> usize {
    place(&with_header(rest)) - HEADER.len()
}

#[test]
fn numbers_in_groups() {
    assert_eq!(groups(0), [0]);
    assert_eq!(groups(127), [127]);
    assert_eq!(groups(128), [0x80, 1]);
    assert_eq!(groups(300), [0xAC, 2]);
    assert_eq!(groups(1 << 63), [0x80, 0x80, 0x80, 0x80, 0x80, 0x80, 0x80, 0x80, 0x80, 1]);
    assert_eq!(groups(u64::MAX), [255, 255, 255, 255, 255, 255, 255, 255, 255, 1]);
}

#[test]
fn images_by_hand() {
    assert_eq!(image(&marked([])).unwrap(), with_header(&[0]));
    assert_eq!(image(&marked([0])).unwrap(), with_header(&[1, 0, 1, 0]));
    assert_eq!(image(&marked([255])).unwrap(), with_header(&[1, 0xFF, 1, 1, 255]));
    assert_eq!(image(&marked([3, 4, 9])).unwrap(), with_header(&[2, 3, 2, 3, 4, 4, 1, 9]));
    let bytes: Vec<u8> = (0..=255).collect();
    let all = [&[1, 0, 0x80, 2][..], &bytes].concat();
    assert_eq!(image(&marked(0..256)).unwrap(), with_header(&all));
    // Over the end of tr0 (16 bytes), and over the end of tr7 into acc0 (at 128).
    assert_eq!(image(&marked([15, 16])).unwrap(), with_header(&[1, 15, 2, 15, 16]));
    assert_eq!(image(&marked([127, 128])).unwrap(), with_header(&[1, 127, 2, 127, 128]));
}

#[test]
fn numbers_of_the_machine() {
    let registers = vec![7; register_bytes(4096)];
    let mut marks = vec![0; register_bytes(4096)];
    let seal = [300, u64::MAX - 300];
    let mut machine = start((512, 4096, 32), SMALLER, &seal, &registers, &mut marks).expect("good");
    machine.mtype = MILL;
    (machine.tile_m, machine.tile_k, machine.tile_n) = (8, 7, 64);
    let bench = Bench { machine, registers, marks, memory: vec![] };
    let mill = [0x80, 0x80, 0x80, 0x80, 0x80, 0x80, 0x80, 0x80, 0x80, 1];
    let length = [0xD3, 0xFD, 255, 255, 255, 255, 255, 255, 255, 1];
    let expected = [&[1, 9, 12][..], &mill, &[8, 7, 64, 0xAC, 2], &length, &[0]].concat();
    assert_eq!(image(&bench).unwrap(), expected);
    assert_eq!(parts(&expected), Ok(Parts { machine, runs: vec![] }));
}

#[test]
fn register_bytes_lie_in_the_order_of_an_image() {
    for lengths in permitted_lengths() {
        let machine = Machine::of(lengths, SMALLER);
        let (rlen, mlen, _) = lengths;
        let registers = (0..8).map(Register::Tile).chain((0..2).map(Register::Accumulator));
        let mut next = 0;
        for register in registers {
            let row_bytes = if matches!(register, Register::Tile(_)) { rlen / 8 } else { rlen / 2 };
            for row in 0..mlen / rlen {
                assert_eq!(register_row(&machine, register, row as i128), next);
                next += row_bytes as i128;
            }
        }
        assert_eq!(next, register_bytes(mlen) as i128);
    }
}

#[test]
fn faulty_states_come_before_the_room() {
    let mut bench = marked([1]);
    let mut room = [9; 20];
    assert_eq!(write(&bench, &mut room[..12]), Err(14));
    assert_eq!(room, [9; 20]);
    assert_eq!(write(&bench, &mut room), Ok(13));
    assert_eq!(room[13..], [9; 7]);
    bench.marks[2] = 2;
    assert_eq!(write(&bench, &mut []), Err(8));
}

#[test]
fn numbers_that_no_machine_holds() {
    assert_eq!(place(&[]), 0);
    assert_eq!(place(&[0]), 0);
    assert_eq!(place(&[5]), 0);
    assert_eq!(place(&[0x81]), 0);
    assert_eq!(place(&[1, 5]), 1);
    assert_eq!(place(&[1, 10]), 1);
    assert_eq!(place(&[1, 9, 9]), 2);
    assert_eq!(place(&[1, 9, 13]), 2);
    assert_eq!(place(&[1, 9, 10]), 3);
    assert_eq!(place(&[1, 6, 7, 3]), 3);
    assert_eq!(place(&[1, 6, 7, 9]), 3);
    // Of the numbers above 127 mtype can only be 2^63.
    assert_eq!(place(&[1, 6, 7, 0x81]), 3);
    assert_eq!(place(&[1, 6, 7, 0x80, 0x80, 0]), 5);
    // MLEN / RLEN is 2, RLEN / 8 is 8.
    assert_eq!(place(&[1, 6, 7, 0, 3]), 4);
    assert_eq!(place(&[1, 6, 7, 0, 2, 3]), 5);
    assert_eq!(place(&[1, 6, 7, 0, 2, 2, 9]), 6);
    assert_eq!(place(&[1, 6, 7, 0, 2, 2, 0x80]), 6);
    assert_eq!(place(&[1, 6, 7, 0, 2, 2, 8]), 7);
}

#[test]
fn seals_that_no_machine_holds() {
    let header = [1, 6, 7, 0, 0, 0, 0];
    let after = |rest: &[u8]| place(&[&header, rest].concat()) - 7;
    let top = [255, 255, 255, 255, 255, 255, 255, 255, 255, 1];
    assert_eq!(after(&top), 10);
    assert_eq!(after(&[&top[..9], &[2]].concat()), 9);
    assert_eq!(after(&[&top[..9], &[0x81]].concat()), 9);
    assert_eq!(after(&[&top[..9], &[0]].concat()), 9);
    assert_eq!(after(&[&top[..], &[1]].concat()), 10);
    assert_eq!(after(&[&top[..], &[0]].concat()), 11);
    // Start 2^64 - 200: the length is at most 199, which is 0x47 + 128.
    let start = groups(u64::MAX - 199);
    assert_eq!(after(&[&start[..], &[0xC7]].concat()), 11);
    assert_eq!(after(&[&start[..], &[0xC8]].concat()), 10);
    assert_eq!(after(&[&start[..], &[0xC7, 1]].concat()), 12);
    assert_eq!(after(&[&start[..], &[0xC7, 2]].concat()), 11);
    assert_eq!(after(&[&start[..], &[0xC7, 0]].concat()), 11);
}

#[test]
fn runs_that_do_not_fit() {
    // At most 128 runs of one byte in 256.
    assert_eq!(place_after_header(&[0x80]), 1);
    assert_eq!(place_after_header(&[0x81]), 0);
    assert_eq!(place_after_header(&[0x80, 1]), 2);
    assert_eq!(place_after_header(&[0x80, 2]), 1);
    assert_eq!(place_after_header(&[0x80, 0]), 1);
    // Those need gaps of 0 or 1, then 1, and lengths of 1, but for one byte.
    assert_eq!(place_after_header(&[0x80, 1, 2]), 2);
    assert_eq!(place_after_header(&[0x80, 1, 1, 2]), 3);
    assert_eq!(place_after_header(&[0x80, 1, 0, 2, 9, 9, 1]), 7);
    assert_eq!(place_after_header(&[0x80, 1, 0, 2, 9, 9, 2]), 6);
    // One run: the gap is at most 255, 255 is 0x7F + 128.
    assert_eq!(place_after_header(&[1, 0xFF, 1]), 3);
    assert_eq!(place_after_header(&[1, 0x80, 2]), 2);
    assert_eq!(place_after_header(&[1, 0xFF, 1, 0]), 3);
    assert_eq!(place_after_header(&[1, 0xFF, 1, 2]), 3);
    assert_eq!(place_after_header(&[1, 0xFF, 1, 0x81]), 3);
    assert_eq!(place_after_header(&[1, 0xFF, 1, 1]), 4);
    assert_eq!(place_after_header(&[1, 0xFF, 1, 1, 7, 7]), 5);
    // A later gap is not 0: the runs would be one.
    assert_eq!(place_after_header(&[2, 3, 1, 7, 0]), 4);
    assert_eq!(place_after_header(&[2, 3, 1, 7, 0x80, 0]), 5);
    assert_eq!(place_after_header(&[0, 0]), 1);
}

/// The ranges, against every number in them.
#[test]
fn ranges_by_trying_each_number() {
    for low in [0, 1] {
        for high in [1, 2, 100, 127, 128, 129, 200, 255, 256, 300, 16383, 16384, 16500] {
            let range = Permitted::Range(low, high);
            let mut beginnings = HashSet::new();
            for form in (low..=high).map(groups) {
                beginnings.extend((1..=form.len()).map(|length| form[..length].to_vec()));
            }
            let tried = |bytes: &[u8]| beginnings.contains(bytes);
            for first in 0..=255 {
                assert_eq!(range.begins(&[first]), tried(&[first]), "{low} {high} {first}");
            }
            for first in [128, 129, 171, 172, 173, 244, 245, 254, 255] {
                for second in 0..=255 {
                    let bytes = [first, second];
                    assert_eq!(range.begins(&bytes), tried(&bytes), "{low} {high} {bytes:?}");
                    if second >= 128 {
                        for third in [0, 1, 2, 127, 128, 129, 255] {
                            let bytes = [first, second, third];
                            assert_eq!(range.begins(&bytes), tried(&bytes), "{high} {bytes:?}");
                        }
                    }
                }
            }
        }
    }
}

/// What is found sound up to a place can be gone on with to an accepted image, which
/// is that of the machine it says.
#[test]
fn sound_beginnings_can_be_completed() {
    let whole = image(&marked([0, 1, 2, 9, 15, 16, 127, 128, 250, 255])).unwrap();
    for at in 0..whole.len() {
        for byte in 0..=255 {
            let mut changed = whole.clone();
            changed[at] = byte;
            let sound = parts(&changed).err().unwrap_or(changed.len());
            let image = completed(&changed[..sound]).expect("an accepted image");
            assert!(image.starts_with(&changed[..sound]));
            let total = register_bytes(parts(&image).expect("accepted").machine.mlen);
            let (mut registers, mut marks) = (vec![0x5A; total], vec![3; total]);
            let machine = read(&image, &mut registers, &mut marks).expect("buffers that fit");
            let bench = Bench { machine, registers, marks, memory: vec![] };
            assert_eq!(crate::images::image(&bench).as_ref(), Some(&image));
            if sound < changed.len() {
                assert_eq!(completed(&changed[..=sound]), None);
            }
        }
    }
}

#[test]
fn reading_leaves_unmarked_bytes() {
    let bench = marked([3, 4, 9]);
    let image = image(&bench).unwrap();
    let (mut registers, mut marks) = (vec![0xEE; 256], vec![1; 256]);
    assert_eq!(read(&image, &mut registers, &mut marks), Ok(bench.machine));
    assert_eq!(marks, bench.marks);
    for at in 0..256 {
        assert_eq!(registers[at], if marks[at] == 1 { at as u8 } else { 0xEE });
    }
    assert_eq!(read(&image, &mut registers[1..], &mut marks), Err((8, 0)));
    assert_eq!(read(&image, &mut registers, &mut marks[1..]), Err((8, 0)));
    assert_eq!(read(&image[..5], &mut registers[1..], &mut marks), Err((15, 5)));
}
