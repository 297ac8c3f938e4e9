//! Images of versions 2 and 3 byte by byte (requests Eight and Ten); those of version 4 are
//! among the examples of several sealed ranges.

use super::images::{marked, place};
use super::*;
use crate::images::*;

/// The machine of `marked` with the halving rule.
fn halving(places: impl IntoIterator<Item = usize>) -> Bench {
    let mut bench = marked(places);
    bench.machine.rule = HALVING;
    bench
}

#[test]
fn images_of_halving_machines() {
    let plain = image(&marked([3, 4, 9])).unwrap();
    let halved = image(&halving([3, 4, 9])).unwrap();
    assert_eq!(plain[..2], [1, 6]);
    assert_eq!(halved, [&[2, 1], &plain[1..]].concat());
    assert_eq!(image(&halving([])).unwrap(), [2, 1, 6, 7, 0, 0, 0, 0, 0, 0, 0]);
    // Read back: the rule is the image's.
    for (image, rule) in [(plain, SMALLER), (halved, HALVING)] {
        let (mut registers, mut marks) = (vec![0; 256], vec![7; 256]);
        let machine = read(&image, &mut registers, &mut marks).expect("buffers that fit");
        assert_eq!(machine, Machine::of((64, 128, 32), rule));
        assert_eq!(registers[3..5], [3, 4]);
    }
    let mut unknown = halving([3]);
    for rule in [2, 3, 1 << 32, u64::MAX] {
        unknown.machine.rule = rule;
        assert_eq!(image(&unknown), None);
        assert_eq!(write(&unknown, &mut []), Err(8));
    }
}

#[test]
fn versions_and_rules_that_no_image_has() {
    for version in (5..=255).chain([0]) {
        assert_eq!(place(&[version, 1, 6, 7, 0, 0, 0, 0, 0, 0, 0]), 0, "{version}");
    }
    for rule in (2..=255).chain([0]) {
        assert_eq!(place(&[2, rule, 6, 7, 0, 0, 0, 0, 0, 0, 0]), 1, "{rule}");
    }
    // Cut short, or with a number that the other version has there.
    assert_eq!(place(&[2]), 1);
    assert_eq!(place(&[2, 1]), 2);
    assert_eq!(place(&[2, 6, 7, 0, 0, 0, 0, 0, 0, 0]), 1);
    assert_eq!(place(&[1, 1, 6, 7, 0, 0, 0, 0, 0, 0, 0]), 1);
    // More groups than the shortest form has.
    assert_eq!(place(&[0x82, 0, 1, 6]), 0);
    assert_eq!(place(&[2, 0x81, 0, 6]), 1);
    // The rest one byte later.
    assert_eq!(place(&[2, 1, 5]), 2);
    assert_eq!(place(&[2, 1, 9, 9]), 3);
    assert_eq!(place(&[2, 1, 6, 7, 0, 3]), 5);
    assert_eq!(place(&[2, 1, 6, 7, 0, 0, 0, 0, 0, 0, 0, 0]), 11);
}

/// As for version 1: whatever is sound can be gone on with.
#[test]
fn sound_beginnings_of_version_2() {
    let whole = image(&halving([0, 9, 15, 16, 255])).unwrap();
    for at in 0..whole.len() {
        for byte in 0..=255 {
            let mut changed = whole.clone();
            changed[at] = byte;
            let sound = parts(&changed).err().unwrap_or(changed.len());
            let image = completed(&changed[..sound]).expect("an accepted image");
            let machine = parts(&image).expect("accepted").machine;
            let rule = [0, image[1]][usize::from(image[0] > 1)];
            assert_eq!(machine.rule, rule as u64);
            if sound < changed.len() {
                assert_eq!(completed(&changed[..=sound]), None);
            }
        }
    }
}

/// A machine of these lengths and rule, whose register bytes count up, with marks on some
/// of them.
fn larger(lengths: Lengths, rule: u64, places: &[usize]) -> Bench {
    let total = register_bytes(lengths.1);
    let registers: Vec<u8> = (0..total).map(|at| at as u8).collect();
    let mut marks = vec![0; total];
    let machine = start(lengths, rule, &[0, 0], &registers, &mut marks).expect("a good machine");
    places.iter().for_each(|&at| marks[at] = 1);
    Bench { machine, registers, marks, memory: vec![] }
}

#[test]
fn version_3_byte_by_byte() {
    // 3, the rule, ELEN 64 is 2^6, RLEN 128 is 2^7, MLEN 256 is 2^8; mtype, m, k, n, the
    // seal's start and length; two runs: bytes 3 and 4, and after a gap of 5 byte 10.
    let mut bench = larger((128, 256, 64), HALVING, &[3, 4, 10]);
    bench.machine.mtype = 9;
    (bench.machine.tile_m, bench.machine.tile_k, bench.machine.tile_n) = (2, 1, 16);
    bench.machine.seals = Seals::of(&[(128, 7)]);
    let by_hand = [3, 1, 6, 7, 8, 9, 2, 1, 16, 0x80, 1, 7, 2, 3, 2, 3, 4, 5, 1, 10];
    assert_eq!(image(&bench).unwrap(), by_hand);
    assert_eq!(parts(&by_hand).unwrap().machine, bench.machine);
    // The largest machine with ELEN 32: 2^12 and 2^16; 16 rows, 512 columns (0x80, 4).
    // Its last byte is byte 131,071: a gap of 0x7F + 128, 0x7F + 128 and 7 groups on.
    let mut bench = larger((4096, 65536, 32), SMALLER, &[131_071]);
    (bench.machine.tile_m, bench.machine.tile_k, bench.machine.tile_n) = (16, 16, 512);
    let by_hand = [3, 0, 5, 12, 16, 0, 16, 16, 0x80, 4, 0, 0, 1, 0xFF, 0xFF, 7, 1, 0xFF];
    assert_eq!(image(&bench).unwrap(), by_hand);
    assert_eq!(parts(&by_hand).unwrap().machine, bench.machine);
}

#[test]
fn the_lowest_version_that_holds_the_machine() {
    let front = |lengths, rule| image(&larger(lengths, rule, &[])).unwrap()[..5].to_vec();
    assert_eq!(front((512, 4096, 32), SMALLER), [1, 9, 12, 0, 0]);
    assert_eq!(front((512, 4096, 32), HALVING), [2, 1, 9, 12, 0]);
    assert_eq!(front((512, 4096, 64), SMALLER), [3, 0, 6, 9, 12]);
    assert_eq!(front((512, 4096, 64), HALVING), [3, 1, 6, 9, 12]);
    assert_eq!(front((512, 8192, 32), SMALLER), [3, 0, 5, 9, 13]);
    assert_eq!(front((1024, 2048, 32), HALVING), [3, 1, 5, 10, 11]);
    // With one range, and with another number.
    assert_eq!(heads().len(), 2 * 2 * 88);
}

#[test]
fn places_in_version_3() {
    assert_eq!(place(&[3]), 1);
    assert_eq!(place(&[3, 2, 5]), 1);
    assert_eq!(place(&[3, 0x80, 0]), 1);
    assert_eq!(place(&[3, 0]), 2);
    assert_eq!(place(&[3, 0, 4]), 2);
    assert_eq!(place(&[3, 1, 7]), 2);
    assert_eq!(place(&[3, 1, 6]), 3);
    // ELEN is below RLEN, and RLEN at most 2^12.
    assert_eq!(place(&[3, 0, 6, 6]), 3);
    assert_eq!(place(&[3, 0, 5, 5]), 3);
    assert_eq!(place(&[3, 0, 5, 13]), 3);
    // Of an old RLEN with ELEN 32, MLEN is beyond 2^12.
    for rlen in 6..=9 {
        assert_eq!(place(&[3, 0, 5, rlen]), 4);
        (0..=12).for_each(|mlen| assert_eq!(place(&[3, 0, 5, rlen, mlen]), 4));
        (13..=16).for_each(|mlen| assert_eq!(place(&[3, 0, 5, rlen, mlen]), 5));
        assert_eq!(place(&[3, 0, 5, rlen, 17]), 4);
    }
    assert_eq!(place(&[3, 0, 5, 10, 10]), 4);
    assert_eq!(place(&[3, 0, 5, 10, 11]), 5);
    assert_eq!(place(&[3, 0, 6, 7, 7]), 4);
    assert_eq!(place(&[3, 0, 6, 7, 8]), 5);
    // mtype 3 and 9 at ELEN 64 alone.
    for (mtype, legal) in [(2, true), (3, false), (8, true), (9, false), (10, false)] {
        assert_eq!(place(&[3, 0, 5, 9, 13, mtype]), if legal { 6 } else { 5 });
    }
    for (mtype, legal) in [(3, true), (4, false), (9, true), (10, false), (11, false)] {
        assert_eq!(place(&[3, 0, 6, 9, 13, mtype]), if legal { 6 } else { 5 });
    }
    // Larger machines in the older versions.
    assert_eq!(place(&[1, 10]), 1);
    assert_eq!(place(&[1, 9, 13]), 2);
    assert_eq!(place(&[2, 1, 10]), 2);
    assert_eq!(place(&[2, 1, 9, 13]), 3);
}
