//! Words of the listing and words that are none of ours (request One).

use super::*;

#[test]
fn listing_columns_make_words() {
    for (name, printed) in printed_rows() {
        assert_eq!(columns_of(printed).map(|column| column.bits).sum::<u32>(), 32, "{name}");
    }
    for row in &LISTING {
        assert_eq!(decode(assemble(row.name, &[])).expect("decodes").row, row);
    }
    for (name, _) in LEFT_OUT {
        assert_eq!(decode(assemble(name, &[])).err(), Some(11), "{name}");
    }
}

#[test]
fn no_code_is_given_twice() {
    for (name, _) in printed_rows() {
        let word = assemble(name, &[]);
        let same = printed_rows().filter(|other| has_code(other.1, word));
        assert_eq!(same.count(), 1, "{name}");
    }
}

#[test]
fn bad_words() {
    for (expected, word, what) in [
        // Another opcode, whatever else is wrong.
        (10, 0x000472F6, "msettypei with opcode 1110110"),
        (10, 0x00000000, "all zero"),
        (10, 0xFFFFFFFF, "all one"),
        (10, 0x14000076, "mlate8.m with opcode 1110110"),
        (10, 0x04000437, "mlae8.m with opcode 0110111, md 8"),
        // Left out, whatever the registers.
        (11, 0x06006077, "mfwma.mm"),
        (11, 0x07FFEFF7, "mfwma.mm, all registers 31"),
        (11, 0x12006077, "mfaddc.mm"),
        (11, 0x120FEFF7, "mfaddc.mm, ms1 and md 31"),
        (11, 0x16006077, "mfwaddc.mm"),
        (11, 0x1E006077, "mfsubc.mm"),
        (11, 0x22006077, "mfwsubc.mm"),
        (11, 0x2A006077, "mfrsubc.mm"),
        (11, 0x2E006077, "mfwrsubc.mm"),
        (11, 0x37F06077, "mfemulc.mf, rs2 31"),
        (11, 0x3A006077, "mfwemulc.mf"),
        (11, 0x62006077, "mfncvtc.f.fw.m"),
        (11, 0x60006077, "mfwcvtc.fw.f.m"),
        (11, 0x6A006077, "mfcvtc.f.x.m"),
        (11, 0x7E006077, "mfncvtc.fw.xq.m"),
        (11, 0x7C006077, "mfwcvtc.xq.fw.m"),
        (11, 0x7C0FEFF7, "mfwcvtc.xq.fw.m, ms1 and md 31"),
        // A row's zeros that are not kept, whatever the registers.
        (1, 0x12106077, "mfaddc.mm, bit 20"),
        (1, 0x61006077, "mfwcvtc.fw.f.m, bit 24"),
        (1, 0x11006077, "maddc.mm, bit 24"),
        (1, 0x11006FF7, "maddc.mm, bit 24, md 31"),
        (1, 0x10107077, "msettype, bit 20"),
        (1, 0x78007077, "msettilen, bit 27"),
        // Codes of no row.
        (1, 0x800472F7, "setting code 1000, of chapter 6"),
        (1, 0x84000077, "mlae8.v, of chapter 6"),
        (1, 0x04005077, "bits 14..12 are 101, 31..26 000001"),
        (1, 0x04004077, "bits 14..12 are 100"),
        (1, 0x14004077, "the same beside a transposed load's"),
        (1, 0x0C000077, "a load of 000011"),
        (1, 0x1C000077, "a load of 000111"),
        (1, 0x20000077, "a load of 001000"),
        (1, 0x0A006077, "mqma.mm with bit 25"),
        (1, 0x1A006077, "mqaddc.mm with bit 25"),
        (1, 0x42006077, "memulc.mi with bit 25"),
        (1, 0x4C006077, "an arithmetic 010011"),
        (1, 0x64006077, "a conversion 011001"),
        // Registers one too high.
        (12, 0x04000477, "mlae8.m, md 8"),
        (12, 0x0A001477, "msbe16.m, ms3 8"),
        (12, 0x00000177, "mlce8.m, md 2"),
        (12, 0x02003177, "msce64.m, ms3 2"),
        (12, 0x14000477, "mlate8.m, md 8"),
        (12, 0x14000FF7, "mlate8.m, md 31"),
        (12, 0x18003477, "mlbte64.m, md 8"),
        (12, 0x10000177, "mlcte8.m, md 2"),
        (12, 0x16002477, "msate32.m, ms3 8"),
        (12, 0x1A001477, "msbte16.m, ms3 8"),
        (12, 0x12003177, "mscte64.m, ms3 2"),
        (12, 0x00006177, "mma.mm, md 2"),
        (12, 0x00046077, "mma.mm, ms1 8"),
        (12, 0x00806077, "mma.mm, ms2 8"),
        (12, 0x02006177, "mfma.mm, md 2"),
        (12, 0x02046077, "mfma.mm, ms1 8"),
        (12, 0x02806077, "mfma.mm, ms2 8"),
        (12, 0x03FFEFF7, "mfma.mm, all registers 31"),
        (12, 0x10016077, "maddc.mm, ms1 2"),
        (12, 0x10006FF7, "maddc.mm, md 31"),
        (12, 0x34006177, "memulc.mx, md 2"),
        (12, 0x40016077, "memulc.mi, ms1 2"),
    ] {
        // Before 2 and after 8.
        for mtype in [0, MILL, 3] {
            let mut bench = started(0);
            let mut scalars = vec![0; 32];
            bench.machine.mtype = mtype;
            let expected = if mtype == 3 { 8 } else { expected };
            assert_eq!(number(word, &mut bench, &mut scalars), expected, "{word:#010x} {what}");
        }
    }
}

#[test]
fn good_words_at_the_bounds() {
    for (expected, word, what) in [
        (0, 0x040003F7, "mlae8.m, md 7"),
        (0, 0x000000F7, "mlce8.m, md 1"),
        (0, 0x0073E0F7, "mma.mm, md 1, ms1 7, ms2 7"),
        (0, 0x1000E0F7, "maddc.mm, md 1, ms1 1"),
        (0, 0x35F0E0F7, "memulc.mx, md 1, ms1 1, rs2 31"),
        (0, 0x100FFFF7, "msettype, rs1 31, rd 31"),
        (0, 0x0FFFFFF7, "msettypei, all immediate bits, rd 31"),
        (3, 0x0273E0F7, "mfma.mm, md 1, ms1 7, ms2 7: SEW 8"),
        (3, 0x04003077, "mlae64.m is ours, but too wide"),
        (0, 0x140003F7, "mlate8.m, md 7"),
        (0, 0x180003F7, "mlbte8.m, md 7"),
        (0, 0x100000F7, "mlcte8.m, md 1"),
        (0, 0x100010F7, "mlcte16.m, md 1: twice SEW"),
        (0, 0x160003F7, "msate8.m, ms3 7"),
        (0, 0x1A0003F7, "msbte8.m, ms3 7"),
        (0, 0x120010F7, "mscte16.m, ms3 1: twice SEW"),
        (3, 0x14001077, "mlate16.m, SEW 8"),
        (3, 0x1A002077, "msbte32.m, SEW 8"),
        (3, 0x10002077, "mlcte32.m, SEW 8 without maccq"),
        (3, 0x14003077, "mlate64.m"),
        (3, 0x18003077, "mlbte64.m"),
        (3, 0x10003077, "mlcte64.m"),
        (3, 0x16003077, "msate64.m"),
        (3, 0x1A003077, "msbte64.m"),
        (3, 0x12003077, "mscte64.m"),
    ] {
        let mut bench = started(0);
        let mut scalars = vec![0; 32];
        assert_eq!(number(word, &mut bench, &mut scalars), expected, "{word:#010x} {what}");
    }
}

/// How many words get each answer of a word's own, of all values of bits
/// 31..20 and 14..12 with these values of bits 19..15 and 11..7.
fn count_words(middle: u32, low: u32) -> [u32; 5] {
    let mut counts = [0; 5];
    for code in 0..1 << 15 {
        let word = code >> 3 << 20 | middle << 15 | (code & 7) << 12 | low << 7 | 0b1110111;
        let at = match decode(word) {
            Ok(_) => 0,
            Err(1) => 1,
            Err(10) => 2,
            Err(11) => 3,
            Err(_) => 4,
        };
        counts[at] += 1;
    }
    counts
}

#[test]
fn numbers_of_words() {
    // Ours, with bits 24..20 where they are free: four settings by immediate
    // (with bits 27..25 too) and four by scalar, 48 loads and stores, 4 moves, 4
    // multiplies (ms2 0 to 7), 9 adds and subtracts, 6 multiplies by a number.
    let settings = 4 * 256 + 4;
    let moves = (48 + 4) * 32;
    let element_wise = 9 + 6 * 32;
    // Left out: 3 float words with bits 24..20 free, 6 float words and 14
    // conversions without.
    let left_out = 3 * 32 + 6 + 14;
    let rest = |done: u32, registers: u32| (1 << 15) - done - registers - left_out;

    let done = settings + moves + 4 * 8 + element_wise;
    let registers = 4 * 24;
    assert_eq!(count_words(0, 0), [done, rest(done, registers), 0, left_out, registers]);
    assert_eq!(count_words(1, 1), [done, rest(done, registers), 0, left_out, registers]);
    // No register is 31.
    let registers = moves + 4 * 32 + element_wise;
    assert_eq!(count_words(31, 31), [settings, rest(settings, registers), 0, left_out, registers]);
}
