//! Lines by hand (request Fourteen).

use crate::text::*;

/// A line of every form of operands, with its word.
const LINES: [(u32, &str); 22] = [
    (0x000472F7, "msettypei x5, 8"),
    (0x100572F7, "msettype x5, x10"),
    (0x2003F077, "msettilemi x0, 7"),
    (0x4001F377, "msettileki x6, 3"),
    (0x6FFFFFF7, "msettileni x31, 8191"),
    (0x00007077, "msettypei x0, 0"),
    (0x70007077, "msettilen x0, x0"),
    (0x04B50077, "mlae8.m tr0, (x10), x11"),
    (0x01F53FF7 & !(31 << 7) | 1 << 7, "mlce64.m acc1, (x10), x31"),
    (0x1BFFBFF7 & !(31 << 7) | 7 << 7, "msbte64.m tr7, (x31), x31"),
    (0x00106077, "mma.mm acc0, tr0, tr1"),
    (0x0273E0F7, "mfma.mm acc1, tr7, tr7"),
    (0x08106077, "mqma.mm acc0, tr0, tr1"),
    (0x1800E077, "mqaddc.mm acc0, acc1"),
    (0x300060F7, "mqrsubc.mm acc1, acc0"),
    (0x3DF0E0F7, "mqemulc.mx acc1, acc1, x31"),
    (0x400060F7, "memulc.mi acc1, acc0, 0"),
    (0x40F060F7, "memulc.mi acc1, acc0, 15"),
    (0x410060F7, "memulc.mi acc1, acc0, -16"),
    (0x49F06077, "mqemulc.mi acc0, acc0, -1"),
    (0x01F0DFF7, "mmvcr.v.m v31, acc1, x31"),
    (0x12245077, "mmvcc.m.v acc0, v8, x2"),
];

#[test]
fn lines_both_ways() {
    for (word, line) in LINES {
        assert_eq!(line_of(word).as_deref(), Ok(line), "{word:#010x}");
        assert_eq!(word_of(line.as_bytes()), Ok(word), "{line}");
    }
}

#[test]
fn as_many_lines() {
    let settings = 4 * 8192 * 32 + 4 * 32 * 32;
    let transfers = 32 * 8 * 1024 + 16 * 2 * 1024;
    let arithmetic = 4 * 2 * 64 + 9 * 4 + 3 * 4 * 32 + 3 * 4 * 32;
    let moves = 4 * 32 * 2 * 32;
    assert_eq!(ways(), settings + transfers + arithmetic + moves);
}

#[test]
fn words_without_a_line() {
    // another opcode, a float word, bits of no row, tile register 8 and accumulator 2
    for (word, number) in [
        (0, 10),
        (0x04B50076, 10),
        (0x06006077, 11),
        (0x1001_7077 | 1 << 20, 1),
        (0x80000077, 1),
        (0x04B50477, 12),
        (0x08806077, 12),
        (0x00B50177, 12),
        (0x00015077, 12),
    ] {
        assert_eq!(line_of(word), Err(number), "{word:#010x}");
    }
}

#[test]
fn columns() {
    for (line, column) in [
        ("", 1),
        ("m", 2),
        ("x", 1),
        ("Mma.mm acc0, tr0, tr1", 1),
        (" mma.mm acc0, tr0, tr1", 1),
        ("mma.mm", 7),
        ("mma.mm ", 8),
        ("mma.mm  acc0, tr0, tr1", 8),
        ("mma.mm acc2, tr0, tr1", 11),
        ("mma.mm acc0,tr0, tr1", 13),
        ("mma.mm acc0, tr0, tr8", 21),
        ("mma.mm acc0, tr0, tr1 ", 22),
        ("mma.mm acc0, tr0, tr1\r", 22),
        ("mma.mm acc0, tr0", 17),
        ("mmb.mm", 3),
        ("mgma.mm acc0, tr0, tr1", 2),
        ("mlae8.m tr0, [x10], x11", 14),
        ("mlae8.m tr0, (x10, x11", 18),
        ("mlae8.m tr0, (x32), x11", 17),
        ("mlae8.m tr0, (x010), x11", 17),
        ("mlae8.m tr0, (x10), x111", 24),
        ("mlae128.m", 6),
        ("mlae1", 6),
        ("msettypei x0, 00", 16),
        ("msettypei x0, 8192", 18),
        ("msettypei x0, 82000", 18),
        ("msettypei x0, 81910", 19),
        ("msettypei x0, 9000", 18),
        ("msettypei x0, 10000", 19),
        ("msettypei x0, -1", 15),
        ("msettypei x0, e8", 15),
        ("memulc.mi acc0, acc0, -17", 25),
        ("memulc.mi acc0, acc0, -0", 24),
        ("memulc.mi acc0, acc0, -20", 25),
        ("memulc.mi acc0, acc0, 16", 24),
        ("memulc.mi acc0, acc0, +1", 23),
        ("memulc.mx acc0, acc0, 1", 23),
        ("mmvcr.v.m v32, acc0, x0", 13),
        ("mmvcr.v.m v4, tr0, x0", 15),
        ("mmvar.v.m v4, acc0, x0", 4),
        ("answer 17 1", 1),
    ] {
        assert_eq!(word_of(line.as_bytes()), Err(column), "{line:?}");
    }
}

#[test]
fn eight_digits() {
    for (line, expected) in [
        ("000472f7", Ok(0x000472F7)),
        ("ffffffff", Ok(u32::MAX)),
        ("", Err(1)),
        ("000472f", Err(8)),
        ("000472f70", Err(9)),
        ("000472f7 ", Err(9)),
        ("000472f7\r", Err(9)),
        ("000472F7", Err(7)),
        ("0x0472f7", Err(2)),
        (" 00472f7", Err(1)),
        ("000472g", Err(7)),
        ("+00472f7", Err(1)),
    ] {
        assert_eq!(digits_of(line.as_bytes()), expected, "{line:?}");
    }
}

#[test]
fn whole_texts() {
    let list = |input: &str| program(listed, input.as_bytes());
    assert_eq!(list(""), "");
    assert_eq!(list("\n"), "answer 17 1\n");
    assert_eq!(list("000472f7"), "msettypei x5, 8\n");
    assert_eq!(list("000472f7\n"), "msettypei x5, 8\n");
    assert_eq!(list("000472f7\r\n\n0"), "answer 17 9\nanswer 17 1\nanswer 17 2\n");
    assert_eq!(
        list("00000000\n06006077\n80000077\n04b50477\n"),
        "answer 10 0\nanswer 11 0\nanswer 1 0\nanswer 12 0\n"
    );
    let back = |input: &str| program(assembled, input.as_bytes());
    assert_eq!(back("msettypei x5, 8\n\nmsettypei x5, 8"), "000472f7\nanswer 17 1\n000472f7\n");
    for turn in [listed as fn(&[u8]) -> Turned, assembled] {
        assert_eq!(program(turn, &[b'\n'; MOST_INPUT]), "answer 17 1\n".repeat(MOST_INPUT));
        assert_eq!(program(turn, &[b'\n'; MOST_INPUT + 1]), "answer 8 0\n");
        assert_eq!(program(turn, &[0; MOST_INPUT]), "answer 17 1\n");
    }
}

#[test]
fn lent_room() {
    let mut room = [9; 20];
    assert_eq!(write_line(0x000472F7, &mut room), (0, 15));
    assert_eq!(&room, b"msettypei x5, 8\x09\x09\x09\x09\x09");
    assert_eq!(write_line(0x2003F077, &mut room[..15]), (14, 0));
    assert_eq!(write_line(0, &mut room[..0]), (10, 0));
    assert_eq!(&room, b"msettypei x5, 8\x09\x09\x09\x09\x09");
    let mut block = [9; 9];
    assert_eq!(read_line(b"", &mut block), (8, 0));
    assert_eq!(read_line(b"mma.m", &mut block[..8]), (17, 6));
    assert_eq!(block, [9; 9]);
    assert_eq!(read_line(b"msettypei x5, 8", &mut block[1..]), (0, 0));
    assert_eq!(block, [9, 0xF7, 0x72, 0x04, 0, 0, 0, 0, 0]);
}
