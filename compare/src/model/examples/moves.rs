//! Moves by hand (request Eleven).

use super::*;
use crate::moves::*;

/// MLEN 512 and RLEN 64: eight rows, of eight columns at SEW 8. acc0 holds 16 x row + byte
/// in bytes 0 to 15 of each row, the vector file the low byte of each place plus 100.
fn bench(mtype: u64, tile_m: u64, tile_n: u64) -> (Bench, Vectors) {
    let machine = Machine { mtype, tile_m, tile_n, ..Machine::of((64, 512, 32), SMALLER) };
    let mut registers = vec![0xEE; register_bytes(512)];
    for row in 0..8 {
        for byte in 0..16 {
            registers[512 + 32 * row + byte] = (16 * row + byte) as u8;
        }
    }
    let marks = vec![1; registers.len()];
    let file = (0..VECTOR_FILE_BYTES).map(|at| (at + 100) as u8).collect();
    (Bench { machine, registers, marks, memory: vec![] }, Vectors { file, group: 2 })
}

fn with_scalar(value: u64) -> Vec<u64> {
    let mut scalars = vec![99; 32];
    scalars[5] = value;
    scalars
}

/// A move with x5 as its scalar: its answer.
fn moved(
    name: &str,
    [register, vector]: [u32; 2],
    x5: u64,
    bench: &mut Bench,
    vectors: &mut Vectors,
) -> Answer {
    let operands = [("ms1", register), ("md", register), ("vd", vector), ("vs1", vector)];
    let word = assemble(name, &[&operands[..], &[("rs2", 5)]].concat());
    let mut scalars = with_scalar(x5);
    let given = vector_step(word, bench, &mut scalars, vectors);
    assert_eq!(scalars, with_scalar(x5));
    given
}

#[test]
fn words_of_moves() {
    for (word, name, operands) in [
        (0x00205077, "mmvcr.v.m", [("vd", 0), ("ms1", 0), ("rs2", 2)]),
        (0x01F0DFF7, "mmvcr.v.m", [("vd", 31), ("ms1", 1), ("rs2", 31)]),
        (0x022FD0F7, "mmvcr.m.v", [("md", 1), ("vs1", 31), ("rs2", 2)]),
        (0x1020D477, "mmvcc.v.m", [("vd", 8), ("ms1", 1), ("rs2", 2)]),
        (0x12245077, "mmvcc.m.v", [("md", 0), ("vs1", 8), ("rs2", 2)]),
    ] {
        assert_eq!(assemble(name, &operands), word, "{name}");
        assert_eq!(decode(word).expect("a move").row.name, name);
    }
    // Accumulators 2 and 31, in 19..15 of a move out and in 11..7 of a move in.
    for word in [0x00015077, 0x000FD077, 0x02005177, 0x02005FF7, 0x10015077, 0x12005177] {
        assert_eq!(decode(word).err(), Some(12), "{word:#010x}");
    }
}

#[test]
fn rows_to_vectors() {
    let (mut bench, mut vectors) = bench(0, 4, 3);
    let (before, file) = (bench.clone(), vectors.file.clone());
    assert_eq!(moved("mmvcr.v.m", [0, 6], 1, &mut bench, &mut vectors), answer(0));
    assert_eq!(bench, before);
    // Row 1 in v6, row 2 in v7.
    let mut expected = file;
    expected[96..99].copy_from_slice(&[16, 17, 18]);
    expected[112..115].copy_from_slice(&[32, 33, 34]);
    assert_eq!(vectors.file, expected);
}

#[test]
fn columns_to_vectors() {
    let (mut bench, mut vectors) = bench(1, 3, 4);
    let (before, file) = (bench.clone(), vectors.file.clone());
    assert_eq!(moved("mmvcc.v.m", [0, 2], 2, &mut bench, &mut vectors), answer(0));
    assert_eq!(bench, before);
    // Column 2 has bytes 4 and 5 of rows 0 to 2, column 3 has 6 and 7.
    let mut expected = file;
    expected[32..38].copy_from_slice(&[4, 5, 20, 21, 36, 37]);
    expected[48..54].copy_from_slice(&[6, 7, 22, 23, 38, 39]);
    assert_eq!(vectors.file, expected);
}

#[test]
fn vectors_to_rows() {
    let (mut bench, mut vectors) = bench(2, 3, 2);
    bench.marks.fill(0);
    let (before, file) = (bench.clone(), vectors.clone());
    assert_eq!(moved("mmvcr.m.v", [1, 30], 0, &mut bench, &mut vectors), answer(0));
    assert_eq!(vectors, file);
    // v30 starts at byte 480: 580 is 68 modulo 256.
    let mut expected = before;
    for (row, first) in [(0, 68), (1, 84)] {
        let at = 512 + 256 + 32 * row;
        expected.registers[at..at + 8]
            .copy_from_slice(&[0, 1, 2, 3, 4, 5, 6, 7].map(|b| b + first));
        expected.marks[at..at + 8].fill(1);
    }
    assert_eq!(bench, expected);
}

#[test]
fn vectors_to_columns() {
    let (mut bench, mut vectors) = bench(0, 2, 8);
    bench.marks.fill(0);
    vectors.group = 4;
    let (before, file) = (bench.clone(), vectors.clone());
    assert_eq!(moved("mmvcc.m.v", [0, 4], 3, &mut bench, &mut vectors), answer(0));
    assert_eq!(vectors, file);
    // v4 to v7 start at 64, 80, 96 and 112, and hold 100 more.
    let mut expected = before;
    expected.registers[515..519].copy_from_slice(&[164, 180, 196, 212]);
    expected.registers[547..551].copy_from_slice(&[165, 181, 197, 213]);
    expected.marks[515..519].fill(1);
    expected.marks[547..551].fill(1);
    assert_eq!(bench, expected);
}

/// What every move answers to a group start and a scalar.
fn answers(before: &(Bench, Vectors), vector: u32, x5: u64) -> [u64; 4] {
    ["mmvcr.v.m", "mmvcr.m.v", "mmvcc.v.m", "mmvcc.m.v"].map(|name| {
        let (mut bench, mut vectors) = before.clone();
        let given = moved(name, [0, vector], x5, &mut bench, &mut vectors);
        if given.number != 0 {
            assert_eq!((bench, vectors), *before, "{name}");
        }
        given.number
    })
}

#[test]
fn slices_past_the_tile() {
    let state = bench(0, 4, 6);
    assert_eq!(answers(&state, 0, 0), [0; 4]);
    assert_eq!(answers(&state, 0, 2), [0; 4]);
    assert_eq!(answers(&state, 0, 3), [4, 4, 0, 0]);
    assert_eq!(answers(&state, 0, 4), [4, 4, 0, 0]);
    for past in [5, 6, 1 << 32, 1 << 63, u64::MAX - 1, u64::MAX] {
        assert_eq!(answers(&state, 0, past), [4; 4], "{past}");
    }
    // Lines of no element: only those of the tile may be named.
    assert_eq!(answers(&bench(0, 4, 0), 0, 2), [0, 0, 4, 4]);
    assert_eq!(answers(&bench(0, 4, 0), 0, 3), [4; 4]);
    assert_eq!(answers(&bench(0, 0, 6), 0, 4), [4, 4, 0, 0]);
    assert_eq!(answers(&bench(0, 0, 0), 0, 0), [4; 4]);
}

#[test]
fn lines_of_128_bits_and_more() {
    // RLEN 256: 8 rows, up to 32 columns at SEW 8; at SEW 64 a column of 2 has 128 bits.
    let on = |lengths, mtype, tile_m, tile_n| {
        let machine = Machine { mtype, tile_m, tile_n, ..Machine::of(lengths, SMALLER) };
        let registers = vec![7; register_bytes(machine.mlen)];
        let marks = vec![1; registers.len()];
        (Bench { machine, registers, marks, memory: vec![] }, unused())
    };
    let lengths = (256, 2048, 64);
    for (mtype, elements) in [(0, 16), (1, 8), (2, 4), (3, 2)] {
        assert_eq!(answers(&on(lengths, mtype, 1, elements), 0, 0), [0; 4]);
        assert_eq!(answers(&on(lengths, mtype, 1, elements + 1), 0, 0)[..2], [4; 2]);
    }
    assert_eq!(answers(&on(lengths, 3, 2, 1), 0, 0), [0; 4]);
    assert_eq!(answers(&on(lengths, 3, 3, 1), 0, 0), [0, 0, 4, 4]);
    let tall = (64, 2048, 32);
    assert_eq!(answers(&on(tall, 0, 16, 1), 0, 0), [0; 4]);
    assert_eq!(answers(&on(tall, 0, 17, 1), 0, 0), [0, 0, 4, 4]);
    // A tile size above its maximum, though nothing else is too large.
    assert_eq!(answers(&on((64, 128, 32), 1, 1, 4), 0, 0), [0; 4]);
    assert_eq!(answers(&on((64, 128, 32), 1, 1, 5), 0, 0), [4; 4]);
}

#[test]
fn files_and_groups_at_fault() {
    for (length, group, expected) in [
        (512, 1, 0),
        (512, 2, 0),
        (512, 4, 0),
        (512, 8, 4),
        (0, 1, 8),
        (511, 1, 8),
        (513, 1, 8),
        (512, 0, 8),
        (512, 3, 8),
        (512, 16, 8),
        (512, 1 << 63, 8),
    ] {
        let (mut state, _) = bench(0, 4, 4);
        let vectors = Vectors { file: vec![5; length], group };
        assert_eq!(answers(&(state.clone(), vectors.clone()), 0, 0), [expected; 4]);
        // Before the word is looked at, of any word.
        let [setting, none] = if expected == 8 { [8, 8] } else { [0, 10] };
        for (word, number) in [(assemble("msettypei", &[]), setting), (0, none)] {
            let mut scalars = vec![0; 32];
            let given = vector_step(word, &mut state, &mut scalars, &mut vectors.clone());
            assert_eq!(given.number, number, "{word:#x}, {length} bytes, groups of {group}");
        }
    }
}

#[test]
fn groups_that_start_elsewhere() {
    let starts: [(u64, &[u32]); 3] = [
        (2, &[0, 2, 4, 6, 8, 10, 12, 14, 16, 18, 20, 22, 24, 26, 28, 30]),
        (4, &[0, 4, 8, 12, 16, 20, 24, 28]),
        (8, &[0, 8, 16, 24]),
    ];
    let mut state = bench(0, 8, 8);
    for start in 0..32 {
        state.1.group = 1;
        assert_eq!(answers(&state, start, 0), [0; 4]);
        for (group, starts) in starts {
            state.1.group = group;
            let aligned = starts.contains(&start);
            assert_eq!(answers(&state, start, 0), [if aligned { 0 } else { 12 }; 4]);
            // Before 4, and before 2.
            assert_eq!(answers(&state, start, 99), [if aligned { 4 } else { 12 }; 4]);
            state.0.machine.mtype = MILL;
            assert_eq!(answers(&state, start, 99), [if aligned { 2 } else { 12 }; 4]);
            state.0.machine.mtype = 0;
        }
    }
}

#[test]
fn unwritten_elements_of_a_move() {
    let five = |row, column| Answer { number: 5, row, column };
    let out = |name, x5, unmarked: &[(usize, usize)]| {
        let (mut bench, mut vectors) = bench(1, 4, 4);
        for (row, byte) in unmarked {
            bench.marks[512 + 32 * row + byte] = 0;
        }
        moved(name, [0, 4], x5, &mut bench, &mut vectors)
    };
    // Rows 1 and 2; byte 3 is of column 1, byte 7 of column 3.
    assert_eq!(out("mmvcr.v.m", 1, &[(2, 3)]), five(2, 1));
    assert_eq!(out("mmvcr.v.m", 1, &[(2, 0), (1, 7)]), five(1, 3));
    assert_eq!(out("mmvcr.v.m", 1, &[(0, 0), (3, 0), (1, 8), (2, 15)]), answer(0));
    // Columns 1 and 2, the row above first.
    assert_eq!(out("mmvcc.v.m", 1, &[(3, 3)]), five(3, 1));
    assert_eq!(out("mmvcc.v.m", 1, &[(2, 2), (1, 5)]), five(1, 2));
    assert_eq!(out("mmvcc.v.m", 1, &[(0, 0), (3, 1), (0, 6), (3, 7), (4, 3)]), answer(0));
    // A move in reads no element; a slice past the tile comes first.
    assert_eq!(out("mmvcr.m.v", 1, &[(1, 0)]), answer(0));
    assert_eq!(out("mmvcc.v.m", 3, &[(0, 6)]), answer(4));
}

#[test]
fn out_and_back() {
    // Two rows of four elements, and two columns of four: nothing else is marked.
    for (name, back, rows, bytes) in
        [("mmvcr.v.m", "mmvcr.m.v", 2..4, 0..8), ("mmvcc.v.m", "mmvcc.m.v", 0..4, 4..8)]
    {
        let (mut bench, mut vectors) = bench(1, 4, 4);
        bench.marks.fill(0);
        for row in rows {
            bench.marks[512 + 32 * row + bytes.start..512 + 32 * row + bytes.end].fill(1);
        }
        let before = bench.clone();
        assert_eq!(moved(name, [0, 8], 2, &mut bench, &mut vectors), answer(0));
        assert_eq!(moved(back, [0, 8], 2, &mut bench, &mut vectors), answer(0));
        assert_eq!(bench, before, "{name}");
    }
}

#[test]
fn listing_of_6_1_7() {
    // funct6 and bit 25 of its data moves: all but entries 29, 30, 35 and 36 get 1.
    for funct6 in 0..64 {
        for bit_25 in 0..2 {
            let word = funct6 << 26 | bit_25 << 25 | 0b101 << 12 | OPCODE;
            let ours = funct6 == 0b000000 || funct6 == 0b000100;
            assert_eq!(decode(word).err(), if ours { None } else { Some(1) }, "{word:#010x}");
        }
    }
}
