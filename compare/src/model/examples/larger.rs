//! Larger machines and ELEN 64 (request Ten).

use super::*;
use crate::Matrix::*;

#[test]
fn lengths_at_their_bounds() {
    let permitted = |rlen, mlen, elen| lengths_permitted((rlen, mlen, elen));
    assert!(permitted(64, 128, 32) && permitted(64, 65536, 32) && permitted(4096, 65536, 32));
    assert!(permitted(128, 256, 64) && permitted(4096, 8192, 64) && permitted(4096, 65536, 64));
    // ELEN below RLEN, RLEN below MLEN.
    assert!(!permitted(64, 128, 64) && !permitted(4096, 4096, 32) && !permitted(4096, 4096, 64));
    assert!(!permitted(8192, 65536, 32) && !permitted(4096, 131_072, 64));
    for elen in [0, 8, 16, 31, 33, 63, 65, 128, 1 << 32] {
        assert!(!permitted(4096, 65536, elen));
    }
    assert_eq!(permitted_lengths().len(), 49 + 39);
}

#[test]
fn mtypes_by_elen() {
    let legal = |elen| -> Vec<u64> { (0..32).filter(|&to| new_mtype(to, elen) == to).collect() };
    assert_eq!(legal(32), [0, 1, 2, 8]);
    assert_eq!(legal(64), [0, 1, 2, 3, 8, 9]);
    // mtype 9: 4 x 16 bits.
    let mut bench = started_as((128, 256, 64), 0);
    let mut scalars = vec![0; 32];
    assert_eq!(number(0x0004F2F7, &mut bench, &mut scalars), 0);
    assert_eq!((bench.machine.mtype, scalars[5]), (9, 9));
    let mut bench = started(0);
    assert_eq!(number(0x0004F2F7, &mut bench, &mut scalars), 0);
    assert_eq!((bench.machine.mtype, scalars[5]), (MILL, MILL));
}

#[test]
fn maxima_of_larger_machines() {
    let maxima = |lengths, sew| {
        let machine = Machine::of(lengths, SMALLER);
        [Size::M, Size::K, Size::N].map(|size| maximum(&machine, size, sew))
    };
    assert_eq!(maxima((64, 65536, 32), 8), [1024, 8, 8]);
    assert_eq!(maxima((4096, 65536, 64), 8), [16, 16, 512]);
    assert_eq!(maxima((4096, 65536, 64), 64), [16, 16, 64]);
    assert_eq!(maxima((128, 256, 64), 64), [2, 2, 2]);
}

#[test]
fn products_at_64_bits() {
    // Two of -2^63 x -2^63 are 2^127, whose low 64 bits are 0; with -1 x -2^63 they are
    // 2^63, which is -2^63 at 64 bits. (2^63 - 1)^2 is 1 there.
    let (least, most) = (i64::MIN as i128, i64::MAX as i128);
    let bench = |a: &[i128], b: &[i128]| {
        let k = a.len() as u64;
        let plan = plan(64, 1, 1, k, 1);
        let mut bench = started_as((128, 256, 64), (16 * k + 8) as usize);
        for (at, &value) in a.iter().chain(b).enumerate() {
            put(value, &mut bench.memory[8 * at..8 * at + 8]);
        }
        let expected = product(&plan, &bench.memory);
        let mut run = run_start(&plan, &bench).expect("accepted");
        run_turns(u64::MAX, &mut run, &mut bench);
        let c = elements(plan.placed(C), &bench.memory);
        assert_eq!(c, expected);
        c[0][0]
    };
    assert_eq!(bench(&[3, -5], &[7, 11]), -34);
    assert_eq!(bench(&[least, least], &[least, least]), 0);
    assert_eq!(bench(&[least, least, -1], &[least, least, least]), least);
    assert_eq!(bench(&[most], &[most]), 1);
    assert_eq!(bench(&[most, 1], &[1, 1]), least);
    // 2^32 x 2^31 is 2^63; 2^32 x 2^32 is gone.
    assert_eq!(bench(&[1 << 32], &[1 << 31]), least);
    assert_eq!(bench(&[1 << 32], &[1 << 32]), 0);
}

#[test]
fn c_of_four_times_16_bits() {
    // Four products of -32768 x -32768 are 2^32, beyond 32 bits.
    let plan = plan(16, 4, 1, 4, 1);
    let mut bench = started_as((128, 256, 64), 24);
    bench.memory[..16].copy_from_slice(&[0, 0x80].repeat(8));
    let run = run_start(&plan, &bench).expect("accepted");
    // mtype 9, then a clear and a multiply at four times SEW, and a store of 64 bits.
    let words: Vec<u32> = run.steps.iter().map(|step| step.word).collect();
    assert_eq!(words[0], 0x0004_F077);
    assert!(words.contains(&assemble("mqemulc.mi", &[])));
    assert!(words.contains(&assemble("mqma.mm", &[("ms2", 1)])));
    assert_eq!(words.last(), Some(&assemble("msce64.m", &[("rs1", 10), ("rs2", 11)])));
    run_turns(u64::MAX, &mut run.clone(), &mut bench);
    assert_eq!(bench.memory[16..], [0, 0, 0, 0, 1, 0, 0, 0]);
    // With ELEN 32 none of the three is taken.
    let narrow = started_as((128, 256, 32), 64);
    for (sew, factor) in [(16, 4), (32, 2), (64, 1)] {
        let plan = Plan { sew, factor, m: 0, ..plan };
        assert_eq!(run_start(&plan, &narrow), Err(8));
        assert!(run_start(&plan, &bench).is_ok());
    }
    for (sew, factor) in [(32, 4), (64, 2), (64, 4), (128, 1)] {
        assert_eq!(run_start(&Plan { sew, factor, m: 0, ..plan }, &bench), Err(8));
    }
}

#[test]
fn loads_and_stores_of_64_bits() {
    let mut scalars = vec![0; 32];
    (scalars[1], scalars[2]) = (8, 16);
    let load = assemble("mlae64.m", &[("rs1", 1), ("rs2", 2)]);
    let store = assemble("msate64.m", &[("rs1", 2), ("rs2", 1)]);
    let mut bench = started_as((128, 256, 64), 48);
    bench.machine = Machine { mtype: 3, tile_m: 2, tile_k: 2, ..bench.machine };
    bench.memory = (0..48).collect();
    assert_eq!(number(load, &mut bench, &mut scalars), 0);
    // tr0's rows have 16 bytes: those from 8 and from 24 on.
    assert_eq!(bench.registers[..32], (8..40).collect::<Vec<u8>>()[..]);
    // Rows of 16 bytes 8 apart meet; 16 apart they are columns.
    assert_eq!(number(store, &mut bench, &mut scalars), 13);
    scalars[1] = 16;
    assert_eq!(number(store, &mut bench, &mut scalars), 0);
    let expected: Vec<u8> = (8..16).chain(24..32).chain(16..24).chain(32..40).collect();
    assert_eq!(bench.memory[16..48], expected[..]);
    // At ELEN 32 it is a width that is never permitted.
    let mut bench = started_as((128, 256, 32), 48);
    for mtype in [0, 1, 2, 8] {
        bench.machine.mtype = mtype;
        assert_eq!(number(load, &mut bench, &mut scalars), 3);
    }
    // An mtype that can't arise at ELEN 32 is a fault of the state.
    bench.machine.mtype = 3;
    assert_eq!(number(load, &mut bench, &mut scalars), 8);
}

#[test]
fn multipliers_at_64_bits() {
    // One element of 64 bits in acc0, from byte 256 on, times all 64 bits of the scalar.
    let scaled = |name: &str, old: i64, scalar: u64| {
        let mut bench = started_as((128, 256, 64), 0);
        bench.machine = Machine { mtype: 3, tile_m: 1, tile_n: 1, ..bench.machine };
        bench.registers[256..264].copy_from_slice(&old.to_le_bytes());
        bench.marks[256..264].fill(1);
        let mut scalars = vec![0; 32];
        scalars[7] = scalar;
        let word = assemble(name, &[("rs2", 7), ("imm", 31)]);
        assert_eq!(number(word, &mut bench, &mut scalars), 0);
        i64::from_le_bytes(bench.registers[256..264].try_into().unwrap())
    };
    assert_eq!(scaled("memulc.mx", 3, 1 << 63), i64::MIN);
    assert_eq!(scaled("memulc.mx", i64::MIN, u64::MAX), i64::MIN);
    assert_eq!(scaled("memulc.mx", i64::MIN, 1 << 63), 0);
    assert_eq!(scaled("memulc.mx", 1 << 40, 1 << 20), 1 << 60);
    // The immediate 31 is -1.
    assert_eq!(scaled("memulc.mi", 5, 0), -5);
    assert_eq!(scaled("memulc.mi", i64::MIN, 0), i64::MIN);
}

#[test]
fn far_elements_without_a_mark() {
    // 1,024 rows of 8 bytes, and 16 rows of 512.
    for (lengths, i, j) in [((64, 65536, 32), 1023, 7), ((4096, 65536, 64), 15, 511)] {
        let mut bench = started_as(lengths, 0);
        let sizes = [Size::M, Size::K, Size::N].map(|size| maximum(&bench.machine, size, 8) as u64);
        let [tile_m, tile_k, tile_n] = sizes;
        bench.machine = Machine { tile_m, tile_k, tile_n, ..bench.machine };
        bench.marks.fill(1);
        // The last byte of acc0's last row at 8 bits: rows of RLEN / 2 bytes.
        let at = lengths.1 + i * lengths.0 / 2 + j;
        bench.marks[at as usize] = 0;
        let given = step(assemble("maddc.mm", &[]), &mut bench, &mut [0; 32]);
        assert_eq!(given, Answer { number: 5, row: i, column: j });
    }
}
