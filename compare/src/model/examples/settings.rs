//! Sizes asked for by x0 and by scalars, and sizes renewed (request Three).

use super::*;

#[test]
fn sizes_asked_by_x0() {
    let mut bench = started(0);
    let mut scalars = vec![0; 32];
    bench.machine.tile_n = 8;
    bench.machine.mtype = 1;
    // Both x0: the smaller of the size and the maximum; no scalar is written.
    assert_eq!(number(assemble("msettilen", &[]), &mut bench, &mut scalars), 0);
    assert_eq!((bench.machine.tile_n, scalars.clone()), (4, vec![0; 32]));
    bench.machine.tile_n = 3;
    assert_eq!(number(assemble("msettilen", &[]), &mut bench, &mut scalars), 0);
    assert_eq!(bench.machine.tile_n, 3);
    bench.machine.tile_n = 0;
    assert_eq!(number(assemble("msettilen", &[]), &mut bench, &mut scalars), 0);
    assert_eq!(bench.machine.tile_n, 0);
    // rs1 x0 alone: the maximum.
    assert_eq!(number(assemble("msettilen", &[("rd", 3)]), &mut bench, &mut scalars), 0);
    assert_eq!((bench.machine.tile_n, scalars[3]), (4, 4));
    // rs1 not x0: the scalar, rd x0 untouched.
    scalars[9] = 3;
    assert_eq!(number(assemble("msettilen", &[("rs1", 9)]), &mut bench, &mut scalars), 0);
    assert_eq!((bench.machine.tile_n, scalars[0]), (3, 0));
    // msettype with rs1 x0 reads 0.
    scalars[0] = 2;
    assert_eq!(number(assemble("msettype", &[("rd", 1)]), &mut bench, &mut scalars), 0);
    assert_eq!((bench.machine.mtype, scalars[1]), (0, 0));
}

/// Request Three's technician: sizes at 8 bits, then 16, all sizes renewed by
/// words with both x0, then a load.
#[test]
fn sizes_renewed_after_a_change_of_sew() {
    // SEW 8 gives 4, 4, 8; at 16 they are cut to 4, 4, 4, at 32 to 4, 2, 2.
    for (mtypei, renewed, load) in [(1, [4, 4, 4], 0x08001077), (2, [4, 2, 2], 0x08002077)] {
        let mut bench = started(4096);
        let mut scalars = vec![7; 32];
        for (name, value) in [("msettilemi", 4), ("msettileki", 4), ("msettileni", 8)] {
            assert_eq!(number(assemble(name, &[("mleni", value)]), &mut bench, &mut scalars), 0);
        }
        let change = assemble("msettypei", &[("mtypei", mtypei)]);
        assert_eq!(number(change, &mut bench, &mut scalars), 0);
        assert_eq!(number(load, &mut bench, &mut scalars), 4);
        // msettilem, msettilek and msettilen with rs1 and rd x0.
        for word in [0x30007077, 0x50007077, 0x70007077] {
            assert_eq!(number(word, &mut bench, &mut scalars), 0);
        }
        let Machine { tile_m, tile_k, tile_n, .. } = bench.machine;
        assert_eq!([tile_m, tile_k, tile_n], renewed);
        assert_eq!(scalars, [7; 32]);
        assert_eq!(number(load, &mut bench, &mut scalars), 0);
    }
    // While mill is set there is no maximum.
    let mut bench = started(0);
    bench.machine.mtype = MILL;
    bench.machine.tile_n = 8;
    assert_eq!(number(0x70007077, &mut bench, &mut [0; 32]), 2);
    assert_eq!(bench.machine.tile_n, 8);
}
