//! The codes of section 6.1.7 of document 000, of which four are ours: the others get 1, as
//! before request Eleven.

use crate::random::Random;
use crate::states::cases::good_case;
use crate::states::words::any_row;
use crate::suite::{check_step, each_case, Context, Outcome};
use model::MILL;

/// Name, bits 31..26, bit 25 and bits 14..12, in the order that is printed.
const SECTION_6_1_7: [(&str, u32, u32, u32); 74] = [
    ("mlae8.v", 0b100001, 0, 0b000),
    ("mlae16.v", 0b100001, 0, 0b001),
    ("mlae32.v", 0b100001, 0, 0b010),
    ("mlae64.v", 0b100001, 0, 0b011),
    ("mlbe8.v", 0b100010, 0, 0b000),
    ("mlbe16.v", 0b100010, 0, 0b001),
    ("mlbe32.v", 0b100010, 0, 0b010),
    ("mlbe64.v", 0b100010, 0, 0b011),
    ("mlce8.v", 0b100000, 0, 0b000),
    ("mlce16.v", 0b100000, 0, 0b001),
    ("mlce32.v", 0b100000, 0, 0b010),
    ("mlce64.v", 0b100000, 0, 0b011),
    ("msae8.v", 0b100001, 1, 0b000),
    ("msae16.v", 0b100001, 1, 0b001),
    ("msae32.v", 0b100001, 1, 0b010),
    ("msae64.v", 0b100001, 1, 0b011),
    ("msbe8.v", 0b100010, 1, 0b000),
    ("msbe16.v", 0b100010, 1, 0b001),
    ("msbe32.v", 0b100010, 1, 0b010),
    ("msbe64.v", 0b100010, 1, 0b011),
    ("msce8.v", 0b100000, 1, 0b000),
    ("msce16.v", 0b100000, 1, 0b001),
    ("msce32.v", 0b100000, 1, 0b010),
    ("msce64.v", 0b100000, 1, 0b011),
    ("mmvar.v.m", 0b000001, 0, 0b101),
    ("mmvar.m.v", 0b000001, 1, 0b101),
    ("mmvbr.v.m", 0b000010, 0, 0b101),
    ("mmvbr.m.v", 0b000010, 1, 0b101),
    ("mmvcr.v.m", 0b000000, 0, 0b101),
    ("mmvcr.m.v", 0b000000, 1, 0b101),
    ("mmvac.v.m", 0b000101, 0, 0b101),
    ("mmvac.m.v", 0b000101, 1, 0b101),
    ("mmvbc.v.m", 0b000110, 0, 0b101),
    ("mmvbc.m.v", 0b000110, 1, 0b101),
    ("mmvcc.v.m", 0b000100, 0, 0b101),
    ("mmvcc.m.v", 0b000100, 1, 0b101),
    ("mwmvcr.v.m", 0b010000, 0, 0b101),
    ("mwmvcr.m.v", 0b010000, 1, 0b101),
    ("mwmvcc.v.m", 0b010100, 0, 0b101),
    ("mwmvcc.m.v", 0b010100, 1, 0b101),
    ("mqmvcr.v.m", 0b100000, 0, 0b101),
    ("mqmvcr.m.v", 0b100000, 1, 0b101),
    ("mqmvcc.v.m", 0b100100, 0, 0b101),
    ("mqmvcc.m.v", 0b100100, 1, 0b101),
    ("memulcr.mv", 0b100001, 0, 0b110),
    ("mfemulcr.mv", 0b100001, 1, 0b110),
    ("mwemulcr.mv", 0b100010, 0, 0b110),
    ("mfwemulcr.mv", 0b100010, 1, 0b110),
    ("mqemulcr.mv", 0b100011, 0, 0b110),
    ("memulcc.mv", 0b100100, 0, 0b110),
    ("mfemulcc.mv", 0b100100, 1, 0b110),
    ("mwemulcc.mv", 0b100101, 0, 0b110),
    ("mfwemulcc.mv", 0b100101, 1, 0b110),
    ("mqemulcc.mv", 0b100110, 0, 0b110),
    ("maddcr.mv", 0b100111, 0, 0b110),
    ("mfaddcr.mv", 0b100111, 1, 0b110),
    ("mwaddcr.mv", 0b101000, 0, 0b110),
    ("mfwaddcr.mv", 0b101000, 1, 0b110),
    ("mqaddcr.mv", 0b101001, 0, 0b110),
    ("maddcc.mv", 0b101010, 0, 0b110),
    ("mfaddcc.mv", 0b101010, 1, 0b110),
    ("mwaddcc.mv", 0b101011, 0, 0b110),
    ("mfwaddcc.mv", 0b101011, 1, 0b110),
    ("mqaddcc.mv", 0b101100, 0, 0b110),
    ("mmacccr.mv", 0b101101, 0, 0b110),
    ("mfmacccr.mv", 0b101101, 1, 0b110),
    ("mwmacccr.mv", 0b101110, 0, 0b110),
    ("mfwmacccr.mv", 0b101110, 1, 0b110),
    ("mqmacccr.mv", 0b101111, 0, 0b110),
    ("mmacccc.mv", 0b110000, 0, 0b110),
    ("mfmacccc.mv", 0b110000, 1, 0b110),
    ("mwmacccc.mv", 0b110001, 0, 0b110),
    ("mfwmacccc.mv", 0b110001, 1, 0b110),
    ("mqmacccc.mv", 0b110010, 0, 0b110),
];

const OURS: [&str; 4] = ["mmvcr.v.m", "mmvcr.m.v", "mmvcc.v.m", "mmvcc.m.v"];

/// Every code with any operands, on machines on which good words are done, also while mill
/// is set. Ours get an answer of their own: none of 1, 10 and 11.
pub fn listing_of_vectors(context: &mut Context) -> Outcome {
    let count = 40 * SECTION_6_1_7.len() as u64;
    each_case(context, "section 6.1.7", count, |case, random: &mut Random, tally| {
        let (name, funct6, bit_25, funct3) = SECTION_6_1_7[case as usize % SECTION_6_1_7.len()];
        let code = funct6 << 26 | bit_25 << 25 | funct3 << 12 | 0b1110111;
        let word = code | (random.next() as u32 & 0x01FF_8F80);
        let row = any_row(random);
        let mut lent = good_case(random, row).lent;
        if random.chance(20) {
            let mut machine = lent.machine();
            machine.mtype = MILL;
            lent.set_machine(&machine);
        }
        let (number, _) = check_step(word, &lent, tally)?;
        let right = match OURS.contains(&name) {
            true => ![1, 10, 11].contains(&number),
            false => number == 1,
        };
        match right {
            true => Ok(()),
            false => Err(format!("{name}, {word:#010x}: {number}")),
        }
    })
}
