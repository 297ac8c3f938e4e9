//! Lengths around their bounds, in every call.

use crate::lent::{
    library_image_size, library_image_write, library_run, library_run_start, library_run_turn,
    library_run_turns, library_seal, library_start, second_start, words_to_bytes, Lent,
};
use crate::library;
use crate::random::Random;
use crate::runs::plans::packed_plan;
use crate::starts::{MLENS, RLENS};
use crate::states::machines::UNKNOWN_ELENS;
use crate::suite::{check_step, each_case, Context, Outcome};
use crate::tally::{Call, Tally};
use model::{assemble, Lengths, Machine, ELENS, RULES};

/// The bounds of 8, as request Ten widens them.
fn permitted((rlen, mlen, elen): Lengths) -> bool {
    let power = |length: u64, from, to| length.is_power_of_two() && from <= length && length <= to;
    power(rlen, 64, 4096)
        && power(mlen, 128, 65_536)
        && (elen == 32 || elen == 64)
        && elen < rlen
        && rlen < mlen
}

/// Lengths around all bounds, with nothing else at fault: a start, a word, the calls of a
/// run and of an image, and a run block that has them.
pub fn permitted_machines(context: &mut Context) -> Outcome {
    let elens = [&ELENS[..], &UNKNOWN_ELENS].concat();
    let mut accepted = 0;
    let count = (RLENS.len() * MLENS.len()) as u64;
    let cases = each_case(context, "permitted lengths", count, |case, random, tally| {
        let rlen = RLENS[case as usize % RLENS.len()];
        let mlen = MLENS[case as usize / RLENS.len()];
        let length = model::register_bytes(mlen.min(1 << 17));
        let registers = random.bytes(length);
        for &elen in &elens {
            let lengths = (rlen, mlen, elen);
            let expected = permitted(lengths);
            accepted += u64::from(expected);
            let given = calls_on(random, lengths, registers.clone(), tally)?;
            if given != [if expected { 0 } else { 8 }; CALLS] {
                return Err(format!("RLEN, MLEN, ELEN {lengths:?}: {given:?}"));
            }
        }
        Ok(())
    })?;
    let text = format!("{cases}, {accepted} of {} permitted", count * elens.len() as u64);
    if context.only_case.is_none() && accepted != 88 {
        return Err(text);
    }
    Ok(text)
}

const CALLS: usize = 10;

/// Answers of calls on a machine of these lengths; a refusal changes nothing.
fn calls_on(
    random: &mut Random,
    lengths: Lengths,
    registers: Vec<u8>,
    tally: &mut Tally,
) -> Result<[u64; CALLS], String> {
    let (rlen, mlen, elen) = lengths;
    let rule = random.pick(&RULES);
    let (plan, memory) = packed_plan((8, 1), [1, 1, 1]);
    let machine = Machine::of(lengths, rule);
    let mut lent = Lent {
        machine: crate::lent::machine_block(&machine),
        marks: vec![1; registers.len()],
        registers,
        scalars: vec![0; library::SCALARS_BYTES],
        memory: random.bytes(memory),
        vectors: random.bytes(library::VECTORS_BYTES),
        group: 1,
    };
    let before = lent.clone();
    let word = assemble("msettypei", &[("mtypei", 1)]);
    let stepped = check_step(word, &lent, tally)?.0;

    let size = library_image_size(&mut lent) & 0xFFFF;
    let room = vec![0xEE; before.marks.len() + 40];
    let mut written = room.clone();
    let write = library_image_write(&mut lent, &mut written) & 0xFFFF;
    let mut run = random.bytes(library::RUN_BYTES);
    let run_start = library_run_start(&plan, &mut lent, &mut run);
    tally.count(Call::ImageSize, size);
    tally.count(Call::ImageWrite, write);
    tally.run(Call::RunStart, plan.kind, run_start);
    let unchanged = lent == before && (write == 0 || written == room);

    // The first word of a run that has these lengths.
    let strides = [plan.a_stride, plan.b_stride, plan.c_stride].map(|stride| stride as u64);
    let mut forged = words_to_bytes(&[
        8, 1, 1, 1, 1, plan.a, strides[0], plan.b, strides[1], plan.c, strides[2], rlen, mlen, 0,
        0, 0, 0, 0, rule, elen,
    ]);
    let steps = library::run_steps(&mut forged);
    let mut step = vec![0; library::STEP_BYTES];
    let next = library::run_next(&mut forged.clone(), &mut step);
    let mut turned = before.clone();
    let many = library_run_turns(9, &mut forged.clone(), &mut turned);
    let mut turned = before.clone();
    let turn = library_run_turn(&mut forged, &mut turned);
    tally.run(Call::RunNext, plan.kind, next);
    tally.run(Call::RunTurn, plan.kind, turn);
    if !(steps == 9 && many == 9 || steps == 0 && many == 0) {
        return Err(format!("RLEN, MLEN, ELEN {lengths:?}: {steps} steps, {many} turns"));
    }

    let mut ran = before.clone();
    let whole = library_run(&plan, &mut ran, &mut [0; library::STEPS_BYTES]);
    tally.run(Call::WholeRun, plan.kind, whole);
    let mut started = before.clone();
    let start = library_start(lengths, rule, &mut [0, 0], &mut started);
    tally.count(Call::MachineStart, start);
    let mut sealed = before.clone();
    let seal = library_seal((0, 0), &mut sealed);
    tally.count(Call::Seal, seal);
    if !unchanged
        || [(turn, turned), (whole, ran), (start, started), (seal, sealed)]
            .iter()
            .any(|(given, after)| *given != 0 && *after != before)
    {
        return Err(format!("RLEN, MLEN, ELEN {lengths:?}: a refusal changes bytes"));
    }
    let mut second = before.clone();
    let second = second_start(lengths, rule, &[0, 0], &mut second);
    Ok([stepped, size, write, run_start, next, turn, whole, start, seal, second])
}
