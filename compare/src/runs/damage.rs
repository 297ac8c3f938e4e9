//! Damaged input to the calls of a run: wrong block lengths, empty slices and
//! forged run blocks. Buffers stand between guard bytes.

use super::plans::{small_plan, UNKNOWN_KINDS};
use crate::lent::{
    bytes_to_words, handed_of, library_run_start, library_run_turns, packed, plan_of, sound,
    state_text, words_to_bytes, Lent, AT_END, C_STRIDE, ELEN, FIELDS, KIND, LENGTHS, PLACE,
    PLACE_NUMBERS, RULE, WORD,
};
use crate::library;
use crate::random::Random;
use crate::states::cases::bench_of;
use crate::states::faults::wrong_length;
use crate::states::machines::{any_machine, lengths, UNKNOWN_ELENS, UNKNOWN_RULES};
use crate::suite::{each_case, Context, Outcome};
use crate::tally::{Call, Tally};
use model::{Plan, KINDS};

const GUARD: usize = 32;

/// A buffer between bytes that no call may touch.
#[derive(Clone, PartialEq)]
struct Guarded(Vec<u8>);

impl Guarded {
    fn new(bytes: &[u8]) -> Guarded {
        let guard = [0x5A; GUARD];
        Guarded([&guard, bytes, &guard].concat())
    }

    fn bytes(&mut self) -> &mut [u8] {
        let end = self.0.len() - GUARD;
        &mut self.0[GUARD..end]
    }

    fn holds(&self, bytes: &[u8]) -> bool {
        *self == Guarded::new(bytes)
    }
}

/// Everything a call of a run is lent; the block is its run or its steps.
#[derive(Clone, PartialEq)]
struct Desk {
    block: Guarded,
    machine: Guarded,
    registers: Guarded,
    marks: Guarded,
    memory: Guarded,
}

impl Desk {
    fn new(block: &[u8], lent: &Lent) -> Desk {
        Desk {
            block: Guarded::new(block),
            machine: Guarded::new(&lent.machine),
            registers: Guarded::new(&lent.registers),
            marks: Guarded::new(&lent.marks),
            memory: Guarded::new(&lent.memory),
        }
    }

    fn holds(&self, block: &[u8], lent: &Lent) -> bool {
        *self == Desk::new(block, lent)
    }

    /// The block, machine, registers, marks and memory.
    fn parts(&mut self) -> [&mut [u8]; 5] {
        [&mut self.block, &mut self.machine, &mut self.registers, &mut self.marks, &mut self.memory]
            .map(Guarded::bytes)
    }

    fn start(&mut self, plan: &Plan) -> u64 {
        let [run, machine, registers, marks, memory] = self.parts();
        library::run_start(plan, machine, registers, marks, memory, run)
    }

    fn whole_run(&mut self, plan: &Plan) -> u64 {
        let [steps, machine, registers, marks, memory] = self.parts();
        library::run(plan, machine, registers, marks, memory, steps)
    }

    fn turn(&mut self) -> u64 {
        let [run, machine, registers, marks, memory] = self.parts();
        library::run_turn(run, machine, registers, marks, memory)
    }

    fn turns(&mut self, turns: u64) -> u64 {
        let [run, machine, registers, marks, memory] = self.parts();
        library::run_turns(turns, run, machine, registers, marks, memory)
    }
}

/// A run that is good, some turns along.
fn good_run(random: &mut Random) -> Result<(Vec<u8>, Lent), String> {
    let (plan, mut lent) = small_plan(random);
    let mut run = vec![0; library::RUN_BYTES];
    let given = library_run_start(&plan, &mut lent, &mut run);
    if given != 0 {
        return Err(format!("{plan:?} was refused with {given}"));
    }
    let turns = random.below(model::step_count(&plan, &lent.machine()) + 1);
    library_run_turns(turns, &mut run, &mut lent);
    Ok((run, lent))
}

/// Gives one or more of some buffers a wrong length; all their lengths.
fn wrong_lengths<const N: usize>(random: &mut Random, buffers: [&mut Vec<u8>; N]) -> [usize; N] {
    let chosen = random.range(1, (1 << N) - 1);
    let mut bit = 1;
    buffers.map(|buffer| {
        if chosen & bit != 0 {
            wrong_length(random, buffer);
        }
        bit *= 2;
        buffer.len()
    })
}

/// Where a call of a run is counted, the length of its block, and the call.
type PlanCall = (fn(u64) -> Call, usize, fn(&mut Desk, &Plan) -> u64);

const PLAN_CALLS: [PlanCall; 2] = [
    (Call::RunStart, library::RUN_BYTES, Desk::start),
    (Call::WholeRun, library::STEPS_BYTES, Desk::whole_run),
];

/// Calls of a run with blocks of the wrong length: 8, and nothing changes.
pub fn wrong_run_lengths(context: &mut Context) -> Outcome {
    each_case(context, "wrong run lengths", 3000, |_, random, tally| {
        for (counted, length, call) in PLAN_CALLS {
            let (plan, mut lent) = small_plan(random);
            let mut block = random.bytes(length);
            let lengths = wrong_lengths(
                random,
                [&mut block, &mut lent.machine, &mut lent.registers, &mut lent.marks],
            );
            let mut desk = Desk::new(&block, &lent);
            let given = call(&mut desk, &plan);
            if given != 8 || !desk.holds(&block, &lent) {
                let name = counted(plan.kind);
                return Err(format!("{name:?} on blocks of {lengths:?} bytes gives {given}"));
            }
            tally.run(counted, plan.kind, 8);
        }

        // Asking.
        let (run, lent) = good_run(random)?;
        let (mut bad_run, mut step) = (run.clone(), random.bytes(library::STEP_BYTES));
        let lengths = wrong_lengths(random, [&mut bad_run, &mut step]);
        let (mut run_desk, mut step_desk) = (Guarded::new(&bad_run), Guarded::new(&step));
        let given = library::run_next(run_desk.bytes(), step_desk.bytes());
        if given != 8 || !run_desk.holds(&bad_run) || !step_desk.holds(&step) {
            return Err(format!("RunNext on blocks of {lengths:?} bytes gives {given}"));
        }
        let steps = library::run_steps(run_desk.bytes());
        if (steps == 0) != (bad_run.len() != library::RUN_BYTES) || !run_desk.holds(&bad_run) {
            return Err(format!("run_steps on {} bytes gives {steps}", bad_run.len()));
        }
        let kind = bytes_to_words(&run)[KIND];
        tally.run(Call::RunNext, kind, 8);

        // A turn, and many.
        let (mut run, mut lent) = (run, lent);
        let lengths = wrong_lengths(
            random,
            [&mut run, &mut lent.machine, &mut lent.registers, &mut lent.marks],
        );
        let mut desk = Desk::new(&run, &lent);
        let given = desk.turn();
        let done = desk.turns(random.next());
        if given != 8 || done != 0 || !desk.holds(&run, &lent) {
            return Err(format!("blocks of {lengths:?} bytes: a turn gives {given}, {done} done"));
        }
        tally.run(Call::RunTurn, kind, 8);
        Ok(())
    })
}

/// Every slice empty, or all but one.
pub fn empty_run_slices(context: &mut Context) -> Outcome {
    each_case(context, "empty run slices", 64, |case, random, _| {
        let (mut run, mut lent) = good_run(random)?;
        let whole = case % 6;
        for (at, buffer) in
            [&mut run, &mut lent.machine, &mut lent.registers, &mut lent.marks, &mut lent.memory]
                .into_iter()
                .enumerate()
        {
            if at as u64 != whole {
                buffer.clear();
            }
        }
        let (plan, _) = small_plan(random);
        let mut desk = Desk::new(&run, &lent);
        let next = library::run_next(desk.block.bytes(), &mut []);
        let given = [next, desk.turn(), desk.turns(7), desk.start(&plan), desk.whole_run(&plan)];
        if given != [8, 8, 0, 8, 8] || !desk.holds(&run, &lent) {
            return Err(format!("{given:?}, or bytes change"));
        }
        Ok(())
    })
}

// ---------------------------------------------------------------------------
// Forged run blocks

/// Whether asking a block for a step is answered 0.
fn hands_out(fields: &[u64]) -> bool {
    sound(fields) && fields[WORD] != AT_END
}

/// Run blocks that no start made. A refusal changes nothing, a turn does what
/// the word asked for does, and many turns do what single ones do.
pub fn forged_runs(context: &mut Context) -> Outcome {
    each_case(context, "forged runs", 10_000, |_, random, tally| {
        let (good, mut lent) = good_run(random)?;
        let run = forge(random, &good);
        if random.chance(10) {
            let lengths = lengths(random);
            let machine = any_machine(random, lengths);
            lent = bench_of(random, &machine);
        }
        check_forged(random, &run, &lent, tally)
    })
}

/// Random bytes, small numbers, one bit or some fields of a good block changed,
/// or another place.
fn forge(random: &mut Random, good: &[u8]) -> Vec<u8> {
    let mut fields = bytes_to_words(good);
    match random.below(20) {
        0 => return random.bytes(good.len()),
        1 => return vec![random.pick(&[0, 1, 0xFF]); good.len()],
        2 => fields = (0..FIELDS).map(|_| random.below(1200)).collect(),
        3 => fields[random.below(FIELDS as u64) as usize] ^= 1 << random.below(64),
        4 => fields[WORD] = random.pick(&[10, 11, 16, 256, 1 << 32, 1 << 63, u64::MAX]),
        5 | 6 => {
            // Another word, its numbers around the sizes.
            fields[WORD] = random.below(11);
            for at in 0..3 {
                let size = fields[[2, 4, 3][at]];
                let numbers = [0, 0, 0, 1, size / 2, size.wrapping_sub(1), size, size + 1];
                fields[PLACE + at] = random.pick(&numbers);
            }
        }
        7 => {
            // A number that the word's place does not have.
            fields[WORD] = random.pick(&[0, 1, 2, 3, 8, 9]);
            let from = PLACE_NUMBERS[fields[WORD] as usize];
            fields[PLACE..PLACE + 3].fill(0);
            let at = random.range(from as u64, 2) as usize;
            fields[PLACE + at] = random.pick(&[1, 2, 1 << 32, 1 << 63, u64::MAX]);
        }
        8 => fields[KIND] = random.pick(&UNKNOWN_KINDS),
        9 => fields[KIND] = random.pick(&KINDS),
        // C's rows over each other.
        10 => fields[C_STRIDE] = random.pick(&[0, 1, u64::MAX]),
        11 => fields[RULE] = random.pick(&UNKNOWN_RULES),
        // The other rule, whose blocks start elsewhere.
        12 => fields[RULE] ^= 1,
        13 => fields[ELEN] = random.pick(&UNKNOWN_ELENS),
        // The other ELEN, at which C's width may not be permitted.
        14 => fields[ELEN] ^= 96,
        15 => {
            let rlens = [64, 512, 1024, 4096, 8192];
            let mlens = [128, 4096, 8192, 65536, 131072];
            (fields[LENGTHS], fields[LENGTHS + 1]) = (random.pick(&rlens), random.pick(&mlens));
        }
        _ => {
            for _ in 0..random.pick(&[1, 1, 1, 2]) {
                let field = &mut fields[random.below(FIELDS as u64) as usize];
                *field = match random.below(8) {
                    0 => 0,
                    1 => field.wrapping_add(1),
                    2 => field.wrapping_sub(1),
                    3 => u64::MAX,
                    4 => 1 << random.below(64),
                    5 => random.below(2000),
                    6 => random.pick(&[8, 16, 32, 64, 128, 512, 1024, 1025, 4096, 65536]),
                    _ => random.next(),
                };
            }
        }
    }
    words_to_bytes(&fields)
}

fn check_forged(
    random: &mut Random,
    run: &[u8],
    lent: &Lent,
    tally: &mut Tally,
) -> Result<(), String> {
    let fields = bytes_to_words(run);
    let complain =
        |what: &str| Err(format!("forged run block {fields:?}: {what}\n{}", state_text(lent)));

    // Asked for a step.
    let step = random.bytes(library::STEP_BYTES);
    let (mut asked, mut handed) = (Guarded::new(run), Guarded::new(&step));
    let next = library::run_next(asked.bytes(), handed.bytes());
    match next {
        0 => {}
        8 if asked.holds(run) && handed.holds(&step) => {}
        _ => return complain(&format!("run_next gives {next}, or a refusal changes bytes")),
    }
    if hands_out(&fields) != (next == 0) {
        return complain(&format!("run_next gives {next}"));
    }
    tally.run(Call::RunNext, fields[KIND], next);
    let (plan, machine) = plan_of(&fields);
    let count = if sound(&fields) { model::step_count(&plan, &machine) } else { 0 };
    let mut counted = Guarded::new(run);
    let steps = library::run_steps(counted.bytes());
    if steps != count || !counted.holds(run) {
        return complain(&format!("run_steps gives {steps}, not {count}, or changes bytes"));
    }

    // A turn: as the word handed out, or 8.
    let mut desk = Desk::new(run, lent);
    let turn = desk.turn();
    let (mut expected, mut second) = (8, lent.clone());
    if next == 0 {
        let mut bench = lent.bench().expect("a whole machine block");
        expected = packed(model::carry_out_handed(&handed_of(handed.bytes()), &mut bench));
        second.take(bench);
    }
    let run_after = if expected == 0 { asked.bytes() } else { run };
    if turn != expected || !desk.holds(run_after, &second) {
        return complain(&format!(
            "a turn gives {turn:#x}, the word asked for {expected:#x}, or other bytes"
        ));
    }
    tally.run(Call::RunTurn, fields[KIND], turn & 0xFFFF);

    // Many turns: as single ones.
    let turns = random.below(20);
    let mut many = Desk::new(run, lent);
    let done = many.turns(turns);
    let mut single = Desk::new(run, lent);
    let mut singly = 0;
    while singly < turns && single.turn() == 0 {
        singly += 1;
    }
    if done != singly || many != single {
        return complain(&format!("{turns} turns asked: {done} at once, {singly} singly"));
    }
    Ok(())
}
