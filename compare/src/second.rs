//! The second program with the functions of the library's header: each has the name in
//! include/bodlarina.h with `second` for `bodlarina`, and its arguments. A static library,
//! for the harnesses of tests/fuzz.

#[allow(dead_code)]
mod lent;
#[allow(dead_code)]
mod library;

use lent::*;
use model::text::{read_line, write_line};
use model::{Handed, Machine, Plan, Run, Size};
use std::cell::RefCell;
use std::slice::from_raw_parts_mut as slice;

/// Functions of numbers, then of buffers, each a pointer and a length.
macro_rules! exported {
    ($(fn $name:ident($($number:ident: $of:ty),*; $($buffer:ident $length:ident),*) $body:block)*) => {$(
        /// # Safety
        /// Each pointer has as many bytes behind it as its length says.
        #[no_mangle]
        pub unsafe extern "C" fn $name(
            $($number: $of,)* $($buffer: *mut u8, $length: usize),*
        ) -> u64 {
            $(let $buffer = slice($buffer, $length);)*
            $body
        }
    )*};
}

/// The same of the numbers of a plan, then of buffers.
macro_rules! exported_of_plan {
    ($(fn $name:ident($plan:ident; $($buffer:ident $length:ident),*) $body:block)*) => {$(
        exported! {
            fn $name(
                kind: u64, sew: u64, factor: u64, m: u64, k: u64, n: u64,
                a: u64, a_stride: i64, b: u64, b_stride: i64, c: u64, c_stride: i64;
                $($buffer $length),*
            ) {
                let $plan = Plan { kind, sew, factor, m, k, n, a, a_stride, b, b_stride, c, c_stride };
                $body
            }
        }
    )*};
}

/// What a call does to lent buffers: machine, registers, marks, scalars, memory, vectors.
fn on<R>(buffers: [&mut [u8]; 6], group: u64, call: impl FnOnce(&mut Lent) -> R) -> R {
    let [machine, registers, marks, scalars, memory, vectors] =
        buffers.each_ref().map(|buffer| buffer.to_vec());
    let mut lent = Lent { machine, registers, marks, scalars, memory, vectors, group };
    let result = call(&mut lent);
    let Lent { machine, registers, marks, scalars, memory, vectors, .. } = lent;
    for (buffer, left) in
        buffers.into_iter().zip([machine, registers, marks, scalars, memory, vectors])
    {
        buffer.copy_from_slice(&left);
    }
    result
}

/// The places of a run as its block has them, beside its steps: word, row, column, term.
fn places_of(plan: &Plan, machine: &Machine) -> Vec<[u64; 4]> {
    let starts = |total: u64, size| {
        let most = model::maximum(machine, size, plan.sew as i128);
        model::block_starts(total as i128, most, machine.rule).into_iter().map(|at| at as u64)
    };
    let mut places = vec![[0; 4]];
    for i in starts(plan.m, Size::M) {
        places.push([1, i, 0, 0]);
        for j in starts(plan.n, Size::N) {
            places.extend([[2, i, j, 0], [3, i, j, 0]]);
            places.extend(
                starts(plan.k, Size::K).flat_map(|l| (4..8).map(move |word| [word, i, j, l])),
            );
            places.push([8, i, j, 0]);
        }
    }
    places.push([AT_END, 0, 0, 0]);
    places
}

/// A plan with its machine's numbers, its steps and its places.
type Steps = (Vec<u64>, Vec<Handed>, Vec<[u64; 4]>);

thread_local! {
    /// Those of the last block: one run is mostly asked for many turns.
    static LAST: RefCell<Steps> = RefCell::default();
}

/// What a call does to the run of a block; `None` if no run has these numbers.
fn on_run<R>(block: &mut [u8], call: impl FnOnce(&mut Run) -> R) -> Option<R> {
    if block.len() != library::RUN_BYTES || !sound(&bytes_to_words(block)) {
        return None;
    }
    let mut fields = bytes_to_words(block);
    let key = [&fields[..WORD], &fields[KIND..]].concat();
    LAST.with_borrow_mut(|last| {
        if last.0 != key {
            let (plan, machine) = plan_of(&fields);
            *last = (key, model::steps_of(&plan, &machine), places_of(&plan, &machine));
        }
        let place = last.2.iter().position(|place| *place == fields[WORD..KIND])?;
        let mut run = Run { steps: std::mem::take(&mut last.1), place };
        let result = call(&mut run);
        last.1 = run.steps;
        fields[WORD..KIND].copy_from_slice(&last.2[run.place]);
        block.copy_from_slice(&words_to_bytes(&fields));
        Some(result)
    })
}

/// The block of a run that is just started.
fn run_block(plan: &Plan, machine: &Machine) -> Vec<u8> {
    let Plan { kind, sew, factor, m, k, n, a, a_stride, b, b_stride, c, c_stride } = *plan;
    let [a_stride, b_stride, c_stride] = [a_stride, b_stride, c_stride].map(|stride| stride as u64);
    let Machine { rlen, mlen, rule, elen, .. } = *machine;
    words_to_bytes(&[
        sew, factor, m, k, n, a, a_stride, b, b_stride, c, c_stride, rlen, mlen, 0, 0, 0, 0, kind,
        rule, elen,
    ])
}

/// # Safety
/// Each pointer has as many bytes behind it as its length says, `seals` as many numbers.
#[no_mangle]
pub unsafe extern "C" fn second_start(
    rlen: u64,
    mlen: u64,
    elen: u64,
    rule: u64,
    seals: *mut u64,
    seals_len: usize,
    machine: *mut u8,
    machine_len: usize,
    registers: *mut u8,
    registers_len: usize,
    marks: *mut u8,
    marks_len: usize,
) -> u64 {
    let seals = std::slice::from_raw_parts(seals, seals_len);
    let buffers = [
        slice(machine, machine_len),
        slice(registers, registers_len),
        slice(marks, marks_len),
        &mut [],
        &mut [],
        &mut [],
    ];
    on(buffers, 1, |lent| lent::second_start((rlen, mlen, elen), rule, seals, lent))
}

exported! {
    fn second_seal(start: u64, length: u64; machine machine_len, registers registers_len, marks marks_len) {
        on([machine, registers, marks, &mut [], &mut [], &mut []], 1, |lent| {
            lent::second_seal((start, length), lent)
        })
    }

    fn second_step(
        word: u32, group: u64;
        machine machine_len, registers registers_len, marks marks_len, scalars scalars_len,
        memory memory_len, vectors vectors_len
    ) {
        on([machine, registers, marks, scalars, memory, vectors], group, |lent| {
            packed(lent::second_step(word, lent))
        })
    }

    fn second_run_next(; run run_len, handed handed_len) {
        if handed.len() != library::STEP_BYTES {
            return BAD_ARGUMENTS.number;
        }
        match on_run(run, model::run_next).flatten() {
            Some(next) => {
                handed.copy_from_slice(&handed_block(&next));
                0
            }
            None => BAD_ARGUMENTS.number,
        }
    }

    fn second_run_steps(; run run_len) {
        let fields = bytes_to_words(run);
        if run.len() != library::RUN_BYTES || !sound(&fields) {
            return 0;
        }
        let (plan, machine) = plan_of(&fields);
        model::step_count(&plan, &machine)
    }

    fn second_run_turn(
        ;
        run run_len, machine machine_len, registers registers_len, marks marks_len, memory memory_len
    ) {
        on([machine, registers, marks, &mut [], memory, &mut []], 1, |lent| {
            packed(on_run(run, |run| lent::second_run_turn(run, lent)).unwrap_or(BAD_ARGUMENTS))
        })
    }

    fn second_run_turns(
        turns: u64;
        run run_len, machine machine_len, registers registers_len, marks marks_len, memory memory_len
    ) {
        on([machine, registers, marks, &mut [], memory, &mut []], 1, |lent| {
            on_run(run, |run| lent::second_run_turns(turns, run, lent)).unwrap_or(0)
        })
    }

    fn second_image_size(; machine machine_len, registers registers_len, marks marks_len) {
        on([machine, registers, marks, &mut [], &mut [], &mut []], 1, |lent| {
            second_image(lent).map_or(BAD_ARGUMENTS.number, |image| (image.len() as u64) << 16)
        })
    }

    fn second_image_write(
        ; machine machine_len, registers registers_len, marks marks_len, image image_len
    ) {
        on([machine, registers, marks, &mut [], &mut [], &mut []], 1, |lent| {
            lent::second_image_write(lent, image)
        })
    }

    fn second_image_read(
        ; image image_len, machine machine_len, registers registers_len, marks marks_len
    ) {
        on([machine, registers, marks, &mut [], &mut [], &mut []], 1, |lent| {
            lent::second_image_read(image, lent)
        })
    }

    fn second_image_salvage(; image image_len, room room_len, report report_len) {
        second_salvage(image, room, report)
    }

    fn second_word_text(word: u32; text text_len) {
        let (number, length) = write_line(word, text);
        number | length << 16
    }

    fn second_text_word(; text text_len, word word_len) {
        let (number, column) = read_line(text, word);
        number | column << 16
    }
}

exported_of_plan! {
    fn second_run_start(
        plan;
        machine machine_len, registers registers_len, marks marks_len, memory memory_len, run run_len
    ) {
        if run.len() != library::RUN_BYTES {
            return BAD_ARGUMENTS.number;
        }
        on([machine, registers, marks, &mut [], memory, &mut []], 1, |lent| {
            match lent::second_run_start(&plan, lent) {
                Ok(_) => {
                    run.copy_from_slice(&run_block(&plan, &lent.machine()));
                    0
                }
                Err(number) => number,
            }
        })
    }

    fn second_run(
        plan;
        machine machine_len, registers registers_len, marks marks_len, memory memory_len,
        steps steps_len
    ) {
        if steps.len() != library::STEPS_BYTES {
            return BAD_ARGUMENTS.number;
        }
        on([machine, registers, marks, &mut [], memory, &mut []], 1, |lent| {
            match lent::second_run_start(&plan, lent) {
                Ok(mut run) => {
                    let done = lent::second_run_turns(u64::MAX, &mut run, lent);
                    steps.copy_from_slice(&words_to_bytes(&[done]));
                    0
                }
                Err(number) => number,
            }
        })
    }
}
