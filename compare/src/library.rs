//! The C interface of the static library, as a host sees it, with thin safe
//! wrappers. A buffer is a pointer and a length.

use model::Plan;

// The block lengths of the library's header. Machine and run blocks are made of numbers
// of 8 bytes (src/lent.rs and src/runs/damage.rs have their order).
pub const MACHINE_BYTES: usize = 200;
pub const SCALARS_BYTES: usize = 256;
pub const VECTORS_BYTES: usize = 512;
pub const RUN_BYTES: usize = 160;
pub const STEP_BYTES: usize = 24;
pub const STEPS_BYTES: usize = 8;
pub const REPORT_BYTES: usize = 24;

/// Wrappers of functions that take numbers, then buffers. Each call passes
/// slices that live through it and do not overlap. Buffers that the header calls
/// const are passed as writable ones too, so that a write to them would show.
macro_rules! calls {
    ($($name:ident = $function:ident($($number:ident: $of:ty),*; $($buffer:ident),*);)*) => {$(
        pub fn $name($($number: $of,)* $($buffer: &mut [u8]),*) -> u64 {
            extern "C" {
                fn $function($($number: $of,)* $($buffer: *mut u8, _: usize),*) -> u64;
            }
            unsafe { $function($($number,)* $($buffer.as_mut_ptr(), $buffer.len()),*) }
        }
    )*};
}

/// The same for functions that take the numbers of a plan.
macro_rules! plan_calls {
    ($($name:ident = $function:ident($($buffer:ident),*);)*) => {$(
        pub fn $name(plan: &Plan, $($buffer: &mut [u8]),*) -> u64 {
            calls! {
                call = $function(
                    kind: u64, sew: u64, factor: u64, m: u64, k: u64, n: u64,
                    a: u64, a_stride: i64, b: u64, b_stride: i64, c: u64, c_stride: i64;
                    $($buffer),*
                );
            }
            let Plan { kind, sew, factor, m, k, n, .. } = *plan;
            let Plan { a, a_stride, b, b_stride, c, c_stride, .. } = *plan;
            call(kind, sew, factor, m, k, n, a, a_stride, b, b_stride, c, c_stride, $($buffer),*)
        }
    )*};
}

calls! {
    seal = bodlarina_seal(start: u64, length: u64; machine, registers, marks);
    step = bodlarina_step(
        word: u32, group: u64;
        machine, registers, marks, scalars, memory, vectors
    );
    run_next = bodlarina_run_next(; run, step);
    run_steps = bodlarina_run_steps(; run);
    run_turn = bodlarina_run_turn(; run, machine, registers, marks, memory);
    run_turns = bodlarina_run_turns(turns: u64; run, machine, registers, marks, memory);
    image_size = bodlarina_image_size(; machine, registers, marks);
    image_write = bodlarina_image_write(; machine, registers, marks, image);
    image_read = bodlarina_image_read(; image, machine, registers, marks);
    image_salvage = bodlarina_image_salvage(; image, room, report);
    word_text = bodlarina_word_text(word: u32; text);
    text_word = bodlarina_text_word(; text, word);
}

/// RLEN, MLEN, ELEN, the rule, and start and length of each sealed range, of which the
/// library is told how many numbers they are.
pub fn start(
    [rlen, mlen, elen]: [u64; 3],
    rule: u64,
    seals: &mut [u64],
    machine: &mut [u8],
    registers: &mut [u8],
    marks: &mut [u8],
) -> u64 {
    extern "C" {
        fn bodlarina_start(
            rlen: u64,
            mlen: u64,
            elen: u64,
            rule: u64,
            seals: *mut u64,
            _: usize,
            machine: *mut u8,
            _: usize,
            registers: *mut u8,
            _: usize,
            marks: *mut u8,
            _: usize,
        ) -> u64;
    }
    unsafe {
        bodlarina_start(
            rlen,
            mlen,
            elen,
            rule,
            seals.as_mut_ptr(),
            seals.len(),
            machine.as_mut_ptr(),
            machine.len(),
            registers.as_mut_ptr(),
            registers.len(),
            marks.as_mut_ptr(),
            marks.len(),
        )
    }
}

plan_calls! {
    run_start = bodlarina_run_start(machine, registers, marks, memory, run);
    run = bodlarina_run(machine, registers, marks, memory, steps);
}
