//! The second program as a function of the same face as the library's, so that a fuzzer can hold each answer to it.

mod mutate;

use std::slice::{from_raw_parts, from_raw_parts_mut};

use second::{load, step, BUFFER_WORDS};

const HEAD: usize = 4;

/// # Safety
/// As `planner_run` of `gpu_planner.h`; the words have room for every decision.
#[no_mangle]
pub unsafe extern "C" fn second_run(
    trace: *const u8,
    trace_len: usize,
    words: *mut u64,
    words_len: usize,
) -> u64 {
    // SAFETY: this function asks the same of its caller.
    let (trace, words) = unsafe {
        (
            from_raw_parts(trace, trace_len),
            from_raw_parts_mut(words, words_len),
        )
    };
    let head = run(trace, &mut words[HEAD..]);
    words[..HEAD].copy_from_slice(&head);
    head[0]
}

/// The head of a run, whose decisions go to the words.
fn run(trace: &[u8], words: &mut [u64]) -> [u64; HEAD] {
    let loaded = load(trace);
    if let Some(refusal) = loaded.refusal {
        return [u64::from(refusal.number), refusal.place as u64, 0, 0];
    }
    let mut plan = loaded.plan;
    let mut buffer = [0; BUFFER_WORDS];
    let (mut steps, mut decisions) = (0, 0);
    loop {
        match step(&mut plan, &mut buffer) {
            Ok(number) => {
                words[4 * decisions..4 * (decisions + number)]
                    .copy_from_slice(&buffer[..4 * number]);
                steps += 1;
                decisions += number;
            }
            Err(11) => return [0, 0, steps, decisions as u64],
            Err(refusal) => return [u64::from(refusal), 0, steps, decisions as u64],
        }
    }
}
