//! The function of the archive, as `gpu_planner.h` has it, with slices for its pointers.

/// The words that [`run`] has to be lent; `PLANNER_RUN_WORDS` of the header.
pub const RUN_WORDS: usize = 5128;

extern "C" {
    fn planner_run(trace: *const u8, trace_len: usize, words: *mut u64, words_len: usize) -> u64;
}

/// Plans a trace into the words lent, and returns the answer: with fewer than [`RUN_WORDS`] words 10, and no word is written.
pub fn run(trace: &[u8], words: &mut [u64]) -> u64 {
    // SAFETY: the header asks of its caller that each pointer is not null, is aligned and spans its length, that the two do not
    // overlap and that nothing else writes them meanwhile. A slice, the empty one too, and a mutable slice beside it are just that.
    // The function writes no word outside the length handed in and keeps no pointer: both are part of what is proved of it.
    unsafe { planner_run(trace.as_ptr(), trace.len(), words.as_mut_ptr(), words.len()) }
}
