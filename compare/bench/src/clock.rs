//! The processor time of this thread: other processes of the machine are no part of it.

use std::time::Duration;

#[repr(C)]
#[derive(Default)]
struct Timespec {
    seconds: i64,
    nanoseconds: i64,
}

extern "C" {
    fn clock_gettime(clock: i32, time: *mut Timespec) -> i32;
}

/// Linux's number for it.
const CLOCK_THREAD_CPUTIME_ID: i32 = 3;

pub fn spent() -> Duration {
    let mut time = Timespec::default();
    // SAFETY: the structure is C's on 64-bit Linux, and the C library that std links has the function.
    let failed = unsafe { clock_gettime(CLOCK_THREAD_CPUTIME_ID, &mut time) };
    assert_eq!(failed, 0, "the thread has no clock");
    Duration::new(time.seconds as u64, time.nanoseconds as u32)
}
