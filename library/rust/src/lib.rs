//! The proved GPU planner from Rust: bytes of a trace in, decisions out.
//!
//! ```
//! use gpu_planner::{plan, End};
//!
//! // a trace of an end record alone
//! let planned = plan(&[0]).expect("it loads");
//! assert_eq!((planned.end, planned.decisions.len()), (End::NoEvent, 0));
//! let refused = plan(&[]).expect_err("it does not end");
//! assert_eq!((refused.number, refused.place), (1, 0));
//! ```

pub mod raw;
mod refused;
mod words;

pub use refused::Refused;

/// What the planner decided about a job. Times are seconds; a job is the number of job records before its own in the trace.
#[derive(Clone, Copy, Debug, PartialEq)]
pub enum Decision {
    /// The job arrives and waits.
    Arrived { time: f64, job: usize },
    /// The gang job waited longer than its timeout and is given up.
    Failed { time: f64, job: usize },
    /// The job is done and gives back `size` GPUs or, with a profile, slices.
    Completed { time: f64, job: usize, size: usize },
    /// The job makes way for the job `sake` and waits again.
    Evicted { time: f64, job: usize, sake: usize },
    /// The job starts at `time` on `size` GPUs or, with a profile, slices.
    Started { time: f64, job: usize, size: usize },
}

/// Why a plan goes no further.
#[derive(Clone, Copy, Debug, PartialEq, Eq)]
pub enum End {
    /// No event is left; a job that still waits waits for ever.
    NoEvent,
    /// Refusal 12: the next step would have to keep a number over 2^40. The decisions before it stand.
    NotPermitted,
}

/// A trace that was loaded, and all that was decided.
#[derive(Clone, Debug, PartialEq)]
pub struct Planned {
    pub decisions: Vec<Decision>,
    /// How many steps were taken; each takes one event, and not each decides.
    pub steps: u64,
    pub end: End,
}

/// Plans a trace of any bytes to its end. A call takes up to 768 KiB of stack, of the 2 MiB that a thread of Rust has unless told otherwise.
///
/// # Panics
/// Where the words that come back are not what the header promises: then another archive than this repository's was linked.
pub fn plan(trace: &[u8]) -> Result<Planned, Refused> {
    let mut words = vec![0; raw::RUN_WORDS];
    let answer = raw::run(trace, &mut words);
    match words::read(answer, &words, trace.len()) {
        Ok(told) => told,
        Err(broken) => panic!("libgpu_planner.a is not the one of this crate: {broken}"),
    }
}
