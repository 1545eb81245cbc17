//! The planners behind one face: the bytes of a trace in, the list of its decisions in memory.

use original::{Build, Planned};
use second::{Plan, BUFFER_WORDS};

/// The words lent to a planner: four of head, the decisions of 128 jobs, nine each, and the buffer of the last step behind them.
const WORDS: usize = 4 + 4 * 9 * 128 + BUFFER_WORDS;

#[derive(Clone, Copy)]
pub enum Who {
    Ours,
    Second,
    Original,
    Ordered,
}

pub const ALL: [(Who, &str); 4] = [
    (Who::Ours, "ours"),
    (Who::Second, "second"),
    (Who::Original, "original"),
    (Who::Ordered, "ordered"),
];

/// Those that were there when the benchmark was built.
pub fn present() -> impl Iterator<Item = (Who, &'static str)> {
    ALL.into_iter().filter(|(who, _)| match who {
        Who::Ours => cfg!(ours),
        Who::Second => true,
        Who::Original | Who::Ordered => original::present(),
    })
}

pub fn lent() -> Vec<u64> {
    vec![0; WORDS]
}

/// What a planner holds when it is done: kept until its time is taken, since freeing it is no part of planning.
pub enum Left {
    /// the list is in the lent words
    Words {
        _plan: Option<Box<Plan>>,
    },
    Original(Option<Box<Planned>>),
}

/// What a planner said of a trace.
#[derive(PartialEq, Eq)]
pub struct Told {
    /// answer and place; none where a trace was refused without a word why, as the original's driver does
    pub head: Option<[u64; 2]>,
    pub steps: u64,
    pub decisions: Vec<[u64; 4]>,
}

impl Left {
    /// In the words are answer, place, steps, the number of decisions, and the decisions.
    pub fn told(&self, words: &[u64]) -> Told {
        let (head, steps, decisions) = match self {
            Left::Original(None) => (None, 0, Vec::new()),
            Left::Original(Some(of)) => (Some([0, 0]), of.steps() as u64, of.decisions()),
            Left::Words { .. } => {
                let decisions = &words[4..].as_chunks().0[..words[3] as usize];
                (Some([words[0], words[1]]), words[2], decisions.to_vec())
            }
        };
        Told {
            head,
            steps,
            decisions,
        }
    }
}

/// All that is timed, under a name by which its instructions are counted.
#[no_mangle]
#[inline(never)]
pub fn bench_plan(who: Who, trace: &[u8], words: &mut [u64]) -> Left {
    match who {
        Who::Ours => ours(trace, words),
        Who::Second => second(trace, words),
        Who::Original => original(trace, Build::Published),
        Who::Ordered => original(trace, Build::Ordered),
    }
}

#[cfg(ours)]
fn ours(trace: &[u8], words: &mut [u64]) -> Left {
    extern "C" {
        fn planner_run(
            trace: *const u8,
            trace_len: usize,
            words: *mut u64,
            words_len: usize,
        ) -> u64;
    }
    let (bytes, place) = (trace.as_ptr(), words.as_mut_ptr());
    // SAFETY: the lengths are those of the slices, and the function keeps neither pointer.
    let answer = unsafe { planner_run(bytes, trace.len(), place, words.len()) };
    std::hint::black_box(answer);
    Left::Words { _plan: None }
}

#[cfg(not(ours))]
fn ours(_trace: &[u8], _words: &mut [u64]) -> Left {
    unreachable!("built without our planner")
}

/// The second program, one step after another, into the same words as ours.
fn second(trace: &[u8], words: &mut [u64]) -> Left {
    let loaded = second::load(trace);
    let mut plan = loaded.plan;
    let mut head = [0; 4];
    if let Some(refusal) = loaded.refusal {
        head = [refusal.number.into(), refusal.place as u64, 0, 0];
    } else {
        while let Ok(decisions) = second::step(&mut plan, &mut words[4 + 4 * head[3] as usize..]) {
            head[2] += 1;
            head[3] += decisions as u64;
        }
    }
    words[..4].copy_from_slice(&head);
    let _plan = Some(Box::new(plan));
    Left::Words { _plan }
}

fn original(trace: &[u8], build: Build) -> Left {
    Left::Original(original::planned(trace, build).map(Box::new))
}
