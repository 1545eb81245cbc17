//! The plan: the loaded tables and the state that steps change.

use crate::trace::{read, Refusal, Trace, SLICES};

#[derive(Clone, Copy, Debug, PartialEq, Eq)]
pub enum Stage {
    Pending,
    Waiting,
    Running,
    Finished,
    Failed,
}

/// What a step may change about a job.
#[derive(Clone, Debug)]
pub struct Job {
    pub stage: Stage,
    pub since: f64,
    pub start: f64,
    pub remaining: f64,
    pub waited: f64,
    pub evictions: u64,
    pub run_generation: u64,
    pub timeout_generation: u64,
}

/// Who holds a GPU: a whole owner, or the owners of the slices it is cut into.
#[derive(Clone, Debug, Default)]
pub struct Holding {
    pub owner: Option<u8>,
    /// The profile the GPU is cut for; none while it is unsliced.
    pub profile: Option<u8>,
    pub slices: usize,
    pub slice_owners: [Option<u8>; SLICES],
}

impl Holding {
    /// The owners of the slices that exist.
    pub fn owners(&self) -> &[Option<u8>] {
        self.slice_owners
            .get(..self.slices)
            .unwrap_or(&self.slice_owners)
    }

    pub fn wholly_idle(&self) -> bool {
        self.owner.is_none() && self.owners().iter().all(Option::is_none)
    }
}

#[derive(Clone, Copy, Debug, PartialEq, Eq)]
pub enum What {
    Arrival,
    Completion,
    Timeout,
}

#[derive(Clone, Debug)]
pub struct Event {
    pub number: u64,
    pub time: f64,
    pub what: What,
    pub job: usize,
    pub generation: u64,
}

/// A job that has its resources but has not started yet.
#[derive(Clone, Debug)]
pub struct Placed {
    pub job: usize,
    pub penalised: bool,
    /// The GPU that was cut for it.
    pub cut: Option<usize>,
}

#[derive(Clone, Debug, Default)]
pub struct Totals {
    pub evictions: u64,
    pub cuts: u64,
    pub penalised: u64,
    pub longest: usize,
    pub added: f64,
}

/// Everything that a step changes, apart from the tables so that a step can work on a copy.
#[derive(Clone, Debug, Default)]
pub struct State {
    pub clock: f64,
    pub jobs: Vec<Job>,
    pub room: Vec<Holding>,
    pub queue: Vec<usize>,
    pub events: Vec<Event>,
    pub next_number: u64,
    pub totals: Totals,
}

impl State {
    /// Numbers come from one counter that never falls, so a later event is never taken for an older one.
    pub fn add_event(&mut self, time: f64, what: What, job: usize, generation: u64) {
        let number = self.next_number;
        self.next_number += 1;
        self.events.push(Event {
            number,
            time,
            what,
            job,
            generation,
        });
    }

    /// The event to be taken next: least time, then lowest insertion number.
    pub fn next_event(&self) -> Option<usize> {
        let place = |at: &usize| (self.events[*at].time.to_bits(), self.events[*at].number);
        (0..self.events.len()).min_by_key(place)
    }
}

#[derive(Clone, Debug, Default)]
pub struct Plan {
    pub trace: Trace,
    pub now: State,
}

/// A load's answer: with a refusal the plan is the empty one.
#[derive(Clone, Debug)]
pub struct Loaded {
    pub plan: Plan,
    pub refusal: Option<Refusal>,
}

/// Loads a trace of any bytes.
pub fn load(bytes: &[u8]) -> Loaded {
    match read(bytes) {
        Ok(trace) => Loaded {
            plan: begin(trace),
            refusal: None,
        },
        Err(refusal) => Loaded {
            plan: Plan::default(),
            refusal: Some(refusal),
        },
    }
}

/// The plan before the first step: all arrivals queued in job order, nothing owned.
fn begin(trace: Trace) -> Plan {
    let mut now = State {
        room: vec![Holding::default(); trace.gpus.len()],
        ..State::default()
    };
    for (job, ask) in trace.asks.iter().enumerate() {
        now.jobs.push(Job {
            stage: Stage::Pending,
            since: 0.0,
            start: 0.0,
            remaining: ask.duration,
            waited: 0.0,
            evictions: 0,
            run_generation: 0,
            timeout_generation: 0,
        });
        now.add_event(ask.arrival, What::Arrival, job, 0);
    }
    Plan { trace, now }
}
