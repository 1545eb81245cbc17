//! One step: the event taken, the decisions, starts and totals, and the refusals 10 to 12.

use crate::plan::{Event, Placed, Plan, Stage, State, What};
use crate::trace::{permitted, Trace};
use crate::watch::{Feature, Watch};

/// Room for 129 decisions of four words.
pub const BUFFER_WORDS: usize = 516;

pub const ARRIVED: u64 = 1;
pub const FAILED: u64 = 2;
pub const COMPLETED: u64 = 3;
pub const EVICTED: u64 = 4;
pub const STARTED: u64 = 5;

/// A number that the step would have to store is not permitted: refusal 12.
pub struct NotPermitted;

/// A step under way, on a copy of the state so that a refusal leaves the plan as it was.
pub struct Work<'a> {
    pub trace: &'a Trace,
    pub now: State,
    pub watch: Watch,
    pub placed: Vec<Placed>,
    decisions: Vec<[u64; 4]>,
}

/// Takes one step and answers the number of decisions written to the buffer, or the refusal.
pub fn step(plan: &mut Plan, buffer: &mut [u64]) -> Result<usize, u32> {
    step_watched(plan, buffer, &mut Watch::default())
}

/// A step that also tells an observer what happens in it.
pub fn step_watched(plan: &mut Plan, buffer: &mut [u64], watch: &mut Watch) -> Result<usize, u32> {
    if buffer.len() < BUFFER_WORDS {
        return Err(10);
    }
    let Some(at) = plan.now.next_event() else {
        return Err(11);
    };
    let mut work = Work {
        trace: &plan.trace,
        now: plan.now.clone(),
        watch: watch.clone(),
        placed: Vec::new(),
        decisions: Vec::new(),
    };
    let event = work.now.events.swap_remove(at);
    if work.take(&event).is_err() {
        return Err(12);
    }
    let Work {
        now,
        watch: seen,
        decisions,
        ..
    } = work;
    plan.now = now;
    *watch = seen;
    for (words, decision) in buffer.chunks_exact_mut(4).zip(&decisions) {
        words.copy_from_slice(decision);
    }
    Ok(decisions.len())
}

/// Every number that 12 speaks of goes through here on its way into the plan.
fn stored(number: f64) -> Result<f64, NotPermitted> {
    if permitted(number) {
        Ok(number)
    } else {
        Err(NotPermitted)
    }
}

impl Work<'_> {
    fn decide(&mut self, time: f64, kind: u64, job: usize, other: usize) {
        self.decisions
            .push([time.to_bits(), kind, job as u64, other as u64]);
    }

    fn queue_event(&mut self, time: f64, what: What, job: usize) -> Result<(), NotPermitted> {
        let generation = match what {
            What::Arrival => 0,
            What::Completion => self.now.jobs[job].run_generation,
            What::Timeout => self.now.jobs[job].timeout_generation,
        };
        self.now.add_event(stored(time)?, what, job, generation);
        Ok(())
    }

    fn take(&mut self, event: &Event) -> Result<(), NotPermitted> {
        let tied = self.now.events.iter().any(|other| other.time == event.time);
        self.watch.domain.tie |= tied;
        self.watch.saw_if(tied, Feature::EqualTimes);
        self.now.clock = event.time;
        match event.what {
            What::Arrival => self.arrive(event.job),
            What::Completion => self.complete(event.job, event.generation),
            What::Timeout => self.time_out(event.job, event.generation),
        }
    }

    fn arrive(&mut self, job: usize) -> Result<(), NotPermitted> {
        let ask = &self.trace.asks[job];
        self.decide(self.now.clock, ARRIVED, job, 0);
        self.join(job);
        if ask.may_time_out() {
            self.now.jobs[job].timeout_generation += 1;
            self.queue_event(self.now.clock + ask.timeout, What::Timeout, job)?;
        }
        self.pass()
    }

    fn complete(&mut self, job: usize, generation: u64) -> Result<(), NotPermitted> {
        let of = &mut self.now.jobs[job];
        if of.stage != Stage::Running || of.run_generation != generation {
            self.watch.saw(Feature::StaleCompletion);
            return Ok(());
        }
        of.stage = Stage::Finished;
        self.release(job);
        self.decide(self.now.clock, COMPLETED, job, self.trace.asks[job].size());
        self.pass()
    }

    fn time_out(&mut self, job: usize, generation: u64) -> Result<(), NotPermitted> {
        let clock = self.now.clock;
        let of = &mut self.now.jobs[job];
        if of.stage != Stage::Waiting || of.timeout_generation != generation {
            self.watch.saw(Feature::StaleTimeout);
            return Ok(());
        }
        of.waited = stored(of.waited + (clock - of.since))?;
        of.stage = Stage::Failed;
        self.now.queue.retain(|&other| other != job);
        self.watch.saw(Feature::TimeoutFired);
        self.decide(clock, FAILED, job, 0);
        self.pass()
    }

    /// Joins the queue's end and waits from now on; the longest queue is looked at here and only here.
    fn join(&mut self, job: usize) {
        self.now.jobs[job].stage = Stage::Waiting;
        self.now.jobs[job].since = self.now.clock;
        self.now.queue.push(job);
        self.now.totals.longest = self.now.totals.longest.max(self.now.queue.len());
    }

    /// Makes a running job wait again, for the sake of another.
    pub fn evict(&mut self, victim: usize, sake: usize) -> Result<(), NotPermitted> {
        let clock = self.now.clock;
        let ask = &self.trace.asks[victim];
        let of = &mut self.now.jobs[victim];
        of.evictions += 1;
        let ran = if of.start > clock {
            0.0
        } else {
            clock - of.start
        };
        let left = of.remaining - ran;
        of.remaining = stored(if left > 0.0 { left } else { 0.0 })?;
        self.watch.saw(Feature::Evictions);
        self.watch.saw_if(of.start > clock, Feature::EarlyVictim);
        self.watch
            .saw_if(of.remaining == 0.0, Feature::RemainingZero);
        self.watch.saw_if(of.evictions == 3, Feature::ThirdEviction);
        self.watch.saw_if(ask.profile.is_some(), Feature::MigVictim);
        self.release(victim);
        self.join(victim);
        self.now.totals.evictions += 1;
        self.decide(clock, EVICTED, victim, sake);
        if ask.may_time_out() {
            self.watch.saw(Feature::VictimTimeout);
            self.queue_event(clock + ask.timeout, What::Timeout, victim)?;
        }
        Ok(())
    }

    /// Frees whatever the job holds; a cut GPU stays cut.
    fn release(&mut self, job: usize) {
        for held in &mut self.now.room {
            for owner in held.slice_owners.iter_mut().chain([&mut held.owner]) {
                if owner.is_some_and(|holder| usize::from(holder) == job) {
                    *owner = None;
                }
            }
        }
    }

    /// Starts the placed jobs in the order of their placing, and only now takes them off the queue.
    pub fn start_placed(&mut self) -> Result<(), NotPermitted> {
        let placed = std::mem::take(&mut self.placed);
        for one in &placed {
            self.start(one)?;
        }
        let jobs = &self.now.jobs;
        self.now
            .queue
            .retain(|&job| jobs[job].stage == Stage::Waiting);
        Ok(())
    }

    fn start(&mut self, placed: &Placed) -> Result<(), NotPermitted> {
        let ask = &self.trace.asks[placed.job];
        let of = &mut self.now.jobs[placed.job];
        let start = stored(delayed(self.trace, self.now.clock, placed, of.evictions))?;
        of.stage = Stage::Running;
        of.start = start;
        of.run_generation += 1;
        of.timeout_generation += u64::from(ask.gang);
        of.waited = stored(of.waited + (start - of.since))?;
        let remaining = of.remaining;
        let options = &self.trace.options;
        self.watch.saw(Feature::Starts);
        let again = of.evictions > 0;
        self.watch.saw_if(again, Feature::Restarts);
        self.watch
            .saw_if(again && options.penalty > 0.0, Feature::RestartPenalty);
        let late = placed.cut.is_some() && options.seconds > 0.0;
        self.watch.saw_if(late, Feature::ReconfigurationDelay);
        let multiplier = if placed.penalised {
            options.multiplier
        } else {
            1.0
        };
        if placed.penalised {
            self.count_penalised(remaining * (multiplier - 1.0))?;
        }
        self.decide(start, STARTED, placed.job, ask.size());
        self.queue_event(start + remaining * multiplier, What::Completion, placed.job)
    }

    fn count_penalised(&mut self, added: f64) -> Result<(), NotPermitted> {
        self.watch.saw_if(added > 0.0, Feature::AddedRuntime);
        self.now.totals.penalised += 1;
        self.now.totals.added = stored(self.now.totals.added + added)?;
        Ok(())
    }
}

/// The start: the clock, later by the cut, then later by the restart; each sum rounds by itself.
fn delayed(trace: &Trace, clock: f64, placed: &Placed, evictions: u64) -> f64 {
    let mut start = clock;
    if placed.cut.is_some() {
        start += trace.options.seconds;
    }
    if evictions > 0 {
        start += trace.options.penalty;
    }
    start
}
