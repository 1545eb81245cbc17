//! What happens to each job, as spans of time and marks at a time.

use crate::plan::{Decision, Plan, What};
use crate::trace::{counted, Job, Trace};

#[derive(Clone, Copy, PartialEq, Debug)]
pub enum Sort {
    Waiting,
    /// has its GPUs or slices, which are being cut or restarted, and starts later
    Held,
    Running,
    /// to make way for that job
    Evicted(usize),
    Completed,
    Failed,
}

/// A mark ends where it begins; what nothing ends goes on to infinity.
#[derive(Clone, Copy, PartialEq, Debug)]
pub struct Span {
    pub sort: Sort,
    pub from: f64,
    pub to: f64,
}

#[derive(Clone, Copy)]
enum State {
    Away,
    /// since
    Waiting(f64),
    /// waiting since, given at, starting at
    Given(f64, f64, f64),
    Gone,
}

/// The spans of each job; refuses a plan that is not one of this trace.
pub fn rows(trace: &Trace, plan: &Plan) -> Result<Vec<Vec<Span>>, String> {
    let jobs = trace.jobs.len();
    let mut rows = vec![(State::Away, Vec::new()); jobs];
    for one in &plan.decisions {
        let told = |what: &str| format!("plan, line {}: {what}", one.line);
        let beyond = |job: usize| job >= jobs;
        if beyond(one.job) || matches!(one.what, What::Evicted(by) if beyond(by)) {
            return Err(told(&format!(
                "the trace has only {}",
                counted(jobs as u64, "job")
            )));
        }
        let (state, row) = &mut rows[one.job];
        let next = next(*state, one, &trace.jobs[one.job]);
        let (next, mark) = next.ok_or(told("no plan of this trace has this here"))?;
        if !matches!(next, State::Given(..)) {
            close(*state, one.time, row);
        }
        row.extend(mark.map(|sort| span(sort, one.time, one.time)));
        *state = next;
    }
    for (job, (state, row)) in rows.iter_mut().enumerate() {
        if !plan.stopped && matches!(state, State::Away | State::Given(..)) {
            return Err(format!("the plan ends too early for job {job}"));
        }
        close(*state, f64::INFINITY, row);
    }
    Ok(rows.into_iter().map(|(_, row)| row).collect())
}

fn next(state: State, one: &Decision, job: &Job) -> Option<(State, Option<Sort>)> {
    let asked = match one.what {
        What::Arrived => one.time == job.arrival,
        What::Started(count) | What::Completed(count) => count == job.count,
        What::Evicted(_) | What::Failed => true,
    };
    let next = match (state, one.what) {
        (State::Away, What::Arrived) => (State::Waiting(one.time), None),
        (State::Waiting(since), What::Started(_)) => {
            (State::Given(since, one.clock, one.time), None)
        }
        (State::Given(..), What::Evicted(by)) => {
            (State::Waiting(one.time), Some(Sort::Evicted(by)))
        }
        (State::Given(..), What::Completed(_)) => (State::Gone, Some(Sort::Completed)),
        (State::Waiting(_), What::Failed) => (State::Gone, Some(Sort::Failed)),
        _ => return None,
    };
    asked.then_some(next)
}

/// Adds the spans of a state that ends at `to`; a job may be evicted before it starts.
fn close(state: State, to: f64, row: &mut Vec<Span>) {
    match state {
        State::Away | State::Gone => {}
        State::Waiting(since) => row.push(span(Sort::Waiting, since, to)),
        State::Given(since, given, start) => {
            row.push(span(Sort::Waiting, since, start.min(to)));
            row.push(span(Sort::Held, given, start.min(to)));
            row.push(span(Sort::Running, start, to));
        }
    }
    // a span, unlike a mark, takes time
    row.retain(|span| span.is_mark() || span.from < span.to);
}

fn span(sort: Sort, from: f64, to: f64) -> Span {
    Span { sort, from, to }
}

impl Span {
    /// Whether it lies at one time.
    pub fn is_mark(&self) -> bool {
        !matches!(self.sort, Sort::Waiting | Sort::Held | Sort::Running)
    }
}
