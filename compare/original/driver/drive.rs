//! Steps the original through a trace and prints its decisions as lines of a plan.

use std::fmt::Write;
use std::panic::{catch_unwind, AssertUnwindSafe};

use crate::decision_log::SchedulerDecision;
use crate::details;
use crate::engine::SteppableSimulation;
use crate::load;
use crate::names;
use crate::trace;

/// The lines of one trace. The lines before a panic of the original stay.
pub fn run(bytes: &[u8], details: bool) -> String {
    let Some(trace) = trace::read(bytes) else {
        return "not loadable\n".to_string();
    };
    let mut lines = String::new();
    let planned = catch_unwind(AssertUnwindSafe(|| plan(&trace, details, &mut lines)));
    match planned {
        Ok(steps) => line(&mut lines, format_args!("end {steps}")),
        Err(_) => line(&mut lines, format_args!("panicked")),
    }
    lines
}

pub fn line(lines: &mut String, text: std::fmt::Arguments) {
    writeln!(lines, "{text}").expect("a string takes every line");
}

/// A trace planned to its end, with the original's own list of decisions in its cluster.
pub struct Planned {
    engine: load::Engine,
    pub steps: usize,
}

/// Plans a trace and prints nothing.
pub fn planned(bytes: &[u8]) -> Option<Planned> {
    let trace = trace::read(bytes)?;
    let mut engine = load::engine(&trace, &load::jobs(&trace));
    let mut steps = 0;
    while engine.step_once().is_some() {
        steps += 1;
    }
    Some(Planned { engine, steps })
}

impl Planned {
    pub fn decisions(&self) -> Vec<[u64; 4]> {
        self.engine.cluster.decision_log.iter().map(words).collect()
    }
}

/// Prints all steps and answers their number.
fn plan(trace: &trace::Trace, details: bool, lines: &mut String) -> usize {
    let jobs = load::jobs(trace);
    let mut engine = load::engine(trace, &jobs);
    if details {
        details::tables(trace, lines);
        details::state(&engine, &jobs, 0, lines);
    }
    let mut steps = 0;
    while let Some(outcome) = engine.step_once() {
        steps += 1;
        for decision in &outcome.new_decisions {
            print(decision, lines);
        }
        if details {
            details::state(&engine, &jobs, steps, lines);
        }
    }
    steps
}

/// A decision in the four words of document 01: the bits of its time, its kind, its job, and what else it names.
fn words(decision: &SchedulerDecision) -> [u64; 4] {
    let count = decision.gpus.len();
    let (kind, other) = match decision.kind.as_str() {
        "job_arrival" => (1, 0),
        "gang_timeout" => (2, 0),
        "job_complete" => (3, count),
        "job_preempted" => (4, made_way_for(&decision.text)),
        "job_scheduled" => (5, count),
        kind => panic!("a decision of the kind {kind}"),
    };
    let job = names::number(&decision.job_id);
    [decision.time.to_bits(), kind, job as u64, other as u64]
}

fn print(decision: &SchedulerDecision, lines: &mut String) {
    let [bits, kind, job, other] = words(decision);
    match kind {
        1 => line(lines, format_args!("{bits:016x} arrived {job}")),
        2 => line(lines, format_args!("{bits:016x} failed {job}")),
        3 => line(lines, format_args!("{bits:016x} completed {job} {other}")),
        4 => line(lines, format_args!("{bits:016x} evicted {job} {other}")),
        _ => line(lines, format_args!("{bits:016x} started {job} {other}")),
    }
}

/// Only the text of an eviction says for whom: the name in its last quotes.
fn made_way_for(text: &str) -> usize {
    let quoted = text.rsplit('\'').nth(1);
    names::number(quoted.expect("the text names a job in quotes"))
}
