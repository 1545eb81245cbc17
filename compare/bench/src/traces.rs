//! The traces that are timed, drawn from fixed seeds, and their shape.

use form::{Item, Record};
use generate::{seed_of, timed, Timed};
use second::step::{ARRIVED, FAILED};
use second::{Domain, BUFFER_WORDS};

/// How many of a kind.
pub const TRACES: usize = 5;

/// A kind of trace that is timed.
#[derive(Clone, Debug)]
pub struct Kind {
    pub name: String,
    made: Timed,
    /// spoilt at the very end, so that all is loaded and then refused
    spoilt: bool,
}

/// The kinds by name. Loading alone has no function of its own, so a refused trace stands for it.
const NAMED: [(&str, Timed, bool); 7] = [
    ("small", Timed::Small, false),
    ("night", Timed::Night, false),
    ("full", Timed::Full, false),
    ("preemption", Timed::Preemption, false),
    ("gangs", Timed::Gangs, false),
    ("mig", Timed::Mig, false),
    ("loading", Timed::Full, true),
];

const GROWN: [u64; 5] = [8, 16, 32, 64, 128];

pub fn kinds() -> Vec<Kind> {
    NAMED
        .map(|(name, made, spoilt)| Kind {
            name: name.to_string(),
            made,
            spoilt,
        })
        .to_vec()
}

/// More and more jobs at 128 GPUs; they ask for less and less, so that the load stays and the queue grows with them.
pub fn by_jobs() -> Vec<Kind> {
    GROWN
        .map(|jobs| grown(format!("{jobs} jobs"), jobs, 128, 512 / jobs))
        .to_vec()
}

/// 128 jobs at more and more GPUs; they ask for more and more, so that the queue stays long.
pub fn by_gpus() -> Vec<Kind> {
    GROWN
        .map(|gpus| grown(format!("{gpus} GPUs"), 128, gpus, gpus / 8))
        .to_vec()
}

fn grown(name: String, jobs: u64, gpus: u64, count: u64) -> Kind {
    Kind {
        name,
        made: Timed::Grown { jobs, gpus, count },
        spoilt: false,
    }
}

impl Kind {
    /// The first traces of the kind that are in the domain of comparison, where all planners have to say the same.
    pub fn traces(&self) -> Vec<Vec<u8>> {
        let drawn = (0..).map(|number| timed(self.made, seed_of(1, number)));
        let mut traces: Vec<Vec<u8>> = drawn
            .filter(|trace| in_domain(trace))
            .take(TRACES)
            .collect();
        if self.spoilt {
            traces.iter_mut().for_each(spoil);
        }
        traces
    }
}

fn in_domain(trace: &[u8]) -> bool {
    let seen = second::observe(trace);
    seen.refusal.is_none() && seen.domain == Domain::default()
}

/// Puts a quota of 2^32 in front of the end record: the last field before it is out of its range.
fn spoil(bytes: &mut Vec<u8>) {
    let mut items = form::split(bytes);
    let quota = Record {
        kind: 3,
        fields: vec![31, 1 << 32],
    };
    items.insert(items.len() - 1, Item::Record(quota));
    *bytes = form::join(&items);
}

/// What planning some traces takes, in all.
#[derive(Default, Debug)]
pub struct Shape {
    pub steps: usize,
    /// waiting jobs looked at, in all passes
    pub visits: usize,
    /// visits that evict, and those that try to and evict nobody
    pub preempting: u64,
    pub in_vain: u64,
}

impl Shape {
    pub fn of(traces: &[Vec<u8>]) -> Shape {
        let mut shape = Shape::default();
        for trace in traces {
            shape.count_visits(trace);
            for (name, times) in second::observe(trace).features {
                match name {
                    "preemptions" => shape.preempting += times,
                    "preemption tried in vain" => shape.in_vain += times,
                    _ => {}
                }
            }
        }
        shape
    }

    /// A pass looks at all who wait when its event has happened; a stale event decides nothing and has no pass.
    fn count_visits(&mut self, trace: &[u8]) {
        let mut plan = second::load(trace).plan;
        let mut buffer = [0; BUFFER_WORDS];
        let mut waiting = 0;
        while let Ok(decisions) = second::step(&mut plan, &mut buffer) {
            self.steps += 1;
            self.visits += match (decisions, buffer[1]) {
                (0, _) => 0,
                (_, ARRIVED) => waiting + 1,
                (_, FAILED) => waiting - 1,
                _ => waiting,
            };
            waiting = plan.now.queue.len();
        }
    }
}

#[cfg(test)]
mod tests {
    use super::*;

    /// Nodes, GPUs and jobs.
    fn size(trace: &[u8]) -> [usize; 3] {
        let tables = second::load(trace).plan.trace;
        [tables.nodes.len(), tables.gpus.len(), tables.asks.len()]
    }

    /// Gang jobs over several nodes, and jobs for slices.
    fn gangs_and_sliced(trace: &[u8]) -> [usize; 2] {
        let asks = second::load(trace).plan.trace.asks;
        let gangs = asks.iter().filter(|ask| ask.gang && ask.gang_nodes > 0);
        let sliced = asks.iter().filter(|ask| ask.profile.is_some());
        [gangs.count(), sliced.count()]
    }

    fn is_what_it_is_called(name: &str, trace: &[u8]) -> bool {
        let shape = Shape::of(&[trace.to_vec()]);
        let [gangs, sliced] = gangs_and_sliced(trace);
        let full = size(trace) == [32, 128, 128] && shape.visits > 10 * shape.steps;
        let tries = (shape.preempting + shape.in_vain) as usize;
        match name {
            "small" => size(trace)[2] == 8,
            "night" => size(trace)[2] == 40,
            "full" => full,
            "preemption" => full && shape.preempting > 40 && tries > 4 * shape.steps,
            "gangs" => full && gangs > 96,
            "mig" => full && sliced > 90,
            _ => only_the_last_record_is_refused(trace),
        }
    }

    /// 2^32 takes five bytes, and behind them stands the end record.
    fn only_the_last_record_is_refused(trace: &[u8]) -> bool {
        let refusal = second::load(trace).refusal;
        let at = refusal.map(|refusal| (refusal.number, refusal.place));
        let whole = [&trace[..trace.len() - 8], &[0]].concat();
        at == Some((4, trace.len() - 6)) && size(&whole) == [32, 128, 128]
    }

    #[test]
    fn every_trace_is_what_its_kind_is_called() {
        for kind in kinds() {
            for trace in kind.traces() {
                let name = &kind.name;
                let is = is_what_it_is_called(name, &trace);
                assert!(is, "{name}: {:?}", Shape::of(&[trace]));
            }
        }
    }

    #[test]
    fn growth_is_in_jobs_or_in_gpus_alone() {
        for (number, (jobs, gpus)) in by_jobs().iter().zip(by_gpus()).enumerate() {
            let more = 8 << number;
            for seed in 0..20 {
                assert_eq!(size(&timed(jobs.made, seed)), [32, 128, more]);
                assert_eq!(size(&timed(gpus.made, seed)), [more / 4, more, 128]);
            }
        }
    }
}
