//! Printing: the lines of the plan, and the detail lines that lay the plan open.

use std::fmt::{Arguments, Display, Write};

use crate::place::placeable;
use crate::plan::{load, Plan, Stage, What};
use crate::step::{step, ARRIVED, BUFFER_WORDS, COMPLETED, EVICTED, FAILED, STARTED};

/// What is printed beside the lines of the plan; events imply details.
#[derive(Clone, Copy, Debug, Default)]
pub struct Show {
    pub details: bool,
    pub events: bool,
}

/// The text of one run.
struct Page {
    text: String,
    show: Show,
}

/// Exactly what the program prints for one trace.
pub fn run(trace: &[u8], show: Show) -> String {
    let loaded = load(trace);
    let mut plan = loaded.plan;
    let mut page = Page {
        text: String::new(),
        show,
    };
    let mut steps: u64 = 0;
    page.tables(&plan);
    page.state(&plan, steps);
    if let Some(refusal) = loaded.refusal {
        page.line(format_args!(
            "refused {} at {}",
            refusal.number, refusal.place
        ));
        return page.text;
    }
    let mut buffer = [0; BUFFER_WORDS];
    loop {
        match step(&mut plan, &mut buffer) {
            Ok(decisions) => {
                steps += 1;
                page.decisions(&buffer, decisions);
                page.state(&plan, steps);
            }
            Err(11) => {
                page.line(format_args!("end {steps}"));
                return page.text;
            }
            Err(number) => {
                page.line(format_args!("refused {number}"));
                page.state(&plan, steps);
                return page.text;
            }
        }
    }
}

/// A field that may be none.
fn or_dash<T: Display>(value: Option<T>) -> String {
    value.map_or_else(|| "-".to_string(), |value| value.to_string())
}

fn bits(number: f64) -> String {
    format!("{:016x}", number.to_bits())
}

impl Page {
    /// Writing to a string cannot fail.
    fn line(&mut self, words: Arguments) {
        let _ = self.text.write_fmt(words);
        self.text.push('\n');
    }

    fn decisions(&mut self, buffer: &[u64], number: usize) {
        for words in buffer.chunks_exact(4).take(number) {
            let (time, kind, job, other) = (words[0], words[1], words[2], words[3]);
            match kind {
                ARRIVED => self.line(format_args!("{time:016x} arrived {job}")),
                FAILED => self.line(format_args!("{time:016x} failed {job}")),
                COMPLETED => self.line(format_args!("{time:016x} completed {job} {other}")),
                EVICTED => self.line(format_args!("{time:016x} evicted {job} {other}")),
                STARTED => self.line(format_args!("{time:016x} started {job} {other}")),
                _ => {}
            }
        }
    }

    fn tables(&mut self, plan: &Plan) {
        if !self.show.details && !self.show.events {
            return;
        }
        let trace = &plan.trace;
        for (number, node) in trace.nodes.iter().enumerate() {
            self.line(format_args!("# node {number} {}", or_dash(node.site)));
        }
        for (number, gpu) in trace.gpus.iter().enumerate() {
            let (memory, group) = (bits(gpu.memory), or_dash(gpu.group));
            let mig = u8::from(gpu.mig_capable);
            self.line(format_args!(
                "# gpu {number} {} {} {memory} {group} {mig}",
                gpu.node, gpu.model
            ));
        }
        for (tenant, quota) in trace.quotas.iter().enumerate() {
            if let Some(quota) = quota {
                self.line(format_args!("# quota {tenant} {quota}"));
            }
        }
        for (profile, most) in trace.profiles.iter().enumerate() {
            if let Some(most) = most {
                self.line(format_args!("# profile {profile} {most}"));
            }
        }
        self.asks(plan);
        self.options(plan);
    }

    fn asks(&mut self, plan: &Plan) {
        for (job, ask) in plan.trace.asks.iter().enumerate() {
            let fields = [
                bits(ask.arrival),
                bits(ask.duration),
                ask.priority.to_string(),
                ask.count.to_string(),
                bits(ask.memory),
                or_dash(ask.model),
                or_dash(ask.site),
                or_dash(ask.tenant),
                u8::from(ask.gang).to_string(),
                ask.gang_nodes.to_string(),
                u8::from(ask.network).to_string(),
                bits(ask.timeout),
                or_dash(ask.profile),
                ask.slices.to_string(),
            ];
            self.line(format_args!("# ask {job} {}", fields.join(" ")));
        }
    }

    fn options(&mut self, plan: &Plan) {
        let options = &plan.trace.options;
        self.line(format_args!(
            "# options {} {} {} {} {}",
            bits(options.seconds),
            bits(options.penalty),
            bits(options.multiplier),
            u8::from(options.best_fit),
            u8::from(options.quota_aware)
        ));
    }

    fn state(&mut self, plan: &Plan, steps: u64) {
        if !self.show.details && !self.show.events {
            return;
        }
        self.line(format_args!("# step {steps} {}", bits(plan.now.clock)));
        let totals = &plan.now.totals;
        self.line(format_args!(
            "# totals {} {} {} {} {}",
            totals.evictions,
            totals.cuts,
            totals.penalised,
            totals.longest,
            bits(totals.added)
        ));
        let queue: String = plan.now.queue.iter().map(|job| format!(" {job}")).collect();
        self.line(format_args!("# queue{queue}"));
        self.jobs(plan);
        self.owners(plan);
        if self.show.events {
            self.events(plan);
        }
    }

    fn jobs(&mut self, plan: &Plan) {
        for (number, job) in plan.now.jobs.iter().enumerate() {
            let (stage, since, start) = match job.stage {
                Stage::Pending => ("pending", None, None),
                Stage::Waiting => ("waiting", Some(bits(job.since)), None),
                Stage::Running => ("running", None, Some(bits(job.start))),
                Stage::Finished => ("finished", None, None),
                Stage::Failed => ("failed", None, None),
            };
            let answer = if placeable(plan, number) == Ok(true) {
                "yes"
            } else {
                "no"
            };
            self.line(format_args!(
                "# job {number} {stage} {} {} {} {} {} {} {} {answer}",
                or_dash(since),
                or_dash(start),
                bits(job.remaining),
                bits(job.waited),
                job.evictions,
                job.run_generation,
                job.timeout_generation
            ));
        }
    }

    fn owners(&mut self, plan: &Plan) {
        for (gpu, held) in plan.now.room.iter().enumerate() {
            let (owner, profile) = (or_dash(held.owner), or_dash(held.profile));
            let owners: String = held
                .owners()
                .iter()
                .map(|&owner| format!(" {}", or_dash(owner)))
                .collect();
            self.line(format_args!(
                "# owner {gpu} {owner} {profile} {}{owners}",
                held.slices
            ));
        }
    }

    fn events(&mut self, plan: &Plan) {
        let mut events: Vec<_> = plan.now.events.iter().collect();
        events.sort_by_key(|event| event.number);
        for event in events {
            let kind = match event.what {
                What::Arrival => "arrival",
                What::Completion => "completion",
                What::Timeout => "timeout",
            };
            let (number, time) = (event.number, bits(event.time));
            let (job, generation) = (event.job, event.generation);
            self.line(format_args!(
                "# event {number} {time} {kind} {job} {generation}"
            ));
        }
    }
}
