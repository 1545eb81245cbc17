//! Prints the detail lines: the tables after the load and the state after each step.

use std::fmt::Display;

use crate::drive::line;
use crate::load::Engine;
use crate::models::{Gpu, Job, JobState};
use crate::names;
use crate::trace::{self, Trace};

pub fn tables(trace: &Trace, lines: &mut String) {
    for (node, site) in trace.sites.iter().enumerate() {
        line(lines, format_args!("# node {node} {}", or_dash(*site)));
    }
    for (number, gpu) in trace.gpus.iter().enumerate() {
        let (memory, group) = (bits(gpu.memory), or_dash(gpu.group));
        let (node, kind, mig) = (gpu.node, gpu.kind, u8::from(gpu.mig));
        line(
            lines,
            format_args!("# gpu {number} {node} {kind} {memory} {group} {mig}"),
        );
    }
    for (tenant, quota) in &trace.quotas {
        line(lines, format_args!("# quota {tenant} {quota}"));
    }
    for (profile, most) in &trace.profiles {
        line(lines, format_args!("# profile {profile} {most}"));
    }
    for (number, job) in trace.jobs.iter().enumerate() {
        let words = ask(job).join(" ");
        line(lines, format_args!("# ask {number} {words}"));
    }
    options(&trace.options, lines);
}

fn ask(job: &trace::Job) -> [String; 14] {
    [
        bits(job.arrival),
        bits(job.duration),
        job.priority.to_string(),
        job.count.to_string(),
        bits(job.memory),
        or_dash(job.kind),
        or_dash(job.site),
        or_dash(job.tenant),
        u8::from(job.gang).to_string(),
        job.gang_nodes.to_string(),
        u8::from(job.network).to_string(),
        bits(job.timeout),
        or_dash(job.profile),
        job.slices.to_string(),
    ]
}

fn options(options: &trace::Options, lines: &mut String) {
    let (seconds, penalty) = (bits(options.reconfiguration), bits(options.penalty));
    let multiplier = bits(options.multiplier);
    let (best, aware) = (u8::from(options.best_fit), u8::from(options.quota_aware));
    line(
        lines,
        format_args!("# options {seconds} {penalty} {multiplier} {best} {aware}"),
    );
}

/// `loaded` stands in for jobs that have not arrived, which the engine keeps to itself.
pub fn state(engine: &Engine, loaded: &[Job], steps: usize, lines: &mut String) {
    let cluster = &engine.cluster;
    line(
        lines,
        format_args!("# step {steps} {}", bits(cluster.clock)),
    );
    totals(engine, lines);
    let waiting = cluster.waiting_queue.iter();
    let queue: String = waiting
        .map(|j| format!(" {}", names::number(&j.id)))
        .collect();
    line(lines, format_args!("# queue{queue}"));
    for (number, job) in present_jobs(engine, loaded).into_iter().enumerate() {
        let words = job_words(engine, job).join(" ");
        line(lines, format_args!("# job {number} {words}"));
    }
    for gpu in cluster.all_gpus() {
        owner(gpu, lines);
    }
}

fn totals(engine: &Engine, lines: &mut String) {
    let cluster = &engine.cluster;
    let (evictions, cuts) = (cluster.total_preemptions, cluster.mig_reconfigs);
    let (penalised, longest) = (cluster.topology_penalties, cluster.queue_max_length);
    let added = bits(cluster.topology_runtime_inflation);
    line(
        lines,
        format_args!("# totals {evictions} {cuts} {penalised} {longest} {added}"),
    );
}

/// Each job by its number, as it is where the engine keeps it now.
fn present_jobs<'a>(engine: &'a Engine, loaded: &'a [Job]) -> Vec<&'a Job> {
    let cluster = &engine.cluster;
    let mut jobs: Vec<&Job> = loaded.iter().collect();
    let waiting = cluster.waiting_queue.iter();
    let kept = waiting.chain(cluster.running_jobs.values());
    for job in kept.chain(&cluster.finished_jobs) {
        jobs[names::number(&job.id)] = job;
    }
    jobs
}

fn job_words(engine: &Engine, job: &Job) -> [String; 9] {
    let (state, since, start) = match job.state {
        JobState::Pending => ("pending", None, None),
        JobState::Waiting => ("waiting", job.waiting_since, None),
        JobState::Running => ("running", None, job.start_time),
        JobState::Finished => ("finished", None, None),
        JobState::Failed => ("failed", None, None),
    };
    let placeable = engine.resource_manager.can_place(&engine.cluster, job);
    // Every eviction raises the original's generation as well.
    let timeouts = job.gang_timeout_generation - job.preemption_count;
    [
        state.to_string(),
        or_dash(since.map(bits)),
        or_dash(start.map(bits)),
        bits(job.duration_remaining()),
        bits(job.cumulative_wait_secs),
        job.preemption_count.to_string(),
        job.run_generation.to_string(),
        timeouts.to_string(),
        if placeable { "yes" } else { "no" }.to_string(),
    ]
}

fn owner(gpu: &Gpu, lines: &mut String) {
    let number = names::number(&gpu.id);
    let whole = number_or_dash(&gpu.running_job_id);
    let profile = number_or_dash(&gpu.active_mig_profile);
    let count = gpu.slices.len();
    let owners = gpu.slices.iter();
    let owners: String = owners
        .map(|slice| format!(" {}", number_or_dash(&slice.running_job_id)))
        .collect();
    line(
        lines,
        format_args!("# owner {number} {whole} {profile} {count}{owners}"),
    );
}

fn number_or_dash(name: &Option<String>) -> String {
    or_dash(name.as_deref().map(names::number))
}

fn or_dash<T: Display>(value: Option<T>) -> String {
    value.map_or("-".to_string(), |value| value.to_string())
}

fn bits(value: f64) -> String {
    format!("{:016x}", value.to_bits())
}
