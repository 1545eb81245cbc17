//! Makes the original's engine out of a trace.

use std::collections::HashMap;

use crate::cluster::Cluster;
use crate::engine::SimulationEngine;
use crate::mig::{MigHardwareConfig, MigProfileRegistry, MigProfileSpec};
use crate::models::{Gpu, Job, Node};
use crate::names;
use crate::topology::TopologyGraph;
use crate::trace::{self, Options, Trace};
use crate::{GpuSelectionPolicy, PreemptivePriorityScheduler, ResourceManager};

pub type Engine = SimulationEngine<PreemptivePriorityScheduler>;

/// The engine before its first step, all jobs submitted.
pub fn engine(trace: &Trace, jobs: &[Job]) -> Engine {
    let options = &trace.options;
    let scheduler = PreemptivePriorityScheduler {
        restart_penalty_secs: options.penalty,
        quota_aware_preemption: options.quota_aware,
    };
    let mut engine =
        SimulationEngine::with_resource_manager(cluster(trace), scheduler, resources(trace))
            .with_preemption_restart_penalty(options.penalty);
    engine.submit_jobs(jobs.to_vec());
    engine
}

fn cluster(trace: &Trace) -> Cluster {
    let mut cluster = Cluster::new((0..trace.sites.len()).map(|n| node(trace, n)).collect());
    for (number, site) in trace.sites.iter().enumerate() {
        if let Some(site) = site {
            let (node, site) = (names::node(number), names::site(*site));
            cluster.node_sites.insert(node, site);
        }
    }
    for (tenant, quota) in &trace.quotas {
        let tenant = names::tenant(*tenant);
        cluster.tenant_quotas.insert(tenant, *quota as u32);
    }
    cluster.topology = TopologyGraph {
        multiplier: trace.options.multiplier,
    };
    cluster
}

fn node(trace: &Trace, number: usize) -> Node {
    let on_it = trace
        .gpus
        .iter()
        .enumerate()
        .filter(|(_, gpu)| gpu.node == number);
    Node {
        id: names::node(number),
        gpus: on_it.map(|(n, record)| gpu(n, record)).collect(),
    }
}

fn gpu(number: usize, record: &trace::Gpu) -> Gpu {
    Gpu {
        id: names::gpu(number),
        node_id: names::node(record.node),
        profile: names::gpu_type(record.kind),
        memory_gb: record.memory,
        nvlink_group: record.group.map(|group| group as u32),
        mig_capable: record.mig,
        active_mig_profile: None,
        slices: Vec::new(),
        running_job_id: None,
    }
}

fn resources(trace: &Trace) -> ResourceManager {
    let Options {
        reconfiguration,
        best_fit,
        ..
    } = trace.options;
    let profiles: HashMap<_, _> = trace
        .profiles
        .iter()
        .map(|(n, most)| spec(*n, *most))
        .collect();
    let registry = MigProfileRegistry::from_config(MigHardwareConfig {
        hardware: String::new(),
        reconfig_seconds: reconfiguration,
        profiles,
    });
    let policy = match best_fit {
        true => GpuSelectionPolicy::BestFit,
        false => GpuSelectionPolicy::FirstFit,
    };
    ResourceManager::with_mig(registry).with_gpu_selection(policy)
}

/// A profile's memory is only kept in the slices, never looked at.
fn spec(profile: u64, most: u64) -> (String, MigProfileSpec) {
    let spec = MigProfileSpec {
        memory_gb: 0.0,
        max_per_gpu: most as u32,
    };
    (names::profile(profile), spec)
}

pub fn jobs(trace: &Trace) -> Vec<Job> {
    trace
        .jobs
        .iter()
        .enumerate()
        .map(|(n, record)| job(n, record))
        .collect()
}

fn job(number: usize, record: &trace::Job) -> Job {
    let name = names::job(number);
    let (arrival, duration) = (record.arrival, record.duration);
    Job {
        gpu_memory_gb: record.memory,
        // Priorities of the original start at 0.
        priority: (record.priority + (1 << 31)) as u32,
        tenant: record.tenant.map(names::tenant),
        network_bw_gbps: record.network.then_some(1.0),
        gpu_type: record.kind.map(names::gpu_type),
        site: record.site.map(names::site),
        gang_enabled: record.gang,
        gang_size_nodes: Some(record.gang_nodes as u32),
        gang_timeout_secs: Some(record.timeout),
        mig_profile: record.profile.map(names::profile),
        mig_count: record.profile.map(|_| record.slices as u32),
        ..Job::new(name.clone(), name, arrival, duration, record.count as u32)
    }
}
