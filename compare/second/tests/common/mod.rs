//! A small encoder of traces, and a runner that keeps what each step answered.
#![allow(dead_code)]

use second::{load, step, Plan, BUFFER_WORDS};

/// A job record; fields that a test does not name are zero or none.
#[derive(Clone, Copy, Default)]
pub struct Job {
    pub arrival: f64,
    pub duration: f64,
    pub priority: i64,
    pub count: u64,
    pub memory: f64,
    pub model: Option<u64>,
    pub site: Option<u64>,
    pub tenant: Option<u64>,
    pub gang: bool,
    pub gang_nodes: u64,
    pub network: bool,
    pub timeout: f64,
    pub profile: Option<u64>,
    pub slices: u64,
}

pub fn job(arrival: f64, duration: f64, priority: i64, count: u64) -> Job {
    Job {
        arrival,
        duration,
        priority,
        count,
        ..Job::default()
    }
}

pub fn mig(arrival: f64, duration: f64, slices: u64) -> Job {
    Job {
        profile: Some(0),
        slices,
        ..job(arrival, duration, 0, 0)
    }
}

#[derive(Clone, Default)]
pub struct Bytes(pub Vec<u8>);

impl Bytes {
    pub fn number(mut self, mut value: u64) -> Self {
        while value >= 0x80 {
            self.0.push(value as u8 | 0x80);
            value >>= 7;
        }
        self.0.push(value as u8);
        self
    }

    pub fn numbers(self, values: &[u64]) -> Self {
        values
            .iter()
            .fold(self, |bytes, &value| bytes.number(value))
    }

    pub fn float(self, value: f64) -> Self {
        self.number(value.to_bits())
    }

    pub fn node(self, site: Option<u64>) -> Self {
        self.numbers(&[1, site.map_or(0, |site| site + 1)])
    }

    pub fn gpu(self, model: u64, memory: f64, group: Option<u64>, mig: bool) -> Self {
        let bytes = self.numbers(&[2, model]).float(memory);
        bytes.numbers(&[group.map_or(0, |group| group + 1), u64::from(mig)])
    }

    /// So many plain GPUs on the latest node.
    pub fn gpus(self, number: usize) -> Self {
        (0..number).fold(self, |bytes, _| bytes.gpu(0, 0.0, None, false))
    }

    /// So many MIG-capable GPUs on the latest node.
    pub fn mig_gpus(self, number: usize) -> Self {
        (0..number).fold(self, |bytes, _| bytes.gpu(0, 0.0, None, true))
    }

    pub fn quota(self, tenant: u64, quota: u64) -> Self {
        self.numbers(&[3, tenant, quota])
    }

    pub fn profile(self, profile: u64, most: u64) -> Self {
        self.numbers(&[4, profile, most])
    }

    pub fn job(self, job: Job) -> Self {
        let priority = if job.priority < 0 {
            -2 * job.priority - 1
        } else {
            2 * job.priority
        };
        let stored = |field: Option<u64>| field.map_or(0, |number| number + 1);
        let bytes = self.number(5).float(job.arrival).float(job.duration);
        let bytes = bytes
            .numbers(&[priority as u64, job.count])
            .float(job.memory);
        let bytes = bytes.numbers(&[stored(job.model), stored(job.site), stored(job.tenant)]);
        let bytes = bytes.numbers(&[u64::from(job.gang), job.gang_nodes, u64::from(job.network)]);
        bytes
            .float(job.timeout)
            .numbers(&[stored(job.profile), job.slices])
    }

    pub fn options(self, floats: [f64; 3], best_fit: bool, quota_aware: bool) -> Self {
        let bytes = floats
            .iter()
            .fold(self.number(6), |bytes, &float| bytes.float(float));
        bytes.numbers(&[u64::from(best_fit), u64::from(quota_aware)])
    }

    pub fn end(self) -> Vec<u8> {
        self.number(0).0
    }
}

/// A decision with its time as a number.
pub type Decision = (f64, u64, u64, u64);

pub const ARRIVED: u64 = 1;
pub const FAILED: u64 = 2;
pub const COMPLETED: u64 = 3;
pub const EVICTED: u64 = 4;
pub const STARTED: u64 = 5;

pub fn loaded(bytes: &[u8]) -> Plan {
    let loaded = load(bytes);
    assert_eq!(loaded.refusal, None);
    loaded.plan
}

/// One accepted step and its decisions.
pub fn stepped(plan: &mut Plan) -> Vec<Decision> {
    let mut buffer = [0; BUFFER_WORDS];
    let number = step(plan, &mut buffer).expect("an accepted step");
    let words = buffer.chunks_exact(4).take(number);
    words
        .map(|words| (f64::from_bits(words[0]), words[1], words[2], words[3]))
        .collect()
}

/// The decisions of so many steps, one after another.
pub fn steps(plan: &mut Plan, number: usize) -> Vec<Decision> {
    (0..number).flat_map(|_| stepped(plan)).collect()
}

/// The decisions of a whole run that ends without refusal.
pub fn whole(bytes: &[u8]) -> Vec<Decision> {
    let mut plan = loaded(bytes);
    let mut decisions = Vec::new();
    while !plan.now.events.is_empty() {
        decisions.extend(stepped(&mut plan));
    }
    decisions
}
