//! Writes traces for the examples.

pub struct Trace(Vec<u8>);

/// A job of one GPU that asks for nothing else.
#[derive(Clone, Copy)]
pub struct Job {
    pub arrival: f64,
    pub duration: f64,
    pub priority: i64,
    pub count: u64,
    pub tenant: Option<u64>,
    pub gang: bool,
    pub timeout: f64,
    pub profile: Option<u64>,
    pub slices: u64,
}

pub const JOB: Job = Job {
    arrival: 0.0,
    duration: 1.0,
    priority: 0,
    count: 1,
    tenant: None,
    gang: false,
    timeout: 0.0,
    profile: None,
    slices: 0,
};

impl Trace {
    pub fn new() -> Self {
        Self(Vec::new())
    }

    pub fn node(self) -> Self {
        self.numbers(&[1, 0])
    }

    pub fn gpus(self, count: usize, mig: bool) -> Self {
        (0..count).fold(self, |t, _| t.numbers(&[2, 0, 0, 0, u64::from(mig)]))
    }

    pub fn profile(self, profile: u64, most: u64) -> Self {
        self.numbers(&[4, profile, most])
    }

    pub fn options(self, seconds: f64, penalty: f64, best_fit: bool) -> Self {
        let floats = [seconds, penalty, 1.0].map(f64::to_bits);
        self.numbers(&[6])
            .numbers(&floats)
            .numbers(&[u64::from(best_fit), 1])
    }

    pub fn job(self, job: Job) -> Self {
        let stored = if job.priority < 0 {
            -2 * job.priority - 1
        } else {
            2 * job.priority
        };
        let maybe = |number: Option<u64>| number.map_or(0, |n| n + 1);
        self.numbers(&[
            5,
            job.arrival.to_bits(),
            job.duration.to_bits(),
            stored as u64,
        ])
        .numbers(&[
            job.count,
            0,
            0,
            0,
            maybe(job.tenant),
            u64::from(job.gang),
            0,
            0,
        ])
        .numbers(&[job.timeout.to_bits(), maybe(job.profile), job.slices])
    }

    pub fn end(self) -> Vec<u8> {
        self.numbers(&[0]).0
    }

    fn numbers(mut self, numbers: &[u64]) -> Self {
        for &number in numbers {
            let mut rest = number;
            while rest >= 0x80 {
                self.0.push(rest as u8 | 0x80);
                rest >>= 7;
            }
            self.0.push(rest as u8);
        }
        self
    }
}
