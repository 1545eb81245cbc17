//! The records of a trace with named fields, each turned into stored numbers in one place.

use form::{value, Item, Record};

/// A job as one thinks of it; none where the trace stores 0 for none.
#[derive(Clone, Default)]
pub struct Job {
    pub arrival: f64,
    pub duration: f64,
    pub priority: i64,
    pub gpus: u64,
    pub memory: f64,
    pub kind: Option<u64>,
    pub site: Option<u64>,
    pub tenant: Option<u64>,
    pub gang: bool,
    pub nodes: u64,
    pub network: bool,
    pub timeout: f64,
    pub profile: Option<u64>,
    pub slices: u64,
}

/// The options of a trace.
#[derive(Clone)]
pub struct Options {
    pub seconds: f64,
    pub penalty: f64,
    pub multiplier: f64,
    pub best: bool,
    pub aware: bool,
}

impl Default for Options {
    fn default() -> Options {
        Options {
            seconds: 30.0,
            penalty: 0.0,
            multiplier: 1.0,
            best: false,
            aware: true,
        }
    }
}

fn record(kind: usize, fields: &[u64]) -> Item {
    Item::Record(Record {
        kind,
        fields: fields.to_vec(),
    })
}

fn maybe(number: Option<u64>) -> u64 {
    number.map_or(0, |n| n + 1)
}

pub fn end() -> Item {
    record(0, &[])
}

pub fn node(site: Option<u64>) -> Item {
    record(1, &[maybe(site)])
}

pub fn gpu(kind: u64, memory: f64, group: Option<u64>, capable: bool) -> Item {
    record(2, &[kind, memory.to_bits(), maybe(group), capable.into()])
}

pub fn quota(tenant: u64, gpus: u64) -> Item {
    record(3, &[tenant, gpus])
}

pub fn profile(number: u64, most: u64) -> Item {
    record(4, &[number, most])
}

impl Job {
    pub fn item(&self) -> Item {
        record(
            5,
            &[
                self.arrival.to_bits(),
                self.duration.to_bits(),
                value::zigzag(self.priority),
                self.gpus,
                self.memory.to_bits(),
                maybe(self.kind),
                maybe(self.site),
                maybe(self.tenant),
                self.gang.into(),
                self.nodes,
                self.network.into(),
                self.timeout.to_bits(),
                maybe(self.profile),
                self.slices,
            ],
        )
    }
}

impl Options {
    pub fn item(&self) -> Item {
        let floats = [self.seconds, self.penalty, self.multiplier].map(f64::to_bits);
        record(
            6,
            &[
                floats[0],
                floats[1],
                floats[2],
                self.best.into(),
                self.aware.into(),
            ],
        )
    }
}
