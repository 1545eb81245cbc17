//! What the picture takes from a trace: how many GPUs there are, and what each job asks for.

use form::shape::SHAPES;
use form::{value, Item, Record};

pub struct Job {
    pub arrival: f64,
    pub priority: i128,
    pub tenant: Option<u64>,
    /// asks for slices, not for whole GPUs
    pub sliced: bool,
    /// GPUs, or slices
    pub count: u64,
    /// that a gang is spread over, else 0
    pub nodes: u64,
}

#[derive(Default)]
pub struct Trace {
    pub gpus: u64,
    pub jobs: Vec<Job>,
}

/// Takes the bytes of a trace or its readable text, which no record's kind can begin.
pub fn read(input: &[u8]) -> Result<Trace, String> {
    let text = input.first().is_some_and(|&byte| byte > 6);
    let bytes = if text { encode(input)? } else { input.to_vec() };
    let mut trace = Trace::default();
    let mut ended = false;
    for item in form::split(&bytes) {
        let Item::Record(record) = item else {
            return Err("the trace holds bytes that are no record".to_string());
        };
        let number = trace.jobs.len();
        let no_job = || format!("the trace's job {number} has a field out of its range");
        match SHAPES[record.kind].word {
            "end" => ended = true,
            "gpu" => trace.gpus += 1,
            "job" => trace.jobs.push(job(&record).ok_or_else(no_job)?),
            _ => {}
        }
    }
    match ended {
        true => Ok(trace),
        false => Err("the trace has no end record".to_string()),
    }
}

fn encode(text: &[u8]) -> Result<Vec<u8>, String> {
    let text = std::str::from_utf8(text).map_err(|_| "the trace begins with no record")?;
    form::encode(text).map_err(|fault| format!("trace, {fault}"))
}

fn job(record: &Record) -> Option<Job> {
    let named = SHAPES[record.kind].fields.iter().zip(&record.fields);
    let field = |name: &str| {
        let found = named.clone().find(|(field, _)| field.name == name);
        found.map_or(0, |(_, &stored)| stored)
    };
    let sliced = field("profile") > 0;
    let spread = !sliced && field("gang") == 1;
    let job = Job {
        arrival: f64::from_bits(field("arrival")),
        priority: value::signed(field("priority")),
        tenant: field("tenant").checked_sub(1),
        sliced,
        count: field(if sliced { "slices" } else { "gpus" }),
        nodes: if spread { field("nodes") } else { 0 },
    };
    (field("tenant") <= 32 && job.count <= 128).then_some(job)
}

impl Job {
    /// What the job asks for, in words.
    pub fn wants(&self) -> String {
        let wanted = counted(self.count, if self.sliced { "slice" } else { "GPU" });
        match self.nodes {
            0 => wanted,
            nodes => format!("{wanted} on {}", counted(nodes, "node")),
        }
    }
}

/// A number and its noun.
pub fn counted(number: u64, noun: &str) -> String {
    format!("{number} {noun}{}", if number == 1 { "" } else { "s" })
}
