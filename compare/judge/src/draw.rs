//! Which traces are drawn: from a seed, of which kind, how many, and what leaves one out.

use crate::admit::Admit;
use generate::Kind;

/// A row of generated traces, and the test that each has to pass.
#[derive(Clone, Copy)]
pub struct Draw {
    pub admit: Admit,
    pub kind: Option<Kind>,
    /// mostly traces that are refused
    pub loads: bool,
    /// the most jobs that a trace may load
    pub jobs: Option<usize>,
    pub seed: u64,
    pub traces: u64,
}

impl Default for Draw {
    fn default() -> Draw {
        Draw {
            admit: Admit::default(),
            kind: None,
            loads: false,
            jobs: None,
            seed: 1,
            traces: 10_000,
        }
    }
}

impl Draw {
    /// Takes a word of the command; answers whether it is one of these.
    pub fn take<'a>(
        &mut self,
        word: &str,
        value: &mut dyn FnMut() -> Result<&'a str, String>,
    ) -> Result<bool, String> {
        match word {
            "--domain" => self.admit = Admit::domain(),
            "--ordered-domain" => self.admit = Admit::ordered_domain(),
            "--beyond-domain" => self.admit = Admit::beyond_domain(),
            "--all" => self.admit = Admit::default(),
            "--without" => self.admit = Admit::without(value()?)?,
            "--kind" => self.kind = Some(kind(value()?)?),
            "--loads" => self.loads = true,
            "--jobs" => self.jobs = Some(whole(value()?)? as usize),
            "--seed" => self.seed = whole(value()?)?,
            "--traces" => self.traces = whole(value()?)?,
            _ => return Ok(false),
        }
        Ok(true)
    }

    /// The trace of a number, admitted or not.
    pub fn trace(&self, number: u64) -> (Kind, Vec<u8>) {
        let seed = generate::seed_of(self.seed, number);
        match self.kind {
            Some(kind) => (kind, generate::trace(kind, seed)),
            None if self.loads => generate::any_to_load(seed),
            None => generate::any(seed),
        }
    }

    pub fn admits(&self, trace: &[u8]) -> bool {
        let few = |most| second::load(trace).plan.trace.asks.len() <= most;
        self.jobs.is_none_or(few) && self.admit.admits(trace)
    }

    /// A domain that admits fewer than one in a thousand ends the search here.
    pub fn most(&self) -> u64 {
        self.traces.saturating_mul(1_000).max(100_000)
    }
}

pub fn whole(text: &str) -> Result<u64, String> {
    text.parse()
        .map_err(|_| format!("`{text}` is not a whole number"))
}

fn kind(name: &str) -> Result<Kind, String> {
    Kind::named(name).ok_or_else(|| format!("no kind `{name}`"))
}
