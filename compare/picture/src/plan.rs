//! The lines of a plan.

use std::str::FromStr;

#[derive(Clone, Copy, PartialEq, Debug)]
pub enum What {
    Arrived,
    Started(u64),
    Evicted(usize),
    Completed(u64),
    Failed,
}

pub struct Decision {
    pub line: usize,
    /// when it was taken; a start may be later
    pub clock: f64,
    pub time: f64,
    pub job: usize,
    pub what: What,
}

#[derive(Default)]
pub struct Plan {
    pub decisions: Vec<Decision>,
    /// by refusal 12, before the last event
    pub stopped: bool,
}

/// The bits of 2^40, the greatest time.
const LATEST: u64 = 0x4270_0000_0000_0000;

/// Reads the lines up to the last one, which has to be there; detail lines, which begin with `#`, are passed over.
pub fn read(text: &str) -> Result<Plan, String> {
    let mut plan = Plan::default();
    let mut ended = false;
    for (at, line) in text.lines().enumerate() {
        let words: Vec<&str> = line.split(' ').collect();
        let clock = plan.decisions.last().map_or(0.0, |one| one.clock);
        match words.as_slice() {
            [word, ..] if word.starts_with('#') => {}
            ["refused", why, "at", place] if plan.decisions.is_empty() => {
                return Err(format!("the trace is refused: {why} at byte {place}"));
            }
            ["end", steps] if !ended && whole::<u64>(steps).is_some() => ended = true,
            ["refused", "12"] if !ended => (plan.stopped, ended) = (true, true),
            words => match decision(at + 1, clock, words) {
                Some(one) if !ended && one.time >= clock => plan.decisions.push(one),
                _ => return Err(format!("line {} is no line of a plan: {line}", at + 1)),
            },
        }
    }
    match ended {
        true => Ok(plan),
        false => Err("the plan has no last line, `end` or `refused`".to_string()),
    }
}

fn decision(line: usize, clock: f64, words: &[&str]) -> Option<Decision> {
    let (&[time, word, job], rest) = words.split_first_chunk::<3>()?;
    let (time, job) = (seconds(time)?, whole(job)?);
    let (clock, what) = match (word, rest) {
        ("arrived", []) => (time, What::Arrived),
        ("started", [count]) => (clock, What::Started(whole(count)?)),
        ("evicted", [by]) => (time, What::Evicted(whole(by)?)),
        ("completed", [count]) => (time, What::Completed(whole(count)?)),
        ("failed", []) => (time, What::Failed),
        _ => return None,
    };
    Some(Decision {
        line,
        clock,
        time,
        job,
        what,
    })
}

fn whole<T: FromStr>(text: &str) -> Option<T> {
    text.parse().ok().filter(|_| !text.starts_with('+'))
}

fn seconds(hex: &str) -> Option<f64> {
    let bits = u64::from_str_radix(hex, 16).ok()?;
    let sixteen = hex.len() == 16 && !hex.starts_with('+');
    (sixteen && bits <= LATEST).then(|| f64::from_bits(bits))
}
