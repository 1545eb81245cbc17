//! What a run of generated traces really brings about: by kind, in all, and inside each domain of comparison.

use crate::{any, seed_of, KINDS};
use second::Observed;
use std::collections::BTreeMap;

/// Counts over some traces.
#[derive(Default, Clone)]
struct Row {
    traces: u64,
    domain: u64,
    outside: [u64; 5],
    /// for each feature, the traces in which it occurred and how often it occurred in all
    features: BTreeMap<&'static str, (u64, u64)>,
}

const OUTSIDE: [&str; 5] = ["tie", "choice", "pass_quota", "too_many", "recut"];

fn flags(seen: &Observed) -> [bool; 5] {
    let d = &seen.domain;
    [d.tie, d.choice, d.pass_quota, d.too_many, d.recut]
}

/// Whether a trace is planned to its end and none of the flags from this one on is set.
fn inside(seen: &Observed, from: usize) -> bool {
    seen.refusal.is_none() && !flags(seen)[from..].contains(&true)
}

/// The text of the survey over `count` traces.
pub fn survey(count: u64, seed: u64) -> String {
    let mut kinds = vec![Row::default(); KINDS.len()];
    let mut wide = [(); 3].map(|()| Row::default());
    for number in 0..count {
        let (kind, trace) = any(seed_of(seed, number));
        let seen = second::observe(&trace);
        let place = KINDS.iter().position(|row| row.0 == kind).unwrap_or(0);
        count_one(&mut kinds[place], &seen);
        // with ties and choices decided, only the last three flags leave a trace out
        let members = [true, inside(&seen, 2), inside(&seen, 0)];
        for (row, _) in wide.iter_mut().zip(members).filter(|(_, member)| *member) {
            count_one(row, &seen);
        }
    }
    let mut out = String::new();
    for (row, (_, name, _)) in kinds.iter().zip(KINDS) {
        show(name, row, &mut out);
    }
    let names = ["all", "in the ordered domain", "in the domain"];
    for (row, name) in wide.iter().zip(names) {
        show(name, row, &mut out);
    }
    for (row, name) in wide.iter().zip(names) {
        out.push_str(&format!("never, {name}: {}\n", never(row)));
    }
    out
}

fn count_one(row: &mut Row, seen: &Observed) {
    row.traces += 1;
    row.domain += u64::from(inside(seen, 0));
    for (total, flag) in row.outside.iter_mut().zip(flags(seen)) {
        *total += u64::from(flag);
    }
    for (name, times) in &seen.features {
        let entry = row.features.entry(name).or_default();
        entry.0 += u64::from(*times > 0);
        entry.1 += times;
    }
}

fn show(name: &str, row: &Row, out: &mut String) {
    let outside = OUTSIDE.iter().zip(row.outside);
    let outside: Vec<String> = outside
        .map(|(flag, times)| format!("{flag} {times}"))
        .collect();
    out.push_str(&format!(
        "{name}: {} traces, {} in the domain\n  outside by: {}\n",
        row.traces,
        row.domain,
        outside.join(", ")
    ));
    for (feature, (traces, times)) in &row.features {
        if *times > 0 {
            out.push_str(&format!("  {feature}: {times} times in {traces} traces\n"));
        }
    }
}

/// The features at zero.
fn never(row: &Row) -> String {
    let zero = row.features.iter().filter(|(_, count)| count.1 == 0);
    let names: Vec<&str> = zero.map(|(name, _)| *name).collect();
    if names.is_empty() {
        return "nothing".to_string();
    }
    names.join(", ")
}
