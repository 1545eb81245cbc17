//! Times near 2^40, so that a step would store a number that is not permitted.

use crate::kind::Kind;
use crate::random::Random;
use crate::record::{gpu, node, profile, Job, Options};
use form::Item;

const LAST: f64 = (1u64 << 40) as f64;

/// One of the numbers that a step stores passes 2^40, or just does not.
pub fn items(random: &mut Random) -> Vec<Item> {
    match random.range(0, 4) {
        0 => late(random),
        1 => stretched(random),
        2 => postponed(random),
        3 => added(random),
        _ => long_delays(random),
    }
}

/// Lengths whose sum with 2^40, or a little less, rounds to it or passes it.
fn small(random: &mut Random) -> f64 {
    random.pick(&[0.0, 0.0001, 0.000122, 0.000123, 0.5, 1.0, 2.0, 3.0, LAST])
}

/// Arrivals just before the last permitted time.
fn late(random: &mut Random) -> Vec<Item> {
    let mut items = vec![
        node(None),
        gpu(0, 80.0, None, true),
        gpu(0, 80.0, Some(0), true),
        profile(0, 4),
    ];
    for _ in 0..random.range(1, 5) {
        let sliced = random.chance(30);
        let job = Job {
            arrival: LAST - small(random),
            duration: small(random),
            priority: random.range(0, 2) as i64,
            gpus: random.range(1, 2),
            gang: random.chance(40),
            timeout: small(random),
            profile: sliced.then_some(0),
            slices: if sliced { random.range(1, 4) } else { 0 },
            ..Job::default()
        };
        items.push(job.item());
    }
    items
}

/// A multiplier that carries the completion of a penalised job too far.
fn stretched(random: &mut Random) -> Vec<Item> {
    let multiplier = random.pick(&[1.0, 1.5, 2.0, 1024.0]);
    let mut items = vec![
        node(None),
        gpu(0, 80.0, None, false),
        gpu(0, 80.0, Some(0), false),
    ];
    items.push(
        Options {
            multiplier,
            ..Options::default()
        }
        .item(),
    );
    for _ in 0..random.range(1, 4) {
        let share = random.pick(&[1.0, 2.0, 3.0, 1024.0, 1025.0]);
        let job = Job {
            arrival: random.range(0, 4) as f64,
            duration: LAST / share,
            priority: random.range(0, 2) as i64,
            gpus: random.range(1, 2),
            network: random.chance(70),
            ..Job::default()
        };
        items.push(job.item());
    }
    items
}

/// A restart penalty so long that what a job has waited passes 2^40 though its start does not.
fn postponed(random: &mut Random) -> Vec<Item> {
    let penalty = LAST / random.pick(&[2.0, 2.5, 3.0, 4.0]);
    let mut items = vec![node(None), gpu(0, 80.0, None, false)];
    items.push(
        Options {
            penalty,
            ..Options::default()
        }
        .item(),
    );
    for number in 0..random.range(3, 6) {
        let job = Job {
            arrival: number as f64,
            duration: random.pick(&[0.25, 0.5, 1.0, 3.0]),
            priority: number.min(1 + random.range(0, 3)) as i64,
            gpus: 1,
            ..Job::default()
        };
        items.push(job.item());
    }
    items
}

/// Penalised jobs whose added runtimes pass 2^40 together.
fn added(random: &mut Random) -> Vec<Item> {
    let mut items = Vec::new();
    let pairs = random.range(2, 4);
    for pair in 0..pairs {
        items.push(node(Some(pair)));
        items.push(gpu(0, 80.0, Some(0), false));
        items.push(gpu(0, 80.0, Some(1), false));
    }
    items.push(
        Options {
            multiplier: 2.0,
            ..Options::default()
        }
        .item(),
    );
    for pair in 0..pairs {
        let duration = LAST / random.pick(&[2.0, 2.5, 4.0]);
        let job = Job {
            duration,
            gpus: 2,
            site: Some(pair),
            network: true,
            arrival: pair as f64 / 4.0,
            ..Job::default()
        };
        items.push(job.item());
    }
    items
}

/// A mixed trace whose delays or durations are far too long.
fn long_delays(random: &mut Random) -> Vec<Item> {
    let mut items = Kind::Delays.recipe().items(random);
    let wide = [LAST, LAST / 2.0, LAST - 1.0, LAST / 3.0];
    for item in &mut items {
        let Item::Record(record) = item else { continue };
        let place = match record.kind {
            5 if random.chance(15) => random.pick(&[0, 1, 11]),
            6 => random.pick(&[0, 1]),
            _ => continue,
        };
        record.fields[place] = random.pick(&wide).to_bits();
    }
    items
}
