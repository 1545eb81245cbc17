//! Traces that fill a table to its last place, or ask for one place more.

use crate::random::Random;
use crate::record::{gpu, node, profile, quota, Job, Options};
use form::Item;

/// One table full and, half the time, one record more than it holds.
pub fn items(random: &mut Random) -> Vec<Item> {
    let more = random.range(0, 1);
    let mut items = match random.range(0, 5) {
        0 => (0..32 + more).map(|n| node(Some(n.min(63)))).collect(),
        1 => gpus(random, 128 + more),
        2 => jobs(random, 128 + more),
        3 => (0..32 + more)
            .map(|tenant| quota(tenant, (1 << 32) - 1))
            .collect(),
        4 => (0..16 + more)
            .map(|number| profile(number, 1 + number % 7))
            .collect(),
        _ => full(random, more),
    };
    if random.chance(30) {
        items.push(widest().item());
    }
    items
}

fn gpus(random: &mut Random, count: u64) -> Vec<Item> {
    let mut items = vec![node(None)];
    for number in 0..count {
        if random.chance(10) && items.len() as u64 <= count + 20 {
            items.push(node(None));
        }
        items.push(gpu(
            number % 256,
            80.0,
            (number % 3).checked_sub(1),
            random.chance(50),
        ));
    }
    items
}

fn jobs(random: &mut Random, count: u64) -> Vec<Item> {
    let mut items = gpus(random, 6);
    items.push(profile(0, 7));
    let options = Options {
        seconds: 1.5,
        penalty: 0.5,
        multiplier: 2.0,
        ..Options::default()
    };
    items.push(options.item());
    items.extend((0..count).map(|number| crowded(random, number).item()));
    items
}

/// One of a crowd of jobs for few GPUs.
fn crowded(random: &mut Random, number: u64) -> Job {
    let sliced = number.is_multiple_of(5);
    let gang = random.chance(40);
    Job {
        arrival: random.range(0, 40) as f64 / 2.0,
        duration: random.range(0, 12) as f64,
        priority: random.range(0, 12) as i64 - 6,
        gpus: random.range(1, 3),
        gang,
        network: number.is_multiple_of(9),
        timeout: if gang {
            random.range(0, 20) as f64
        } else {
            0.0
        },
        profile: sliced.then_some(0),
        slices: if sliced { random.range(1, 7) } else { 0 },
        ..Job::default()
    }
}

/// Every table full at once: all that a plan can hold.
fn full(random: &mut Random, more: u64) -> Vec<Item> {
    let mut items = Vec::new();
    for number in 0..32 {
        items.push(node(Some(number)));
        items.extend((0..4).map(|g| gpu(255, 80.0, Some(255 - g % 2), g % 2 == 0)));
    }
    items.extend((0..32).map(|tenant| quota(tenant, 8)));
    items.extend((0..16).map(|number| profile(number, 7)));
    items.extend((0..128 + more).map(|number| full_job(random, number).item()));
    items
}

fn full_job(random: &mut Random, number: u64) -> Job {
    let sliced = random.chance(30);
    Job {
        arrival: random.unit() * 30.0,
        duration: random.unit() * 40.0,
        priority: random.pick(&[-(1i64 << 31), -1, 0, 1, (1i64 << 31) - 1]),
        gpus: random.pick(&[1, 2, 4, 8, 32, 128]),
        kind: random.chance(50).then_some(255),
        tenant: random.chance(50).then_some(number % 32),
        gang: random.chance(50),
        nodes: random.pick(&[0, 2, 32]),
        network: random.chance(20),
        timeout: random.unit() * 20.0,
        profile: sliced.then_some(15),
        slices: if sliced {
            random.pick(&[1, 7, 8, 64])
        } else {
            0
        },
        ..Job::default()
    }
}

/// A job with the last permitted number in every field.
fn widest() -> Job {
    Job {
        arrival: 0.0,
        duration: (1u64 << 40) as f64,
        priority: -(1i64 << 31),
        gpus: 128,
        memory: (1u64 << 40) as f64,
        kind: Some(255),
        site: Some(63),
        tenant: Some(31),
        gang: true,
        nodes: 32,
        network: true,
        timeout: (1u64 << 40) as f64,
        profile: Some(15),
        slices: 64,
    }
}
