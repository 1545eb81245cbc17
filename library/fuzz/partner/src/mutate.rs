//! Changes of a trace by whole records and fields, so that most inputs of the fuzzer load; the rest are its own changes of bytes.

use std::collections::HashSet;
use std::slice::{from_raw_parts, from_raw_parts_mut};

use form::shape::{Sort, SHAPES};
use form::{join, split, Item, Record};
use generate::random::Random;
use second::trace::{GPUS, JOBS, NODES};

const END: usize = 0;
const NODE: usize = 1;
const GPU: usize = 2;
const QUOTA: usize = 3;
const PROFILE: usize = 4;
const JOB: usize = 5;
const OPTIONS: usize = 6;

extern "C" {
    fn LLVMFuzzerMutate(data: *mut u8, size: usize, most: usize) -> usize;
}

/// Changes of an input, one after the other.
const MOST_CHANGES: u64 = 4;

/// # Safety
/// As libFuzzer says: `data` has room for `most` bytes, of which `size` are the input.
#[no_mangle]
pub unsafe extern "C" fn LLVMFuzzerCustomMutator(
    data: *mut u8,
    size: usize,
    most: usize,
    seed: u32,
) -> usize {
    let mut random = Random::new(u64::from(seed));
    if random.chance(20) {
        // SAFETY: handed on as it came.
        return unsafe { LLVMFuzzerMutate(data, size, most) };
    }
    // SAFETY: the caller says so.
    let room = unsafe { from_raw_parts_mut(data, most) };
    let mut items = split(&room[..size]);
    for _ in 0..random.range(1, MOST_CHANGES) {
        change(&mut items, &mut random);
    }
    tidy(&mut items, &mut random);
    put(room, &bytes(&items, &mut random))
}

/// The records of one input up to a place, then those of another from a place on.
///
/// # Safety
/// As libFuzzer says: two inputs with their sizes, and room for `most` bytes.
#[no_mangle]
pub unsafe extern "C" fn LLVMFuzzerCustomCrossOver(
    one: *const u8,
    one_size: usize,
    two: *const u8,
    two_size: usize,
    out: *mut u8,
    most: usize,
    seed: u32,
) -> usize {
    // SAFETY: the caller says so.
    let (one, two, room) = unsafe {
        (
            from_raw_parts(one, one_size),
            from_raw_parts(two, two_size),
            from_raw_parts_mut(out, most),
        )
    };
    let mut random = Random::new(u64::from(seed));
    let (mut items, mut rest) = (split(one), split(two));
    items.truncate(at(&mut random, items.len() + 1));
    items.extend(rest.drain(at(&mut random, rest.len() + 1)..));
    tidy(&mut items, &mut random);
    put(room, &bytes(&items, &mut random))
}

/// Mostly a trace that loads, where its fields are in range: nothing too often, no GPU before a node, and one end, behind all else.
fn tidy(items: &mut Vec<Item>, random: &mut Random) {
    if random.chance(15) {
        return;
    }
    let (mut counts, mut met) = ([0; SHAPES.len()], HashSet::new());
    items.retain(|item| {
        let Item::Record(record) = item else {
            return false;
        };
        let wanted = match record.kind {
            NODE => counts[NODE] < NODES,
            GPU => counts[NODE] > 0 && counts[GPU] < GPUS,
            QUOTA | PROFILE => met.insert((record.kind, record.fields[0])),
            JOB => counts[JOB] < JOBS,
            OPTIONS => met.insert((OPTIONS, 0)),
            _ => false,
        };
        counts[record.kind] += usize::from(wanted);
        wanted
    });
    items.push(Item::Record(Record {
        kind: END,
        fields: Vec::new(),
    }));
}

/// The bytes of the items; now and then they stop somewhere.
fn bytes(items: &[Item], random: &mut Random) -> Vec<u8> {
    let mut bytes = join(items);
    if random.chance(4) {
        bytes.truncate(at(random, bytes.len() + 1));
    }
    bytes
}

/// As much of the bytes as there is room for.
fn put(room: &mut [u8], bytes: &[u8]) -> usize {
    let length = bytes.len().min(room.len());
    room[..length].copy_from_slice(&bytes[..length]);
    length
}

/// A place under `length`, which is not 0.
fn at(random: &mut Random, length: usize) -> usize {
    random.range(0, length as u64 - 1) as usize
}

fn change(items: &mut Vec<Item>, random: &mut Random) {
    if items.is_empty() {
        items.push(fresh(random));
        return;
    }
    let (from, to) = (at(random, items.len()), at(random, items.len()));
    match random.range(0, 9) {
        0 => drop(items.remove(from)),
        1 => items.swap(from, to),
        2 => items.insert(to, items[from].clone()),
        3 => items.insert(to, fresh(random)),
        _ => change_field(items, from, random),
    }
}

/// A record of any kind but the end, with fields as `value` has them.
fn fresh(random: &mut Random) -> Item {
    let kind = random.range(1, SHAPES.len() as u64 - 1) as usize;
    let fields = SHAPES[kind].fields.iter();
    let fields = fields.map(|field| {
        if random.chance(60) {
            field.default
        } else {
            value(field.sort, field.default, random)
        }
    });
    Item::Record(Record {
        kind,
        fields: fields.collect(),
    })
}

/// Another value in one field; now and then the value of the same field in another record, so that equal ones meet.
fn change_field(items: &mut [Item], from: usize, random: &mut Random) {
    let Item::Record(record) = &items[from] else {
        return;
    };
    if record.fields.is_empty() {
        return;
    }
    let kind = record.kind;
    let field = at(random, record.fields.len());
    let alike = items.iter().filter_map(|item| match item {
        Item::Record(other) if other.kind == kind => Some(other.fields[field]),
        _ => None,
    });
    let alike: Vec<u64> = alike.collect();
    let old = record.fields[field];
    let new = if random.chance(30) {
        random.pick(&alike)
    } else {
        value(SHAPES[kind].fields[field].sort, old, random)
    };
    if let Item::Record(record) = &mut items[from] {
        record.fields[field] = new;
    }
}

fn value(sort: Sort, old: u64, random: &mut Random) -> u64 {
    const MOST: f64 = 1_099_511_627_776.0;
    if sort != Sort::Float {
        return match random.range(0, 5) {
            0 => old.wrapping_add(1),
            1 => old.wrapping_sub(1),
            2 => random.range(0, 300),
            3 => random.draw() >> random.range(0, 63),
            _ => random.range(0, 8),
        };
    }
    let number = f64::from_bits(old);
    match random.range(0, 9) {
        0 => old.wrapping_add(1),
        1 => old.wrapping_sub(1),
        2 => (number + 1.0).to_bits(),
        3 => (number * 2.0).to_bits(),
        4 => (number / 2.0).to_bits(),
        5 => (MOST * random.unit()).to_bits(),
        6 => random
            .pick(&[0.0, 1.0, 1024.0, MOST / 1024.0, MOST / 2.0, MOST])
            .to_bits(),
        _ => (random.range(0, 20) as f64).to_bits(),
    }
}
