//! One fault in one field: every field of every record kind, with small and with large numbers around it.

use crate::shape::{Record, RANGES};
use crate::Case;
use form::number;

/// A number over 64 bits, or not in its shortest form; each is told at its first byte.
const BAD_NUMBERS: [&[u8]; 6] = [
    &[0x80, 0x00],
    &[0xff, 0x80, 0x00],
    &[0xff, 0xff, 0xff, 0xff, 0xff, 0xff, 0xff, 0xff, 0xff, 0x00],
    &[0xff, 0xff, 0xff, 0xff, 0xff, 0xff, 0xff, 0xff, 0xff, 0x02],
    &[0x80, 0x80, 0x80, 0x80, 0x80, 0x80, 0x80, 0x80, 0x80, 0x7f],
    &[0xff, 0xff, 0xff, 0xff, 0xff, 0xff, 0xff, 0xff, 0xff, 0x80],
];

/// A number that ends too early, by what is there of it.
const CUT_NUMBERS: [&[u8]; 4] = [
    &[],
    &[0x80],
    &[0x80, 0xff],
    &[0xff, 0xff, 0xff, 0xff, 0xff, 0xff, 0xff, 0xff, 0xff],
];

pub fn cases() -> Vec<Case> {
    let mut out = Vec::new();
    for (kind, ranges) in RANGES.iter().enumerate() {
        for field in 0..ranges.len() {
            for record in [Record::least(kind), Record::most(kind)] {
                let before = needed(kind);
                faults(&before, &record, field, &mut out);
                limits(&before, &record, field, &mut out);
                out.push(cut(&others(kind), &record, field, &[]));
                out.push(bad(&others(kind), &record, field, BAD_NUMBERS[0]));
                past(&others(kind), &record, field, &mut out);
            }
        }
    }
    out
}

/// What has to stand before a record of this kind.
fn needed(kind: usize) -> Vec<u8> {
    if kind == 2 {
        Record::least(1).bytes()
    } else {
        Vec::new()
    }
}

/// A record of every other kind, the tenant and the profile apart from the least and the greatest.
fn others(kind: usize) -> Vec<u8> {
    let mut records = vec![
        Record::most(1),
        Record::most(2),
        Record::most(3).with(0, 5),
        Record::most(4).with(0, 3),
        Record::most(5),
    ];
    if kind != 6 {
        records.push(Record::most(6));
    }
    records.iter().flat_map(Record::bytes).collect()
}

fn faults(before: &[u8], record: &Record, field: usize, out: &mut Vec<Case>) {
    out.extend(
        CUT_NUMBERS
            .iter()
            .map(|left| cut(before, record, field, left)),
    );
    out.extend(
        BAD_NUMBERS
            .iter()
            .map(|bytes| bad(before, record, field, bytes)),
    );
    past(before, record, field, out);
    out.push(ranged(before, record, field, u64::MAX, Some(4)));
    out.push(ranged(before, record, field, 1 << 63, Some(4)));
}

/// One below and one above the range.
fn past(before: &[u8], record: &Record, field: usize, out: &mut Vec<Case>) {
    let (least, most) = record.range(field);
    if let Some(below) = least.checked_sub(1) {
        out.push(ranged(before, record, field, below, Some(4)));
    }
    out.push(ranged(before, record, field, most + 1, Some(4)));
}

/// The first and the last number of the range, which are taken.
fn limits(before: &[u8], record: &Record, field: usize, out: &mut Vec<Case>) {
    let (least, most) = record.range(field);
    out.push(ranged(before, record, field, least, None));
    out.push(ranged(before, record, field, most, None));
}

/// The trace ends in the field.
fn cut(before: &[u8], record: &Record, field: usize, left: &[u8]) -> Case {
    let trace = [before, &record.bytes_to(field), left].concat();
    let place = trace.len();
    Case::of(&trace, Some((1, place)))
}

/// The field's bytes are no number; what follows would do.
fn bad(before: &[u8], record: &Record, field: usize, bytes: &[u8]) -> Case {
    whole(before, record, field, bytes, Some(2))
}

fn ranged(before: &[u8], record: &Record, field: usize, value: u64, told: Option<u32>) -> Case {
    let mut bytes = Vec::new();
    number::write(value, &mut bytes);
    match told {
        // what hangs on the field is not reached
        Some(_) => whole(before, record, field, &bytes, told),
        None => whole(before, &record.with(field, value), field, &bytes, told),
    }
}

/// A whole trace with these bytes as the field, refused there or taken.
fn whole(before: &[u8], record: &Record, field: usize, bytes: &[u8], told: Option<u32>) -> Case {
    let start = [before, &record.bytes_to(field)].concat();
    let trace = [&start, bytes, &record.bytes_after(field), &[0]].concat();
    Case::of(&trace, told.map(|number| (number, start.len())))
}
