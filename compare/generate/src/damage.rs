//! Traces that a load has to refuse, and some that look so and are right.

use crate::kind::Kind;
use crate::random::Random;
use crate::record::end;
use form::{join, number, split, Item, Record};

/// The greatest stored number of each field of the kinds 1 to 6; floats by their bits.
const FLOAT: u64 = 0x4270_0000_0000_0000;
const RANGES: [&[u64]; 7] = [
    &[],
    &[64],
    &[255, FLOAT, 256, 1],
    &[31, 0xffff_ffff],
    &[15, 7],
    &[
        FLOAT,
        FLOAT,
        0xffff_ffff,
        128,
        FLOAT,
        256,
        64,
        32,
        1,
        32,
        1,
        FLOAT,
        16,
        64,
    ],
    &[FLOAT, FLOAT, 0x4090_0000_0000_0000, 1, 1],
];

/// A small sound trace with one thing wrong, now and then two.
pub fn trace(random: &mut Random) -> Vec<u8> {
    let kinds = [Kind::Mixed, Kind::Mig, Kind::Quotas, Kind::Gangs];
    let mut items = random.pick(&kinds).recipe().items(random);
    items.truncate(random.range(1, 14) as usize);
    items.push(end());
    let mut bytes = join(&items);
    for _ in 0..random.range(1, 10) / 8 + 1 {
        bytes = once(random, &bytes);
    }
    bytes
}

fn once(random: &mut Random, bytes: &[u8]) -> Vec<u8> {
    match random.range(0, 10) {
        0 => bytes[..random.range(0, bytes.len() as u64) as usize].to_vec(),
        1 => replace(random, bytes),
        2 => lengthen(random, bytes),
        3 => spoil_number(random, bytes),
        4 | 5 => spoil_field(random, bytes),
        6 => repeat(random, bytes),
        7 => foreign(random, bytes),
        8 => trailing(random, bytes),
        9 => early_gpu(random, bytes),
        _ => fill(random, bytes),
    }
}

fn place(random: &mut Random, length: usize) -> usize {
    random.range(0, (length as u64).saturating_sub(1)) as usize
}

fn replace(random: &mut Random, bytes: &[u8]) -> Vec<u8> {
    let mut out = bytes.to_vec();
    let at = place(random, out.len());
    let drawn = random.range(0, 255) as u8;
    let byte = random.pick(&[0x00, 0x01, 0x7f, 0x80, 0x81, 0xff, drawn]);
    if let Some(old) = out.get_mut(at) {
        *old = if random.chance(50) {
            byte
        } else {
            *old ^ (1 << random.range(0, 7))
        };
    }
    out
}

fn lengthen(random: &mut Random, bytes: &[u8]) -> Vec<u8> {
    let mut out = bytes.to_vec();
    let at = place(random, out.len());
    if random.chance(50) || out.is_empty() {
        out.insert(at, random.pick(&[0x00, 0x01, 0x80, 0xff]));
    } else {
        out.remove(at);
    }
    out
}

/// The numbers of a trace, one after the other, up to what cannot be read.
fn numbers(bytes: &[u8]) -> (Vec<u64>, &[u8]) {
    let mut list = Vec::new();
    let mut rest = bytes;
    while let Some((value, used)) = number::read(rest) {
        list.push(value);
        rest = &rest[used..];
    }
    (list, rest)
}

/// One number padded, over 64 bits or cut short; or in its longest right form.
fn spoil_number(random: &mut Random, bytes: &[u8]) -> Vec<u8> {
    let (list, rest) = numbers(bytes);
    let chosen = place(random, list.len());
    let mut out = Vec::new();
    for (at, &value) in list.iter().enumerate() {
        let before = out.len();
        number::write(value, &mut out);
        if at == chosen {
            spoil(random, &mut out, before);
        }
    }
    out.extend_from_slice(rest);
    out
}

fn spoil(random: &mut Random, out: &mut Vec<u8>, before: usize) {
    let nine = [0xff; 9];
    if random.chance(45) {
        if let Some(last) = out.last_mut() {
            *last |= 0x80;
        }
        out.extend((0..random.range(0, 2)).map(|_| 0x80));
        out.push(0);
        return;
    }
    out.truncate(before);
    out.extend_from_slice(&nine[..random.range(7, 9) as usize]);
    out.push(random.pick(&[0x00, 0x01, 0x02, 0x7f, 0x80, 0x81, 0xff]));
}

/// The record that the chosen place names, if any can be read.
fn any_record<'a>(random: &mut Random, items: &'a mut [Item]) -> Option<&'a mut Record> {
    let at = place(random, items.len());
    match items.get_mut(at) {
        Some(Item::Record(record)) => Some(record),
        _ => None,
    }
}

/// One field at the end of its range, one past it, or far past it.
fn spoil_field(random: &mut Random, bytes: &[u8]) -> Vec<u8> {
    let mut items = split(bytes);
    if let Some(record) = any_record(random, &mut items) {
        let at = place(random, record.fields.len());
        if let Some(field) = record.fields.get_mut(at) {
            let last = RANGES[record.kind][at];
            *field = random.pick(&[
                last,
                last + 1,
                last + 1,
                last + 1,
                0,
                u64::MAX,
                1 << 63,
                0x3fef_ffff_ffff_ffff,
            ]);
        }
    }
    join(&items)
}

fn repeat(random: &mut Random, bytes: &[u8]) -> Vec<u8> {
    let mut items = split(bytes);
    let from = place(random, items.len());
    if let Some(item) = items.get(from).cloned() {
        let to = random.range(0, items.len() as u64) as usize;
        items.insert(to, item);
    }
    join(&items)
}

/// A record of a kind that there is not.
fn foreign(random: &mut Random, bytes: &[u8]) -> Vec<u8> {
    let mut items = split(bytes);
    let at = place(random, items.len());
    let mut raw = Vec::new();
    number::write(
        random.pick(&[7, 8, 127, 128, 255, 256, 262, u64::MAX]),
        &mut raw,
    );
    items.insert(at.min(items.len()), Item::Raw(raw));
    join(&items)
}

fn trailing(random: &mut Random, bytes: &[u8]) -> Vec<u8> {
    let mut out = bytes.to_vec();
    let length = random.pick(&[out.len() + 1, out.len() + 5, 65_535, 65_536, 65_537, 70_000]);
    out.resize(length.max(out.len()), random.pick(&[0, 1, 0x80]));
    out
}

fn early_gpu(random: &mut Random, bytes: &[u8]) -> Vec<u8> {
    let fields = vec![
        random.range(0, 256),
        0,
        random.range(0, 3),
        random.range(0, 1),
    ];
    let mut items = split(bytes);
    items.insert(0, Item::Record(Record { kind: 2, fields }));
    join(&items)
}

/// So many copies of one record that its table is full.
fn fill(random: &mut Random, bytes: &[u8]) -> Vec<u8> {
    let mut items = split(bytes);
    let at = place(random, items.len());
    let Some(Item::Record(record)) = items.get(at).cloned() else {
        return bytes.to_vec();
    };
    let room = random.pick(&[31, 32, 127, 128, 129]);
    for _ in 0..room {
        items.insert(at, Item::Record(record.clone()));
    }
    // a bad field in the record past the last place is told before the full table
    if random.chance(25) {
        if let Some(Item::Record(last)) = items.get_mut(at + room as usize) {
            last.fields
                .iter_mut()
                .last()
                .into_iter()
                .for_each(|field| *field = u64::MAX);
        }
    }
    join(&items)
}

#[cfg(test)]
mod tests {
    use super::*;

    #[test]
    fn the_ranges_have_a_number_for_every_field() {
        for (shape, range) in form::shape::SHAPES.iter().zip(RANGES) {
            assert_eq!(shape.fields.len(), range.len(), "{}", shape.word);
        }
    }
}
