//! Faults of a whole record: unknown kinds, a GPU without a node, what is told twice, full tables.

use crate::shape::Record;
use crate::stored::Pieces;
use crate::Case;
use form::number;

pub fn cases() -> Vec<Case> {
    let mut out = kinds();
    out.extend(early_gpus());
    out.extend(repeated());
    for full in tables() {
        out.extend(one_more(&full));
    }
    out.push(all_full());
    out
}

fn least(kind: usize) -> Vec<u8> {
    Record::least(kind).bytes()
}

/// Kinds that there are not, and kinds that are no number, at the start and after each kind of record.
fn kinds() -> Vec<Case> {
    let mut befores = vec![Vec::new(), [least(1), least(2)].concat()];
    befores.extend([1, 3, 4, 5, 6].map(least));
    let mut out = Vec::new();
    for before in befores {
        let at = before.len();
        let tell =
            |bytes: &[u8], number| Case::of(&[&before, bytes, &[0]].concat(), Some((number, at)));
        for kind in [7, 8, 64, 127, 128, 255, 256, 262, 1 << 32, u64::MAX] {
            let mut bytes = Vec::new();
            number::write(kind, &mut bytes);
            out.push(tell(&bytes, 3));
        }
        out.push(tell(&[0x80, 0x00], 2));
        out.push(tell(&[0x81, 0x00], 2));
        out.push(tell(&[&[0xff; 9][..], &[0x02]].concat(), 2));
        for left in [&[][..], &[0x80], &[0xff; 9]] {
            let trace = [&before, left].concat();
            out.push(Case::of(&trace, Some((1, trace.len()))));
        }
    }
    out
}

/// A GPU before any node, at the start and after the kinds that may stand before a node.
fn early_gpus() -> Vec<Case> {
    let mut out = Vec::new();
    for before in [Vec::new(), least(3), least(4), least(5), least(6)] {
        let at = before.len();
        for gpu in [Record::least(2), Record::most(2)] {
            let then = |bytes: &[u8]| [&before, bytes, &least(1), &[0]].concat();
            out.push(Case::of(&then(&gpu.bytes()), Some((5, at))));
            let bad = then(&gpu.with(3, 2).bytes());
            out.push(Case::of(&bad, Some((4, at + gpu.bytes_to(3).len()))));
            let cut = [&before[..], &gpu.bytes_to(3)].concat();
            out.push(Case::of(&cut, Some((1, cut.len()))));
        }
    }
    out
}

/// The same tenant, the same profile or options a second time, at once and after other records.
fn repeated() -> Vec<Case> {
    let quotas = [(0, 0), (0, 9), (31, 7)];
    let profiles = [(0, 1), (0, 7), (15, 2)];
    let mut pairs: Vec<[Record; 2]> = Vec::new();
    pairs.extend(quotas.map(|(tenant, quota)| {
        [0, quota].map(|quota| Record::least(3).with(0, tenant).with(1, quota))
    }));
    pairs.extend(profiles.map(|(profile, most)| {
        [1, most].map(|most| Record::least(4).with(0, profile).with(1, most))
    }));
    pairs.push([Record::least(6), Record::least(6)]);
    pairs.push([Record::most(6), Record::least(6)]);
    let mut out = Vec::new();
    for [first, second] in pairs {
        for between in [Vec::new(), [least(1), least(2), least(5)].concat()] {
            let before = [first.bytes(), between].concat();
            let whole = [&before[..], &second.bytes(), &[0]].concat();
            out.push(Case::of(&whole, Some((6, before.len()))));
            out.extend(last_field(Pieces::default().once(&before), &second));
        }
    }
    out
}

/// A fault in the last field is told before one of the record.
fn last_field(before: Pieces, record: &Record) -> Vec<Case> {
    let last = record.fields.len() - 1;
    let start = before.once(&record.bytes_to(last));
    let at = start.length();
    let mut past = Vec::new();
    number::write(record.range(last).1 + 1, &mut past);
    let then = |bytes: &[u8]| start.clone().once(bytes);
    let told = |number| Some((number, at));
    vec![
        Case::made(then(&[&past[..], &[0]].concat()), told(4)),
        Case::made(then(&[0x80, 0x00, 0x00]), told(2)),
        Case::made(then(&[]), told(1)),
        Case::made(then(&[0x80]), Some((1, at + 1))),
    ]
}

/// Records that fill a table, and the record that is one too many.
struct Full {
    filled: Pieces,
    more: Record,
}

fn tables() -> Vec<Full> {
    let mut out = Vec::new();
    for make in [Record::least, Record::most] {
        let [node, gpu, job] = [1, 2, 5].map(make);
        let mut fill = |filled: Pieces, more: &Record| {
            out.push(Full {
                filled,
                more: more.clone(),
            })
        };
        let start = Pieces::default;
        fill(start().times(32, &node.bytes()), &node);
        fill(start().once(&node.bytes()).times(128, &gpu.bytes()), &gpu);
        let spread = [node.bytes(), gpu.bytes().repeat(4)].concat();
        fill(start().times(32, &spread), &gpu);
        fill(start().times(32, &spread), &node);
        fill(start().times(128, &job.bytes()), &job);
    }
    out
}

/// A full table is taken; one record more is refused, unless its last field is at fault.
fn one_more(full: &Full) -> Vec<Case> {
    let Full { filled, more } = full;
    let at = filled.length();
    let mut out = vec![
        Case::made(filled.clone().once(&[0]), None),
        Case::made(filled.clone().once(&more.bytes()).once(&[0]), Some((7, at))),
        Case::made(filled.clone().once(&[7]), Some((3, at))),
    ];
    out.extend(last_field(filled.clone(), more));
    out
}

/// Every table full at once.
fn all_full() -> Case {
    let mut trace = Pieces::default();
    let spread = [Record::most(1).bytes(), Record::most(2).bytes().repeat(4)].concat();
    trace = trace.times(32, &spread);
    for tenant in 0..32 {
        trace = trace.once(&Record::most(3).with(0, tenant).bytes());
    }
    for profile in 0..16 {
        trace = trace.once(&Record::most(4).with(0, profile).bytes());
    }
    trace = trace.times(128, &Record::most(5).bytes());
    trace = trace.once(&Record::most(6).bytes());
    Case::made(trace.once(&[0]), None)
}
