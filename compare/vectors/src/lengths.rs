//! Where a trace ends: bytes after its end, the longest trace and one byte more, and whole small traces cut anywhere.

use crate::shape::Record;
use crate::stored::Pieces;
use crate::Case;

/// The longest trace that is read at all.
const MOST: usize = 65_536;

pub fn cases() -> Vec<Case> {
    let mut out = after_end();
    out.extend(longest());
    out.extend(cuts());
    out.push(worked_example());
    out
}

/// A record of each kind.
fn one_of_each() -> Vec<u8> {
    (1..=6)
        .flat_map(|kind| Record::most(kind).bytes())
        .collect()
}

fn after_end() -> Vec<Case> {
    let mut out = vec![Case::of(&[0], None), Case::of(&[], Some((1, 0)))];
    for before in [Vec::new(), Record::least(1).bytes(), one_of_each()] {
        let whole = [&before[..], &[0]].concat();
        out.push(Case::of(&whole, None));
        for more in [&[0][..], &[1], &[7], &[0x80], &[0xff; 12], &before] {
            if !more.is_empty() {
                let trace = [&whole, more].concat();
                out.push(Case::of(&trace, Some((8, whole.len()))));
            }
        }
    }
    out
}

/// The length is looked at before anything else.
fn longest() -> Vec<Case> {
    let mut out = Vec::new();
    let node = Record::least(1).bytes();
    for length in [MOST - 1, MOST] {
        let fill = |start: &[u8], byte: u8, told| {
            let rest = length - start.len();
            Case::made(Pieces::default().once(start).times(rest, &[byte]), told)
        };
        out.push(fill(&[], 0x00, Some((8, 1))));
        out.push(fill(&[], 0x80, Some((2, 0))));
        out.push(fill(&[], 0xff, Some((2, 0))));
        out.push(fill(&[7], 0x00, Some((3, 0))));
        let whole = [one_of_each(), vec![0]].concat();
        out.push(fill(&whole, 0x01, Some((8, whole.len()))));
    }
    let nodes = Pieces::default().times(MOST / 2, &node);
    out.push(Case::made(nodes.clone(), Some((7, 64))));
    for (more, byte) in [(1, 0), (1, 0x80), (2, 1), (4_464, 0)] {
        let told = Some((9, MOST));
        out.push(Case::made(nodes.clone().times(more, &[byte]), told));
        let plain = Pieces::default().once(&[0]).times(MOST - 1 + more, &[byte]);
        out.push(Case::made(plain, told));
        let unread = Pieces::default().times(MOST + more, &[0xff]);
        out.push(Case::made(unread, told));
    }
    out
}

/// A trace of every kind, cut at each byte.
fn cuts() -> Vec<Case> {
    let least: Vec<u8> = (1..=6)
        .flat_map(|kind| Record::least(kind).bytes())
        .collect();
    let whole = [least, vec![0]].concat();
    (0..whole.len())
        .map(|length| Case::of(&whole[..length], Some((1, length))))
        .collect()
}

/// The trace that document 01 prints whole.
fn worked_example() -> Case {
    let job = [
        5, 0, 0x80, 0x80, 0x80, 0x80, 0x80, 0x80, 0x80, 0xf8, 0x3f, 0, 1,
    ];
    let trace = [&[1, 0, 2, 0, 0, 0, 0][..], &job, &[0; 11]].concat();
    Case::of(&trace, None)
}
