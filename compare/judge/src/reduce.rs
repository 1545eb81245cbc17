//! The smallest trace for which something still holds, found greedily.

use form::shape::{Sort, SHAPES};
use form::{join, split, value, Item};

/// A trace with fewer and simpler records for which `holds` still answers yes.
pub fn reduce(trace: &[u8], holds: &mut dyn FnMut(&[u8]) -> bool) -> Vec<u8> {
    let mut best = trace.to_vec();
    loop {
        let before = best.clone();
        let items = split(&best);
        let readable = items.iter().all(|item| matches!(item, Item::Record(_)));
        best = if readable {
            records(items, holds)
        } else {
            bytes(best, holds)
        };
        if best == before {
            return best;
        }
    }
}

fn records(items: Vec<Item>, holds: &mut dyn FnMut(&[u8]) -> bool) -> Vec<u8> {
    // the end record stays
    let mut items = without(items, 1, &mut |items| holds(&join(items)));
    for place in 0..items.len() {
        simplify(&mut items, place, holds);
    }
    join(&shared(items, holds))
}

/// What a field speaks of, so that a time, a tenant or a profile is changed wherever it is named.
fn subject(name: &'static str) -> &'static str {
    match name {
        "number" => "profile",
        "arrival" | "duration" | "timeout" | "seconds" | "penalty" => "time",
        other => other,
    }
}

/// Every subject and text that the records name, each once.
fn named(items: &[Item]) -> Vec<(&'static str, String)> {
    let mut list = Vec::new();
    for item in items {
        let Item::Record(record) = item else { continue };
        for (field, &stored) in SHAPES[record.kind].fields.iter().zip(&record.fields) {
            let entry = (subject(field.name), value::show(field.sort, stored));
            if !list.contains(&entry) {
                list.push(entry);
            }
        }
    }
    list
}

/// The items with one text of a subject replaced by another wherever it stands.
fn renamed(items: &[Item], of: &str, old: &str, new: &str) -> Vec<Item> {
    let mut items = items.to_vec();
    for item in &mut items {
        let Item::Record(record) = item else { continue };
        for (field, stored) in SHAPES[record.kind].fields.iter().zip(&mut record.fields) {
            if subject(field.name) == of && value::show(field.sort, *stored) == old {
                *stored = value::read(field.sort, new).unwrap_or(*stored);
            }
        }
    }
    items
}

/// Numbers that several records share, made small together.
fn shared(items: Vec<Item>, holds: &mut dyn FnMut(&[u8]) -> bool) -> Vec<Item> {
    let mut items = items;
    for (of, old) in named(&items) {
        // none and the words for flags are as simple as can be
        if !old.ends_with(|last: char| last.is_ascii_digit()) {
            continue;
        }
        let small = (0..=8)
            .map(|step| step.to_string())
            .take_while(|text| *text != old);
        for new in small {
            let tried = renamed(&items, of, &old, &new);
            if tried != items && holds(&join(&tried)) {
                items = tried;
                break;
            }
        }
    }
    items
}

fn bytes(trace: Vec<u8>, holds: &mut dyn FnMut(&[u8]) -> bool) -> Vec<u8> {
    let mut shorter = without(trace, 0, &mut |bytes| holds(bytes));
    for place in 0..shorter.len() {
        let old = std::mem::take(&mut shorter[place]);
        if old != 0 && !holds(&shorter) {
            shorter[place] = old;
        }
    }
    shorter
}

/// Leaves out runs of parts, long ones first, while the rest still holds; the last `kept` parts stay.
fn without<T: Clone>(parts: Vec<T>, kept: usize, holds: &mut dyn FnMut(&[T]) -> bool) -> Vec<T> {
    let mut parts = parts;
    let mut run = parts.len().max(1);
    while run > 0 {
        let mut at = 0;
        while at + run + kept <= parts.len() {
            let mut fewer = parts.clone();
            fewer.drain(at..at + run);
            if holds(&fewer) {
                parts = fewer;
            } else {
                at += run;
            }
        }
        run /= 2;
    }
    parts
}

fn simplify(items: &mut [Item], place: usize, holds: &mut dyn FnMut(&[u8]) -> bool) {
    let Item::Record(record) = items[place].clone() else {
        return;
    };
    for (at, field) in SHAPES[record.kind].fields.iter().enumerate() {
        for simpler in simpler(field.sort, field.default, record.fields[at]) {
            let Item::Record(changed) = &mut items[place] else {
                return;
            };
            let old = std::mem::replace(&mut changed.fields[at], simpler);
            if holds(&join(items)) {
                break;
            }
            let Item::Record(changed) = &mut items[place] else {
                return;
            };
            changed.fields[at] = old;
        }
    }
}

/// Simpler numbers for a field, simplest first: the steps of a ladder below it, or a shorter text.
fn simpler(sort: Sort, default: u64, stored: u64) -> Vec<u64> {
    let small: Vec<u64> = match sort {
        Sort::Float => (0..=12).map(|n| f64::from(n).to_bits()).collect(),
        Sort::Signed => (0..=8).chain(-2..0).map(value::zigzag).collect(),
        _ => (0..=8).collect(),
    };
    let ladder: Vec<u64> = std::iter::once(default).chain(small).collect();
    let below = ladder.iter().position(|&step| step == stored);
    let mut list: Vec<u64> = ladder[..below.unwrap_or(ladder.len())].to_vec();
    if below.is_none() {
        list.extend(shorter(sort, stored));
    }
    list
}

/// Rounded numbers with a shorter text.
fn shorter(sort: Sort, stored: u64) -> Vec<u64> {
    if sort != Sort::Float {
        return vec![stored / 2];
    }
    let number = f64::from_bits(stored);
    let rounded = [1.0, 2.0, 10.0, 100.0].map(|steps| ((number * steps).round() / steps).to_bits());
    let length = value::show(sort, stored).len();
    rounded
        .into_iter()
        .filter(|&bits| value::show(sort, bits).len() < length)
        .collect()
}

#[cfg(test)]
mod tests {
    use super::*;

    fn reduced(text: &str, holds: &mut dyn FnMut(&[u8]) -> bool) -> String {
        form::brief(&reduce(
            &form::encode(text).expect("the text is right"),
            holds,
        ))
    }

    #[test]
    fn only_what_matters_is_left() {
        let text = "node site=3\ngpu memory=80\nnode\njob arrival=4.75 gpus=9 tenant=3\njob gpus=1 priority=-7\nend";
        let mut two_gpus = |bytes: &[u8]| {
            form::brief(bytes).contains("gpus=2") || form::brief(bytes).contains("gpus=9")
        };
        assert_eq!(reduced(text, &mut two_gpus), "job gpus=2\nend\n");
        let mut any_tenant = |bytes: &[u8]| form::brief(bytes).contains("tenant");
        assert_eq!(reduced(text, &mut any_tenant), "job tenant=0\nend\n");
    }

    #[test]
    fn unreadable_traces_lose_bytes() {
        let found = reduce(&[1, 0, 9, 77, 77, 128, 0], &mut |bytes| bytes.contains(&9));
        assert_eq!(found, [9]);
    }

    #[test]
    fn what_two_records_share_is_made_small_together() {
        let text = "quota tenant=5 gpus=1\njob arrival=2.5 tenant=5\njob arrival=2.5\nend";
        let mut alike = |bytes: &[u8]| {
            let items = split(bytes);
            let field = |place: usize, at: usize| match items.get(place) {
                Some(Item::Record(record)) => record.fields.get(at).copied(),
                _ => None,
            };
            let tenant = field(1, 7).is_some_and(|stored| field(0, 0) == stored.checked_sub(1));
            tenant && items.len() == 4 && field(1, 0) == field(2, 0)
        };
        assert_eq!(reduced(text, &mut alike), "quota\njob tenant=0\njob\nend\n");
    }

    #[test]
    fn nothing_to_leave_out() {
        assert_eq!(reduce(&[0], &mut |bytes| bytes == [0]), [0]);
        assert_eq!(reduce(&[], &mut |_| true), [0u8; 0]);
    }
}
