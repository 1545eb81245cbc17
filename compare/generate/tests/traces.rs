//! A seed gives one trace, traces read back in their readable form, and sound kinds have no raw bytes.

use form::Item;
use generate::{any, any_to_load, seed_of, trace, Kind, KINDS};

#[test]
fn a_seed_names_one_trace_and_seeds_differ() {
    for (kind, name, _) in KINDS {
        assert_eq!(trace(kind, 3), trace(kind, 3), "{name}");
        assert!(
            (0..20).any(|seed| trace(kind, seed) != trace(kind, 3)),
            "{name}"
        );
        assert_eq!(Kind::named(name), Some(kind));
        assert_eq!(kind.name(), name);
    }
}

#[test]
fn every_trace_keeps_its_bytes_through_the_text() {
    for number in 0..4_000 {
        let (kind, bytes) = any(seed_of(9, number));
        assert_eq!(
            form::encode(&form::decode(&bytes)).as_deref(),
            Ok(&bytes[..]),
            "{} {number}",
            kind.name()
        );
    }
}

#[test]
fn only_damaged_traces_have_raw_bytes() {
    for (kind, name, _) in KINDS {
        let raw = (0..60).any(|seed| {
            form::split(&trace(kind, seed))
                .iter()
                .any(|i| matches!(i, Item::Raw(_)))
        });
        assert_eq!(raw, kind == Kind::Damaged, "{name}");
    }
}

#[test]
fn every_kind_is_drawn() {
    for (kind, name, _) in KINDS {
        assert!(
            (0..3_000).any(|number| any(seed_of(1, number)).0 == kind),
            "{name}"
        );
    }
}

#[test]
fn traces_to_load_are_mostly_damaged_and_meet_every_refusal() {
    let drawn: Vec<(Kind, Vec<u8>)> = (0..4_000)
        .map(|number| any_to_load(seed_of(1, number)))
        .collect();
    let damaged = drawn.iter().filter(|(kind, _)| *kind == Kind::Damaged);
    assert!(damaged.count() * 2 > drawn.len());
    let mut met = [0; 10];
    for (_, bytes) in &drawn {
        let refusal = second::load(bytes).refusal;
        met[refusal.map_or(0, |refusal| refusal.number as usize)] += 1;
    }
    assert!(met.iter().all(|&times| times > 20), "{met:?}");
}
