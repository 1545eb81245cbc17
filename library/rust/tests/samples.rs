//! The stored samples, by their stored lines.

use std::fs::{read_dir, read_to_string};
use std::path::Path;

use gpu_planner::{plan, Decision, End, Refused};

const SAMPLES: &str = concat!(env!("CARGO_MANIFEST_DIR"), "/../../samples");

/// A stored line as what it says, so that it is not only text that is compared.
fn told(line: &str) -> Decision {
    let words: Vec<&str> = line.split(' ').collect();
    let number = |at: usize| words[at].parse().expect("a number");
    let time = f64::from_bits(u64::from_str_radix(words[0], 16).expect("a time"));
    let job = number(2);
    match (words[1], words.len()) {
        ("arrived", 3) => Decision::Arrived { time, job },
        ("failed", 3) => Decision::Failed { time, job },
        ("completed", 4) => Decision::Completed {
            time,
            job,
            size: number(3),
        },
        ("evicted", 4) => Decision::Evicted {
            time,
            job,
            sake: number(3),
        },
        ("started", 4) => Decision::Started {
            time,
            job,
            size: number(3),
        },
        _ => panic!("a line of no kind: {line}"),
    }
}

/// The bytes of a sample, and the lines of its plan: those without `#`.
fn sample(text: &Path) -> (Vec<u8>, Vec<String>) {
    let trace = form::encode(&read_to_string(text).expect("a sample")).expect("a trace");
    let stored = read_to_string(text.with_extension("expected")).expect("its lines");
    let lines = stored.lines().filter(|line| !line.starts_with('#'));
    (trace, lines.map(str::to_string).collect())
}

#[test]
fn every_sample_has_its_stored_plan() {
    let mut seen = 0;
    for entry in read_dir(SAMPLES).expect("the samples").flatten() {
        let path = entry.path();
        if path.extension().is_none_or(|ending| ending != "txt") {
            continue;
        }
        let (trace, lines) = sample(&path);
        let (last, decided) = lines.split_last().expect("a last line");
        let planned = plan(&trace).expect("a sample loads");
        let decided: Vec<Decision> = decided.iter().map(|line| told(line)).collect();
        assert_eq!(planned.decisions, decided, "{}", path.display());
        assert_eq!(planned.end, End::NoEvent, "{}", path.display());
        assert_eq!(
            format!("end {}", planned.steps),
            *last,
            "{}",
            path.display()
        );
        seen += 1;
    }
    assert!(seen > 0, "no sample in {SAMPLES}");
}

#[test]
fn a_sample_without_its_last_byte_is_cut_short() {
    let (trace, _) = sample(&Path::new(SAMPLES).join("match-night.txt"));
    let place = trace.len() - 1;
    assert_eq!(plan(&trace[..place]), Err(Refused { number: 1, place }));
}
