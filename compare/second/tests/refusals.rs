//! Every refusal at a typical place.

mod common;

use common::*;
use second::{load, placeable, run, step, Plan, Refusal, Show, BUFFER_WORDS};

/// The refusal of some bytes as number and place.
fn refused(bytes: &[u8]) -> Option<(u32, usize)> {
    let loaded = load(bytes);
    if loaded.refusal.is_some() {
        assert_eq!(
            format!("{:?}", loaded.plan),
            format!("{:?}", Plan::default())
        );
    }
    loaded
        .refusal
        .map(|Refusal { number, place }| (number, place))
}

/// A trace of record kinds and numbers alone.
fn numbers(values: &[u64]) -> Vec<u8> {
    Bytes::default().numbers(values).0
}

#[test]
fn one_bytes_end() {
    assert_eq!(refused(&[]), Some((1, 0)));
    assert_eq!(refused(&[0x80]), Some((1, 1)));
    assert_eq!(refused(&[1]), Some((1, 1)));
    assert_eq!(refused(&[1, 0]), Some((1, 2)));
    assert_eq!(refused(&[0xFF; 9]), Some((1, 9)));
    let whole = Bytes::default()
        .node(None)
        .gpus(1)
        .job(job(0.0, 1.0, 0, 1))
        .end();
    assert_eq!(refused(&whole), None);
    for length in 0..whole.len() {
        assert_eq!(refused(&whole[..length]), Some((1, length)));
    }
}

#[test]
fn two_numbers() {
    assert_eq!(refused(&[0x80, 0x00]), Some((2, 0)));
    assert_eq!(refused(&[1, 0x80, 0x00]), Some((2, 1)));
    assert_eq!(refused(&[0xFF, 0xFF, 0x00]), Some((2, 0)));
    let long = |last: u8| [vec![1, 0, 2], vec![0xFF; 9], vec![last]].concat();
    assert_eq!(refused(&long(0x80)), Some((2, 3)));
    assert_eq!(refused(&long(0x02)), Some((2, 3)));
    assert_eq!(refused(&long(0x00)), Some((2, 3)));
    assert_eq!(refused(&long(0x01)), Some((4, 3)));
    assert_eq!(refused(&[vec![0xFF; 9], vec![0x80]].concat()), Some((2, 0)));
}

#[test]
fn three_kinds() {
    assert_eq!(refused(&numbers(&[255])), Some((3, 0)));
    assert_eq!(refused(&numbers(&[1, 0, 7])), Some((3, 2)));
    assert_eq!(refused(&[vec![0xFF; 9], vec![0x01]].concat()), Some((3, 0)));
}

#[test]
fn four_small_fields() {
    assert_eq!(refused(&numbers(&[1, 65])), Some((4, 1)));
    assert_eq!(refused(&numbers(&[1, 64, 0])), None);
    assert_eq!(refused(&numbers(&[2, 256])), Some((4, 1)));
    assert_eq!(refused(&numbers(&[2, 255, 0, 257])), Some((4, 4)));
    assert_eq!(refused(&numbers(&[2, 0, 0, 256, 2])), Some((4, 5)));
    assert_eq!(refused(&numbers(&[3, 32])), Some((4, 1)));
    assert_eq!(refused(&numbers(&[3, 31, 1 << 32])), Some((4, 2)));
    assert_eq!(refused(&numbers(&[3, 31, (1 << 32) - 1, 0])), None);
    assert_eq!(refused(&numbers(&[4, 16])), Some((4, 1)));
    assert_eq!(refused(&numbers(&[4, 15, 0])), Some((4, 2)));
    assert_eq!(refused(&numbers(&[4, 15, 8])), Some((4, 2)));
    assert_eq!(refused(&numbers(&[4, 15, 7, 0])), None);
}

#[test]
fn four_floats() {
    const MOST: u64 = 0x4270_0000_0000_0000;
    assert_eq!(refused(&numbers(&[2, 0, MOST, 0, 0])), Some((5, 0)));
    assert_eq!(refused(&numbers(&[2, 0, MOST + 1, 0, 0])), Some((4, 2)));
    for bad in [-0.0, -1.0, f64::NAN, f64::INFINITY] {
        assert_eq!(refused(&numbers(&[2, 0, bad.to_bits()])), Some((4, 2)));
    }
    let options = |multiplier: u64| refused(&numbers(&[6, 0, 1, multiplier, 0, 0, 0]));
    assert_eq!(options(1.0f64.to_bits()), None);
    assert_eq!(options(1024.0f64.to_bits()), None);
    assert_eq!(options(1.0f64.to_bits() - 1), Some((4, 3)));
    assert_eq!(options(1024.0f64.to_bits() + 1), Some((4, 3)));
}

/// The fields of a job that is all zero, with some of them changed.
fn job_with(changes: &[(usize, u64)]) -> Vec<u8> {
    let mut fields = [0; 16];
    fields[0] = 5;
    for &(field, value) in changes {
        fields[field] = value;
    }
    numbers(&fields)
}

#[test]
fn four_job_fields() {
    assert_eq!(refused(&job_with(&[])), None);
    let most = [
        (3, (1 << 32) - 1),
        (4, 128),
        (6, 256),
        (7, 64),
        (8, 32),
        (10, 32),
        (13, 16),
    ];
    for (field, most) in most {
        assert_eq!(
            refused(&job_with(&[(field, most + 1)])),
            Some((4, field)),
            "{field}"
        );
        let slices = u64::from(field == 13);
        assert_eq!(
            refused(&job_with(&[(field, most), (14, slices)])),
            None,
            "{field}"
        );
    }
    for flag in [9, 11] {
        assert_eq!(refused(&job_with(&[(flag, 2)])), Some((4, flag)));
    }
    for float in [1, 2, 5, 12] {
        assert_eq!(refused(&job_with(&[(float, u64::MAX)])), Some((4, float)));
    }
    assert_eq!(refused(&job_with(&[(14, 1)])), Some((4, 14)));
    assert_eq!(refused(&job_with(&[(13, 1)])), Some((4, 14)));
    assert_eq!(refused(&job_with(&[(13, 1), (14, 65)])), Some((4, 14)));
    assert_eq!(refused(&job_with(&[(13, 1), (14, 64)])), None);
}

#[test]
fn five_six_seven() {
    assert_eq!(refused(&numbers(&[3, 0, 1, 2, 0, 0, 0, 0])), Some((5, 3)));
    assert_eq!(refused(&numbers(&[2, 0, 0, 0])), Some((1, 4)));
    assert_eq!(refused(&numbers(&[3, 1, 1, 3, 1, 0])), Some((6, 3)));
    assert_eq!(refused(&numbers(&[4, 1, 1, 4, 1, 2])), Some((6, 3)));
    let options = Bytes::default().options([0.0, 0.0, 1.0], false, true);
    let once = options.0.len();
    assert_eq!(
        refused(&options.options([0.0, 0.0, 1.0], false, true).0),
        Some((6, once))
    );
    let nodes = (0..32).fold(Bytes::default(), |bytes, _| bytes.node(None));
    assert_eq!(refused(&nodes.clone().end()), None);
    assert_eq!(refused(&nodes.clone().node(None).0), Some((7, 64)));
    assert_eq!(refused(&nodes.numbers(&[1, 65]).0), Some((4, 65)));
    let gpus = Bytes::default().node(None).gpus(128);
    assert_eq!(refused(&gpus.clone().end()), None);
    assert_eq!(refused(&gpus.gpus(1).0), Some((7, 2 + 128 * 5)));
}

#[test]
fn seven_jobs() {
    let jobs = (0..128).fold(Bytes::default(), |bytes, _| bytes.job(Job::default()));
    let full = jobs.0.len();
    assert_eq!(refused(&jobs.clone().end()), None);
    assert_eq!(
        refused(&jobs.clone().job(Job::default()).0),
        Some((7, full))
    );
    let bad = Job {
        slices: 1,
        ..Job::default()
    };
    assert_eq!(refused(&jobs.job(bad).0), Some((4, full + 14)));
}

#[test]
fn eight_and_nine() {
    assert_eq!(refused(&[0, 0]), Some((8, 1)));
    assert_eq!(refused(&[1, 0, 0, 0x80]), Some((8, 3)));
    assert_eq!(refused(&vec![0; 65_536]), Some((8, 1)));
    assert_eq!(refused(&vec![0; 65_537]), Some((9, 65_536)));
    assert_eq!(refused(&vec![0xFF; 70_000]), Some((9, 65_536)));
    assert_eq!(
        run(&vec![7; 65_537], Show::default()),
        "refused 9 at 65536\n"
    );
}

#[test]
fn ten_then_eleven() {
    let mut plan = loaded(&Bytes::default().end());
    assert_eq!(step(&mut plan, &mut [0; BUFFER_WORDS - 1]), Err(10));
    assert_eq!(step(&mut plan, &mut [0; BUFFER_WORDS]), Err(11));
    assert_eq!(step(&mut plan, &mut [0; BUFFER_WORDS + 9]), Err(11));
    assert_eq!(run(&[0], Show::default()), "end 0\n");
    let mut plan = loaded(&Bytes::default().job(job(0.0, 0.0, 0, 0)).end());
    assert_eq!(step(&mut plan, &mut []), Err(10));
    let mut buffer = [7; BUFFER_WORDS + 1];
    assert_eq!(step(&mut plan, &mut buffer), Ok(1));
    assert_eq!(buffer[..4], [0, ARRIVED, 0, 0]);
    assert!(buffer[4..].iter().all(|&word| word == 7));
}

/// Steps until a refusal, which must be 12 and must leave plan and buffer alone.
fn refused_twelve(bytes: &[u8], accepted: usize) {
    let mut plan = loaded(bytes);
    steps(&mut plan, accepted);
    let before = format!("{plan:?}");
    let mut buffer = [7; BUFFER_WORDS];
    assert_eq!(step(&mut plan, &mut buffer), Err(12));
    assert_eq!(format!("{plan:?}"), before);
    assert!(buffer.iter().all(|&word| word == 7));
    assert!(run(bytes, Show::default()).ends_with("refused 12\n"));
    // The state stands once more behind the refusal, the same as before it.
    let details = run(
        bytes,
        Show {
            details: true,
            events: true,
        },
    );
    let (lines, after) = details.split_once("refused 12\n").expect("the refusal");
    assert!(after.starts_with(&format!("# step {accepted} ")) && lines.ends_with(after));
}

const FAR: f64 = 1_099_511_627_776.0;

#[test]
fn twelve_event_times() {
    let room = Bytes::default().node(None).gpus(1);
    refused_twelve(&room.clone().job(job(FAR, 1.0, 0, 1)).end(), 0);
    assert_eq!(whole(&room.clone().job(job(FAR, 0.0, 0, 1)).end()).len(), 3);
    let gang = Job {
        gang: true,
        timeout: 1.0,
        ..job(FAR, 0.0, 0, 1)
    };
    refused_twelve(&room.clone().job(gang).end(), 0);
    // The sum rounds back to 2^40 exactly, which is permitted.
    let tiny = Job {
        gang: true,
        timeout: 1e-9,
        ..job(FAR, 0.0, 0, 1)
    };
    assert_eq!(whole(&room.job(tiny).end()).len(), 3);
}

#[test]
fn twelve_start_and_added() {
    let sliced = Bytes::default().node(None).mig_gpus(1).profile(0, 1);
    refused_twelve(&sliced.job(mig(FAR, 0.0, 1)).end(), 0);
    let apart = Bytes::default().node(None).gpu(0, 0.0, Some(0), false);
    let apart = apart
        .gpu(0, 0.0, Some(1), false)
        .options([0.0, 0.0, 1024.0], false, true);
    let long = Job {
        network: true,
        ..job(0.0, FAR / 1024.0, 0, 2)
    };
    // One such run ends at 2^40 and adds a little less; the second one's end is out of range.
    refused_twelve(
        &apart
            .job(long)
            .job(Job {
                arrival: 1.0,
                ..long
            })
            .end(),
        2,
    );
}

#[test]
fn thirteen_no_such_job() {
    let plan = loaded(&Bytes::default().job(Job::default()).end());
    assert_eq!(placeable(&plan, 0), Ok(false));
    assert_eq!(placeable(&plan, 1), Err(13));
    assert_eq!(placeable(&Plan::default(), 0), Err(13));
    assert_eq!(placeable(&plan, usize::MAX), Err(13));
}
