//! Every refusal with a small trace and its place, through the safe function.

use gpu_planner::{plan, Decision, End, Refused};

fn refused(trace: &[u8]) -> Option<(u64, usize)> {
    plan(trace)
        .err()
        .map(|Refused { number, place }| (number, place))
}

/// A node, then so many of the same record; `job` and `gpu` are all zero.
fn repeated(record: &[u8], times: usize) -> Vec<u8> {
    [&[1, 0], record.repeat(times).as_slice(), &[0]].concat()
}

#[test]
fn one_the_trace_stops() {
    assert_eq!(refused(&[]), Some((1, 0)));
    assert_eq!(refused(&[1]), Some((1, 1)));
    assert_eq!(refused(&[1, 0]), Some((1, 2)));
}

#[test]
fn two_a_number() {
    assert_eq!(refused(&[1, 0x80, 0]), Some((2, 1)));
}

#[test]
fn three_a_kind() {
    assert_eq!(refused(&[1, 0, 7]), Some((3, 2)));
}

#[test]
fn four_a_field() {
    assert_eq!(refused(&[1, 65]), Some((4, 1)));
}

#[test]
fn five_no_node() {
    assert_eq!(refused(&[2, 0, 0, 0, 0, 0]), Some((5, 0)));
}

#[test]
fn six_a_second_quota() {
    assert_eq!(refused(&[3, 1, 1, 3, 1, 2, 0]), Some((6, 3)));
}

#[test]
fn seven_no_room() {
    let (node, gpu, job) = (
        [1, 0],
        [2, 0, 0, 0, 0],
        [5, 0, 0, 0, 0, 0, 0, 0, 0, 0, 0, 0, 0, 0, 0],
    );
    for (record, room) in [(&node[..], 31), (&gpu, 128), (&job, 128)] {
        assert_eq!(refused(&repeated(record, room)), None);
        let place = 2 + record.len() * room;
        assert_eq!(refused(&repeated(record, room + 1)), Some((7, place)));
    }
}

#[test]
fn eight_bytes_after() {
    assert_eq!(refused(&[1, 0, 0, 9]), Some((8, 3)));
}

#[test]
fn nine_too_long() {
    assert_eq!(refused(&[0; 65_536]), Some((8, 1)));
    assert_eq!(refused(&[0; 65_537]), Some((9, 65_536)));
}

/// A job on no GPU at 0.0, then one whose completion would be later than 2^40.
#[test]
fn twelve_keeps_what_was_decided() {
    let far = [0x80, 0x80, 0x80, 0x80, 0x80, 0x80, 0x80, 0xb8, 0x42];
    let job = |arrival: &[u8], duration: &[u8], gpus: u8| {
        [&[5], arrival, duration, &[0, gpus], &[0; 10]].concat()
    };
    let jobs = [job(&[0], &[0], 0), job(&far, &far, 1)].concat();
    let trace = [&[1, 0, 2, 0, 0, 0, 0], jobs.as_slice(), &[0]].concat();
    let planned = plan(&trace).expect("it loads");
    assert_eq!(planned.end, End::NotPermitted);
    assert_eq!(planned.steps, 1);
    assert_eq!(planned.decisions, [Decision::Arrived { time: 0.0, job: 0 }]);
}

#[test]
fn a_refusal_says_cause_and_remedy() {
    let shown = plan(&[1, 0, 0, 9]).expect_err("bytes follow").to_string();
    let wanted = "refused 8 at 3: bytes follow the end record; cut the trace there, or take out the early end record";
    assert_eq!(shown, wanted);
    for number in 1..=9 {
        let refused = Refused { number, place: 0 };
        let unknown = Refused {
            number: 0,
            place: 0,
        };
        assert_ne!(refused.cause(), unknown.cause());
        assert_ne!(refused.remedy(), unknown.remedy());
    }
}
