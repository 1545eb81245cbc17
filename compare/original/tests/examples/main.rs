//! Small traces whose plans are written out, in both builds; without the original there is nothing to try.

mod write;

use original::{present, run, Build, Show};
use write::{Job, Trace, JOB};

const WORKED: [u8; 31] = [
    0x01, 0x00, 0x02, 0x00, 0x00, 0x00, 0x00, 0x05, 0x00, 0x80, 0x80, 0x80, 0x80, 0x80, 0x80, 0x80,
    0xf8, 0x3f, 0x00, 0x01, 0x00, 0x00, 0x00, 0x00, 0x00, 0x00, 0x00, 0x00, 0x00, 0x00, 0x00,
];
const PLAIN: Show = Show {
    details: false,
    events: false,
};
const DETAILS: Show = Show {
    details: true,
    events: false,
};

/// The lines of a plan from times and words.
fn plan(decisions: &[(f64, &str)], steps: usize) -> String {
    let lines = decisions
        .iter()
        .map(|(time, words)| format!("{:016x} {words}\n", time.to_bits()));
    lines.collect::<String>() + &format!("end {steps}\n")
}

fn expect(trace: &[u8], show: Show, expected: &str) {
    for build in [Build::Published, Build::Ordered] {
        if present() {
            assert_eq!(run(trace, show, build), expected, "{build:?}");
        }
    }
}

#[test]
fn worked_example() {
    let expected = "0000000000000000 arrived 0\n\
                    0000000000000000 started 0 1\n\
                    3ff0000000000000 completed 0 1\n\
                    end 2\n";
    expect(&WORKED, PLAIN, expected);
    assert_eq!(Trace::new().node().gpus(1, false).job(JOB).end(), WORKED);
}

#[test]
fn worked_example_in_detail() {
    let expected = "\
# node 0 -
# gpu 0 0 0 0000000000000000 - 0
# ask 0 0000000000000000 3ff0000000000000 0 1 0000000000000000 - - - 0 0 0 0000000000000000 - 0
# options 403e000000000000 0000000000000000 3ff0000000000000 0 1
# step 0 0000000000000000
# totals 0 0 0 0 0000000000000000
# queue
# job 0 pending - - 3ff0000000000000 0000000000000000 0 0 0 yes
# owner 0 - - 0
0000000000000000 arrived 0
0000000000000000 started 0 1
# step 1 0000000000000000
# totals 0 0 0 1 0000000000000000
# queue
# job 0 running - 0000000000000000 3ff0000000000000 0000000000000000 0 1 0 no
# owner 0 0 - 0
3ff0000000000000 completed 0 1
# step 2 3ff0000000000000
# totals 0 0 0 1 0000000000000000
# queue
# job 0 finished - - 3ff0000000000000 0000000000000000 0 1 0 yes
# owner 0 - - 0
end 2
";
    expect(&WORKED, DETAILS, expected);
}

/// The last of four jobs needs the GPUs of the two lowest priorities.
fn crowded() -> Vec<u8> {
    let ask = |arrival, duration, priority, count| Job {
        arrival,
        duration,
        priority,
        count,
        ..JOB
    };
    Trace::new()
        .node()
        .gpus(4, false)
        .options(30.0, 0.5, false)
        .job(ask(0.0, 100.0, -1, 1))
        .job(ask(1.0, 200.0, 0, 2))
        .job(ask(2.0, 300.0, 3, 1))
        .job(ask(3.0, 50.0, 5, 3))
        .end()
}

#[test]
fn preemption() {
    // The steps at 100 and 201 take completions of runs that were cut short.
    let expected = plan(
        &[
            (0.0, "arrived 0"),
            (0.0, "started 0 1"),
            (1.0, "arrived 1"),
            (1.0, "started 1 2"),
            (2.0, "arrived 2"),
            (2.0, "started 2 1"),
            (3.0, "arrived 3"),
            (3.0, "evicted 0 3"),
            (3.0, "evicted 1 3"),
            (3.0, "started 3 3"),
            (53.0, "completed 3 3"),
            (53.5, "started 1 2"),
            (53.5, "started 0 1"),
            (150.5, "completed 0 1"),
            (251.5, "completed 1 2"),
            (302.0, "completed 2 1"),
        ],
        10,
    );
    expect(&crowded(), PLAIN, &expected);
}

#[test]
fn cut_for_slices() {
    let slices = |arrival, slices| Job {
        arrival,
        profile: Some(2),
        slices,
        count: 0,
        ..JOB
    };
    let trace = Trace::new()
        .node()
        .gpus(1, false)
        .gpus(1, true)
        .profile(2, 4)
        .options(8.0, 0.0, false)
        .job(slices(0.0, 3))
        .job(slices(1.0, 1))
        .end();
    let expected = plan(
        &[
            (0.0, "arrived 0"),
            (8.0, "started 0 3"),
            (1.0, "arrived 1"),
            (9.0, "completed 0 3"),
            (9.0, "started 1 1"),
            (10.0, "completed 1 1"),
        ],
        4,
    );
    expect(&trace, PLAIN, &expected);
    if present() {
        let details = run(&trace, DETAILS, Build::Published);
        assert!(details.contains("# owner 0 - - 0\n# owner 1 - 2 3 0 0 0\n"));
        assert!(details.contains("# owner 0 - - 0\n# owner 1 - 2 3 1 - -\n"));
    }
}

#[test]
fn gang_timeout() {
    let gang = Job {
        gang: true,
        count: 2,
        timeout: 5.0,
        ..JOB
    };
    let trace = Trace::new().node().gpus(1, false).job(gang).end();
    expect(
        &trace,
        PLAIN,
        &plan(&[(0.0, "arrived 0"), (5.0, "failed 0")], 2),
    );
}

#[test]
fn timeouts_are_shown_without_the_evictions() {
    let gang = Job {
        gang: true,
        timeout: 50.0,
        duration: 9.0,
        ..JOB
    };
    let later = Job {
        arrival: 1.0,
        priority: 1,
        ..JOB
    };
    let trace = Trace::new()
        .node()
        .gpus(1, false)
        .job(gang)
        .job(later)
        .end();
    if present() {
        let details = run(&trace, DETAILS, Build::Ordered);
        let evicted =
            "# job 0 waiting 3ff0000000000000 - 4020000000000000 0000000000000000 1 1 2 no\n";
        assert!(details.contains(evicted), "{details}");
    }
}

#[test]
fn a_tie_goes_to_the_greatest_name_as_published_and_to_the_oldest_event_ordered() {
    let trace = Trace::new().job(JOB).job(JOB).end();
    let arrived = |first, second| plan(&[(0.0, first), (0.0, second)], 2);
    if present() {
        let published = arrived("arrived 1", "arrived 0");
        assert_eq!(run(&trace, PLAIN, Build::Published), published);
        let ordered = arrived("arrived 0", "arrived 1");
        assert_eq!(run(&trace, PLAIN, Build::Ordered), ordered);
    }
}

/// Twenty nodes would fit equally well: a random order would hardly take the first of them twenty times.
#[test]
fn no_map_of_the_ordered_build_has_a_random_order() {
    let nodes = (0..20).fold(Trace::new(), |trace, _| trace.node().gpus(1, false));
    let trace = nodes.options(30.0, 0.0, true).job(JOB).end();
    for _ in 0..20 {
        if present() {
            let details = run(&trace, DETAILS, Build::Ordered);
            assert!(details.contains("# owner 0 0 - 0\n"), "{details}");
        }
    }
}

#[test]
fn what_does_not_load() {
    let long = vec![0; 65_537];
    for trace in [
        &b""[..],
        b"\x07",
        b"\x80\x00",
        b"\x00\x00",
        b"\x02\x00\x00\x00\x00\x00",
        &long,
    ] {
        expect(trace, PLAIN, "not loadable\n");
    }
    expect(b"\x00", PLAIN, "end 0\n");
}
