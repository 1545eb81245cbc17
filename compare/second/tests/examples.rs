//! The worked example of document 01 and its examples A to L, each as a trace.

mod common;

use common::*;
use second::{observe, placeable, run, Show};

const WORKED: [u8; 31] = [
    0x01, 0x00, 0x02, 0x00, 0x00, 0x00, 0x00, 0x05, 0x00, 0x80, 0x80, 0x80, 0x80, 0x80, 0x80, 0x80,
    0xF8, 0x3F, 0x00, 0x01, 0x00, 0x00, 0x00, 0x00, 0x00, 0x00, 0x00, 0x00, 0x00, 0x00, 0x00,
];

#[test]
fn worked_example() {
    let lines = "0000000000000000 arrived 0\n0000000000000000 started 0 1\n\
                 3ff0000000000000 completed 0 1\nend 2\n";
    assert_eq!(run(&WORKED, Show::default()), lines);
    let encoded = Bytes::default()
        .node(None)
        .gpus(1)
        .job(job(0.0, 1.0, 0, 1))
        .end();
    assert_eq!(encoded, WORKED);
}

/// Three GPUs used by tenant 0; then the question for a second job of the same tenant.
fn beside_three(quota: Option<u64>, gpus: usize, count: u64) -> Result<bool, u32> {
    let tenant = Some(0);
    let bytes = Bytes::default().node(None).gpus(gpus);
    let bytes = quota
        .into_iter()
        .fold(bytes, |bytes, quota| bytes.quota(0, quota));
    let bytes = bytes.job(Job {
        tenant,
        ..job(0.0, 9.0, 0, 3)
    });
    let mut plan = loaded(
        &bytes
            .job(Job {
                tenant,
                ..job(1.0, 9.0, 0, count)
            })
            .end(),
    );
    assert_eq!(stepped(&mut plan).len(), 2);
    placeable(&plan, 1)
}

#[test]
fn a_b_c_quota() {
    assert_eq!(beside_three(Some(4), 5, 1), Ok(true));
    assert_eq!(beside_three(Some(4), 5, 2), Ok(false));
    assert_eq!(beside_three(None, 5, 2), Ok(true));
    assert_eq!(beside_three(None, 4, 2), Ok(false));
}

#[test]
fn d_quota_within_a_pass() {
    let tenant = Some(0);
    let bytes = Bytes::default()
        .node(None)
        .gpus(5)
        .quota(0, 4)
        .job(job(0.0, 9.0, 0, 5));
    let bytes = bytes.job(Job {
        tenant,
        ..job(1.0, 5.0, 0, 3)
    });
    let bytes = bytes
        .job(Job {
            tenant,
            ..job(2.0, 5.0, 0, 2)
        })
        .end();
    let mut plan = loaded(&bytes);
    steps(&mut plan, 3);
    assert_eq!(
        stepped(&mut plan),
        [(9.0, COMPLETED, 0, 5), (9.0, STARTED, 1, 3)]
    );
    assert_eq!(
        stepped(&mut plan),
        [(14.0, COMPLETED, 1, 3), (14.0, STARTED, 2, 2)]
    );
    assert!(observe(&bytes).domain.pass_quota);
}

/// The decisions of the priority 5 job's arrival beside the three running ones of E.
fn arrival_beside(wanted: u64) -> Vec<Decision> {
    let bytes = Bytes::default()
        .node(None)
        .gpus(4)
        .job(job(0.0, 90.0, 1, 1));
    let bytes = bytes.job(job(0.0, 90.0, 2, 2)).job(job(0.0, 90.0, 3, 1));
    let mut plan = loaded(&bytes.job(job(1.0, 9.0, 5, wanted)).end());
    steps(&mut plan, 3);
    stepped(&mut plan)
}

#[test]
fn e_f_g_preemption() {
    let evictions = [
        (1.0, ARRIVED, 3, 0),
        (1.0, EVICTED, 0, 3),
        (1.0, EVICTED, 1, 3),
    ];
    assert_eq!(
        arrival_beside(3),
        [&evictions[..], &[(1.0, STARTED, 3, 3)]].concat()
    );
    assert_eq!(
        arrival_beside(2),
        [&evictions[..], &[(1.0, STARTED, 3, 2)]].concat()
    );
    assert_eq!(arrival_beside(5), [(1.0, ARRIVED, 3, 0)]);
}

#[test]
fn h_evicted_three_times() {
    let bytes = Bytes::default()
        .node(None)
        .gpus(1)
        .job(job(0.0, 100.0, 0, 1));
    let hours = [1.0, 3.0, 5.0, 7.0];
    let bytes = hours
        .iter()
        .fold(bytes, |bytes, &at| bytes.job(job(at, 1.0, 1, 1)));
    let decisions = whole(&bytes.end());
    let evicted: Vec<_> = decisions
        .iter()
        .filter(|decision| decision.1 == EVICTED)
        .collect();
    assert_eq!(
        evicted,
        [
            &(1.0, EVICTED, 0, 1),
            &(3.0, EVICTED, 0, 2),
            &(5.0, EVICTED, 0, 3)
        ]
    );
    // It ran from 0 to 1, 2 to 3 and 4 to 5, so 97 seconds are left at its last start.
    assert!(decisions.contains(&(103.0, COMPLETED, 0, 1)));
    assert!(decisions.contains(&(103.0, STARTED, 4, 1)));
}

#[test]
fn i_gang_not_a_multiple() {
    let bytes = Bytes::default().node(None).gpus(4).node(None).gpus(4);
    let gang = Job {
        gang: true,
        gang_nodes: 2,
        ..job(0.0, 1.0, 0, 3)
    };
    let plan = loaded(&bytes.clone().job(gang).end());
    assert_eq!(placeable(&plan, 0), Ok(false));
    assert_eq!(whole(&bytes.job(gang).end()), [(0.0, ARRIVED, 0, 0)]);
}

#[test]
fn j_more_slices_than_most() {
    let bytes = Bytes::default()
        .node(None)
        .mig_gpus(2)
        .profile(0, 4)
        .job(mig(0.0, 1.0, 5))
        .end();
    assert_eq!(placeable(&loaded(&bytes), 0), Ok(false));
    assert_eq!(whole(&bytes), [(0.0, ARRIVED, 0, 0)]);
    assert!(observe(&bytes).domain.too_many);
}

#[test]
fn k_cut_anew() {
    for gpus in [2, 1] {
        let bytes = Bytes::default().node(None).mig_gpus(gpus).profile(0, 4);
        let bytes = bytes.job(mig(0.0, 1.0, 1)).job(mig(50.0, 1.0, 2)).end();
        let mut plan = loaded(&bytes);
        assert_eq!(
            stepped(&mut plan),
            [(0.0, ARRIVED, 0, 0), (30.0, STARTED, 0, 1)]
        );
        assert_eq!(stepped(&mut plan), [(31.0, COMPLETED, 0, 1)]);
        assert_eq!(placeable(&plan, 1), Ok(true));
        assert_eq!(
            stepped(&mut plan),
            [(50.0, ARRIVED, 1, 0), (80.0, STARTED, 1, 2)]
        );
        assert_eq!(plan.now.room[0].owners(), [Some(1), Some(1)]);
        assert_eq!(plan.now.totals.cuts, 2);
        assert!(plan
            .now
            .room
            .iter()
            .skip(1)
            .all(|held| held.profile.is_none()));
        assert!(observe(&bytes).domain.recut);
    }
}

#[test]
fn l_older_run_generation() {
    let bytes = Bytes::default().node(None).gpus(1).job(job(0.0, 9.0, 0, 1));
    let mut plan = loaded(&bytes.job(job(1.0, 20.0, 1, 1)).end());
    let decisions = steps(&mut plan, 2);
    assert_eq!(decisions[3..], [(1.0, EVICTED, 0, 1), (1.0, STARTED, 1, 1)]);
    let before = plan.now.clone();
    assert_eq!(stepped(&mut plan), []);
    assert_eq!(plan.now.clock, 9.0);
    assert_eq!(plan.now.events.len(), before.events.len() - 1);
    let (mut before, mut after) = (before, plan.now.clone());
    (before.clock, after.clock) = (0.0, 0.0);
    (before.events, after.events) = (Vec::new(), Vec::new());
    assert_eq!(format!("{before:?}"), format!("{after:?}"));
    assert_eq!(
        stepped(&mut plan),
        [(21.0, COMPLETED, 1, 1), (21.0, STARTED, 0, 1)]
    );
    assert_eq!(stepped(&mut plan), [(29.0, COMPLETED, 0, 1)]);
}
