//! Rules of placing and stepping that the lettered examples leave open.

mod common;

use common::*;
use second::{observe, placeable, run, Plan, Show};

/// The GPUs that a job holds whole.
fn held(plan: &Plan, job: u8) -> Vec<usize> {
    let room = plan.now.room.iter().enumerate();
    room.filter(|(_, held)| held.owner == Some(job))
        .map(|(gpu, _)| gpu)
        .collect()
}

/// GPUs of the given groups on the latest node.
fn grouped(bytes: Bytes, groups: &[Option<u64>]) -> Bytes {
    groups
        .iter()
        .fold(bytes, |bytes, &group| bytes.gpu(0, 0.0, group, false))
}

/// The GPUs that the only job takes, and how often a start was penalised.
fn taken(bytes: Bytes, job: Job) -> (Vec<usize>, u64) {
    let mut plan = loaded(&bytes.job(job).end());
    stepped(&mut plan);
    (held(&plan, 0), plan.now.totals.penalised)
}

#[test]
fn gang_choice() {
    let gang = |count, gang_nodes| Job {
        gang: true,
        gang_nodes,
        ..job(0.0, 1.0, 0, count)
    };
    let bytes = grouped(Bytes::default().node(None), &[Some(0), Some(1)]);
    let bytes = grouped(
        bytes.node(None),
        &[Some(2), Some(1), None, Some(1), Some(2)],
    );
    let bytes = grouped(bytes.node(None), &[Some(9), None, None]);
    // Nodes 1 and 2 have a group of two each; node 0 has not and comes last.
    assert_eq!(taken(bytes.clone(), gang(4, 2)), (vec![3, 5, 8, 9], 0));
    assert_eq!(
        taken(bytes.clone(), gang(6, 3)),
        (vec![0, 1, 3, 5, 8, 9], 1)
    );
    assert_eq!(taken(bytes.clone(), gang(2, 1)), (vec![3, 5], 0));
    assert_eq!(taken(bytes.clone(), gang(8, 2)), (vec![], 0));
    assert_eq!(taken(bytes, gang(3, 3)), (vec![0, 4, 8], 0));
}

#[test]
fn choice_over_all_nodes() {
    let network = |count| Job {
        network: true,
        ..job(0.0, 1.0, 0, count)
    };
    let bytes = grouped(Bytes::default().node(None), &[None, Some(3), Some(5)]);
    let bytes = grouped(bytes.node(None), &[Some(5), Some(3), None, Some(5)]);
    assert_eq!(taken(bytes.clone(), network(1)), (vec![2], 0));
    assert_eq!(taken(bytes.clone(), network(3)), (vec![2, 3, 6], 0));
    assert_eq!(taken(bytes.clone(), network(4)), (vec![0, 1, 2, 3], 1));
    let gang = Job {
        gang: true,
        ..network(2)
    };
    assert_eq!(taken(bytes, gang), (vec![2, 3], 0));
    let even = grouped(Bytes::default().node(None), &[Some(1), None, Some(1), None]);
    assert_eq!(taken(even.clone(), network(2)), (vec![1, 3], 0));
    assert!(observe(&even.job(network(2)).end()).domain.choice);
}

#[test]
fn best_fit() {
    let best = |bytes: Bytes| bytes.options([0.0, 0.0, 1.0], true, true);
    let bytes = Bytes::default()
        .node(None)
        .gpus(4)
        .node(None)
        .gpus(2)
        .node(None)
        .gpus(2);
    assert_eq!(
        taken(best(bytes.clone()), job(0.0, 1.0, 0, 2)),
        (vec![4, 5], 0)
    );
    assert_eq!(
        taken(best(bytes.clone()), job(0.0, 1.0, 0, 3)),
        (vec![0, 1, 2], 0)
    );
    assert_eq!(
        taken(best(bytes.clone()), job(0.0, 1.0, 0, 5)),
        (vec![0, 1, 2, 3, 4], 0)
    );
    let rising = Bytes::default()
        .node(None)
        .gpus(1)
        .node(None)
        .gpus(3)
        .node(None)
        .gpus(2);
    assert_eq!(
        taken(best(rising), job(0.0, 1.0, 0, 4)),
        (vec![1, 2, 3, 4], 0)
    );
    assert_eq!(taken(bytes, job(0.0, 1.0, 0, 2)), (vec![0, 1], 0));
}

#[test]
fn eligible() {
    let bytes = Bytes::default().node(None);
    let bytes = bytes.gpu(1, 8.0, None, false).gpu(2, 16.0, None, false);
    let bytes = bytes.node(Some(4)).gpu(1, 16.0, None, false);
    let first = |memory: f64, model: Option<u64>, site: Option<u64>| {
        let one = job(0.0, 1.0, 0, 1);
        let asked = Job {
            memory,
            model,
            site,
            ..one
        };
        taken(bytes.clone(), asked).0.first().copied()
    };
    assert_eq!(first(0.0, None, None), Some(0));
    assert_eq!(first(9.0, None, None), Some(1));
    assert_eq!(first(16.0, Some(1), None), Some(2));
    assert_eq!(first(16.5, None, None), None);
    assert_eq!(first(0.0, Some(2), None), Some(1));
    assert_eq!(first(0.0, Some(0), None), None);
    assert_eq!(first(0.0, None, Some(4)), Some(2));
    assert_eq!(first(0.0, None, Some(3)), None);
}

#[test]
fn penalised_times() {
    let bytes = grouped(Bytes::default().node(None), &[Some(0), Some(1)]);
    let bytes = bytes.options([0.0, 0.0, 1.5], false, true);
    let bytes = bytes.job(Job {
        network: true,
        ..job(1.0, 4.0, 0, 2)
    });
    let mut plan = loaded(&bytes.end());
    assert_eq!(
        stepped(&mut plan),
        [(1.0, ARRIVED, 0, 0), (1.0, STARTED, 0, 2)]
    );
    assert_eq!((plan.now.totals.penalised, plan.now.totals.added), (1, 2.0));
    assert_eq!(stepped(&mut plan), [(7.0, COMPLETED, 0, 2)]);
}

#[test]
fn slices_over_two_gpus() {
    let bytes = Bytes::default()
        .node(None)
        .mig_gpus(2)
        .profile(0, 4)
        .job(mig(0.0, 9.0, 3));
    // Job 1 keeps one of three slices and job 2 the other GPU, until jobs 3 and 4 both wait.
    let bytes = bytes.job(mig(40.0, 900.0, 1)).job(job(40.5, 9.0, 0, 1));
    let bytes = bytes
        .job(mig(41.0, 1.0, 4))
        .job(mig(42.0, 1.0, 2))
        .job(mig(42.5, 1.0, 1))
        .end();
    let mut plan = loaded(&bytes);
    steps(&mut plan, 5);
    assert_eq!((plan.now.clock, placeable(&plan, 3)), (41.0, Ok(false)));
    // Job 4 overtakes job 3 with the two free slices; job 5 finds none.
    assert_eq!(
        stepped(&mut plan),
        [(42.0, ARRIVED, 4, 0), (42.0, STARTED, 4, 2)]
    );
    assert_eq!(stepped(&mut plan), [(42.5, ARRIVED, 5, 0)]);
    assert_eq!(
        stepped(&mut plan),
        [(43.0, COMPLETED, 4, 2), (43.0, STARTED, 5, 1)]
    );
    assert_eq!(stepped(&mut plan), [(44.0, COMPLETED, 5, 1)]);
    let freed = stepped(&mut plan);
    assert_eq!(freed, [(49.5, COMPLETED, 2, 1), (79.5, STARTED, 3, 4)]);
    assert_eq!(plan.now.room[0].owners(), [Some(1), Some(3), Some(3)]);
    assert_eq!(plan.now.room[1].owners(), [Some(3), Some(3), None, None]);
}

#[test]
fn fresh_slices_in_the_same_pass() {
    let bytes = Bytes::default()
        .node(None)
        .mig_gpus(2)
        .profile(0, 4)
        .quota(0, 1);
    // One slice of GPU 0 is free; job 2 holds GPU 1 and the quota that job 4 waits for.
    let tenant = Some(0);
    let bytes = bytes.job(mig(0.0, 9.0, 2)).job(mig(40.0, 900.0, 1));
    let bytes = bytes
        .job(Job {
            tenant,
            ..job(40.5, 9.0, 0, 1)
        })
        .job(mig(41.0, 1.0, 3));
    let bytes = bytes
        .job(Job {
            tenant,
            count: 1,
            ..mig(42.0, 1.0, 1)
        })
        .end();
    let mut plan = loaded(&bytes);
    steps(&mut plan, 6);
    assert_eq!(plan.now.queue, [3, 4]);
    let starts = [
        (49.5, COMPLETED, 2, 1),
        (79.5, STARTED, 3, 3),
        (49.5, STARTED, 4, 1),
    ];
    assert_eq!(stepped(&mut plan), starts);
    assert_eq!(plan.now.room[0].owners(), [Some(1), Some(3)]);
    assert_eq!(plan.now.room[1].owners(), [Some(3), Some(3), Some(4)]);
    let features = observe(&bytes).features;
    assert!(features.contains(&("MIG fresh free slices taken in the same pass", 1)));
    assert!(features.contains(&("MIG cut with free slices of other GPUs first", 1)));
}

#[test]
fn free_slices_elsewhere_first() {
    let bytes = Bytes::default().node(None).mig_gpus(2).profile(0, 4);
    // Job 0 cuts three, job 1 one on the other GPU; then job 2 takes two, job 3 three.
    let bytes = bytes
        .job(mig(0.0, 1.0, 3))
        .job(mig(0.0, 900.0, 1))
        .job(mig(100.0, 1.0, 2));
    let mut plan = loaded(&bytes.job(mig(100.5, 1.0, 3)).end());
    steps(&mut plan, 4);
    assert_eq!(plan.now.room[0].owners(), [Some(2), Some(2), None]);
    assert_eq!(plan.now.room[1].owners(), [Some(1)]);
    assert_eq!(plan.now.totals.cuts, 2);
    assert_eq!(placeable(&plan, 3), Ok(false));
    let more = Bytes::default().node(None).mig_gpus(2).profile(0, 4);
    let more = more
        .job(mig(0.0, 1.0, 3))
        .job(mig(40.0, 900.0, 1))
        .job(mig(50.0, 1.0, 4));
    let mut plan = loaded(&more.end());
    let decisions = steps(&mut plan, 4);
    assert!(decisions.contains(&(40.0, STARTED, 1, 1)));
    assert!(decisions.contains(&(80.0, STARTED, 2, 4)));
    assert_eq!(plan.now.room[0].owners(), [Some(1), Some(2), Some(2)]);
    assert_eq!(plan.now.room[1].owners(), [Some(2), Some(2), None, None]);
}

#[test]
fn timeouts() {
    let bytes = Bytes::default().node(None).gpus(1);
    let gang = Job {
        gang: true,
        timeout: 2.0,
        ..job(1.0, 10.0, 0, 1)
    };
    let bytes = bytes.job(job(0.0, 5.0, 0, 1)).job(gang).end();
    let mut plan = loaded(&bytes);
    steps(&mut plan, 2);
    assert_eq!(stepped(&mut plan), [(3.0, FAILED, 1, 0)]);
    assert_eq!(plan.now.jobs[1].waited, 2.0);
    assert_eq!(stepped(&mut plan), [(5.0, COMPLETED, 0, 1)]);
    let bytes = Bytes::default()
        .node(None)
        .gpus(1)
        .job(gang)
        .job(job(2.0, 9.0, 1, 1))
        .end();
    let mut plan = loaded(&bytes);
    steps(&mut plan, 2);
    // Evicted at 2, so a full period from there; the first timeout at 3 has grown stale.
    assert_eq!(stepped(&mut plan), []);
    assert_eq!(stepped(&mut plan), [(4.0, FAILED, 0, 0)]);
    assert_eq!(plan.now.jobs[0].timeout_generation, 2);
}

#[test]
fn late_starts_and_early_victims() {
    let bytes = Bytes::default().node(None).mig_gpus(1).gpus(1);
    let bytes = bytes.profile(0, 1).quota(0, 1);
    let tenant = Some(0);
    let one = job(8.0, 1.0, 1, 1);
    let sliced = mig(0.0, 10.0, 1);
    let bytes = bytes.job(Job {
        count: 1,
        tenant,
        ..sliced
    });
    let bytes = bytes.job(Job { tenant, ..one });
    let options = [30.0, 4.0, 1.0];
    let mut plan = loaded(&bytes.options(options, false, true).end());
    assert_eq!(
        stepped(&mut plan),
        [(0.0, ARRIVED, 0, 0), (30.0, STARTED, 0, 1)]
    );
    // The victim frees no whole GPU, but its tenant's quota.
    let evicted = [
        (8.0, ARRIVED, 1, 0),
        (8.0, EVICTED, 0, 1),
        (8.0, STARTED, 1, 1),
    ];
    assert_eq!(stepped(&mut plan), evicted);
    assert_eq!(plan.now.jobs[0].remaining, 10.0);
    assert_eq!(
        stepped(&mut plan),
        [(9.0, COMPLETED, 1, 1), (13.0, STARTED, 0, 1)]
    );
    assert_eq!(plan.now.jobs[0].waited, 30.0 + 5.0);
    assert_eq!(stepped(&mut plan), [(23.0, COMPLETED, 0, 1)]);
    assert_eq!(stepped(&mut plan), []);
    assert_eq!(plan.now.clock, 40.0);
}

#[test]
fn quota_aware_candidates() {
    let start = |aware: bool| {
        let bytes = Bytes::default()
            .node(None)
            .gpus(1)
            .options([0.0, 0.0, 1.0], false, aware);
        let bytes = bytes.job(Job {
            tenant: Some(1),
            ..job(0.0, 9.0, 0, 1)
        });
        let mut plan = loaded(
            &bytes
                .job(Job {
                    tenant: Some(2),
                    ..job(1.0, 9.0, 1, 1)
                })
                .end(),
        );
        steps(&mut plan, 2).len()
    };
    assert_eq!(start(true), 3);
    assert_eq!(start(false), 5);
}

#[test]
fn queue_keeps_its_history() {
    let bytes = Bytes::default().node(None).gpus(1).job(job(0.0, 9.0, 5, 1));
    // Equal arrivals and priorities: by joining; job 3 of higher priority goes before both.
    let bytes = bytes
        .job(job(1.0, 1.0, 0, 2))
        .job(job(1.0, 1.0, 0, 2))
        .job(job(2.0, 1.0, 1, 2));
    let mut plan = loaded(&bytes.end());
    steps(&mut plan, 4);
    assert_eq!(plan.now.queue, [3, 1, 2]);
    assert_eq!(plan.now.totals.longest, 3);
}

#[test]
fn detail_lines() {
    let bytes = Bytes::default().node(Some(3)).mig_gpus(1);
    let bytes = bytes.quota(2, 7).profile(0, 4).job(mig(0.0, 1.0, 2));
    let mut low = mig(1.0, 1.0, 1);
    low.priority = -3;
    let show = Show {
        details: false,
        events: true,
    };
    let text = run(&bytes.job(low).end(), show);
    let head = "# node 0 3\n# gpu 0 0 0 0000000000000000 - 1\n# quota 2 7\n# profile 0 4\n\
        # ask 0 0000000000000000 3ff0000000000000 0 0 0000000000000000 - - - 0 0 0 0000000000000000 0 2\n\
        # ask 1 3ff0000000000000 3ff0000000000000 -3 0 0000000000000000 - - - 0 0 0 0000000000000000 0 1\n\
        # options 403e000000000000 0000000000000000 3ff0000000000000 0 1\n\
        # step 0 0000000000000000\n# totals 0 0 0 0 0000000000000000\n# queue\n\
        # job 0 pending - - 3ff0000000000000 0000000000000000 0 0 0 yes\n\
        # job 1 pending - - 3ff0000000000000 0000000000000000 0 0 0 yes\n\
        # owner 0 - - 0\n\
        # event 0 0000000000000000 arrival 0 0\n# event 1 3ff0000000000000 arrival 1 0\n";
    assert!(text.starts_with(head), "{text}");
    let first = "0000000000000000 arrived 0\n403e000000000000 started 0 2\n\
        # step 1 0000000000000000\n# totals 0 1 0 1 0000000000000000\n# queue\n\
        # job 0 running - 403e000000000000 3ff0000000000000 403e000000000000 0 1 0 no\n\
        # job 1 pending - - 3ff0000000000000 0000000000000000 0 0 0 no\n\
        # owner 0 - 0 2 0 0\n\
        # event 1 3ff0000000000000 arrival 1 0\n# event 2 403f000000000000 completion 0 1\n\
        3ff0000000000000 arrived 1\n# step 2 3ff0000000000000\n";
    assert!(text[head.len()..].starts_with(first), "{text}");
    assert!(text.contains("# queue 1\n"));
    assert!(text.ends_with("end 4\n"));
}

#[test]
fn detail_lines_of_the_empty_plan() {
    let empty = "# options 403e000000000000 0000000000000000 3ff0000000000000 0 1\n\
        # step 0 0000000000000000\n# totals 0 0 0 0 0000000000000000\n# queue\n";
    let show = Show {
        details: true,
        events: false,
    };
    assert_eq!(run(&[0x80, 0x00], show), format!("{empty}refused 2 at 0\n"));
    assert_eq!(run(&[0], show), format!("{empty}end 0\n"));
}
