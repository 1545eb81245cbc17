//! A pass in which one job has a GPU cut and leaves new slices free, and the next job takes them at once.

use crate::random::Random;
use crate::record::{gpu, node, profile, quota, Job, Options};
use form::Item;

/// Slices of the first GPU are free but too few; the second GPU and the last job's quota are held until one completion.
pub fn items(random: &mut Random) -> Vec<Item> {
    let most = random.range(3, 7);
    let options = Options {
        seconds: random.unit(),
        ..Options::default()
    };
    let mut items = vec![
        node(None),
        gpu(0, 80.0, None, true),
        gpu(1, 80.0, None, true),
        profile(0, most),
        quota(0, 1),
        options.item(),
    ];
    items.extend(jobs(random, most).iter().map(Job::item));
    items
}

fn jobs(random: &mut Random, most: u64) -> [Job; 5] {
    let cut = random.range(2, most);
    let kept = random.range(1, cut - 1);
    let wide = random.range(cut - kept + 1, most);
    let after = random.range(1, cut);
    let [mut holder, mut first, mut last] = [(0.0, 9.0, 0), (5.0, 20.0, wide), (6.0, 20.0, after)]
        .map(|(arrival, duration, slices)| sliced(random, arrival, duration, slices));
    (holder.gpus, holder.kind, holder.tenant, holder.profile) = (1, Some(1), Some(0), None);
    first.priority = 1;
    (last.gpus, last.tenant) = (1, Some(0));
    // one job cuts the first GPU and ends; the next keeps some of its slices, so that it is not idle
    let before = sliced(random, 0.0, 1.0, cut);
    let keeper = sliced(random, 3.0, 40.0, kept);
    [before, keeper, holder, first, last]
}

/// A job for slices, its times a little off so that no two meet.
fn sliced(random: &mut Random, arrival: f64, duration: f64, slices: u64) -> Job {
    Job {
        arrival: arrival + random.unit(),
        duration: duration + random.unit(),
        profile: Some(0),
        slices,
        ..Job::default()
    }
}
