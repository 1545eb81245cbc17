//! A recipe: how large a trace is and how often each thing occurs in it.

use crate::random::Random;
use crate::record::{gpu, node, profile, quota, Job, Options};
use form::Item;

/// How NVLink groups are spread over the GPUs.
#[derive(Clone, Copy)]
pub enum Groups {
    /// no GPU has a group
    None,
    /// each GPU has none or one of so many
    Any(u64),
    /// the GPUs of a node share one, or none has
    Node,
}

/// What a trace is made of. Chances are of a hundred.
#[derive(Clone)]
pub struct Recipe {
    pub nodes: (u64, u64),
    /// on each node
    pub gpus: (u64, u64),
    pub jobs: (u64, u64),
    /// chance that a trace's times hardly ever meet; else they lie on a grid of halves
    pub fine: u64,
    /// the last arrival and the longest duration
    pub span: u64,
    pub long: u64,
    pub priorities: (i64, i64),
    /// chance that a job's priority rises with its number, so that later ones evict earlier ones
    pub rising: u64,
    /// most GPUs that a job asks for
    pub count: u64,
    pub types: u64,
    pub sites: u64,
    pub groups: Groups,
    pub gang: u64,
    pub spread: u64,
    pub network: u64,
    pub timeout: u64,
    pub tenants: u64,
    pub quota: u64,
    pub unaware: u64,
    /// chance that a GPU is MIG-capable, and that a job asks for slices
    pub capable: u64,
    pub sliced: u64,
    pub profiles: u64,
    /// chance that a job asks for more slices than its profile's most
    pub beyond: u64,
    pub best: u64,
    /// chances of a restart penalty and of a multiplier over 1
    pub penalty: u64,
    pub multiplier: u64,
}

/// Few jobs on few GPUs, each thing now and then: small tables collide more often than large ones.
pub const PLAIN: Recipe = Recipe {
    nodes: (1, 3),
    gpus: (1, 3),
    jobs: (2, 8),
    fine: 40,
    span: 6,
    long: 6,
    priorities: (0, 3),
    rising: 20,
    count: 3,
    types: 0,
    sites: 0,
    groups: Groups::None,
    gang: 0,
    spread: 0,
    network: 0,
    timeout: 0,
    tenants: 0,
    quota: 0,
    unaware: 30,
    capable: 0,
    sliced: 0,
    profiles: 0,
    beyond: 0,
    best: 0,
    penalty: 20,
    multiplier: 20,
};

/// A draw of times: on the grid two are often equal, off it hardly ever.
struct Times {
    fine: bool,
}

impl Times {
    fn draw(&self, random: &mut Random, most: u64) -> f64 {
        if self.fine {
            random.unit() * most as f64
        } else {
            random.range(0, 2 * most) as f64 / 2.0
        }
    }
}

impl Recipe {
    /// The records of one trace without its end.
    pub fn items(&self, random: &mut Random) -> Vec<Item> {
        let times = Times {
            fine: random.chance(self.fine),
        };
        let mut tables = self.machines(random);
        let most: Vec<u64> = (0..self.profiles).map(|_| random.range(1, 7)).collect();
        let mut rules = self.rules(random, &times, &most);
        let jobs = random.range(self.jobs.0, self.jobs.1);
        let mut asked: Vec<Item> = (0..jobs)
            .map(|n| self.job(random, &times, &most, n).item())
            .collect();
        // the rules may stand anywhere, also after the jobs
        let parts: [&mut Vec<Item>; 3] = match random.range(0, 3) {
            0 => [&mut tables, &mut asked, &mut rules],
            1 => [&mut rules, &mut tables, &mut asked],
            _ => [&mut tables, &mut rules, &mut asked],
        };
        parts.into_iter().flat_map(std::mem::take).collect()
    }

    fn machines(&self, random: &mut Random) -> Vec<Item> {
        let mut items = Vec::new();
        let mut total = 0;
        for number in 0..random.range(self.nodes.0, self.nodes.1) {
            let site =
                (self.sites > 0 && random.chance(75)).then(|| random.range(0, self.sites - 1));
            items.push(node(site));
            let own = random.chance(60).then_some(number);
            for _ in 0..random.range(self.gpus.0, self.gpus.1).min(128 - total) {
                total += 1;
                items.push(self.gpu(random, own));
            }
        }
        items
    }

    fn gpu(&self, random: &mut Random, own: Option<u64>) -> Item {
        let group = match self.groups {
            Groups::None => None,
            Groups::Any(most) => random.chance(75).then(|| random.range(0, most - 1)),
            Groups::Node => own,
        };
        let kind = random.range(0, self.types.saturating_sub(1));
        let memory = if self.types > 0 {
            random.pick(&[0.0, 16.0, 40.0, 80.0])
        } else {
            80.0
        };
        gpu(kind, memory, group, random.chance(self.capable))
    }

    fn rules(&self, random: &mut Random, times: &Times, most: &[u64]) -> Vec<Item> {
        let mut items = Vec::new();
        for (number, &most) in most.iter().enumerate() {
            // a profile that jobs name but the trace does not load is never placeable
            if random.chance(92) {
                items.push(profile(number as u64, most));
            }
        }
        for tenant in 0..self.tenants {
            if random.chance(self.quota) {
                items.push(quota(tenant, random.range(0, self.count + 2)));
            }
        }
        if random.chance(75) {
            let place = random.range(0, items.len() as u64) as usize;
            items.insert(place, self.options(random, times).item());
        }
        items
    }

    fn options(&self, random: &mut Random, times: &Times) -> Options {
        let mut options = Options::default();
        if random.chance(85) {
            options.seconds = times.draw(random, 4);
        }
        if random.chance(self.penalty) {
            options.penalty = times.draw(random, 3);
        }
        if random.chance(self.multiplier) {
            options.multiplier = random.pick(&[1.25, 1.1, 2.0, 3.7, 1024.0]);
        }
        options.best = random.chance(self.best);
        options.aware = !random.chance(self.unaware);
        options
    }

    fn job(&self, random: &mut Random, times: &Times, most: &[u64], number: u64) -> Job {
        let (low, high) = self.priorities;
        // a job for no GPU at all is never placed, so it is rare
        let least = u64::from(!random.chance(3));
        let mut job = Job {
            arrival: times.draw(random, self.span),
            duration: times.draw(random, self.long),
            priority: low + random.range(0, (high - low) as u64) as i64,
            gpus: random.range(least, self.count),
            ..Job::default()
        };
        if random.chance(self.rising) {
            job.priority = low + (high - low).min(number as i64);
        }
        self.wishes(random, &mut job);
        self.gang(random, times, &mut job);
        if !most.is_empty() && random.chance(self.sliced) {
            self.slices(random, most, &mut job);
        }
        job
    }

    fn wishes(&self, random: &mut Random, job: &mut Job) {
        if self.types > 0 {
            job.kind = random.chance(35).then(|| random.range(0, self.types - 1));
            job.memory = random.pick(&[0.0, 0.0, 16.0, 16.5, 40.0, 80.0]);
        }
        if self.sites > 0 {
            job.site = random.chance(40).then(|| random.range(0, self.sites - 1));
        }
        if self.tenants > 0 {
            job.tenant = random.chance(80).then(|| random.range(0, self.tenants - 1));
        }
        job.network = random.chance(self.network);
    }

    fn gang(&self, random: &mut Random, times: &Times, job: &mut Job) {
        job.gang = random.chance(self.gang);
        if random.chance(self.timeout) {
            job.timeout = times.draw(random, self.long.max(2));
        }
        if random.chance(self.spread) {
            job.nodes = random.range(1, self.nodes.1.min(4));
            if random.chance(85) {
                job.gpus = job.nodes * random.range(1, (self.count / job.nodes).max(1));
            }
        }
    }

    fn slices(&self, random: &mut Random, most: &[u64], job: &mut Job) {
        let profile = random.range(0, most.len() as u64 - 1);
        let most = most[profile as usize];
        job.profile = Some(profile);
        job.slices = random.range(1, most);
        if random.chance(self.beyond) {
            job.slices = random.range(most, 9);
        }
        if random.chance(50) {
            job.gpus = 0;
        }
    }
}
