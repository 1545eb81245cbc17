//! The traces that the benchmark times: exact sizes, times that hardly ever meet, and no choice that the original leaves to a map's order.

use crate::kind::Kind;
use crate::recipe::{Groups, Recipe};

/// What a timed trace is made for.
#[derive(Clone, Copy, PartialEq, Eq, Debug)]
pub enum Timed {
    /// 8 jobs
    Small,
    /// 40 jobs, about as many as a match night has
    Night,
    /// every table full, a bit of everything
    Full,
    /// every table full, a thousand priorities, and whoever is lower may have to make way
    Preemption,
    /// every table full, most jobs gangs
    Gangs,
    /// every table full, most jobs for slices
    Mig,
    /// so many jobs for so many GPUs, four a node, none asking for more than so many
    Grown { jobs: u64, gpus: u64, count: u64 },
}

impl Timed {
    pub fn recipe(self) -> Recipe {
        match self {
            Timed::Small => sized(2, 8, 4, 8),
            Timed::Night => sized(6, 40, 8, 30),
            Timed::Full => sized(32, 128, 32, 60),
            Timed::Preemption => Recipe {
                priorities: (0, 999),
                long: 120,
                tenants: 0,
                sliced: 0,
                ..sized(32, 128, 32, 60)
            },
            Timed::Gangs => Recipe {
                groups: Groups::Node,
                gang: 85,
                spread: 100,
                timeout: 60,
                network: 0,
                sliced: 0,
                ..sized(32, 128, 32, 60)
            },
            Timed::Mig => Recipe {
                capable: 20,
                sliced: 80,
                profiles: 4,
                long: 120,
                quota: 0,
                ..sized(32, 128, 16, 60)
            },
            Timed::Grown { jobs, gpus, count } => Recipe {
                long: 240,
                ..sized(gpus / 4, jobs, count, 60)
            },
        }
    }
}

/// A bit of everything on so many nodes of four GPUs; jobs ask for up to `count` GPUs and come within `span` seconds.
fn sized(nodes: u64, jobs: u64, count: u64, span: u64) -> Recipe {
    Recipe {
        nodes: (nodes, nodes),
        gpus: (4, 4),
        jobs: (jobs, jobs),
        count,
        span,
        long: span,
        priorities: (0, 9),
        rising: 0,
        types: 0,
        sites: 0,
        tenants: 4,
        quota: 15,
        ..Kind::Wide.recipe()
    }
}
