//! The kinds of trace and the recipe of each that has one.

use crate::recipe::{Groups, Recipe, PLAIN};

/// What a trace is meant to bring about.
#[derive(Clone, Copy, PartialEq, Eq, Debug)]
pub enum Kind {
    Contention,
    Gangs,
    Timeouts,
    Network,
    Links,
    Quotas,
    Mig,
    Slices,
    BestFit,
    Delays,
    Priorities,
    Ties,
    Mixed,
    Large,
    Domain,
    Wide,
    Damaged,
    Limits,
    Horizon,
}

/// Every kind with its name on the command line and its weight in a mixed run.
pub const KINDS: [(Kind, &str, u64); 19] = [
    (Kind::Contention, "contention", 9),
    (Kind::Gangs, "gangs", 8),
    (Kind::Timeouts, "timeouts", 8),
    (Kind::Network, "network", 6),
    (Kind::Links, "links", 6),
    (Kind::Quotas, "quotas", 8),
    (Kind::Mig, "mig", 9),
    (Kind::Slices, "slices", 5),
    (Kind::BestFit, "best-fit", 5),
    (Kind::Delays, "delays", 7),
    (Kind::Priorities, "priorities", 5),
    (Kind::Ties, "ties", 7),
    (Kind::Mixed, "mixed", 9),
    (Kind::Large, "large", 1),
    (Kind::Domain, "domain", 12),
    (Kind::Wide, "wide", 1),
    (Kind::Damaged, "damaged", 7),
    (Kind::Limits, "limits", 1),
    (Kind::Horizon, "horizon", 4),
];

impl Kind {
    pub fn name(self) -> &'static str {
        KINDS
            .iter()
            .find(|row| row.0 == self)
            .map_or("", |row| row.1)
    }

    pub fn named(name: &str) -> Option<Kind> {
        KINDS.iter().find(|row| row.1 == name).map(|row| row.0)
    }

    /// The recipe of a kind; the kinds made in a way of their own start from the mixed one.
    pub fn recipe(self) -> Recipe {
        match self {
            Kind::Contention => contention(),
            Kind::Gangs => gangs(),
            Kind::Timeouts => timeouts(),
            Kind::Network => network(),
            Kind::Links => links(),
            Kind::Quotas => quotas(),
            Kind::Mig => mig(),
            Kind::Slices => slices(),
            Kind::BestFit => best_fit(),
            Kind::Delays => delays(),
            Kind::Priorities => priorities(),
            Kind::Ties => ties(),
            Kind::Large => large(),
            Kind::Domain => domain(),
            Kind::Wide => wide(),
            Kind::Mixed | Kind::Damaged | Kind::Limits | Kind::Horizon => mixed(),
        }
    }
}

/// A few GPUs, long jobs first, higher ones after them: jobs are evicted again and again.
fn contention() -> Recipe {
    Recipe {
        nodes: (1, 2),
        gpus: (1, 2),
        jobs: (4, 12),
        span: 8,
        long: 10,
        priorities: (0, 6),
        rising: 60,
        count: 2,
        ..PLAIN
    }
}

fn gangs() -> Recipe {
    Recipe {
        nodes: (1, 4),
        gang: 70,
        timeout: 30,
        spread: 60,
        groups: Groups::Any(2),
        count: 6,
        multiplier: 50,
        ..PLAIN
    }
}

fn network() -> Recipe {
    Recipe {
        network: 60,
        gang: 10,
        groups: Groups::Any(3),
        count: 4,
        multiplier: 60,
        ..PLAIN
    }
}

fn quotas() -> Recipe {
    Recipe {
        tenants: 3,
        quota: 75,
        jobs: (3, 10),
        priorities: (0, 2),
        count: 4,
        ..PLAIN
    }
}

fn best_fit() -> Recipe {
    Recipe {
        best: 90,
        nodes: (2, 5),
        gpus: (1, 4),
        jobs: (3, 10),
        count: 6,
        types: 2,
        ..PLAIN
    }
}

fn priorities() -> Recipe {
    Recipe {
        priorities: (-2, 1),
        jobs: (4, 12),
        rising: 40,
        span: 4,
        ..PLAIN
    }
}

/// Two seconds of grid for all that happens.
fn ties() -> Recipe {
    Recipe {
        fine: 0,
        span: 2,
        long: 2,
        jobs: (3, 10),
        ..mixed()
    }
}

fn timeouts() -> Recipe {
    Recipe {
        nodes: (1, 2),
        gang: 85,
        spread: 30,
        timeout: 85,
        rising: 50,
        jobs: (3, 10),
        span: 5,
        priorities: (0, 5),
        ..PLAIN
    }
}

fn links() -> Recipe {
    Recipe {
        nodes: (1, 3),
        gpus: (2, 5),
        groups: Groups::Any(3),
        gang: 50,
        spread: 50,
        network: 30,
        count: 6,
        multiplier: 60,
        ..PLAIN
    }
}

fn mig() -> Recipe {
    Recipe {
        capable: 80,
        sliced: 80,
        profiles: 2,
        beyond: 12,
        jobs: (3, 10),
        gang: 20,
        timeout: 30,
        tenants: 1,
        quota: 40,
        ..PLAIN
    }
}

/// One profile on several GPUs: slices are left free here and there, and a cut makes up what they lack.
fn slices() -> Recipe {
    Recipe {
        nodes: (1, 2),
        gpus: (1, 3),
        fine: 60,
        long: 12,
        capable: 95,
        sliced: 90,
        profiles: 1,
        jobs: (4, 11),
        ..PLAIN
    }
}

/// Long delays beside short times, so that jobs are evicted whose start is still to come.
fn delays() -> Recipe {
    Recipe {
        penalty: 90,
        capable: 70,
        sliced: 40,
        profiles: 2,
        rising: 70,
        priorities: (0, 5),
        jobs: (4, 10),
        nodes: (1, 2),
        gpus: (1, 2),
        ..PLAIN
    }
}

fn mixed() -> Recipe {
    Recipe {
        types: 2,
        sites: 2,
        groups: Groups::Any(2),
        gang: 30,
        spread: 30,
        network: 20,
        timeout: 40,
        tenants: 2,
        quota: 60,
        capable: 50,
        sliced: 30,
        profiles: 2,
        beyond: 6,
        best: 40,
        penalty: 50,
        multiplier: 50,
        jobs: (2, 12),
        priorities: (-1, 3),
        ..PLAIN
    }
}

fn large() -> Recipe {
    Recipe {
        nodes: (4, 32),
        gpus: (1, 6),
        jobs: (30, 128),
        span: 60,
        long: 30,
        count: 16,
        rising: 0,
        priorities: (0, 9),
        ..mixed()
    }
}

/// Times that never meet and a single choice where the Rust would follow the order of a map.
fn domain() -> Recipe {
    Recipe {
        fine: 100,
        groups: Groups::Node,
        network: 15,
        beyond: 0,
        quota: 30,
        best: 25,
        rising: 40,
        priorities: (0, 4),
        jobs: (3, 10),
        nodes: (1, 3),
        span: 8,
        ..mixed()
    }
}

/// The same with more of everything but choices.
fn wide() -> Recipe {
    Recipe {
        nodes: (2, 6),
        gpus: (1, 4),
        jobs: (15, 45),
        span: 40,
        long: 20,
        groups: Groups::None,
        best: 0,
        quota: 10,
        sliced: 8,
        count: 5,
        ..domain()
    }
}
