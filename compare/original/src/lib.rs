//! Plans traces by the original Rust, unchanged, and prints what compare/FORMAT.md says.

mod digest;

pub use digest::digested;

/// What to print besides the plan. The original cannot show its events, so `events` changes nothing.
#[derive(Debug, Clone, Copy, Default)]
pub struct Show {
    pub details: bool,
    pub events: bool,
}

/// Two builds of the same files.
#[derive(Debug, Clone, Copy, PartialEq, Eq)]
pub enum Build {
    /// With the original's event queue and `HashMap`.
    Published,
    /// With events by time and insertion number, and ordered maps.
    Ordered,
}

/// Whether the original's files were there when this was built.
pub fn present() -> bool {
    original_published::PRESENT && original_ordered::PRESENT
}

/// Exactly what the program prints for one trace.
pub fn run(trace: &[u8], show: Show, build: Build) -> String {
    match build {
        Build::Published => original_published::run(trace, show.details),
        Build::Ordered => original_ordered::run(trace, show.details),
    }
}

/// A trace planned to its end, in memory.
pub enum Planned {
    Published(original_published::Planned),
    Ordered(original_ordered::Planned),
}

/// Plans a trace without a line of text; none where the driver cannot load it.
pub fn planned(trace: &[u8], build: Build) -> Option<Planned> {
    Some(match build {
        Build::Published => Planned::Published(original_published::planned(trace)?),
        Build::Ordered => Planned::Ordered(original_ordered::planned(trace)?),
    })
}

impl Planned {
    pub fn steps(&self) -> usize {
        match self {
            Planned::Published(planned) => planned.steps,
            Planned::Ordered(planned) => planned.steps,
        }
    }

    /// Each decision in its four words.
    pub fn decisions(&self) -> Vec<[u64; 4]> {
        match self {
            Planned::Published(planned) => planned.decisions(),
            Planned::Ordered(planned) => planned.decisions(),
        }
    }
}
