//! The second program: document 01 written down plainly a second time, to be compared with the proved planner.

pub mod digest;
pub mod pass;
pub mod place;
pub mod plan;
pub mod show;
pub mod step;
pub mod trace;
pub mod watch;

pub use digest::digested;
pub use place::placeable;
pub use plan::{load, Loaded, Plan};
pub use show::{run, Show};
pub use step::{step, BUFFER_WORDS};
pub use trace::Refusal;
pub use watch::{observe, Domain, Observed};
