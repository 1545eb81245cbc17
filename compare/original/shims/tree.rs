// The original's modules and our shims under the names by which the original asks for them.

// The scheduler's root also declares common, preemptive, resource and the four schedulers that are shims.
include!("lib.rs");

pub mod cluster;
pub mod decision_log;
pub mod engine;
pub mod error;
pub mod events;
pub mod hardware;
pub mod metrics;
pub mod mig;
pub mod snapshot;
pub mod topology;

pub mod models {
    include!("models.rs");
    pub use crate::hardware::{Gpu, MigSlice, Node, Placement};
}

pub use metrics::SimulationMetrics;
pub use topology::{GpuTopologyKey, TopologyGraph};
