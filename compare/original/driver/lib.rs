//! The original's crates in one crate that answers to all their names, with the driver that plans a trace by them.

// The other schedulers, which are not here, use what then stands unused.
#![allow(dead_code)]

extern crate self as zyvor_janus_core;
extern crate self as zyvor_janus_metrics;
extern crate self as zyvor_janus_model;
extern crate self as zyvor_janus_scheduler;
extern crate self as zyvor_janus_topology;

// The ordered build: every `std::collections::HashMap` of this crate is then an ordered map.
#[cfg(ordered)]
extern crate ordered_std as std;

#[cfg(original)]
include!(concat!(env!("OUT_DIR"), "/laid/tree.rs"));

#[cfg(original)]
mod details;
#[cfg(original)]
mod drive;
#[cfg(original)]
mod load;
#[cfg(original)]
mod names;
#[cfg(original)]
mod trace;

#[cfg(original)]
pub use drive::{planned, run, Planned};

/// Whether the original's files were there when this was built.
pub const PRESENT: bool = cfg!(original);

#[cfg(not(original))]
pub fn run(_trace: &[u8], _details: bool) -> String {
    "built without the original\n".to_string()
}

/// Nothing is ever planned.
#[cfg(not(original))]
pub struct Planned {
    pub steps: usize,
}

#[cfg(not(original))]
pub fn planned(_trace: &[u8]) -> Option<Planned> {
    None
}

#[cfg(not(original))]
impl Planned {
    pub fn decisions(&self) -> Vec<[u64; 4]> {
        Vec::new()
    }
}
