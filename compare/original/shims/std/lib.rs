//! The standard library with an ordered map under the name of `HashMap`, so that no choice follows a random order.

pub use std::*;

pub mod collections {
    pub use std::collections::BTreeMap as HashMap;
    pub use std::collections::*;
}
