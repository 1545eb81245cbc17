//! The names under which the original knows our numbers, zero-padded so that text order is number order.

pub fn node(number: usize) -> String {
    format!("node-{number:02}")
}

pub fn gpu(number: usize) -> String {
    format!("gpu-{number:03}")
}

pub fn job(number: usize) -> String {
    format!("job-{number:03}")
}

pub fn site(number: u64) -> String {
    format!("site-{number:02}")
}

pub fn gpu_type(number: u64) -> String {
    format!("type-{number:03}")
}

pub fn tenant(number: u64) -> String {
    format!("tenant-{number:02}")
}

pub fn profile(number: u64) -> String {
    format!("profile-{number:02}")
}

/// The number in a name.
pub fn number(name: &str) -> usize {
    let digits = name.rsplit('-').next().unwrap_or(name);
    digits.parse().expect("a name ends in its number")
}
