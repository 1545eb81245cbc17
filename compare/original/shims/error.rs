//! Shim of the core's errors: the two that the files give.

#[derive(Debug)]
pub enum SimError {
    Config(String),
    InsufficientGpus { need: u32, available: u32 },
}

pub type SimResult<T> = Result<T, SimError>;
