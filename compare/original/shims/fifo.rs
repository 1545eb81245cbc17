//! Shim of a scheduler that is not among the files and is never asked.

pub struct FifoScheduler;
