//! Shim of the core's decision: it keeps what it is given.

#[derive(Debug, Clone)]
pub struct SchedulerDecision {
    pub time: f64,
    pub kind: String,
    pub text: String,
    pub job_id: String,
    pub gpus: Vec<String>,
}

impl SchedulerDecision {
    pub fn new(time: f64, kind: &str, text: String) -> Self {
        Self {
            time,
            kind: kind.to_string(),
            text,
            job_id: String::new(),
            gpus: Vec::new(),
        }
    }

    pub fn with_job(mut self, id: &str, _name: &str) -> Self {
        self.job_id = id.to_string();
        self
    }

    pub fn with_gpus(mut self, gpus: Vec<String>) -> Self {
        self.gpus = gpus;
        self
    }
}
