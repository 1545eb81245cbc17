//! Shim of the model's records that are not in the published models.rs.

#[derive(Debug, Clone)]
pub struct MigSlice {
    pub id: String,
    pub profile: String,
    pub memory_gb: f64,
    pub running_job_id: Option<String>,
}

impl MigSlice {
    pub fn is_free(&self) -> bool {
        self.running_job_id.is_none()
    }
}

#[derive(Debug, Clone)]
pub struct Gpu {
    pub id: String,
    pub node_id: String,
    /// The name of the GPU's type, which a job may ask for.
    pub profile: String,
    pub memory_gb: f64,
    pub nvlink_group: Option<u32>,
    pub mig_capable: bool,
    pub active_mig_profile: Option<String>,
    pub slices: Vec<MigSlice>,
    pub running_job_id: Option<String>,
}

impl Gpu {
    pub fn is_free(&self) -> bool {
        self.running_job_id.is_none()
    }
}

#[derive(Debug, Clone)]
pub struct Node {
    pub id: String,
    pub gpus: Vec<Gpu>,
}

#[derive(Debug, Clone)]
pub struct Placement {
    pub job_id: String,
    pub gpu_ids: Vec<String>,
    pub start_time: f64,
    pub runtime_multiplier: f64,
}
