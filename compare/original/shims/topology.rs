//! Shim of the topology: the option's multiplier for a penalised job, else 1.0, as document 01 decides.

#[derive(Debug, Clone)]
pub struct TopologyGraph {
    pub multiplier: f64,
}

impl Default for TopologyGraph {
    fn default() -> Self {
        Self { multiplier: 1.0 }
    }
}

pub struct GpuTopologyKey {
    pub nvlink_group: Option<u32>,
    pub node_id: String,
}

impl TopologyGraph {
    pub fn runtime_multiplier(
        &self,
        _gpus: &[GpuTopologyKey],
        _gang: bool,
        _network: Option<f64>,
        used_penalty: bool,
    ) -> f64 {
        if used_penalty {
            self.multiplier
        } else {
            1.0
        }
    }
}
