//! Reads the bytes of a trace; what document 01 would refuse is `None`, without saying why.

use std::collections::BTreeMap;

const MOST_BYTES: usize = 65_536;
const MOST_NODES: usize = 32;
const MOST_GPUS: usize = 128;
const MOST_JOBS: usize = 128;
const PERMITTED: u64 = 0x4270_0000_0000_0000;
const MULTIPLIERS: std::ops::RangeInclusive<u64> = 0x3ff0_0000_0000_0000..=0x4090_0000_0000_0000;

pub struct Gpu {
    pub node: usize,
    pub kind: u64,
    pub memory: f64,
    pub group: Option<u64>,
    pub mig: bool,
}

pub struct Job {
    pub arrival: f64,
    pub duration: f64,
    pub priority: i64,
    pub count: u64,
    pub memory: f64,
    pub kind: Option<u64>,
    pub site: Option<u64>,
    pub tenant: Option<u64>,
    pub gang: bool,
    pub gang_nodes: u64,
    pub network: bool,
    pub timeout: f64,
    pub profile: Option<u64>,
    pub slices: u64,
}

pub struct Options {
    pub reconfiguration: f64,
    pub penalty: f64,
    pub multiplier: f64,
    pub best_fit: bool,
    pub quota_aware: bool,
}

const DEFAULTS: Options = Options {
    reconfiguration: 30.0,
    penalty: 0.0,
    multiplier: 1.0,
    best_fit: false,
    quota_aware: true,
};

#[derive(Default)]
struct Tables {
    sites: Vec<Option<u64>>,
    gpus: Vec<Gpu>,
    quotas: BTreeMap<u64, u64>,
    profiles: BTreeMap<u64, u64>,
    jobs: Vec<Job>,
    options: Option<Options>,
}

/// A loaded trace: the site of each node, then the other tables, tenants and profiles in order of number.
pub struct Trace {
    pub sites: Vec<Option<u64>>,
    pub gpus: Vec<Gpu>,
    pub quotas: BTreeMap<u64, u64>,
    pub profiles: BTreeMap<u64, u64>,
    pub jobs: Vec<Job>,
    pub options: Options,
}

pub fn read(bytes: &[u8]) -> Option<Trace> {
    if bytes.len() > MOST_BYTES {
        return None;
    }
    let mut reader = Reader { bytes, at: 0 };
    let mut tables = Tables::default();
    while reader.record(&mut tables)? {}
    (reader.at == bytes.len()).then(|| Trace {
        sites: tables.sites,
        gpus: tables.gpus,
        quotas: tables.quotas,
        profiles: tables.profiles,
        jobs: tables.jobs,
        options: tables.options.unwrap_or(DEFAULTS),
    })
}

struct Reader<'a> {
    bytes: &'a [u8],
    at: usize,
}

impl Reader<'_> {
    /// Reads one record into the tables; `false` is the end record.
    fn record(&mut self, tables: &mut Tables) -> Option<bool> {
        match self.up_to(6)? {
            0 => return Some(false),
            1 => push(&mut tables.sites, self.maybe(64)?, MOST_NODES)?,
            2 => {
                let gpu = self.gpu(tables.sites.len())?;
                push(&mut tables.gpus, gpu, MOST_GPUS)?;
            }
            3 => {
                let (tenant, quota) = (self.up_to(31)?, self.up_to(u64::from(u32::MAX))?);
                once(tables.quotas.insert(tenant, quota))?;
            }
            4 => {
                let (profile, most) = (self.up_to(15)?, self.between(1, 7)?);
                once(tables.profiles.insert(profile, most))?;
            }
            5 => push(&mut tables.jobs, self.job()?, MOST_JOBS)?,
            _ => once(tables.options.replace(self.options()?))?,
        }
        Some(true)
    }

    fn gpu(&mut self, nodes: usize) -> Option<Gpu> {
        Some(Gpu {
            kind: self.up_to(255)?,
            memory: self.float()?,
            group: self.maybe(256)?,
            mig: self.flag()?,
            node: nodes.checked_sub(1)?,
        })
    }

    fn job(&mut self) -> Option<Job> {
        let job = Job {
            arrival: self.float()?,
            duration: self.float()?,
            priority: self.priority()?,
            count: self.up_to(128)?,
            memory: self.float()?,
            kind: self.maybe(256)?,
            site: self.maybe(64)?,
            tenant: self.maybe(32)?,
            gang: self.flag()?,
            gang_nodes: self.up_to(32)?,
            network: self.flag()?,
            timeout: self.float()?,
            profile: self.maybe(16)?,
            slices: self.up_to(64)?,
        };
        (job.profile.is_some() == (job.slices > 0)).then_some(job)
    }

    fn options(&mut self) -> Option<Options> {
        Some(Options {
            reconfiguration: self.float()?,
            penalty: self.float()?,
            multiplier: self.multiplier()?,
            best_fit: self.flag()?,
            quota_aware: self.flag()?,
        })
    }

    fn number(&mut self) -> Option<u64> {
        let mut value = 0;
        for group in 0..10 {
            let byte = *self.bytes.get(self.at)?;
            self.at += 1;
            if (group > 0 && byte == 0) || (group == 9 && byte > 1) {
                return None;
            }
            value |= u64::from(byte & 0x7f) << (7 * group);
            if byte < 0x80 {
                return Some(value);
            }
        }
        None
    }

    fn between(&mut self, least: u64, most: u64) -> Option<u64> {
        let value = self.number()?;
        (least <= value && value <= most).then_some(value)
    }

    fn up_to(&mut self, most: u64) -> Option<u64> {
        self.between(0, most)
    }

    fn flag(&mut self) -> Option<bool> {
        Some(self.up_to(1)? == 1)
    }

    /// A field marked ?: the outer `None` is a bad field, the inner one the stored 0.
    fn maybe(&mut self, most: u64) -> Option<Option<u64>> {
        Some(self.up_to(most)?.checked_sub(1))
    }

    fn float(&mut self) -> Option<f64> {
        Some(f64::from_bits(self.up_to(PERMITTED)?))
    }

    fn multiplier(&mut self) -> Option<f64> {
        let bits = self.between(*MULTIPLIERS.start(), *MULTIPLIERS.end())?;
        Some(f64::from_bits(bits))
    }

    fn priority(&mut self) -> Option<i64> {
        let stored = self.up_to(u64::from(u32::MAX))? as i64;
        Some(if stored % 2 == 0 {
            stored / 2
        } else {
            -(stored + 1) / 2
        })
    }
}

fn push<T>(table: &mut Vec<T>, entry: T, most: usize) -> Option<()> {
    table.push(entry);
    (table.len() <= most).then_some(())
}

/// An earlier entry in the same place means that the record came twice.
fn once<T>(earlier: Option<T>) -> Option<()> {
    earlier.is_none().then_some(())
}
