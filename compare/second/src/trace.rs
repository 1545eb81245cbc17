//! Reading a trace: numbers, records, the tables they fill, and the refusals 1 to 9 with their places.

pub const NODES: usize = 32;
pub const GPUS: usize = 128;
pub const SLICES: usize = 7;
pub const JOBS: usize = 128;
pub const TENANTS: usize = 32;
pub const PROFILES: usize = 16;
pub const TRACE_BYTES: usize = 65_536;

/// The bits of 2^40, the greatest permitted float.
pub const MOST_BITS: u64 = 0x4270_0000_0000_0000;
const LEAST_MULTIPLIER: u64 = 0x3FF0_0000_0000_0000;
const MOST_MULTIPLIER: u64 = 0x4090_0000_0000_0000;
const U32_MOST: u64 = 0xFFFF_FFFF;

/// A float is permitted by its bits alone, so negatives, -0.0 and NaN all fail.
pub fn permitted(number: f64) -> bool {
    number.to_bits() <= MOST_BITS
}

/// Why a trace was not loaded, and the byte that shows it.
#[derive(Clone, Copy, Debug, PartialEq, Eq)]
pub struct Refusal {
    pub number: u32,
    pub place: usize,
}

fn refuse<T>(number: u32, place: usize) -> Result<T, Refusal> {
    Err(Refusal { number, place })
}

#[derive(Clone, Debug)]
pub struct Node {
    pub site: Option<u8>,
}

#[derive(Clone, Debug)]
pub struct Gpu {
    pub node: usize,
    pub model: u8,
    pub memory: f64,
    pub group: Option<u8>,
    pub mig_capable: bool,
}

/// What a job asks for; this never changes after the load.
#[derive(Clone, Debug)]
pub struct Ask {
    pub arrival: f64,
    pub duration: f64,
    pub priority: i64,
    pub count: usize,
    pub memory: f64,
    pub model: Option<u8>,
    pub site: Option<u8>,
    pub tenant: Option<u8>,
    pub gang: bool,
    pub gang_nodes: usize,
    pub network: bool,
    pub timeout: f64,
    pub profile: Option<u8>,
    pub slices: usize,
}

impl Ask {
    /// What decisions name as the size of the job: slices of a MIG job, GPUs of any other.
    pub fn size(&self) -> usize {
        if self.profile.is_some() {
            self.slices
        } else {
            self.count
        }
    }

    /// Only a gang job with a timeout above zero ever gets a timeout event.
    pub fn may_time_out(&self) -> bool {
        self.gang && self.timeout > 0.0
    }
}

#[derive(Clone, Debug)]
pub struct Options {
    pub seconds: f64,
    pub penalty: f64,
    pub multiplier: f64,
    pub best_fit: bool,
    pub quota_aware: bool,
}

impl Default for Options {
    fn default() -> Self {
        Options {
            seconds: 30.0,
            penalty: 0.0,
            multiplier: 1.0,
            best_fit: false,
            quota_aware: true,
        }
    }
}

/// The tables that a trace fills.
#[derive(Clone, Debug, Default)]
pub struct Trace {
    pub nodes: Vec<Node>,
    pub gpus: Vec<Gpu>,
    pub quotas: [Option<u64>; TENANTS],
    pub profiles: [Option<usize>; PROFILES],
    pub asks: Vec<Ask>,
    pub options: Options,
}

/// A place in the bytes; every reading moves it on.
struct Reader<'a> {
    bytes: &'a [u8],
    at: usize,
}

impl Reader<'_> {
    /// One number, judged byte by byte so that the earliest deciding byte tells 1 from 2.
    fn number(&mut self) -> Result<u64, Refusal> {
        let first = self.at;
        let mut value: u64 = 0;
        let mut group: u32 = 0;
        loop {
            let Some(&byte) = self.bytes.get(self.at) else {
                return refuse(1, self.bytes.len());
            };
            let padded = group > 0 && byte == 0;
            let oversized = group == 9 && byte > 1;
            if padded || oversized {
                return refuse(2, first);
            }
            self.at += 1;
            value |= u64::from(byte & 0x7F) << (7 * group);
            if byte < 0x80 {
                return Ok(value);
            }
            group += 1;
        }
    }

    /// A number from `low` to `high`, refused at its own first byte.
    fn ranged(&mut self, low: u64, high: u64) -> Result<u64, Refusal> {
        let field = self.at;
        let value = self.number()?;
        if value < low || value > high {
            return refuse(4, field);
        }
        Ok(value)
    }

    fn size(&mut self, low: u64, high: u64) -> Result<usize, Refusal> {
        Ok(self.ranged(low, high)? as usize)
    }

    fn float(&mut self) -> Result<f64, Refusal> {
        Ok(f64::from_bits(self.ranged(0, MOST_BITS)?))
    }

    fn flag(&mut self) -> Result<bool, Refusal> {
        Ok(self.ranged(0, 1)? == 1)
    }

    /// A field marked `?`: 0 is none, any other number is one more than what it means (at most 256).
    fn maybe(&mut self, high: u64) -> Result<Option<u8>, Refusal> {
        let stored = self.ranged(0, high)?;
        Ok(stored.checked_sub(1).map(|meant| meant as u8))
    }

    /// Priorities are stored with the sign in the lowest bit.
    fn priority(&mut self) -> Result<i64, Refusal> {
        let stored = self.ranged(0, U32_MOST)? as i64;
        Ok(if stored % 2 == 0 {
            stored / 2
        } else {
            -((stored + 1) / 2)
        })
    }
}

/// Reads a whole trace, or says what is wrong first and where.
pub fn read(bytes: &[u8]) -> Result<Trace, Refusal> {
    if bytes.len() > TRACE_BYTES {
        return refuse(9, TRACE_BYTES);
    }
    let mut reader = Reader { bytes, at: 0 };
    let mut trace = Trace::default();
    let mut options_given = false;
    loop {
        let place = reader.at;
        match reader.number()? {
            0 => break,
            1 => read_node(&mut reader, &mut trace, place)?,
            2 => read_gpu(&mut reader, &mut trace, place)?,
            3 => read_quota(&mut reader, &mut trace, place)?,
            4 => read_profile(&mut reader, &mut trace, place)?,
            5 => read_job(&mut reader, &mut trace, place)?,
            6 => read_options(&mut reader, &mut trace, &mut options_given, place)?,
            _ => return refuse(3, place),
        }
    }
    if reader.at < bytes.len() {
        return refuse(8, reader.at);
    }
    Ok(trace)
}

fn read_node(reader: &mut Reader, trace: &mut Trace, place: usize) -> Result<(), Refusal> {
    let site = reader.maybe(64)?;
    if trace.nodes.len() == NODES {
        return refuse(7, place);
    }
    trace.nodes.push(Node { site });
    Ok(())
}

fn read_gpu(reader: &mut Reader, trace: &mut Trace, place: usize) -> Result<(), Refusal> {
    let model = reader.ranged(0, 255)? as u8;
    let memory = reader.float()?;
    let group = reader.maybe(256)?;
    let mig_capable = reader.flag()?;
    let Some(node) = trace.nodes.len().checked_sub(1) else {
        return refuse(5, place);
    };
    if trace.gpus.len() == GPUS {
        return refuse(7, place);
    }
    trace.gpus.push(Gpu {
        node,
        model,
        memory,
        group,
        mig_capable,
    });
    Ok(())
}

fn read_quota(reader: &mut Reader, trace: &mut Trace, place: usize) -> Result<(), Refusal> {
    let tenant = reader.size(0, 31)?;
    let quota = reader.ranged(0, U32_MOST)?;
    if trace.quotas[tenant].is_some() {
        return refuse(6, place);
    }
    trace.quotas[tenant] = Some(quota);
    Ok(())
}

fn read_profile(reader: &mut Reader, trace: &mut Trace, place: usize) -> Result<(), Refusal> {
    let profile = reader.size(0, 15)?;
    let most = reader.size(1, 7)?;
    if trace.profiles[profile].is_some() {
        return refuse(6, place);
    }
    trace.profiles[profile] = Some(most);
    Ok(())
}

fn read_job(reader: &mut Reader, trace: &mut Trace, place: usize) -> Result<(), Refusal> {
    let ask = read_ask(reader)?;
    if trace.asks.len() == JOBS {
        return refuse(7, place);
    }
    trace.asks.push(ask);
    Ok(())
}

/// The fields of a job, in the order of the trace.
fn read_ask(reader: &mut Reader) -> Result<Ask, Refusal> {
    let arrival = reader.float()?;
    let duration = reader.float()?;
    let priority = reader.priority()?;
    let count = reader.size(0, 128)?;
    let memory = reader.float()?;
    let model = reader.maybe(256)?;
    let site = reader.maybe(64)?;
    let tenant = reader.maybe(32)?;
    let gang = reader.flag()?;
    let gang_nodes = reader.size(0, 32)?;
    let network = reader.flag()?;
    let timeout = reader.float()?;
    let profile = reader.maybe(16)?;
    // The range of the slices hangs on the field before them.
    let slices = if profile.is_some() {
        reader.size(1, 64)?
    } else {
        reader.size(0, 0)?
    };
    Ok(Ask {
        arrival,
        duration,
        priority,
        count,
        memory,
        model,
        site,
        tenant,
        gang,
        gang_nodes,
        network,
        timeout,
        profile,
        slices,
    })
}

fn read_options(
    reader: &mut Reader,
    trace: &mut Trace,
    given: &mut bool,
    place: usize,
) -> Result<(), Refusal> {
    let seconds = reader.float()?;
    let penalty = reader.float()?;
    let multiplier = f64::from_bits(reader.ranged(LEAST_MULTIPLIER, MOST_MULTIPLIER)?);
    let best_fit = reader.flag()?;
    let quota_aware = reader.flag()?;
    if *given {
        return refuse(6, place);
    }
    *given = true;
    trace.options = Options {
        seconds,
        penalty,
        multiplier,
        best_fit,
        quota_aware,
    };
    Ok(())
}
