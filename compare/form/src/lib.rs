//! The readable form of a trace: one record a line, and raw bytes where no record can be read.

pub mod number;
pub mod shape;
mod text;
pub mod value;

pub use text::{read, show, Fault};

/// A record as stored: its kind, 0 to 6, and one number a field.
#[derive(Clone, PartialEq, Debug)]
pub struct Record {
    pub kind: usize,
    pub fields: Vec<u64>,
}

/// A piece of a trace, which may be damaged.
#[derive(Clone, PartialEq, Debug)]
pub enum Item {
    Record(Record),
    Raw(Vec<u8>),
}

/// Cuts a trace into records; from the first place where none can be read, and after record 0, all is raw.
pub fn split(trace: &[u8]) -> Vec<Item> {
    let mut items = Vec::new();
    let mut at = 0;
    while let Some((record, used)) = record(&trace[at..]) {
        at += used;
        let end = record.kind == 0;
        items.push(Item::Record(record));
        if end {
            break;
        }
    }
    if at < trace.len() {
        items.push(Item::Raw(trace[at..].to_vec()));
    }
    items
}

fn record(bytes: &[u8]) -> Option<(Record, usize)> {
    let (kind, mut used) = number::read(bytes)?;
    let kind = usize::try_from(kind).ok()?;
    let shape = shape::SHAPES.get(kind)?;
    let mut fields = Vec::with_capacity(shape.fields.len());
    for _ in shape.fields {
        let (value, more) = number::read(&bytes[used..])?;
        fields.push(value);
        used += more;
    }
    Some((Record { kind, fields }, used))
}

/// The bytes of the items, one after the other.
pub fn join(items: &[Item]) -> Vec<u8> {
    let mut out = Vec::new();
    for item in items {
        match item {
            Item::Raw(bytes) => out.extend_from_slice(bytes),
            Item::Record(record) => {
                number::write(record.kind as u64, &mut out);
                record
                    .fields
                    .iter()
                    .for_each(|&f| number::write(f, &mut out));
            }
        }
    }
    out
}

/// The text of a trace, every field named. Works for every byte string.
pub fn decode(trace: &[u8]) -> String {
    show(&split(trace), false)
}

/// The same without the fields that have their default.
pub fn brief(trace: &[u8]) -> String {
    show(&split(trace), true)
}

/// The bytes of a text.
pub fn encode(text: &str) -> Result<Vec<u8>, Fault> {
    Ok(join(&read(text)?))
}
