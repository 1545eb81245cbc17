//! The fields of each record kind with the ends of their ranges, and records made of stored numbers.

use form::number;

/// The bits of 2^40, 1.0 and 1024.0.
const MOST: u64 = 0x4270_0000_0000_0000;
const ONE: u64 = 0x3ff0_0000_0000_0000;
const THOUSAND: u64 = 0x4090_0000_0000_0000;
const FLOAT: (u64, u64) = (0, MOST);
const FLAG: (u64, u64) = (0, 1);

/// The least and the greatest stored number of each field, by kind; slices have theirs in `slices`.
pub const RANGES: [&[(u64, u64)]; 7] = [
    &[],
    &[(0, 64)],
    &[(0, 255), FLOAT, (0, 256), FLAG],
    &[(0, 31), (0, 0xffff_ffff)],
    &[(0, 15), (1, 7)],
    &[
        FLOAT,
        FLOAT,
        (0, 0xffff_ffff),
        (0, 128),
        FLOAT,
        (0, 256),
        (0, 64),
        (0, 32),
        FLAG,
        (0, 32),
        FLAG,
        FLOAT,
        (0, 16),
        (0, 64),
    ],
    &[FLOAT, FLOAT, (ONE, THOUSAND), FLAG, FLAG],
];

pub const JOB: usize = 5;
/// The fields of a job that hang together.
pub const PROFILE: usize = 12;
pub const SLICES: usize = 13;

/// Slices are 0 without a profile, 1 to 64 with one.
fn slices(profile: u64) -> (u64, u64) {
    if profile == 0 {
        (0, 0)
    } else {
        (1, 64)
    }
}

/// A record that is in range, as stored numbers.
#[derive(Clone)]
pub struct Record {
    pub kind: usize,
    pub fields: Vec<u64>,
}

impl Record {
    /// Every field at its least.
    pub fn least(kind: usize) -> Record {
        Record {
            kind,
            fields: RANGES[kind].iter().map(|range| range.0).collect(),
        }
    }

    /// Every field at its greatest.
    pub fn most(kind: usize) -> Record {
        Record {
            kind,
            fields: RANGES[kind].iter().map(|range| range.1).collect(),
        }
    }

    pub fn range(&self, field: usize) -> (u64, u64) {
        if self.kind == JOB && field == SLICES {
            return slices(self.fields[PROFILE]);
        }
        RANGES[self.kind][field]
    }

    /// The same with another number in a field; what hangs on it stays in range.
    pub fn with(&self, field: usize, value: u64) -> Record {
        let mut record = self.clone();
        record.fields[field] = value;
        if self.kind == JOB && field == PROFILE {
            let (least, most) = slices(value);
            record.fields[SLICES] = record.fields[SLICES].clamp(least, most);
        }
        record
    }

    pub fn bytes(&self) -> Vec<u8> {
        self.bytes_to(self.fields.len())
    }

    /// The kind and the fields before one.
    pub fn bytes_to(&self, field: usize) -> Vec<u8> {
        let mut out = Vec::new();
        number::write(self.kind as u64, &mut out);
        self.fields[..field]
            .iter()
            .for_each(|&value| number::write(value, &mut out));
        out
    }

    /// The fields after one.
    pub fn bytes_after(&self, field: usize) -> Vec<u8> {
        let mut out = Vec::new();
        self.fields[field + 1..]
            .iter()
            .for_each(|&value| number::write(value, &mut out));
        out
    }
}

#[cfg(test)]
mod tests {
    use super::*;

    #[test]
    fn the_ranges_have_the_fields_of_the_readable_form() {
        for (shape, range) in form::shape::SHAPES.iter().zip(RANGES) {
            assert_eq!(shape.fields.len(), range.len(), "{}", shape.word);
        }
    }

    #[test]
    fn slices_follow_the_profile() {
        let job = Record::most(JOB).with(PROFILE, 0);
        assert_eq!((job.fields[SLICES], job.range(SLICES)), (0, (0, 0)));
        let job = Record::least(JOB).with(PROFILE, 3);
        assert_eq!((job.fields[SLICES], job.range(SLICES)), (1, (1, 64)));
    }
}
