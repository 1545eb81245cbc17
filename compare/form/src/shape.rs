//! The shape of each record: its word, its fields by name, how each is written in text and what it is when left out.

/// How a stored number is written in text.
#[derive(Clone, Copy, PartialEq, Debug)]
pub enum Sort {
    /// the number itself
    Plain,
    /// `-` for none (stored 0), else the stored number less 1
    Maybe,
    /// the bits of a float
    Float,
    /// `no` and `yes` for 0 and 1
    Flag,
    /// `first` and `best` for 0 and 1
    Fit,
    /// a whole number with a sign: 2p, or -2p-1 when negative
    Signed,
}

/// One field of a record; `default` is the stored number when the text leaves it out.
pub struct Field {
    pub name: &'static str,
    pub sort: Sort,
    pub default: u64,
}

/// One kind of record.
pub struct Shape {
    pub word: &'static str,
    pub fields: &'static [Field],
}

const fn field(name: &'static str, sort: Sort) -> Field {
    Field {
        name,
        sort,
        default: 0,
    }
}

const fn set(name: &'static str, sort: Sort, default: u64) -> Field {
    Field {
        name,
        sort,
        default,
    }
}

// bits of 30.0 and 1.0, the options of a trace without an options record
const THIRTY: u64 = 0x403e_0000_0000_0000;
const ONE: u64 = 0x3ff0_0000_0000_0000;

/// The kinds 0 to 6, in order.
pub const SHAPES: [Shape; 7] = [
    Shape {
        word: "end",
        fields: &[],
    },
    Shape {
        word: "node",
        fields: &[field("site", Sort::Maybe)],
    },
    Shape {
        word: "gpu",
        fields: &GPU,
    },
    Shape {
        word: "quota",
        fields: &[field("tenant", Sort::Plain), field("gpus", Sort::Plain)],
    },
    Shape {
        word: "profile",
        fields: &[field("number", Sort::Plain), field("most", Sort::Plain)],
    },
    Shape {
        word: "job",
        fields: &JOB,
    },
    Shape {
        word: "options",
        fields: &OPTIONS,
    },
];

const GPU: [Field; 4] = [
    field("type", Sort::Plain),
    field("memory", Sort::Float),
    field("group", Sort::Maybe),
    field("mig", Sort::Flag),
];

const JOB: [Field; 14] = [
    field("arrival", Sort::Float),
    field("duration", Sort::Float),
    field("priority", Sort::Signed),
    field("gpus", Sort::Plain),
    field("memory", Sort::Float),
    field("type", Sort::Maybe),
    field("site", Sort::Maybe),
    field("tenant", Sort::Maybe),
    field("gang", Sort::Flag),
    field("nodes", Sort::Plain),
    field("network", Sort::Flag),
    field("timeout", Sort::Float),
    field("profile", Sort::Maybe),
    field("slices", Sort::Plain),
];

const OPTIONS: [Field; 5] = [
    set("seconds", Sort::Float, THIRTY),
    set("penalty", Sort::Float, 0),
    set("multiplier", Sort::Float, ONE),
    set("fit", Sort::Fit, 0),
    set("quota-aware", Sort::Flag, 1),
];
