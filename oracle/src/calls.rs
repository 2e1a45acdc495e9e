//! What the sides share: plans, calls, answers, and the trait that a side fulfils.

use crate::plain::{ENTRY, Figure, Flags, HEADER, ROW, put32, put64};

#[derive(Clone, Copy, Debug, PartialEq, Eq)]
pub struct Tier {
    pub interval: u64,
    pub retention: u64,
    pub function: u32,
}

#[derive(Clone, Debug, PartialEq, Eq)]
pub struct Schema {
    pub series: u32,
    pub tiers: Vec<Tier>,
}

/// A well-shaped plan: what can be said to the Rust, too.
#[derive(Clone, Debug, PartialEq, Eq)]
pub struct Plan(pub Vec<Schema>);

impl Plan {
    pub fn rows(&self) -> usize {
        self.0.iter().map(|s| s.tiers.len()).sum()
    }

    /// (schema, tier) of every row.
    pub fn places(&self) -> Vec<(usize, usize)> {
        let each = self.0.iter().enumerate();
        each.flat_map(|(s, schema)| (0..schema.tiers.len()).map(move |t| (s, t))).collect()
    }

    /// The plan's bytes; `hash` gives a schema's hash.
    pub fn bytes(&self, hash: impl Fn(&Schema) -> u64) -> Vec<u8> {
        let mut s = vec![0; HEADER + ROW * self.rows()];
        s[..4].copy_from_slice(b"RSTO");
        put32(&mut s, 4, 1);
        put32(&mut s, 8, self.0.len() as u32);
        put32(&mut s, 12, self.rows() as u32);
        for (i, (schema, tier)) in self.places().into_iter().enumerate() {
            let (at, t) = (HEADER + ROW * i, self.0[schema].tiers[tier]);
            put32(&mut s, at, schema as u32);
            put32(&mut s, at + 4, tier as u32);
            put64(&mut s, at + 8, t.interval);
            put64(&mut s, at + 16, t.retention);
            put32(&mut s, at + 24, t.function);
            put32(&mut s, at + 28, self.0[schema].series);
            put64(&mut s, at + 56, hash(&self.0[schema]));
        }
        s
    }
}

#[derive(Clone, Debug, PartialEq, Eq)]
pub enum Call {
    Record {
        schema: u32,
        column: u32,
        value: u64,
        stamp: u64,
    },
    /// Entries are schema, column, value; `tail` is a last part shorter than an entry.
    Batch {
        entries: Vec<(u32, u32, u64)>,
        tail: u8,
        stamp: u64,
    },
    Query {
        schema: u32,
        column: u32,
        tier: u32,
        start: u64,
        end: u64,
    },
    Auto {
        schema: u32,
        column: u32,
        start: u64,
        end: u64,
    },
    /// The panel's figure and the service figure (request 2026-04).
    Panel {
        schema: u32,
        column: u32,
        tier: u32,
    },
    Service {
        schema: u32,
        column: u32,
        tier: u32,
    },
    /// A reader made by hand steps over a part of the image, as far as it is there: only for sides on lent bytes.
    Next {
        part: (usize, usize),
        column: u32,
        range: (u64, u64),
        /// Slot, and slots left.
        place: (u64, u64),
    },
    Consolidate,
    /// Handed the image as left and flags: these (bit i row i's), or those as left.
    Open {
        handed: Option<u32>,
    },
    /// Someone else writes into a row's slab: no call of the library.
    Poke {
        row: usize,
        cell: Cell,
    },
    /// Someone else writes anywhere in the image: only for sides on lent bytes.
    Damage {
        at: usize,
        bytes: Vec<u8>,
    },
    /// The lent slice from here on is only this long: only for sides on lent bytes.
    Cut {
        length: usize,
    },
}

impl Call {
    /// Whether the call only reads, and so changes nothing.
    pub fn reads(&self) -> bool {
        use Call::*;
        matches!(self, Query { .. } | Auto { .. } | Panel { .. } | Service { .. } | Next { .. })
    }
}

/// Opening, handed image and flags as left.
pub const OPEN: Call = Call::Open { handed: None };

#[derive(Clone, Copy, Debug, PartialEq, Eq)]
pub enum Cell {
    Stamp {
        slot: u64,
        stamp: u64,
    },
    Value {
        column: u64,
        slot: u64,
        value: u64,
    },
    Cursor(u32),
    /// Series count, reserved bytes, unnamed bytes, directory: byte 36 to the stamps.
    Loose {
        at: usize,
        byte: u8,
    },
    /// Not in the slab, but the row's mark.
    Mark(u64),
}

impl Cell {
    /// Where in a slab of n slots and m series, and which bytes. A mark has no such place.
    pub fn bytes(self, n: u64, m: u64) -> Option<(usize, Vec<u8>)> {
        let word = |at: u64, x: u64| Some((at as usize, x.to_le_bytes().to_vec()));
        match self {
            Cell::Stamp { slot, stamp } => word(64 + 4 * m + 8 * slot, stamp),
            Cell::Value { column, slot, value } => {
                word(64 + 4 * m + 8 * n + 8 * n * column + 8 * slot, value)
            }
            Cell::Cursor(x) => Some((32, x.to_le_bytes().to_vec())),
            Cell::Loose { at, byte } => Some((at, vec![byte])),
            Cell::Mark(_) => None,
        }
    }
}

/// A batch's entries as bytes.
pub fn entry_bytes(entries: &[(u32, u32, u64)], tail: u8) -> Vec<u8> {
    let mut s = vec![0; ENTRY * entries.len()];
    for (i, &(schema, column, value)) in entries.iter().enumerate() {
        put32(&mut s, ENTRY * i, schema);
        put32(&mut s, ENTRY * i + 4, column);
        put64(&mut s, ENTRY * i + 8, value);
    }
    s.extend(vec![0xee; tail as usize]);
    s
}

#[derive(Clone, Debug, PartialEq, Eq)]
pub enum Answer {
    /// Document 01's number, 17 or 18.
    Refused(u32),
    Done,
    Count(u64),
    Points {
        tier: u32,
        oldest: Option<u64>,
        newest: Option<u64>,
        range: (u64, u64),
        incomplete: bool,
        /// Stamp and value pattern.
        points: Vec<(u64, u64)>,
    },
    /// A reader's step: what it handed out, and where it stands then.
    Stepped {
        point: Option<(u64, u64)>,
        place: (u64, u64),
    },
    /// The panel's whole number, or none.
    Shown(Option<i64>),
    /// The service figure, or none.
    Served(Option<Figure>),
    /// The side came to a stop with this message.
    Panicked(String),
}

/// What a side holds after a call, row by row.
#[derive(Clone, Debug, Default, PartialEq, Eq)]
pub struct State<'a> {
    pub slabs: Vec<&'a [u8]>,
    pub flags: Vec<bool>,
    /// 0 is no mark. The last tier of a schema has none.
    pub marks: Vec<u64>,
    /// The lent bytes and flags as a whole, where the side works on such.
    pub lent: Option<(&'a [u8], Flags)>,
}

/// How far a side follows document 01: where not, the driver does not ask it.
#[derive(Clone, Copy, Debug, PartialEq, Eq)]
pub enum Kind {
    /// All calls, all bytes: a reading of document 01, or the proved library.
    Whole,
    /// `Store` of the Rust: no check of handles, no bound of 2^63 [D].
    Store,
    /// The Rust's rings with one engine kept. It has no queries.
    Engine,
}

/// One implementation, with the store that it holds between calls.
pub trait Side {
    fn name(&self) -> &'static str;
    fn kind(&self) -> Kind;
    /// A fresh store in place of the one before.
    fn create(&mut self, plan: &Plan) -> Answer;
    /// The same from any plan's bytes and with any room (`Kind::Whole`).
    fn create_from(&mut self, _plan: &[u8], _room: usize) -> Answer {
        unreachable!("only sides on lent bytes")
    }
    fn call(&mut self, call: &Call) -> Answer;
    fn state(&self) -> State<'_>;
    /// Takes these slabs and marks in place of its own; an opening follows (sides of the Rust).
    fn hand(&mut self, _slabs: &[&[u8]], _marks: &[u64]) {}
}
