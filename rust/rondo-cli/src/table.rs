//! An image's table of contents and its rings, read from bytes that the library has accepted.

pub const HEADER: usize = 32;
pub const ROW: usize = 64;
pub const SLAB_HEADER: usize = 64;

/// A number of four bytes; 0 where there are none.
pub fn u32_at(bytes: &[u8], at: usize) -> u32 {
    bytes.get(at..at + 4).and_then(|b| b.try_into().ok()).map_or(0, u32::from_le_bytes)
}

/// A number of eight bytes; 0 where there are none.
pub fn u64_at(bytes: &[u8], at: usize) -> u64 {
    bytes.get(at..at.saturating_add(8)).and_then(|b| b.try_into().ok()).map_or(0, u64::from_le_bytes)
}

/// A row of the table: a tier of a schema.
#[derive(Debug, Clone)]
pub struct Row {
    pub schema: u32,
    pub tier: u32,
    pub interval: u64,
    pub retention: u64,
    pub function: u32,
    pub series: u32,
    pub offset: u64,
    pub length: u64,
    pub mark: u64,
    pub hash: u64,
}

pub const FUNCTIONS: [&str; 7] = ["none", "average", "min", "max", "last", "sum", "count"];

impl Row {
    pub fn at(image: &[u8], row: usize) -> Row {
        let at = HEADER + ROW * row;
        Row {
            schema: u32_at(image, at),
            tier: u32_at(image, at + 4),
            interval: u64_at(image, at + 8),
            retention: u64_at(image, at + 16),
            function: u32_at(image, at + 24),
            series: u32_at(image, at + 28),
            offset: u64_at(image, at + 32),
            length: u64_at(image, at + 40),
            mark: u64_at(image, at + 48),
            hash: u64_at(image, at + 56),
        }
    }

    pub fn slots(&self) -> u64 {
        self.retention.checked_div(self.interval).unwrap_or(0)
    }

    /// The length that its slab must have.
    pub fn slab_length(&self) -> u128 {
        let (n, m) = (u128::from(self.slots()), u128::from(self.series));
        64 + 4 * m + 8 * n + 8 * n * m
    }

    pub fn function_name(&self) -> &'static str {
        FUNCTIONS.get(self.function as usize).unwrap_or(&"unknown")
    }

    pub fn cursor(&self, image: &[u8]) -> u32 {
        u32_at(image, self.offset as usize + 32)
    }

    /// The slot of a stamp.
    pub fn slot_of(&self, stamp: u64) -> u64 {
        stamp / self.interval % self.slots()
    }

    /// Where the stamp of a slot stands.
    pub fn stamp_at(&self, slot: u64) -> usize {
        (self.offset + SLAB_HEADER as u64 + 4 * u64::from(self.series) + 8 * slot) as usize
    }

    /// Where the value of a column in a slot stands.
    pub fn cell_at(&self, column: u32, slot: u64) -> usize {
        self.stamp_at(slot) + 8 * (self.slots() * (1 + u64::from(column))) as usize
    }

    pub fn stamp(&self, image: &[u8], slot: u64) -> u64 {
        u64_at(image, self.stamp_at(slot))
    }

    pub fn cell(&self, image: &[u8], column: u32, slot: u64) -> u64 {
        u64_at(image, self.cell_at(column, slot))
    }

    /// How many slots have a stamp.
    pub fn used(&self, image: &[u8]) -> u64 {
        (0..self.slots()).filter(|slot| self.stamp(image, *slot) != 0).count() as u64
    }
}

/// The rows, as the header counts them.
pub fn rows(image: &[u8]) -> Vec<Row> {
    let count = (u32_at(image, 12) as usize).min(32);
    (0..count).map(|row| Row::at(image, row)).collect()
}

pub fn schemas(image: &[u8]) -> u32 {
    u32_at(image, 8)
}

/// The rows of one schema, the finest first.
pub fn tiers(rows: &[Row], schema: u32) -> Vec<Row> {
    rows.iter().filter(|row| row.schema == schema).cloned().collect()
}
