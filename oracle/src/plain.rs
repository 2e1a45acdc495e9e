//! A second reading of document 01, with requests 2026-01, 2026-02 and 2026-05 of document 02 in the
//! place of the sentences that they alter, and request 2026-04 beside them, in plain Rust: written
//! from the documents alone, so that it can stand beside rondo and beside the proved library. Clear
//! before fast.
//!
//! A refusal is its number in document 01's table, 17 that of request 2026-04, 18 that of 2026-05. The image is a byte
//! slice, the flags a record of 32 wrap flags beside it. No call looks past the image or past flag R - 1.

use std::collections::BTreeSet;

pub type Flags = [bool; 32];

/// The flags of a number: bit i is row i's.
pub fn flags_of(number: u32) -> Flags {
    std::array::from_fn(|i| number >> i & 1 == 1)
}

pub const BAD_IMAGE: u32 = 1;
pub const NO_TIERS: u32 = 2;
pub const INVALID_MAX_SERIES: u32 = 3;
pub const INVALID_TIER_CONFIG: u32 = 4;
pub const TOO_MANY_SLOTS: u32 = 5;
pub const TIERS_NOT_ORDERED: u32 = 6;
pub const CONSOLIDATION_ON_HIGHEST_TIER: u32 = 7;
pub const LAYOUT_TOO_LARGE: u32 = 8;
pub const SHORT_BUFFER: u32 = 9;
pub const CORRUPTED_SLAB: u32 = 10;
pub const INVALID_HANDLE: u32 = 11;
pub const INVALID_VALUE: u32 = 12;
pub const INVALID_TIMESTAMP: u32 = 13;
pub const INVALID_TIER: u32 = 14;
pub const INVALID_TIME_RANGE: u32 = 15;
pub const NO_CONSOLIDATION_FUNCTION: u32 = 16;
pub const OFF_PANEL: u32 = 17;
pub const OLD_SAMPLE: u32 = 18;

pub const HEADER: usize = 32;
pub const ROW: usize = 64;
pub const ENTRY: usize = 16;
pub const FRESH: u64 = 0x7ff8_0000_0000_0000;
const TOP: u64 = 1 << 63;

// Words

pub fn get32(s: &[u8], at: usize) -> u32 {
    u32::from_le_bytes(s[at..at + 4].try_into().unwrap())
}

pub fn get64(s: &[u8], at: usize) -> u64 {
    u64::from_le_bytes(s[at..at + 8].try_into().unwrap())
}

pub fn put32(s: &mut [u8], at: usize, x: u32) {
    s[at..at + 4].copy_from_slice(&x.to_le_bytes());
}

pub fn put64(s: &mut [u8], at: usize, x: u64) {
    s[at..at + 8].copy_from_slice(&x.to_le_bytes());
}

pub fn infinite(bits: u64) -> bool {
    bits >> 52 & 0x7ff == 0x7ff && bits << 12 == 0
}

pub fn nan(bits: u64) -> bool {
    bits >> 52 & 0x7ff == 0x7ff && bits << 12 != 0
}

// The image

#[derive(Clone, Copy, Debug, PartialEq, Eq)]
pub struct Row {
    pub schema: u32,
    pub tier: u32,
    pub interval: u64,
    pub retention: u64,
    pub function: u32,
    pub series: u32,
    pub offset: u64,
    pub length: u64,
    pub mark: u64,
    pub hash: u64,
}

impl Row {
    pub fn slots(&self) -> u64 {
        self.retention / self.interval
    }

    /// The length that slots and series call for. 8 · n · m can pass 2^64.
    fn slab_length(&self) -> u128 {
        let (n, m) = (self.slots() as u128, self.series as u128);
        64 + 4 * m + 8 * n + 8 * n * m
    }

    pub fn place(&self) -> std::ops::Range<usize> {
        self.offset as usize..(self.offset + self.length) as usize
    }
}

fn row_at(s: &[u8], i: usize) -> Row {
    let at = HEADER + ROW * i;
    Row {
        schema: get32(s, at),
        tier: get32(s, at + 4),
        interval: get64(s, at + 8),
        retention: get64(s, at + 16),
        function: get32(s, at + 24),
        series: get32(s, at + 28),
        offset: get64(s, at + 32),
        length: get64(s, at + 40),
        mark: get64(s, at + 48),
        hash: get64(s, at + 56),
    }
}

/// An image's table of contents, once it has passed.
#[derive(Clone, Debug)]
pub struct Contents {
    pub schemas: u32,
    pub rows: Vec<Row>,
    /// The length that the rows call for.
    pub total: u64,
}

impl Contents {
    /// The numbers of a schema's rows, finest first.
    pub fn tiers(&self, schema: u32) -> Vec<usize> {
        (0..self.rows.len()).filter(|&i| self.rows[i].schema == schema).collect()
    }
}

/// 1 for the header and row shape; a plan has further fields that must be zero.
fn shape(s: &[u8], plan: bool) -> Result<Contents, u32> {
    if s.len() < HEADER || &s[0..4] != b"RSTO" || get32(s, 4) != 1 || get64(s, 24) != 0 {
        return Err(BAD_IMAGE);
    }
    let (schemas, count) = (get32(s, 8), get32(s, 12));
    if !(1..=8).contains(&schemas) || count > 32 || s.len() < HEADER + ROW * count as usize {
        return Err(BAD_IMAGE);
    }
    if plan && get64(s, 16) != 0 {
        return Err(BAD_IMAGE);
    }
    let rows: Vec<Row> = (0..count as usize).map(|i| row_at(s, i)).collect();
    for (i, row) in rows.iter().enumerate() {
        if row.schema >= schemas || row.function > 6 || row.mark >= TOP {
            return Err(BAD_IMAGE);
        }
        if plan && (row.offset != 0 || row.length != 0 || row.mark != 0) {
            return Err(BAD_IMAGE);
        }
        let good = match i.checked_sub(1).map(|before| rows[before]) {
            Some(finer) if finer.schema == row.schema => {
                finer.tier.checked_add(1) == Some(row.tier)
                    && finer.series == row.series
                    && finer.hash == row.hash
            }
            Some(other) => other.schema < row.schema && row.tier == 0,
            None => row.tier == 0,
        };
        if !good {
            return Err(BAD_IMAGE);
        }
    }
    Ok(Contents { schemas, rows, total: 0 })
}

/// 2 to 7 for one schema.
fn schema_check(tiers: &[Row]) -> Result<(), u32> {
    if tiers.is_empty() {
        return Err(NO_TIERS);
    }
    if tiers[0].series == 0 {
        return Err(INVALID_MAX_SERIES);
    }
    for t in tiers {
        let bad = |x: u64| x == 0 || x >= TOP;
        if bad(t.interval) || bad(t.retention) || t.retention < t.interval {
            return Err(INVALID_TIER_CONFIG);
        }
        if t.slots() > 1_000_000_000 {
            return Err(TOO_MANY_SLOTS);
        }
    }
    if tiers.windows(2).any(|pair| pair[1].interval <= pair[0].interval) {
        return Err(TIERS_NOT_ORDERED);
    }
    if tiers[0].function != 0 {
        return Err(CONSOLIDATION_ON_HIGHEST_TIER);
    }
    Ok(())
}

/// The image order up to 8, for a plan or an image.
fn contents(s: &[u8], plan: bool) -> Result<Contents, u32> {
    let mut c = shape(s, plan)?;
    for schema in 0..c.schemas {
        let tiers: Vec<Row> = c.tiers(schema).iter().map(|&i| c.rows[i]).collect();
        schema_check(&tiers)?;
    }
    let head = (HEADER + ROW * c.rows.len()) as u128;
    let total = head + c.rows.iter().map(Row::slab_length).sum::<u128>();
    if total > 1 << 40 {
        return Err(LAYOUT_TOO_LARGE);
    }
    c.total = total as u64;
    Ok(c)
}

/// Opening's order: what every later call goes through first.
pub fn check(image: &[u8]) -> Result<Contents, u32> {
    let c = contents(image, false)?;
    if get64(image, 16) != c.total || (image.len() as u64) < c.total {
        return Err(BAD_IMAGE);
    }
    let mut next = (HEADER + ROW * c.rows.len()) as u64;
    for row in &c.rows {
        if row.offset != next || row.length as u128 != row.slab_length() {
            return Err(BAD_IMAGE);
        }
        next += row.length;
    }
    for row in &c.rows {
        let slab = &image[row.place()];
        if &slab[0..4] != b"RNDO"
            || get32(slab, 4) != 1
            || get64(slab, 8) != row.hash
            || get32(slab, 16) as u64 != row.slots()
            || get32(slab, 20) != row.series
            || get64(slab, 24) != row.interval
            || get32(slab, 32) as u64 >= row.slots()
        {
            return Err(CORRUPTED_SLAB);
        }
    }
    Ok(c)
}

pub fn create(plan: &[u8], image: &mut [u8], flags: &mut Flags) -> Result<(), u32> {
    let mut c = contents(plan, true)?;
    if (image.len() as u64) < c.total {
        return Err(SHORT_BUFFER);
    }
    let head = HEADER + ROW * c.rows.len();
    image[..head].copy_from_slice(&plan[..head]);
    put64(image, 16, c.total);
    let mut next = head as u64;
    for (i, row) in c.rows.iter_mut().enumerate() {
        (row.offset, row.length) = (next, row.slab_length() as u64);
        put64(image, HEADER + ROW * i + 32, row.offset);
        put64(image, HEADER + ROW * i + 40, row.length);
        fresh_slab(&mut image[row.place()], row);
        next += row.length;
        flags[i] = false;
    }
    Ok(())
}

fn fresh_slab(slab: &mut [u8], row: &Row) {
    slab[..64].fill(0);
    slab[..4].copy_from_slice(b"RNDO");
    put32(slab, 4, 1);
    put64(slab, 8, row.hash);
    put32(slab, 16, row.slots() as u32);
    put32(slab, 20, row.series);
    put64(slab, 24, row.interval);
    // Directory: as `Slab::create` fills it, every entry 0xffffffff.
    let stamps = 64 + 4 * row.series as usize;
    let values = stamps + 8 * row.slots() as usize;
    slab[64..stamps].fill(0xff);
    slab[stamps..values].fill(0);
    for cell in slab[values..].chunks_exact_mut(8) {
        cell.copy_from_slice(&FRESH.to_le_bytes());
    }
}

/// A ring's flag at opening, from its slab alone.
pub type WrapFlag = fn(&[u8]) -> bool;

/// By request 2026-02: some slot numbered above the cursor has a nonzero stamp.
pub fn wrap_flag(slab: &[u8]) -> bool {
    (cursor(slab) + 1..slots(slab)).any(|slot| stamp(slab, slot) != 0)
}

/// By document 01, as `RingBuffer::new` sets it: cursor 0, more than one slot and stamp 1 nonzero;
/// or cursor above 0 and the stamp after it (mod n) nonzero.
pub fn old_wrap_flag(slab: &[u8]) -> bool {
    let (n, cursor) = (slots(slab), cursor(slab));
    if cursor == 0 { n > 1 && stamp(slab, 1) != 0 } else { stamp(slab, (cursor + 1) % n) != 0 }
}

pub fn open(image: &[u8], flags: &mut Flags) -> Result<(), u32> {
    open_by(image, flags, wrap_flag)
}

/// The same by any flag of a slab: document 01's stands beside the Rust, others are faults.
pub fn open_by(image: &[u8], flags: &mut Flags, flag: WrapFlag) -> Result<(), u32> {
    let c = check(image)?;
    for (i, row) in c.rows.iter().enumerate() {
        flags[i] = flag(&image[row.place()]);
    }
    Ok(())
}

// The ring: all of these take a slab that has passed the check.

fn slots(slab: &[u8]) -> usize {
    get32(slab, 16) as usize
}

fn series(slab: &[u8]) -> usize {
    get32(slab, 20) as usize
}

pub fn cursor(slab: &[u8]) -> usize {
    get32(slab, 32) as usize
}

fn stamp_at(slab: &[u8], slot: usize) -> usize {
    64 + 4 * series(slab) + 8 * slot
}

pub fn value_at(slab: &[u8], column: usize, slot: usize) -> usize {
    64 + 4 * series(slab) + 8 * slots(slab) + 8 * slots(slab) * column + 8 * slot
}

pub fn stamp(slab: &[u8], slot: usize) -> u64 {
    get64(slab, stamp_at(slab, slot))
}

pub fn slot_of(slab: &[u8], stamp: u64) -> usize {
    (stamp / get64(slab, 24) % slots(slab) as u64) as usize
}

/// Whether a write at a stamp comes too late for a slab.
pub type Old = fn(&[u8], u64) -> bool;

/// By request 2026-05: its stamp is below the one its slot holds.
pub fn is_old(slab: &[u8], at: u64) -> bool {
    at < stamp(slab, slot_of(slab, at))
}

pub fn write(slab: &mut [u8], flag: &mut bool, stamp: u64, values: &[(u32, u64)]) {
    let slot = slot_of(slab, stamp);
    let old = cursor(slab);
    if slot < old {
        *flag = true;
    }
    let at = stamp_at(slab, slot);
    put64(slab, at, stamp);
    for &(column, bits) in values {
        let at = value_at(slab, column as usize, slot);
        put64(slab, at, bits);
    }
    if *flag || slot >= old {
        put32(slab, 32, slot as u32);
    }
}

/// The slots in reading order.
fn reading(slab: &[u8], wrapped: bool) -> Vec<usize> {
    let (n, cursor) = (slots(slab), cursor(slab));
    if stamp(slab, cursor) == 0 {
        Vec::new()
    } else if wrapped {
        (0..n).map(|k| (cursor + 1 + k) % n).collect()
    } else {
        (0..=cursor).collect()
    }
}

pub fn newest(slab: &[u8]) -> Option<u64> {
    Some(stamp(slab, cursor(slab))).filter(|&t| t != 0)
}

fn oldest(slab: &[u8], wrapped: bool) -> Option<u64> {
    reading(slab, wrapped).into_iter().map(|slot| stamp(slab, slot)).find(|&t| t != 0)
}

// Record

fn handle_check(c: &Contents, schema: u32, column: u32) -> Result<usize, u32> {
    match c.tiers(schema).first() {
        Some(&row) if column < c.rows[row].series => Ok(row),
        _ => Err(INVALID_HANDLE),
    }
}

pub fn stamp_check(stamp: u64) -> Result<(), u32> {
    if stamp == 0 || stamp >= TOP { Err(INVALID_TIMESTAMP) } else { Ok(()) }
}

pub fn value_check(value: u64) -> Result<(), u32> {
    if infinite(value) { Err(INVALID_VALUE) } else { Ok(()) }
}

/// A sample is schema, column, value, stamp.
pub type Sample = (u32, u32, u64, u64);

/// 11, 12, 13, 18.
pub fn record(image: &mut [u8], flags: &mut Flags, sample: Sample) -> Result<(), u32> {
    record_by(image, flags, sample, is_old)
}

/// The same by any rule on what is old: others are faults, for the tests.
pub fn record_by(
    image: &mut [u8],
    flags: &mut Flags,
    (schema, column, value, stamp): Sample,
    old: Old,
) -> Result<(), u32> {
    let c = check(image)?;
    let row = handle_check(&c, schema, column)?;
    value_check(value)?;
    stamp_check(stamp)?;
    let slab = &mut image[c.rows[row].place()];
    if old(slab, stamp) {
        return Err(OLD_SAMPLE);
    }
    write(slab, &mut flags[row], stamp, &[(column, value)]);
    Ok(())
}

/// An entry is schema u32, column u32, value u64; a shorter last part is never read.
pub fn entries_of(bytes: &[u8]) -> Vec<(u32, u32, u64)> {
    bytes.chunks_exact(ENTRY).map(|e| (get32(e, 0), get32(e, 4), get64(e, 8))).collect()
}

/// 11, 13, 12, 18. Every ring that has entries is asked before any is written.
pub fn record_batch(
    image: &mut [u8],
    flags: &mut Flags,
    entries: &[u8],
    stamp: u64,
) -> Result<(), u32> {
    record_batch_by(image, flags, entries, stamp, is_old)
}

/// The same by any rule on what is old.
pub fn record_batch_by(
    image: &mut [u8],
    flags: &mut Flags,
    entries: &[u8],
    stamp: u64,
    old: Old,
) -> Result<(), u32> {
    let c = check(image)?;
    let entries = entries_of(entries);
    if entries.is_empty() {
        return Ok(());
    }
    for &(schema, column, _) in &entries {
        handle_check(&c, schema, column)?;
    }
    stamp_check(stamp)?;
    for &(_, _, value) in &entries {
        value_check(value)?;
    }
    // Each ring that has entries, with its own in order.
    let mut own: Vec<(usize, Vec<(u32, u64)>)> = Vec::new();
    for schema in 0..c.schemas {
        let values: Vec<(u32, u64)> =
            entries.iter().filter(|e| e.0 == schema).map(|e| (e.1, e.2)).collect();
        if !values.is_empty() {
            own.push((c.tiers(schema)[0], values));
        }
    }
    if own.iter().any(|&(row, _)| old(&image[c.rows[row].place()], stamp)) {
        return Err(OLD_SAMPLE);
    }
    for (row, values) in own {
        write(&mut image[c.rows[row].place()], &mut flags[row], stamp, &values);
    }
    Ok(())
}

// Query

#[derive(Clone, Debug)]
pub struct Answer<'a> {
    pub tier: u32,
    pub oldest: Option<u64>,
    pub newest: Option<u64>,
    pub range: (u64, u64),
    pub incomplete: bool,
    pub reader: Reader<'a>,
}

/// The slab's bytes beside a place: the next slot and how many are left.
#[derive(Clone, Debug)]
pub struct Reader<'a> {
    slab: &'a [u8],
    column: usize,
    range: (u64, u64),
    slot: usize,
    left: usize,
}

impl Iterator for Reader<'_> {
    type Item = (u64, u64);

    fn next(&mut self) -> Option<(u64, u64)> {
        while self.left > 0 {
            let stamp = stamp(self.slab, self.slot);
            let value = get64(self.slab, value_at(self.slab, self.column, self.slot));
            self.slot = (self.slot + 1) % slots(self.slab);
            self.left -= 1;
            if self.range.0 <= stamp && stamp < self.range.1 && !nan(value) {
                return Some((stamp, value));
            }
        }
        None
    }
}

fn reader(slab: &[u8], wrapped: bool, column: usize, range: (u64, u64)) -> Reader<'_> {
    let order = reading(slab, wrapped);
    Reader { slab, column, range, slot: order.first().copied().unwrap_or(0), left: order.len() }
}

/// A step of a reader made by hand: one outside its slab is at its end, and reads nothing.
pub fn next(
    slab: &[u8],
    column: u32,
    range: (u64, u64),
    (slot, left): (u64, u64),
) -> (Option<(u64, u64)>, (u64, u64)) {
    let held = |(n, m): (u128, u128)| 64 + 4 * m + 8 * n + 8 * n * m <= slab.len() as u128;
    let inside = slab.len() >= 64
        && held((slots(slab) as u128, series(slab) as u128))
        && (column as usize) < series(slab)
        && slot < slots(slab) as u64
        && left <= slots(slab) as u64;
    if !inside {
        return (None, (slot, 0));
    }
    let (column, slot, left) = (column as usize, slot as usize, left as usize);
    let mut reader = Reader { slab, column, range, slot, left };
    let point = reader.next();
    (point, (reader.slot as u64, reader.left as u64))
}

/// (full, may be incomplete)
pub fn coverage(oldest: Option<u64>, newest: Option<u64>, range: (u64, u64)) -> (bool, bool) {
    match (oldest, newest) {
        (Some(oldest), Some(newest)) => (range.0 >= oldest && range.1 <= newest, range.0 < oldest),
        _ => (false, true),
    }
}

fn answer<'a>(
    image: &'a [u8],
    flags: &Flags,
    c: &Contents,
    row: usize,
    column: u32,
    range: (u64, u64),
) -> Answer<'a> {
    let slab = &image[c.rows[row].place()];
    let (oldest, newest) = (oldest(slab, flags[row]), newest(slab));
    Answer {
        tier: c.rows[row].tier,
        oldest,
        newest,
        range,
        incomplete: coverage(oldest, newest, range).1,
        reader: reader(slab, flags[row], column as usize, range),
    }
}

pub fn query<'a>(
    image: &'a [u8],
    flags: &Flags,
    schema: u32,
    column: u32,
    tier: u32,
    range: (u64, u64),
) -> Result<Answer<'a>, u32> {
    let c = check(image)?;
    handle_check(&c, schema, column)?;
    let Some(&row) = c.tiers(schema).get(tier as usize) else {
        return Err(INVALID_TIER);
    };
    if range.0 >= range.1 {
        return Err(INVALID_TIME_RANGE);
    }
    Ok(answer(image, flags, &c, row, column, range))
}

pub fn query_auto<'a>(
    image: &'a [u8],
    flags: &Flags,
    schema: u32,
    column: u32,
    range: (u64, u64),
) -> Result<Answer<'a>, u32> {
    let c = check(image)?;
    handle_check(&c, schema, column)?;
    if range.0 >= range.1 {
        return Err(INVALID_TIME_RANGE);
    }
    let tiers = c.tiers(schema);
    let ends = |row: usize| {
        let slab = &image[c.rows[row].place()];
        (oldest(slab, flags[row]), newest(slab))
    };
    let full = tiers.iter().find(|&&row| coverage(ends(row).0, ends(row).1, range).0);
    let both = tiers.iter().rev().find(|&&row| ends(row).0.is_some() && ends(row).1.is_some());
    let row = *full.or(both).unwrap_or(&tiers[0]);
    Ok(answer(image, flags, &c, row, column, range))
}

// Figures (request 2026-04)

/// What service tools get: a point, and both ends of the reading that handed it out.
#[derive(Clone, Copy, Debug, PartialEq, Eq)]
pub struct Figure {
    pub stamp: u64,
    pub value: u64,
    pub oldest: u64,
    pub newest: u64,
}

/// Of the last point that a reading over all time hands out; none without one.
pub fn service(
    image: &[u8],
    flags: &Flags,
    schema: u32,
    column: u32,
    tier: u32,
) -> Result<Option<Figure>, u32> {
    let Answer { oldest, newest, reader, .. } =
        query(image, flags, schema, column, tier, (0, u64::MAX))?;
    let Some((stamp, value)) = reader.last() else {
        return Ok(None);
    };
    let end = |end: Option<u64>| end.expect("a ring with a point has both ends");
    Ok(Some(Figure { stamp, value, oldest: end(oldest), newest: end(newest) }))
}

/// The same point's value as a whole number; none without one.
pub fn panel(
    image: &[u8],
    flags: &Flags,
    schema: u32,
    column: u32,
    tier: u32,
) -> Result<Option<i64>, u32> {
    match service(image, flags, schema, column, tier)? {
        None => Ok(None),
        Some(point) => whole(f64::from_bits(point.value)).map(Some).ok_or(OFF_PANEL),
    }
}

/// The nearest whole number, of two that are equally near the even one; none beyond 2^53 either
/// way. Without its sign, what a number has behind the point is a double, and so exact.
pub fn whole(value: f64) -> Option<i64> {
    let size = value.abs();
    if size > 9_007_199_254_740_992.0 {
        return None;
    }
    let (below, rest) = (size.trunc() as i64, size.fract());
    let up = rest > 0.5 || (rest == 0.5 && below % 2 == 1);
    let nearest = if up { below + 1 } else { below };
    Some(if value < 0.0 { -nearest } else { nearest })
}

// Consolidate

#[derive(Clone, Copy, Debug, PartialEq)]
pub enum Window {
    Empty,
    Number(f64),
    NothingFinite,
}

/// A window's answer from its values that are not NaN, in ring order.
pub fn apply(function: u32, values: &[u64]) -> Window {
    if values.is_empty() {
        return Window::Empty;
    }
    let finite: Vec<f64> =
        values.iter().filter(|&&v| !infinite(v) && !nan(v)).map(|&v| f64::from_bits(v)).collect();
    let Some((&first, rest)) = finite.split_first() else {
        return Window::NothingFinite;
    };
    let sum = || finite.iter().fold(-0.0, |sum: f64, &v| sum + v);
    let count = finite.len() as f64;
    Window::Number(match function {
        1 => sum() / count,
        2 => rest.iter().fold(first, |least, &v| if v < least { v } else { least }),
        3 => rest.iter().fold(first, |most, &v| if v > most { v } else { most }),
        4 => finite[finite.len() - 1],
        5 => sum(),
        6 => count,
        _ => unreachable!("a coarser tier's function is 1 to 6"),
    })
}

/// Where a pair's reading starts: its two rows and the oldest source stamp decide.
pub type Start = fn(&Row, &Row, Option<u64>) -> u64;
pub type Apply = fn(u32, &[u64]) -> Window;

/// The oldest source stamp (0 without one) if the mark is 0, else, by request 2026-01, the start
/// of the destination window that holds the mark. Document 01 had mark + source interval.
pub fn start_of(source: &Row, dest: &Row, oldest: Option<u64>) -> u64 {
    match source.mark {
        0 => oldest.unwrap_or(0),
        mark => mark / dest.interval * dest.interval,
    }
}

/// What a run writes: window, column, value.
pub type Found = (u64, u32, u64);
/// A run's write into a slab with its flag: whether it was made.
pub type Put<'a> = &'a mut dyn FnMut(&mut [u8], &mut bool, Found) -> Result<bool, u32>;

/// By request 2026-05: once 12 and 13 are tried, an old write is passed over.
pub fn put_found(slab: &mut [u8], flag: &mut bool, found: Found) -> Result<bool, u32> {
    let (window, column, value) = found;
    value_check(value)?;
    stamp_check(window)?;
    if is_old(slab, window) {
        return Ok(false);
    }
    write(slab, flag, window, &[(column, value)]);
    Ok(true)
}

/// The number of writes, or the refusal that ended the call.
pub fn consolidate(image: &mut [u8], flags: &mut Flags) -> Result<u64, u32> {
    consolidate_by(image, flags, (start_of, apply), &mut put_found)
}

/// How many writes a run of this image would make, and how many it would pass over.
pub fn passed_over(image: &[u8], flags: &Flags) -> (u64, u64) {
    let (mut made, mut passed) = (0, 0);
    let mut put = |slab: &mut [u8], flag: &mut bool, found: Found| {
        let done = put_found(slab, flag, found)?;
        *(if done { &mut made } else { &mut passed }) += 1;
        Ok(done)
    };
    let _ = consolidate_by(&mut image.to_vec(), &mut flags.clone(), (start_of, apply), &mut put);
    (made, passed)
}

/// The same by any start, window's answer and write: others are faults, for the tests.
pub fn consolidate_by(
    image: &mut [u8],
    flags: &mut Flags,
    by: (Start, Apply),
    put: Put,
) -> Result<u64, u32> {
    let c = check(image)?;
    let mut writes = 0;
    for schema in 0..c.schemas {
        for pair in c.tiers(schema).windows(2) {
            writes += consolidate_pair(image, flags, &c, (pair[0], pair[1]), by, &mut *put)?;
        }
    }
    Ok(writes)
}

fn consolidate_pair(
    image: &mut [u8],
    flags: &mut Flags,
    c: &Contents,
    (from, to): (usize, usize),
    (start, apply): (Start, Apply),
    put: Put,
) -> Result<u64, u32> {
    let (source, dest) = (c.rows[from], c.rows[to]);
    if dest.function == 0 {
        return Err(NO_CONSOLIDATION_FUNCTION);
    }
    let slab = image[source.place()].to_vec();
    if (0..slots(&slab)).any(|slot| stamp(&slab, slot) >= TOP) {
        return Err(CORRUPTED_SLAB);
    }
    let start = start(&source, &dest, oldest(&slab, flags[from]));
    let Some(newest) = newest(&slab) else {
        return Ok(0);
    };
    let range = (start, newest + 1);
    if range.0 >= range.1 {
        return Ok(0);
    }
    let points = |column: u32| reader(&slab, flags[from], column as usize, range);
    let window_of = |stamp: u64| stamp / dest.interval * dest.interval;
    // What is written where, by window, then column.
    let windows: BTreeSet<u64> =
        (0..source.series).flat_map(points).map(|(stamp, _)| window_of(stamp)).collect();
    let mut found: Vec<(u64, u32, u64)> = Vec::new();
    for &window in &windows {
        for column in 0..source.series {
            let values: Vec<u64> =
                points(column).filter(|p| window_of(p.0) == window).map(|p| p.1).collect();
            match apply(dest.function, &values) {
                Window::Empty => {}
                Window::Number(x) => found.push((window, column, x.to_bits())),
                Window::NothingFinite => found.push((window, column, FRESH)),
            }
        }
    }
    let mut writes = 0;
    for found in found {
        writes += put(&mut image[dest.place()], &mut flags[to], found)? as u64;
    }
    if writes > 0 {
        put64(image, HEADER + ROW * from + 48, newest);
    }
    Ok(writes)
}

#[cfg(test)]
#[path = "plain_cases.rs"]
mod cases;
