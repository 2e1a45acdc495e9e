//! What an image is to hold: schemas, and their tiers.

use core::fmt;
use core::time::Duration;

use crate::{Refusal, calls};

/// How many schemas a plan may have.
pub const MAX_SCHEMAS: usize = 8;

/// How many tiers a plan may have, those of all its schemas together.
pub const MAX_TIERS: usize = 32;

pub(crate) const HEADER: usize = 32;
pub(crate) const ROW: usize = 64;

/// A time as nanoseconds; `u64::MAX` where it is longer than 64 bits hold, which is refused as an interval, a retention or a
/// stamp.
///
/// ```
/// use core::time::Duration;
///
/// assert_eq!(rondo::nanos(Duration::from_secs(60)), 60_000_000_000);
/// assert_eq!(rondo::nanos(Duration::from_secs(1 << 35)), u64::MAX);
/// ```
pub const fn nanos(time: Duration) -> u64 {
    let exact = time.as_nanos();
    if exact > u64::MAX as u128 { u64::MAX } else { exact as u64 }
}

/// How a coarser tier is made from the finer one: the function of a window's finite values. NaN is no value.
#[derive(Debug, Clone, Copy, PartialEq, Eq, Hash)]
#[repr(u32)]
pub enum ConsolidationFn {
    /// The mean.
    Average = 1,
    /// The least; of equal zeros the earlier.
    Min = 2,
    /// The greatest; of equal zeros the earlier.
    Max = 3,
    /// The last in reading order.
    Last = 4,
    /// The sum.
    Sum = 5,
    /// How many there are.
    Count = 6,
}

impl ConsolidationFn {
    /// Its number, 1 to 6, as in the header for C.
    pub const fn number(self) -> u32 {
        self as u32
    }

    /// The function with this number; none for 0, which stands for no function, and where there is no such number.
    ///
    /// ```
    /// use rondo::ConsolidationFn;
    ///
    /// assert_eq!(ConsolidationFn::from_number(6), Some(ConsolidationFn::Count));
    /// assert_eq!(ConsolidationFn::from_number(0), None);
    /// assert_eq!(ConsolidationFn::from_number(7), None);
    /// ```
    pub const fn from_number(number: u32) -> Option<ConsolidationFn> {
        match number {
            1 => Some(ConsolidationFn::Average),
            2 => Some(ConsolidationFn::Min),
            3 => Some(ConsolidationFn::Max),
            4 => Some(ConsolidationFn::Last),
            5 => Some(ConsolidationFn::Sum),
            6 => Some(ConsolidationFn::Count),
            _ => None,
        }
    }
}

/// A tier of a schema: a ring of `retention_ns / interval_ns` slots. Nothing is tested here; [`Plan::image_size`] and
/// [`Store::create`](crate::Store::create) refuse what can't be.
#[derive(Debug, Clone, Copy, PartialEq, Eq, Hash)]
pub struct TierConfig {
    /// The time from slot to slot, in nanoseconds: 1 to 2^63 - 1, and above the finer tier's.
    pub interval_ns: u64,
    /// The time that the ring spans, in nanoseconds: at least the interval, below 2^63. Let every ring but the coarsest hold
    /// two of the coarsest intervals, so that no run misses a window's first samples.
    pub retention_ns: u64,
    /// How the tier is made from the finer one. The finest must have none; a coarser one without is refused by a run.
    pub consolidation_fn: Option<ConsolidationFn>,
}

impl TierConfig {
    /// A tier by times.
    ///
    /// ```
    /// use core::time::Duration;
    /// use rondo::{ConsolidationFn, TierConfig};
    ///
    /// let minutes = TierConfig::new(Duration::from_secs(60), Duration::from_secs(86_400), Some(ConsolidationFn::Average));
    /// assert_eq!(minutes.interval_ns, 60_000_000_000);
    /// assert_eq!(minutes.slot_count(), 1440);
    /// ```
    pub const fn new(interval: Duration, retention: Duration, consolidation_fn: Option<ConsolidationFn>) -> Self {
        Self::from_nanos(nanos(interval), nanos(retention), consolidation_fn)
    }

    /// A tier by nanoseconds.
    pub const fn from_nanos(interval_ns: u64, retention_ns: u64, consolidation_fn: Option<ConsolidationFn>) -> Self {
        Self { interval_ns, retention_ns, consolidation_fn }
    }

    /// How many slots the ring has; 0 where the interval is 0.
    pub const fn slot_count(&self) -> u64 {
        match self.retention_ns.checked_div(self.interval_ns) {
            Some(slots) => slots,
            None => 0,
        }
    }
}

/// What an image is to hold: at most [`MAX_SCHEMAS`] schemas, [`MAX_TIERS`] tiers in all. Made schema by schema; nothing is
/// tested before [`Plan::image_size`] or [`Store::create`](crate::Store::create), which refuse a plan that can't be.
///
/// ```
/// use core::time::Duration;
/// use rondo::{ConsolidationFn, Plan, TierConfig};
///
/// let seconds = TierConfig::new(Duration::from_secs(1), Duration::from_secs(7200), None);
/// let hours = TierConfig::new(Duration::from_secs(3600), Duration::from_secs(86_400), Some(ConsolidationFn::Max));
/// let plan = Plan::new().schema(2, 7, &[seconds, hours]).schema(1, 8, &[seconds]);
/// assert_eq!(plan.schema_count(), 2);
/// assert_eq!(plan.tier_count(), 3);
/// assert_eq!(plan.image_size(), Ok(289_012));
/// ```
#[derive(Clone, PartialEq, Eq)]
pub struct Plan {
    bytes: [u8; HEADER + ROW * MAX_TIERS],
    schemas: u32,
    rows: u32,
}

impl Plan {
    /// A plan without schemas, which is refused as it is ([`Refusal::BadImage`]).
    pub const fn new() -> Self {
        let mut plan = Plan { bytes: [0; HEADER + ROW * MAX_TIERS], schemas: 0, rows: 0 };
        plan.put_header();
        plan
    }

    /// The plan with one more schema: its number is how many there were before. `max_series` is how many series it has;
    /// `hash` is yours to choose, and stands in the image; the tiers are finest first.
    ///
    /// A schema or a tier too many is not stored but counted, so that the plan is refused ([`Refusal::BadImage`]).
    #[must_use]
    pub const fn schema(mut self, max_series: u32, hash: u64, tiers: &[TierConfig]) -> Self {
        let mut tier = 0;
        while tier < tiers.len() {
            self.put_row(tier as u32, &tiers[tier], max_series, hash);
            tier += 1;
        }
        self.schemas = self.schemas.saturating_add(1);
        self.put_header();
        self
    }

    /// How many schemas it was given.
    pub const fn schema_count(&self) -> usize {
        self.schemas as usize
    }

    /// How many tiers it was given, those of all schemas together.
    pub const fn tier_count(&self) -> usize {
        self.rows as usize
    }

    /// How many bytes its image needs.
    ///
    /// # Errors
    ///
    /// [`Refusal::BadImage`] with no schema, or a schema or a tier too many; by schema [`Refusal::NoTiers`],
    /// [`Refusal::InvalidMaxSeries`], [`Refusal::InvalidTierConfig`], [`Refusal::TooManySlots`],
    /// [`Refusal::TiersNotOrdered`], [`Refusal::ConsolidationOnHighestTier`]; then [`Refusal::LayoutTooLarge`].
    pub fn image_size(&self) -> Result<u64, Refusal> {
        calls::image_size(self.as_bytes())
    }

    /// The plan as the library reads it: the head of an image.
    pub fn as_bytes(&self) -> &[u8] {
        let kept = self.tier_count().min(MAX_TIERS);
        self.bytes.get(..HEADER + ROW * kept).unwrap_or(&self.bytes)
    }

    const fn put_header(&mut self) {
        self.put(0, 4, u32::from_le_bytes(*b"RSTO") as u64);
        self.put(4, 4, 1);
        self.put(8, 4, self.schemas as u64);
        self.put(12, 4, self.rows as u64);
    }

    const fn put_row(&mut self, tier: u32, config: &TierConfig, max_series: u32, hash: u64) {
        if (self.rows as usize) < MAX_TIERS {
            let at = HEADER + ROW * self.rows as usize;
            let function = match config.consolidation_fn {
                Some(function) => function.number(),
                None => 0,
            };
            self.put(at, 4, self.schemas as u64);
            self.put(at + 4, 4, tier as u64);
            self.put(at + 8, 8, config.interval_ns);
            self.put(at + 16, 8, config.retention_ns);
            self.put(at + 24, 4, function as u64);
            self.put(at + 28, 4, max_series as u64);
            self.put(at + 56, 8, hash);
        }
        self.rows = self.rows.saturating_add(1);
    }

    /// Writes a number of so many bytes at an offset, the least byte first.
    const fn put(&mut self, at: usize, width: usize, number: u64) {
        let bytes = number.to_le_bytes();
        let mut i = 0;
        while i < width {
            self.bytes[at + i] = bytes[i];
            i += 1;
        }
    }
}

impl Default for Plan {
    fn default() -> Self {
        Self::new()
    }
}

impl fmt::Debug for Plan {
    fn fmt(&self, f: &mut fmt::Formatter<'_>) -> fmt::Result {
        f.debug_struct("Plan").field("schemas", &self.schemas).field("tiers", &self.rows).finish_non_exhaustive()
    }
}
