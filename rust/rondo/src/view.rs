//! A store for reading alone.

use core::fmt;
use core::iter::FusedIterator;

use crate::calls::{self, Asked};
use crate::plan::{HEADER, ROW};
use crate::{ConsolidationFn, QueryResult, Refusal, SeriesHandle, ServiceFigure, TierConfig};

/// A store in bytes that are only read, such as a mapped file or flash. [`Store::view`](crate::Store::view) has one of a store.
///
/// ```
/// use rondo::{Plan, SeriesHandle, Store, TierConfig, View};
///
/// let plan = Plan::new().schema(1, 7, &[TierConfig::from_nanos(10, 40, None)]);
/// let mut image = [0; 228];
/// let mut store = Store::create(&plan, &mut image)?;
/// store.record(SeriesHandle::new(0, 0), 1.5, 20)?;
///
/// let flash: &[u8] = &image;
/// let view = View::open(flash)?;
/// for tier in view.tiers()? {
///     assert_eq!((tier.schema, tier.tier, tier.max_series, tier.config.slot_count()), (0, 0, 1, 4));
///     let points = view.query(SeriesHandle::new(tier.schema, 0), tier.tier, 0, u64::MAX)?.points();
///     assert!(points.eq([(20, 1.5)]));
/// }
/// # Ok::<(), rondo::Refusal>(())
/// ```
///
/// What it answers lives as long as the bytes, not the view.
#[derive(Clone, Copy)]
pub struct View<'a> {
    image: &'a [u8],
    flags: u32,
}

impl<'a> View<'a> {
    /// Opens an image whose flags were not kept, as [`Store::open`](crate::Store::open) does.
    ///
    /// # Errors
    ///
    /// Those of [`Store::open`](crate::Store::open).
    pub fn open(image: &'a [u8]) -> Result<Self, Refusal> {
        let mut flags = 0;
        calls::open(image, &mut flags)?;
        Ok(View { image, flags })
    }

    /// Takes an image up with the flags that were kept with it, as [`Store::resume`](crate::Store::resume) does.
    pub const fn resume(image: &'a [u8], flags: u32) -> Self {
        View { image, flags }
    }

    /// The bytes that were lent.
    pub const fn image(&self) -> &'a [u8] {
        self.image
    }

    /// The wrap flags, as [`Store::flags`](crate::Store::flags) has them.
    pub const fn flags(&self) -> u32 {
        self.flags
    }

    /// The points of a series in a tier: [`Store::query`](crate::Store::query).
    ///
    /// # Errors
    ///
    /// Those of [`Store::query`](crate::Store::query).
    pub fn query(&self, handle: SeriesHandle, tier: u32, start_ns: u64, end_ns: u64) -> Result<QueryResult<'a>, Refusal> {
        let answer = calls::query(self.image, self.flags, asked(handle, start_ns, end_ns), tier)?;
        Ok(QueryResult::new(self.image, answer))
    }

    /// The same in the tier that covers the range best: [`Store::query_auto`](crate::Store::query_auto).
    ///
    /// # Errors
    ///
    /// Those of [`Store::query_auto`](crate::Store::query_auto).
    pub fn query_auto(&self, handle: SeriesHandle, start_ns: u64, end_ns: u64) -> Result<QueryResult<'a>, Refusal> {
        let answer = calls::query_auto(self.image, self.flags, asked(handle, start_ns, end_ns))?;
        Ok(QueryResult::new(self.image, answer))
    }

    /// The panel's figure of a series in a tier: [`Store::panel`](crate::Store::panel).
    ///
    /// # Errors
    ///
    /// Those of [`Store::panel`](crate::Store::panel).
    pub fn panel(&self, handle: SeriesHandle, tier: u32) -> Result<Option<i64>, Refusal> {
        calls::panel(self.image, self.flags, handle, tier)
    }

    /// The service figure of a series in a tier: [`Store::service`](crate::Store::service).
    ///
    /// # Errors
    ///
    /// Those of [`Store::service`](crate::Store::service).
    pub fn service(&self, handle: SeriesHandle, tier: u32) -> Result<Option<ServiceFigure>, Refusal> {
        calls::service(self.image, self.flags, handle, tier)
    }

    /// The tiers of all schemas, in the image's order: by schema, the finest first.
    ///
    /// ```
    /// use rondo::{ConsolidationFn, Plan, SeriesHandle, Store, TierConfig};
    ///
    /// let minutes = TierConfig::from_nanos(60, 120, Some(ConsolidationFn::Max));
    /// let plan = Plan::new().schema(2, 7, &[TierConfig::from_nanos(10, 120, None), minutes]);
    /// let mut image = [0; 1024];
    /// let mut store = Store::create(&plan, &mut image)?;
    /// store.record(SeriesHandle::new(0, 1), 1.5, 70)?;
    /// store.consolidate()?;
    /// let mut tiers = store.view().tiers()?;
    /// let finest = tiers.next().unwrap();
    /// assert_eq!((finest.newest_timestamp, finest.consolidated_to), (Some(70), Some(70)));
    /// let coarsest = tiers.next().unwrap();
    /// assert_eq!((coarsest.config, coarsest.oldest_timestamp, coarsest.has_wrapped), (minutes, Some(60), false));
    /// assert_eq!(tiers.next(), None);
    /// # Ok::<(), rondo::Refusal>(())
    /// ```
    ///
    /// # Errors
    ///
    /// Those of [`Store::open`](crate::Store::open).
    pub fn tiers(&self) -> Result<Tiers<'a>, Refusal> {
        // every image in good order has this series
        self.query(SeriesHandle::new(0, 0), 0, 0, u64::MAX)?;
        Ok(Tiers { view: *self, next: 0, rows: self.number(12, 4) as usize })
    }

    /// The tier of a row; none where the image has no such row, or is refused.
    fn tier(&self, row: usize) -> Option<TierInfo> {
        let field = |offset, width| self.number(HEADER + ROW * row + offset, width);
        let (schema, tier) = (field(0, 4) as u32, field(4, 4) as u32);
        let ends = self.query(SeriesHandle::new(schema, 0), tier, 0, u64::MAX).ok()?;
        let function = ConsolidationFn::from_number(field(24, 4) as u32);
        let mark = field(48, 8);
        Some(TierInfo {
            schema,
            tier,
            max_series: field(28, 4) as u32,
            hash: field(56, 8),
            config: TierConfig::from_nanos(field(8, 8), field(16, 8), function),
            oldest_timestamp: ends.oldest(),
            newest_timestamp: ends.newest(),
            has_wrapped: self.flags >> row & 1 == 1,
            consolidated_to: (mark != 0).then_some(mark),
        })
    }

    /// A number of so many bytes at an offset, the least byte first; 0 where there are none.
    fn number(&self, at: usize, width: usize) -> u64 {
        let bytes = self.image.get(at..at + width).unwrap_or(&[]);
        bytes.iter().rev().fold(0, |number, byte| number << 8 | u64::from(*byte))
    }
}

fn asked(handle: SeriesHandle, start: u64, end: u64) -> Asked {
    Asked { schema: handle.schema, column: handle.column, start, end }
}

impl fmt::Debug for View<'_> {
    fn fmt(&self, f: &mut fmt::Formatter<'_>) -> fmt::Result {
        f.debug_struct("View").field("bytes", &self.image.len()).field("flags", &self.flags).finish()
    }
}

/// A tier of an image: what the plan says of it, and what its ring holds.
#[derive(Debug, Clone, Copy, PartialEq, Eq)]
pub struct TierInfo {
    /// The schema's number.
    pub schema: u32,
    /// The tier's number in its schema, 0 being the finest.
    pub tier: u32,
    /// How many series the schema has.
    pub max_series: u32,
    /// The schema's hash, as the plan had it.
    pub hash: u64,
    /// Interval, retention and function.
    pub config: TierConfig,
    /// The ring's oldest stamp, the first in reading order; none where the ring is empty.
    pub oldest_timestamp: Option<u64>,
    /// The ring's newest stamp, the one written last; none where the ring is empty.
    pub newest_timestamp: Option<u64>,
    /// The tier's wrap flag: whether all slots of the ring are read.
    pub has_wrapped: bool,
    /// The tier's mark: the newest stamp here at the last run that made values of the next tier; none without such a run.
    pub consolidated_to: Option<u64>,
}

/// The tiers of an image ([`View::tiers`]).
#[derive(Debug, Clone)]
pub struct Tiers<'a> {
    view: View<'a>,
    next: usize,
    rows: usize,
}

impl Iterator for Tiers<'_> {
    type Item = TierInfo;

    fn next(&mut self) -> Option<TierInfo> {
        let row = (self.next < self.rows).then_some(self.next)?;
        self.next += 1;
        self.view.tier(row)
    }

    fn size_hint(&self) -> (usize, Option<usize>) {
        let left = self.rows - self.next;
        (left, Some(left))
    }
}

impl ExactSizeIterator for Tiers<'_> {}
impl FusedIterator for Tiers<'_> {}
