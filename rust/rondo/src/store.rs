//! The store: an image, and its flags.

use core::fmt;

use crate::{Plan, QueryResult, Refusal, ServiceFigure, View, calls};

/// A series: the schema's number and the column's, both from 0.
#[derive(Debug, Clone, Copy, PartialEq, Eq, PartialOrd, Ord, Hash)]
#[repr(C)]
pub struct SeriesHandle {
    /// The schema's number in the plan.
    pub schema: u32,
    /// The column, below the schema's greatest number of series.
    pub column: u32,
}

impl SeriesHandle {
    /// The handle of a series. Nothing is tested: a call refuses one that is not there ([`Refusal::InvalidHandle`]).
    pub const fn new(schema: u32, column: u32) -> Self {
        SeriesHandle { schema, column }
    }
}

/// A value of a batch.
#[derive(Debug, Clone, Copy, PartialEq)]
#[repr(C)]
pub struct Entry {
    /// Which series it is for.
    pub handle: SeriesHandle,
    /// The value; NaN is no value.
    pub value: f64,
}

impl Entry {
    /// A value for a series.
    pub const fn new(handle: SeriesHandle, value: f64) -> Self {
        Entry { handle, value }
    }
}

impl From<(SeriesHandle, f64)> for Entry {
    fn from((handle, value): (SeriesHandle, f64)) -> Self {
        Entry { handle, value }
    }
}

/// A store in bytes that you lend: the image, and beside it the wrap flags, one bit a tier.
///
/// The image may lie anywhere and be longer than the plan needs; what lies past is never touched. Each call checks the image
/// again, so any bytes may be lent: what is not an image is refused.
///
/// The flags are not in the image. Within a `Store` they are kept; when the bytes alone were kept, as over a power cycle,
/// [`Store::open`] works them out, and all reads as before. [`Store::into_parts`] and [`Store::resume`] carry both.
///
/// Bytes that are only to be read are opened by [`View::open`].
pub struct Store<'a> {
    image: &'a mut [u8],
    flags: u32,
}

impl<'a> Store<'a> {
    /// Writes a plan's fresh image at the start of `image`.
    ///
    /// ```
    /// use rondo::{Plan, Refusal, Store, TierConfig};
    ///
    /// let plan = Plan::new().schema(1, 7, &[TierConfig::from_nanos(10, 40, None)]);
    /// assert_eq!(plan.image_size(), Ok(228));
    /// let mut image = [0; 228];
    /// let store = Store::create(&plan, &mut image)?;
    /// assert_eq!(store.flags(), 0);
    /// assert_eq!(Store::create(&plan, &mut image[..227]).unwrap_err(), Refusal::ShortBuffer);
    /// # Ok::<(), Refusal>(())
    /// ```
    ///
    /// # Errors
    ///
    /// Those of [`Plan::image_size`], then [`Refusal::ShortBuffer`]. The bytes then stay as they were.
    pub fn create(plan: &Plan, image: &'a mut [u8]) -> Result<Self, Refusal> {
        let mut flags = 0;
        calls::create(plan.as_bytes(), image, &mut flags)?;
        Ok(Store { image, flags })
    }

    /// Opens an image whose flags were not kept: checks it, and works the flags out from the stamps above each ring's cursor.
    /// What was recorded through this crate is then read as before.
    ///
    /// ```
    /// # use rondo::{Plan, SeriesHandle, Store, TierConfig};
    /// # let plan = Plan::new().schema(1, 7, &[TierConfig::from_nanos(10, 40, None)]);
    /// # let mut image = [0; 228];
    /// # let handle = SeriesHandle::new(0, 0);
    /// let mut store = Store::create(&plan, &mut image)?;
    /// store.record(handle, 1.5, 20)?;
    /// // off, and on again: the bytes are there, the flags are not
    /// let store = Store::open(&mut image)?;
    /// assert!(store.query(handle, 0, 0, u64::MAX)?.points().eq([(20, 1.5)]));
    /// # Ok::<(), rondo::Refusal>(())
    /// ```
    ///
    /// # Errors
    ///
    /// Those of [`Plan::image_size`], [`Refusal::BadImage`] also for bytes that end before the image does, then
    /// [`Refusal::CorruptedSlab`].
    pub fn open(image: &'a mut [u8]) -> Result<Self, Refusal> {
        let flags = View::open(image)?.flags();
        Ok(Store { image, flags })
    }

    /// Takes an image up again with the flags that were kept with it, without a check: the first call makes it. With other
    /// flags than were left, points are read in another order, or left out.
    pub fn resume(image: &'a mut [u8], flags: u32) -> Self {
        Store { image, flags }
    }

    /// The image and the flags, to be kept together ([`Store::resume`]).
    ///
    /// ```
    /// # use rondo::{Plan, SeriesHandle, Store, TierConfig};
    /// # let plan = Plan::new().schema(1, 7, &[TierConfig::from_nanos(10, 40, None)]);
    /// # let mut image = [0; 228];
    /// # let store = Store::create(&plan, &mut image)?;
    /// let (image, flags) = store.into_parts();
    /// let store = Store::resume(image, flags);
    /// assert_eq!(store.image().len(), 228);
    /// # Ok::<(), rondo::Refusal>(())
    /// ```
    pub fn into_parts(self) -> (&'a mut [u8], u32) {
        (self.image, self.flags)
    }

    /// The bytes that were lent.
    pub fn image(&self) -> &[u8] {
        self.image
    }

    /// The wrap flags: bit i belongs to the plan's tier i, counted over all schemas. It is 1 where all slots of the ring are
    /// read, from the one behind the slot written last; 0 where those from the first up to that one are.
    pub fn flags(&self) -> u32 {
        self.flags
    }

    /// The store as it stands, for reading alone: its tiers too.
    pub fn view(&self) -> View<'_> {
        View::resume(self.image, self.flags)
    }

    /// Records a value in a series' finest tier. The slot is the stamp's, `stamp / interval` modulo slots. NaN is stored, and
    /// read as no value.
    ///
    /// A slot has one stamp for all series of the schema, and the later stamp wins: one below the slot's is refused with
    /// [`Refusal::OldSample`], on equal stamps the later call wins. The slot's stamp decides, not the tier's newest: a late
    /// sample is taken where its slot is empty or holds an earlier stamp. Record a backlog oldest first, and drop what is refused
    /// so. A stamp that ran ahead keeps its slot until samples reach it, and once a run has read it the coarser tiers get
    /// nothing until samples reach its window.
    ///
    /// ```
    /// # use rondo::{Plan, Refusal, SeriesHandle, Store, TierConfig};
    /// # let plan = Plan::new().schema(1, 7, &[TierConfig::from_nanos(10, 40, None)]);
    /// # let mut image = [0; 228];
    /// # let mut store = Store::create(&plan, &mut image)?;
    /// store.record(SeriesHandle::new(0, 0), 1.5, 20)?;
    /// assert_eq!(store.record(SeriesHandle::new(0, 1), 1.5, 20), Err(Refusal::InvalidHandle));
    ///
    /// // four slots of 10 ns: 60 has the slot of 20
    /// store.record(SeriesHandle::new(0, 0), 2.5, 60)?;
    /// assert_eq!(store.record(SeriesHandle::new(0, 0), 1.5, 20), Err(Refusal::OldSample));
    /// store.record(SeriesHandle::new(0, 0), 3.5, 60)?; // the same stamp again
    /// store.record(SeriesHandle::new(0, 0), 4.5, 30)?; // late, in a slot of its own
    /// # Ok::<(), Refusal>(())
    /// ```
    ///
    /// # Errors
    ///
    /// Those of [`Store::open`], then [`Refusal::InvalidHandle`], [`Refusal::InvalidValue`], [`Refusal::InvalidTimestamp`],
    /// [`Refusal::OldSample`], in this order. Nothing is changed then.
    pub fn record(&mut self, handle: SeriesHandle, value: f64, timestamp_ns: u64) -> Result<(), Refusal> {
        calls::record(self.image, &mut self.flags, Entry { handle, value }, timestamp_ns)
    }

    /// Records values at one stamp, all or none, of one schema or several. This is the fast way to record: the image is
    /// checked once. Of a series named twice the last value stays. No entries: nothing is changed.
    ///
    /// ```
    /// # use rondo::{Entry, Plan, Refusal, SeriesHandle, Store, TierConfig};
    /// # let plan = Plan::new().schema(2, 7, &[TierConfig::from_nanos(10, 40, None)]);
    /// # let mut image = [0; 264];
    /// # let mut store = Store::create(&plan, &mut image)?;
    /// let (offset, drift) = (SeriesHandle::new(0, 0), SeriesHandle::new(0, 1));
    /// store.record_batch(&[Entry::new(offset, 12.0), Entry::new(drift, -0.5)], 20)?;
    /// assert!(store.query(drift, 0, 0, u64::MAX)?.points().eq([(20, -0.5)]));
    /// # Ok::<(), Refusal>(())
    /// ```
    ///
    /// # Errors
    ///
    /// Those of [`Store::open`]; then, if there are entries, [`Refusal::InvalidHandle`] for any entry,
    /// [`Refusal::InvalidTimestamp`], [`Refusal::InvalidValue`] for any entry, [`Refusal::OldSample`] where the slot of any
    /// entry's ring holds a later stamp, in this order. Nothing is changed then, not in the other schemas' rings either; a
    /// schema without an entry is not asked.
    pub fn record_batch(&mut self, entries: &[Entry], timestamp_ns: u64) -> Result<(), Refusal> {
        calls::record_batch(self.image, &mut self.flags, entries, timestamp_ns)
    }

    /// The points of a series in a tier (0 is the finest) with `start_ns <= stamp < end_ns`. All time is 0 and `u64::MAX`.
    ///
    /// ```
    /// # use rondo::{Plan, Refusal, SeriesHandle, Store, TierConfig};
    /// # let plan = Plan::new().schema(1, 7, &[TierConfig::from_nanos(10, 40, None)]);
    /// # let mut image = [0; 228];
    /// # let mut store = Store::create(&plan, &mut image)?;
    /// # let handle = SeriesHandle::new(0, 0);
    /// store.record(handle, 1.5, 20)?;
    /// store.record(handle, 2.5, 30)?;
    /// let answer = store.query(handle, 0, 0, 30)?;
    /// assert_eq!(answer.available_range(), (Some(20), Some(30)));
    /// assert_eq!(answer.requested_range(), (0, 30));
    /// assert!(answer.may_be_incomplete()); // the range starts before the oldest stamp
    /// for (stamp, value) in answer {
    ///     assert_eq!((stamp, value), (20, 1.5));
    /// }
    /// assert_eq!(store.query(handle, 1, 0, 30).unwrap_err(), Refusal::InvalidTier);
    /// # Ok::<(), Refusal>(())
    /// ```
    ///
    /// # Errors
    ///
    /// Those of [`Store::open`], then [`Refusal::InvalidHandle`], [`Refusal::InvalidTier`], [`Refusal::InvalidTimeRange`], in
    /// this order.
    pub fn query(&self, handle: SeriesHandle, tier: u32, start_ns: u64, end_ns: u64) -> Result<QueryResult<'_>, Refusal> {
        self.view().query(handle, tier, start_ns, end_ns)
    }

    /// The same in the first tier that covers the range in full (it starts at the oldest stamp or later, and ends at the
    /// newest or before), else in the last tier that is not empty, else in the finest.
    ///
    /// ```
    /// # use rondo::{Plan, SeriesHandle, Store, TierConfig};
    /// # let plan = Plan::new().schema(1, 7, &[TierConfig::from_nanos(10, 40, None)]);
    /// # let mut image = [0; 228];
    /// # let mut store = Store::create(&plan, &mut image)?;
    /// # let handle = SeriesHandle::new(0, 0);
    /// let answer = store.query_auto(handle, 10, 40)?;
    /// assert_eq!((answer.tier_used(), answer.oldest(), answer.may_be_incomplete()), (0, None, true));
    /// # Ok::<(), rondo::Refusal>(())
    /// ```
    ///
    /// # Errors
    ///
    /// Those of [`Store::open`], then [`Refusal::InvalidHandle`], [`Refusal::InvalidTimeRange`], in this order.
    pub fn query_auto(&self, handle: SeriesHandle, start_ns: u64, end_ns: u64) -> Result<QueryResult<'_>, Refusal> {
        self.view().query_auto(handle, start_ns, end_ns)
    }

    /// The panel's figure of a series in a tier (0 is the finest): the last point that a query over all time hands out, as a
    /// whole number of nanoseconds, the nearest one, of two equally near ones the even one. None where there is no point.
    ///
    /// ```
    /// # use rondo::{Plan, Refusal, SeriesHandle, Store, TierConfig};
    /// # let plan = Plan::new().schema(1, 7, &[TierConfig::from_nanos(10, 40, None)]);
    /// # let mut image = [0; 228];
    /// # let mut store = Store::create(&plan, &mut image)?;
    /// # let handle = SeriesHandle::new(0, 0);
    /// assert_eq!(store.panel(handle, 0)?, None);
    /// store.record(handle, -2.5, 20)?;
    /// assert_eq!(store.panel(handle, 0)?, Some(-2));
    /// store.record(handle, 1e300, 30)?;
    /// assert_eq!(store.panel(handle, 0), Err(Refusal::OffPanel));
    /// # Ok::<(), Refusal>(())
    /// ```
    ///
    /// # Errors
    ///
    /// Those of [`Store::open`], then [`Refusal::InvalidHandle`], [`Refusal::InvalidTier`], and, where there is a point,
    /// [`Refusal::OffPanel`], in this order.
    pub fn panel(&self, handle: SeriesHandle, tier: u32) -> Result<Option<i64>, Refusal> {
        self.view().panel(handle, tier)
    }

    /// The service figure of a series in a tier (0 is the finest): the same point in full, with both ends of the reading. None
    /// where there is no point.
    ///
    /// ```
    /// # use rondo::{Plan, Refusal, SeriesHandle, Store, TierConfig};
    /// # let plan = Plan::new().schema(1, 7, &[TierConfig::from_nanos(10, 40, None)]);
    /// # let mut image = [0; 228];
    /// # let mut store = Store::create(&plan, &mut image)?;
    /// # let handle = SeriesHandle::new(0, 0);
    /// store.record(handle, 12.25, 20)?;
    /// store.record(handle, 1e300, 30)?;
    /// store.record(handle, f64::NAN, 35)?; // in the slot of 30
    /// let figure = store.service(handle, 0)?.unwrap();
    /// assert_eq!((figure.stamp, figure.value), (20, 12.25));
    /// assert_eq!((figure.oldest, figure.newest), (20, 35));
    /// # Ok::<(), Refusal>(())
    /// ```
    ///
    /// # Errors
    ///
    /// Those of [`Store::open`], then [`Refusal::InvalidHandle`], [`Refusal::InvalidTier`], in this order.
    pub fn service(&self, handle: SeriesHandle, tier: u32) -> Result<Option<ServiceFigure>, Refusal> {
        self.view().service(handle, tier)
    }

    /// Brings every coarser tier up to date, and answers how many values were written. It may follow any sample. The window
    /// that the last run ended in is read again from its start, over the samples that the finer ring still has, and is counted
    /// again, even where nothing is new: run it at least once in each coarsest interval, and let every ring but the coarsest
    /// hold two of those.
    ///
    /// A window that starts below the stamp that its slot holds is passed over: it is neither written nor counted, and nothing
    /// is refused. In an image that this crate wrote that is so only after a run that was refused, or cut
    /// short.
    ///
    /// It looks at every stamp of each ring but the coarsest. An image that came from elsewhere may take long, as many passes
    /// over a ring as it has slots: don't run one that you don't trust where nothing may wait.
    ///
    /// # Errors
    ///
    /// Those of [`Store::open`], and nothing is changed then. After those, by pair of tiers,
    /// [`Refusal::NoConsolidationFunction`], [`Refusal::CorruptedSlab`], [`Refusal::InvalidValue`] (a sum that overflowed),
    /// [`Refusal::InvalidTimestamp`] (the window that starts at 0). **Such a refused run keeps what it did before**: the values
    /// that it wrote, their flags, and how far the pairs before are done. How many those are is not answered.
    ///
    /// ```
    /// use rondo::{ConsolidationFn, Plan, Refusal, SeriesHandle, Store, TierConfig};
    ///
    /// // the coarsest tier has no function: the run makes the middle one, and is refused then
    /// let plan = Plan::new().schema(1, 7, &[
    ///     TierConfig::from_nanos(10, 120, None),
    ///     TierConfig::from_nanos(30, 120, Some(ConsolidationFn::Sum)),
    ///     TierConfig::from_nanos(60, 120, None),
    /// ]);
    /// let mut image = [0; 1024];
    /// let mut store = Store::create(&plan, &mut image)?;
    /// let handle = SeriesHandle::new(0, 0);
    /// store.record(handle, 1.0, 60)?;
    /// store.record(handle, 2.0, 70)?;
    /// assert_eq!(store.consolidate(), Err(Refusal::NoConsolidationFunction));
    /// assert!(store.query(handle, 1, 0, u64::MAX)?.points().eq([(60, 3.0)]));
    /// # Ok::<(), Refusal>(())
    /// ```
    pub fn consolidate(&mut self) -> Result<u64, Refusal> {
        calls::consolidate(self.image, &mut self.flags)
    }
}

impl fmt::Debug for Store<'_> {
    fn fmt(&self, f: &mut fmt::Formatter<'_>) -> fmt::Result {
        f.debug_struct("Store").field("bytes", &self.image.len()).field("flags", &self.flags).finish()
    }
}
