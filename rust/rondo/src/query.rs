//! What a query answers.

use core::fmt;
use core::iter::FusedIterator;

use crate::calls::{self, Answer};

/// A query's answer: which tier, what its ring holds, and the points ([`QueryResult::points`], or a `for` loop over the
/// answer). It borrows the store, so nothing can change the image while points are read:
///
/// ```
/// # use rondo::{Plan, SeriesHandle, Store, TierConfig};
/// # let plan = Plan::new().schema(1, 7, &[TierConfig::from_nanos(10, 40, None)]);
/// # let mut image = [0; 256];
/// # let mut store = Store::create(&plan, &mut image)?;
/// # let handle = SeriesHandle::new(0, 0);
/// store.record(handle, 1.5, 20)?;
/// let answer = store.query(handle, 0, 0, u64::MAX)?;
/// assert_eq!(answer.points().next(), Some((20, 1.5)));
/// store.record(handle, 2.5, 30)?; // the answer is not used any more
/// # Ok::<(), rondo::Refusal>(())
/// ```
///
/// The same with the last two lines the other way round is refused by the compiler:
///
/// ```compile_fail,E0502
/// # use rondo::{Plan, SeriesHandle, Store, TierConfig};
/// # let plan = Plan::new().schema(1, 7, &[TierConfig::from_nanos(10, 40, None)]);
/// # let mut image = [0; 256];
/// # let mut store = Store::create(&plan, &mut image)?;
/// # let handle = SeriesHandle::new(0, 0);
/// store.record(handle, 1.5, 20)?;
/// let answer = store.query(handle, 0, 0, u64::MAX)?;
/// store.record(handle, 2.5, 30)?; // changes the image beneath the answer
/// assert_eq!(answer.points().next(), Some((20, 1.5)));
/// # Ok::<(), rondo::Refusal>(())
/// ```
///
/// Nor can the bytes themselves be changed while a store has them:
///
/// ```compile_fail,E0506
/// # use rondo::{Plan, SeriesHandle, Store, TierConfig};
/// # let plan = Plan::new().schema(1, 7, &[TierConfig::from_nanos(10, 40, None)]);
/// # let mut image = [0; 256];
/// # let mut store = Store::create(&plan, &mut image)?;
/// # let handle = SeriesHandle::new(0, 0);
/// let mut points = store.query(handle, 0, 0, u64::MAX)?.points();
/// image[0] = 0;
/// assert_eq!(points.next(), None);
/// # Ok::<(), rondo::Refusal>(())
/// ```
#[derive(Clone, Copy)]
pub struct QueryResult<'s> {
    slab: &'s [u8],
    answer: Answer,
}

impl<'s> QueryResult<'s> {
    /// The answer with the slab that it names.
    pub(crate) fn new(image: &'s [u8], answer: Answer) -> Self {
        // the library answers a range within the image; an empty slab has no points
        let slab = image.get(answer.from as usize..answer.to as usize).unwrap_or(&[]);
        QueryResult { slab, answer }
    }

    /// The tier that was read, 0 being the finest.
    pub fn tier_used(&self) -> u32 {
        self.answer.tier as u32
    }

    /// The ring's oldest stamp, the first in reading order; none where the ring is empty.
    pub fn oldest(&self) -> Option<u64> {
        (self.answer.oldest != 0).then_some(self.answer.oldest)
    }

    /// The ring's newest stamp, the one written last, even where it is not the greatest; none where the ring is empty.
    pub fn newest(&self) -> Option<u64> {
        (self.answer.newest != 0).then_some(self.answer.newest)
    }

    /// Oldest and newest stamp.
    pub fn available_range(&self) -> (Option<u64>, Option<u64>) {
        (self.oldest(), self.newest())
    }

    /// The range that was asked for: its start, and its end, which is left out.
    pub fn requested_range(&self) -> (u64, u64) {
        (self.answer.start, self.answer.end)
    }

    /// Whether there may have been older points in the range: it starts before the oldest stamp, or the ring is empty.
    pub fn may_be_incomplete(&self) -> bool {
        self.answer.incomplete != 0
    }

    /// The points, from the first on.
    ///
    /// ```
    /// # use rondo::{Plan, SeriesHandle, Store, TierConfig};
    /// # let plan = Plan::new().schema(1, 7, &[TierConfig::from_nanos(10, 40, None)]);
    /// # let mut image = [0; 256];
    /// # let mut store = Store::create(&plan, &mut image)?;
    /// # let handle = SeriesHandle::new(0, 0);
    /// # for (stamp, value) in [(10, 1.0), (20, 2.0), (30, 3.0)] { store.record(handle, value, stamp)?; }
    /// let answer = store.query(handle, 0, 20, 40)?;
    /// assert!(answer.points().eq([(20, 2.0), (30, 3.0)]));
    /// assert_eq!(answer.points().map(|(_, value)| value).sum::<f64>(), 5.0);
    /// # Ok::<(), rondo::Refusal>(())
    /// ```
    pub fn points(&self) -> Points<'s> {
        Points { slab: self.slab, answer: self.answer, read: [[0; 2]; ROOM], next: 0, stored: 0, ended: false }
    }
}

impl fmt::Debug for QueryResult<'_> {
    fn fmt(&self, f: &mut fmt::Formatter<'_>) -> fmt::Result {
        f.debug_struct("QueryResult")
            .field("tier_used", &self.tier_used())
            .field("available_range", &self.available_range())
            .field("requested_range", &self.requested_range())
            .field("may_be_incomplete", &self.may_be_incomplete())
            .finish_non_exhaustive()
    }
}

impl<'s> IntoIterator for QueryResult<'s> {
    type Item = (u64, f64);
    type IntoIter = Points<'s>;

    fn into_iter(self) -> Points<'s> {
        self.points()
    }
}

impl<'s> IntoIterator for &QueryResult<'s> {
    type Item = (u64, f64);
    type IntoIter = Points<'s>;

    fn into_iter(self) -> Points<'s> {
        self.points()
    }
}

/// How many points are read in one call of the library.
const ROOM: usize = 32;

/// The points of a [`QueryResult`] in the ring's order, each a stamp and a value that is not NaN. The library is called once
/// for 32 points.
#[derive(Clone)]
pub struct Points<'s> {
    slab: &'s [u8],
    answer: Answer,
    read: [[u64; 2]; ROOM],
    next: usize,
    stored: usize,
    ended: bool,
}

impl Points<'_> {
    /// Reads on, once all that was read is handed out.
    fn refill(&mut self) {
        self.next = 0;
        self.stored = calls::read(self.slab, &mut self.answer, &mut self.read);
        self.ended = self.stored < ROOM;
    }

    fn unread(&self) -> usize {
        if self.ended { 0 } else { self.answer.place.left as usize }
    }
}

impl Iterator for Points<'_> {
    type Item = (u64, f64);

    fn next(&mut self) -> Option<(u64, f64)> {
        if self.next >= self.stored {
            if self.ended {
                return None;
            }
            self.refill();
        }
        let [stamp, bits] = *self.read[..self.stored.min(ROOM)].get(self.next)?;
        self.next += 1;
        Some((stamp, f64::from_bits(bits)))
    }

    fn size_hint(&self) -> (usize, Option<usize>) {
        let held = self.stored - self.next;
        (held, held.checked_add(self.unread()))
    }
}

impl FusedIterator for Points<'_> {}

impl fmt::Debug for Points<'_> {
    fn fmt(&self, f: &mut fmt::Formatter<'_>) -> fmt::Result {
        f.debug_struct("Points").field("size_hint", &self.size_hint()).finish_non_exhaustive()
    }
}
