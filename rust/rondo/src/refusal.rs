//! What a call may be refused for.

use core::error::Error;
use core::fmt;

/// Why a call was refused. A refusal leaves the image and the flags as they were;
/// [`Store::consolidate`](crate::Store::consolidate) alone keeps what it did before.
///
/// ```
/// use rondo::{Plan, Refusal};
///
/// let refusal = Plan::new().schema(2, 7, &[]).image_size().unwrap_err();
/// assert_eq!(refusal, Refusal::NoTiers);
/// assert_eq!(refusal.number(), 2);
/// assert_eq!(refusal.name(), "NoTiers");
/// assert_eq!(refusal.to_string(), "a schema has no tier");
/// ```
///
/// A later change of the rules may add one: a `match` needs an arm for the rest.
#[derive(Debug, Clone, Copy, PartialEq, Eq, PartialOrd, Ord, Hash)]
#[non_exhaustive]
#[repr(u32)]
pub enum Refusal {
    /// The table of contents is not as it must be, or the image is shorter than it says; or a plan has no schema,
    /// more than 8 or more than 32 tiers in all.
    BadImage = 1,
    /// A schema has no tier.
    NoTiers = 2,
    /// A schema's greatest number of series is 0.
    InvalidMaxSeries = 3,
    /// An interval or a retention is 0, or 2^63 ns or more, or the retention is below the interval.
    InvalidTierConfig = 4,
    /// A tier would have more than 1,000,000,000 slots.
    TooManySlots = 5,
    /// A tier's interval is not above the finer tier's.
    TiersNotOrdered = 6,
    /// A schema's finest tier has a function.
    ConsolidationOnHighestTier = 7,
    /// The image would be longer than 2^40 bytes.
    LayoutTooLarge = 8,
    /// The bytes lent for a new image are too few.
    ShortBuffer = 9,
    /// A slab's header is damaged; or a run found a stamp of 2^63 or more.
    CorruptedSlab = 10,
    /// There is no such schema, or no such column in it.
    InvalidHandle = 11,
    /// The value is infinite. NaN is accepted, as no value.
    InvalidValue = 12,
    /// The stamp is 0, or 2^63 or more.
    InvalidTimestamp = 13,
    /// The schema has no such tier.
    InvalidTier = 14,
    /// The range's start is not below its end.
    InvalidTimeRange = 15,
    /// A coarser tier has no function.
    NoConsolidationFunction = 16,
    /// The last point's value is beyond ±2^53, or infinite: [`Store::panel`](crate::Store::panel) has no number for it.
    OffPanel = 17,
    /// The stamp is below the one that its slot of the ring holds: the later stamp wins
    /// ([`Store::record`](crate::Store::record)).
    OldSample = 18,
}

impl Refusal {
    /// All refusals, by number.
    pub const ALL: [Refusal; 18] = [
        Refusal::BadImage,
        Refusal::NoTiers,
        Refusal::InvalidMaxSeries,
        Refusal::InvalidTierConfig,
        Refusal::TooManySlots,
        Refusal::TiersNotOrdered,
        Refusal::ConsolidationOnHighestTier,
        Refusal::LayoutTooLarge,
        Refusal::ShortBuffer,
        Refusal::CorruptedSlab,
        Refusal::InvalidHandle,
        Refusal::InvalidValue,
        Refusal::InvalidTimestamp,
        Refusal::InvalidTier,
        Refusal::InvalidTimeRange,
        Refusal::NoConsolidationFunction,
        Refusal::OffPanel,
        Refusal::OldSample,
    ];

    /// Its number, 1 to 18, as in the header for C.
    pub const fn number(self) -> u32 {
        self as u32
    }

    /// The refusal with this number; none where there is no such number.
    ///
    /// ```
    /// use rondo::Refusal;
    ///
    /// assert_eq!(Refusal::from_number(15), Some(Refusal::InvalidTimeRange));
    /// assert_eq!(Refusal::from_number(0), None);
    /// assert_eq!(Refusal::from_number(19), None);
    /// ```
    pub const fn from_number(number: u32) -> Option<Refusal> {
        if number >= 1 && number as usize <= Refusal::ALL.len() { Some(Refusal::ALL[number as usize - 1]) } else { None }
    }

    /// Its name, as in this enum.
    pub const fn name(self) -> &'static str {
        match self {
            Refusal::BadImage => "BadImage",
            Refusal::NoTiers => "NoTiers",
            Refusal::InvalidMaxSeries => "InvalidMaxSeries",
            Refusal::InvalidTierConfig => "InvalidTierConfig",
            Refusal::TooManySlots => "TooManySlots",
            Refusal::TiersNotOrdered => "TiersNotOrdered",
            Refusal::ConsolidationOnHighestTier => "ConsolidationOnHighestTier",
            Refusal::LayoutTooLarge => "LayoutTooLarge",
            Refusal::ShortBuffer => "ShortBuffer",
            Refusal::CorruptedSlab => "CorruptedSlab",
            Refusal::InvalidHandle => "InvalidHandle",
            Refusal::InvalidValue => "InvalidValue",
            Refusal::InvalidTimestamp => "InvalidTimestamp",
            Refusal::InvalidTier => "InvalidTier",
            Refusal::InvalidTimeRange => "InvalidTimeRange",
            Refusal::NoConsolidationFunction => "NoConsolidationFunction",
            Refusal::OffPanel => "OffPanel",
            Refusal::OldSample => "OldSample",
        }
    }

    // the header for C has the same words: c/tests/tables
    const fn words(self) -> &'static str {
        match self {
            Refusal::BadImage => {
                "the plan has no schema, more than 8 schemas, more than 32 tiers, rows out of order or a field that should be 0 and is not, or the image's table is damaged, or the image is cut short"
            }
            Refusal::NoTiers => "a schema has no tier",
            Refusal::InvalidMaxSeries => "a schema's greatest number of series is 0",
            Refusal::InvalidTierConfig => {
                "an interval or a retention is 0, or 2^63 ns or more, or the retention is below the interval"
            }
            Refusal::TooManySlots => "a tier would have more than 1000000000 slots",
            Refusal::TiersNotOrdered => "a tier's interval is not above the finer tier's",
            Refusal::ConsolidationOnHighestTier => "a schema's finest tier has a function",
            Refusal::LayoutTooLarge => "the image would be longer than 2^40 bytes",
            Refusal::ShortBuffer => "the bytes lent for the image are fewer than the plan needs",
            Refusal::CorruptedSlab => "a slab's header is damaged, or a stamp in it is 2^63 ns or more",
            Refusal::InvalidHandle => "there is no such schema, or no such column in it",
            Refusal::InvalidValue => "the value is infinite",
            Refusal::InvalidTimestamp => "the stamp is 0, or 2^63 ns or more",
            Refusal::InvalidTier => "the schema has no such tier",
            Refusal::InvalidTimeRange => "the range's start is not below its end",
            Refusal::NoConsolidationFunction => "a coarser tier has no function",
            Refusal::OffPanel => "the last point's value is beyond 2^53, either way, or infinite",
            Refusal::OldSample => "the stamp is below the one that its slot of the ring holds",
        }
    }
}

impl fmt::Display for Refusal {
    fn fmt(&self, f: &mut fmt::Formatter<'_>) -> fmt::Result {
        f.pad(self.words())
    }
}

impl Error for Refusal {}
