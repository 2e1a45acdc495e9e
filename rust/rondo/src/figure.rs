//! What service tools get of a series.

/// The last point of a series in a tier, with both ends of the reading ([`Store::service`](crate::Store::service)).
#[derive(Debug, Clone, Copy, PartialEq)]
pub struct ServiceFigure {
    /// The point's stamp.
    pub stamp: u64,
    /// Its value in full, not NaN. No call records an infinite one; an image from elsewhere may have some.
    pub value: f64,
    /// The ring's oldest stamp, the first in reading order, whatever this series has there.
    pub oldest: u64,
    /// The ring's newest stamp, the one written last, whatever this series has there, even where it is not the greatest.
    pub newest: u64,
}
