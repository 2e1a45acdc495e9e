//! What the tests share: plans and images, and the library's calls without the crate.
#![allow(dead_code)]

use rondo::{ConsolidationFn, Plan, QueryResult, SeriesHandle, TierConfig};

pub mod raw;

/// The first series of the first schema.
pub const FIRST: SeriesHandle = SeriesHandle::new(0, 0);

/// All time.
pub const EVER: (u64, u64) = (0, u64::MAX);

/// A tier in nanoseconds.
pub fn tier(interval: u64, retention: u64, function: Option<ConsolidationFn>) -> TierConfig {
    TierConfig::from_nanos(interval, retention, function)
}

/// 10 ns for 120 ns, averaged into 30 ns for 120 ns; one series.
pub fn tens_into_thirties() -> Plan {
    Plan::new().schema(1, 7, &[tier(10, 120, None), tier(30, 120, Some(ConsolidationFn::Average))])
}

/// Bytes for a plan's image, all 0.
pub fn bytes_for(plan: &Plan) -> Vec<u8> {
    vec![0; plan.image_size().unwrap() as usize]
}

/// An answer's points, each stamp with the value's pattern.
pub fn patterns(answer: QueryResult) -> Vec<(u64, u64)> {
    answer.points().map(|(stamp, value)| (stamp, value.to_bits())).collect()
}

/// The number of so many bytes at an offset.
pub fn number_at(bytes: &[u8], at: usize, width: usize) -> u64 {
    bytes[at..at + width].iter().rev().fold(0, |number, &byte| number << 8 | u64::from(byte))
}

/// Writes a number of eight bytes.
pub fn put(bytes: &mut [u8], at: usize, number: u64) {
    bytes[at..at + 8].copy_from_slice(&number.to_le_bytes());
}

/// Numbers that look random, the same in every run.
pub struct Numbers(pub u64);

impl Numbers {
    pub fn below(&mut self, limit: u64) -> u64 {
        self.0 ^= self.0 << 13;
        self.0 ^= self.0 >> 7;
        self.0 ^= self.0 << 17;
        self.0 % limit
    }
}
