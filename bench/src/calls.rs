//! What both sides are asked: a store's tiers, and the calls.

#[derive(Clone, Copy)]
pub struct Tier {
    pub interval: u64,
    pub slots: u64,
    /// Document 01's number of the function, 0 for none.
    pub function: u32,
}

/// Schemas that are alike, each with these tiers and this many series.
#[derive(Clone)]
pub struct Plan {
    pub schemas: u32,
    pub tiers: Vec<Tier>,
    pub series: u32,
}

pub const SECOND: u64 = 1_000_000_000;

pub trait Side {
    /// Creates the store.
    fn create(&mut self, plan: &Plan);
    /// Opens again what was created.
    fn open(&mut self);
    /// Lets the store go and holds its rings, for `flags`.
    fn hold(&mut self) {}
    /// Works out the wrap flags of the rings that are held. No file is opened.
    fn flags(&mut self);
    fn record(&mut self, column: u32, value: f64, stamp: u64);
    /// A record that is refused, its slot holding a later stamp. The Rust takes it, and is not asked.
    fn record_old(&mut self, _column: u32, _value: f64, _stamp: u64) {
        unreachable!("ours alone");
    }
    /// The entries of the batches to come: a value for each column of schema 0.
    fn entries(&mut self, series: u32);
    fn batch(&mut self, stamp: u64);
    /// Reads all points: how many, and their sum.
    fn query(&mut self, column: u32, tier: u32, start: u64, end: u64) -> (u64, f64);
    /// From here on a query's points are read one a call, where there is another way.
    fn step_readers(&mut self) {}
    fn query_auto(&mut self, column: u32, start: u64, end: u64) -> (u64, f64);
    /// A query's answer alone: no point is read.
    fn ask(&mut self, column: u32, tier: u32, start: u64, end: u64);
    fn ask_auto(&mut self, column: u32, start: u64, end: u64);
    /// The panel's figure: the last point's value over all time, as a whole number. The Rust has no such call: it is asked for
    /// all points, and the last is taken.
    fn panel(&mut self, column: u32, tier: u32) -> Option<i64>;
    /// The service figure, in the same way: stamp, value's pattern, oldest, newest.
    fn service(&mut self, column: u32, tier: u32) -> Option<[u64; 4]>;
    fn consolidate(&mut self) -> u64;
    /// Sets the mark of the pair of tiers 0 and 1, as if a run had ended there.
    fn set_mark(&mut self, mark: u64);
    /// Writes the stamps of schema 0's tier 0, slot by slot, whatever they are: what no list of calls leaves, too.
    fn set_stamps(&mut self, stamps: &[u64]);
}
