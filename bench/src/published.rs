//! The published Rust with request 2026-01's line altered, on files in memory (/dev/shm).
use std::fs::OpenOptions;
use std::hint::black_box;
use std::mem::take;
use std::os::unix::fs::FileExt;
use std::path::PathBuf;
use std::time::Duration;

use rondo::consolidate::ConsolidationCursors;
use rondo::ring::RingBuffer;
use rondo::schema::{ConsolidationFn, LabelMatcher, SchemaConfig, TierConfig};
use rondo::series::SeriesHandle;
use rondo::slab::Slab;
use rondo::store::Store;

use crate::calls::{Plan, Side};

pub struct Published {
    dir: PathBuf,
    configs: Vec<SchemaConfig>,
    store: Option<Store>,
    slabs: Vec<Slab>,
    entries: Vec<(SeriesHandle, f64)>,
}

impl Published {
    pub fn new() -> Self {
        let base = std::env::var("BENCH_DIR").unwrap_or("/dev/shm".into());
        let dir = PathBuf::from(base).join(format!("bench-{}", std::process::id()));
        let _ = std::fs::remove_dir_all(&dir);
        Self { dir, configs: Vec::new(), store: None, slabs: Vec::new(), entries: Vec::new() }
    }

    fn store(&mut self) -> &mut Store {
        self.store.as_mut().unwrap()
    }
}

fn handle(column: u32) -> SeriesHandle {
    SeriesHandle::new(0, column, column)
}

fn read(points: impl Iterator<Item = (u64, f64)>) -> (u64, f64) {
    points.fold((0, 0.0), |(n, sum), (_, v)| (n + 1, sum + v))
}

impl Side for Published {
    fn create(&mut self, plan: &Plan) {
        self.store = None;
        self.slabs.clear();
        let _ = std::fs::remove_dir_all(&self.dir);
        let tiers: Vec<TierConfig> = (plan.tiers.iter())
            .map(|t| TierConfig {
                interval: Duration::from_nanos(t.interval),
                retention: Duration::from_nanos(t.interval * t.slots),
                consolidation_fn: (t.function == 1).then_some(ConsolidationFn::Average),
            })
            .collect();
        let config = SchemaConfig {
            name: "s".to_string(),
            label_matcher: LabelMatcher::any(),
            tiers,
            max_series: plan.series,
        };
        self.configs = vec![config; plan.schemas as usize];
        self.store = Some(Store::open(&self.dir, self.configs.clone()).unwrap());
    }

    fn open(&mut self) {
        self.store = None;
        self.store = Some(Store::open(&self.dir, self.configs.clone()).unwrap());
    }

    fn hold(&mut self) {
        self.store = None;
        for (s, config) in self.configs.iter().enumerate() {
            let tiers = 0..config.tiers.len();
            let path = |t| self.dir.join(format!("schema_{s}")).join(format!("tier_{t}.slab"));
            self.slabs.extend(tiers.map(|t| Slab::open(path(t)).unwrap()));
        }
    }

    fn flags(&mut self) {
        let again = |slab| black_box(RingBuffer::new(slab)).into_slab();
        self.slabs = take(&mut self.slabs).into_iter().map(again).collect();
    }

    fn record(&mut self, column: u32, value: f64, stamp: u64) {
        self.store().record(handle(column), value, stamp).unwrap();
    }

    fn entries(&mut self, series: u32) {
        self.entries = (0..series).map(|c| (handle(c), c as f64)).collect();
    }

    fn batch(&mut self, stamp: u64) {
        self.store.as_mut().unwrap().record_batch(&self.entries, stamp).unwrap();
    }

    fn query(&mut self, column: u32, tier: u32, start: u64, end: u64) -> (u64, f64) {
        read(self.store().query(handle(column), tier as usize, start, end).unwrap())
    }

    fn query_auto(&mut self, column: u32, start: u64, end: u64) -> (u64, f64) {
        read(self.store().query_auto(handle(column), start, end).unwrap())
    }

    fn ask(&mut self, column: u32, tier: u32, start: u64, end: u64) {
        black_box(&self.store().query(handle(column), tier as usize, start, end).unwrap());
    }

    fn ask_auto(&mut self, column: u32, start: u64, end: u64) {
        black_box(&self.store().query_auto(handle(column), start, end).unwrap());
    }

    fn panel(&mut self, column: u32, tier: u32) -> Option<i64> {
        let last = self.store().query(handle(column), tier as usize, 0, u64::MAX).unwrap().last();
        last.map(|(_, value)| value.round_ties_even() as i64)
    }

    fn service(&mut self, column: u32, tier: u32) -> Option<[u64; 4]> {
        let found = self.store().query(handle(column), tier as usize, 0, u64::MAX).unwrap();
        let (oldest, newest) = found.available_range();
        found.last().map(|(stamp, value)| [stamp, value.to_bits(), oldest.unwrap(), newest.unwrap()])
    }

    fn consolidate(&mut self) -> u64 {
        self.store().consolidate().unwrap() as u64
    }

    fn set_mark(&mut self, mark: u64) {
        let mut cursors = ConsolidationCursors::default();
        cursors.update_last_processed(0, 0, 1, mark);
        cursors.save(self.dir.join("consolidation_cursors.json")).unwrap();
    }

    /// By the slab's file, which the store has mapped.
    fn set_stamps(&mut self, stamps: &[u64]) {
        let slab = OpenOptions::new().write(true).open(self.dir.join("schema_0").join("tier_0.slab")).unwrap();
        let bytes: Vec<u8> = stamps.iter().flat_map(|t| t.to_le_bytes()).collect();
        slab.write_all_at(&bytes, 64 + 4 * self.configs[0].max_series as u64).unwrap();
    }
}

impl Drop for Published {
    fn drop(&mut self) {
        self.store = None;
        let _ = std::fs::remove_dir_all(&self.dir);
    }
}

