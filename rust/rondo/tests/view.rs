//! Reading without a mutable slice: the same answers as a store's, from bytes that nothing may write.

use rondo::{ConsolidationFn, Plan, Refusal, SeriesHandle, Store, TierConfig, View};

mod shared;
use shared::{EVER, FIRST, Numbers, bytes_for, patterns, tier};

const MEAN: Option<ConsolidationFn> = Some(ConsolidationFn::Average);

/// Two schemas, the first with three tiers.
fn schemas() -> [(u32, u64, Vec<TierConfig>); 2] {
    let fine = tier(10, 120, None);
    [(2, 7, vec![fine, tier(30, 180, MEAN), tier(60, 180, Some(ConsolidationFn::Count))]), (1, 8, vec![tier(7, 70, None)])]
}

fn plan() -> Plan {
    schemas().iter().fold(Plan::new(), |plan, (series, hash, tiers)| plan.schema(*series, *hash, tiers))
}

fn series() -> [SeriesHandle; 3] {
    [(0, 0), (0, 1), (1, 0)].map(|(schema, column)| SeriesHandle::new(schema, column))
}

/// Holds a view that was opened anew against the store: ends and points of every tier, and the tier that covers best.
fn same(view: View, store: &Store) {
    for handle in series() {
        let tiers = if handle.schema == 0 { 3 } else { 1 };
        for tier in 0..tiers {
            let (a, b) =
                (view.query(handle, tier, EVER.0, EVER.1).unwrap(), store.query(handle, tier, EVER.0, EVER.1).unwrap());
            assert_eq!((a.available_range(), patterns(a)), (b.available_range(), patterns(b)));
        }
        let (a, b) = (view.query_auto(handle, 200, 400).unwrap(), store.query_auto(handle, 200, 400).unwrap());
        assert_eq!((a.tier_used(), patterns(a)), (b.tier_used(), patterns(b)));
        assert_eq!(view.query(handle, tiers, 0, 1).unwrap_err(), Refusal::InvalidTier);
        assert_eq!(view.query_auto(handle, 1, 1).unwrap_err(), Refusal::InvalidTimeRange);
    }
}

/// The tiers are those of the plan, with the ends that a query answers.
fn as_planned(view: View) {
    let mut tiers = view.tiers().unwrap();
    let mut row = 0;
    for (schema, (max_series, hash, configs)) in (0..).zip(schemas()) {
        for (number, config) in (0..).zip(configs) {
            assert_eq!(tiers.len(), 4 - row);
            let told = tiers.next().unwrap();
            assert_eq!(
                (told.schema, told.tier, told.max_series, told.hash, told.config),
                (schema, number, max_series, hash, config)
            );
            let ends = view.query(SeriesHandle::new(schema, 0), number, EVER.0, EVER.1).unwrap().available_range();
            assert_eq!((told.oldest_timestamp, told.newest_timestamp), ends);
            assert_eq!(told.has_wrapped, view.flags() & 1 << row != 0);
            row += 1;
        }
    }
    assert_eq!((tiers.len(), tiers.next(), tiers.next()), (0, None, None));
}

#[test]
fn as_the_store() {
    let plan = plan();
    let mut image = bytes_for(&plan);
    let mut numbers = Numbers(916191069);
    let mut store = Store::create(&plan, &mut image).unwrap();
    let mut wrapped = 0;
    for k in 6..300 {
        let stamp = 10 * k + numbers.below(10);
        for handle in series() {
            store.record(handle, numbers.below(100) as f64, stamp).unwrap();
        }
        store.consolidate().unwrap();
        let view = store.view();
        assert_eq!((view.image(), view.flags()), (store.image(), store.flags()));
        as_planned(view);
        let opened = View::open(store.image()).unwrap();
        as_planned(opened);
        same(opened, &store);
        wrapped += store.flags().count_ones();
    }
    assert!(wrapped > 500);
}

#[test]
fn ends_and_marks() {
    let plan = plan();
    let mut image = bytes_for(&plan);
    let mut store = Store::create(&plan, &mut image).unwrap();
    assert!(
        store
            .view()
            .tiers()
            .unwrap()
            .all(|t| (t.oldest_timestamp, t.newest_timestamp, t.consolidated_to) == (None, None, None))
    );
    for k in 6..10 {
        store.record(FIRST, 1.0, 10 * k).unwrap();
    }
    store.consolidate().unwrap();
    let told: Vec<_> =
        store.view().tiers().unwrap().map(|t| (t.oldest_timestamp, t.newest_timestamp, t.consolidated_to)).collect();
    assert_eq!(told[..2], [(Some(60), Some(90), Some(90)), (Some(60), Some(90), Some(90))]);
    assert_eq!(told[2..], [(Some(60), Some(60), None), (None, None, None)]);
}

/// What a view answers outlives it; a constant is read as it lies.
#[test]
fn from_constant_bytes() {
    const FRESH: [u8; 2] = [0; 2];
    assert_eq!(View::open(&FRESH).unwrap_err(), Refusal::BadImage);
    let plan = Plan::new().schema(1, 7, &[tier(10, 40, None)]);
    let mut image = bytes_for(&plan);
    Store::create(&plan, &mut image).unwrap().record(FIRST, 2.5, 30).unwrap();
    let lent: &[u8] = &image;
    let points = {
        let view = View::open(lent).unwrap();
        view.query(FIRST, 0, EVER.0, EVER.1).unwrap().points()
    };
    assert!(points.eq([(30, 2.5)]));
}

/// Every byte of header, row and slab header damaged: view and store answer alike, and no tiers are told of a refused image.
#[test]
fn damaged_bytes() {
    let plan = plan();
    let mut image = bytes_for(&plan);
    let mut store = Store::create(&plan, &mut image).unwrap();
    store.record(FIRST, 1.0, 60).unwrap();
    let good = image;
    let mut refused = 0;
    for at in 0..32 + 4 * 64 + 64 {
        let mut bytes = good.clone();
        bytes[at] = !bytes[at];
        let answer = Store::open(&mut bytes).map(|store| store.flags());
        assert_eq!(View::open(&bytes).map(|view| view.flags()), answer);
        let told = View::resume(&bytes, u32::MAX).tiers().map(|tiers| tiers.count());
        assert_eq!(told, answer.map(|_| 4));
        refused += usize::from(answer.is_err());
    }
    assert!(refused > 200);
    for len in 0..good.len() {
        assert_eq!(View::resume(&good[..len], 0).tiers().unwrap_err(), Refusal::BadImage);
    }
}
