//! The cases A to L of docs/FORMAT.md, section 14, as far as the crate shows them.

use rondo::{ConsolidationFn, Entry, Plan, Refusal, Store};

mod shared;
use shared::{EVER, FIRST, bytes_for, number_at, patterns, put, tens_into_thirties, tier};

const AVERAGE: Option<ConsolidationFn> = Some(ConsolidationFn::Average);
const SECOND: u64 = 1_000_000_000;
const HEAD: usize = 32 + 64;

fn all(store: &Store, of_tier: u32) -> Vec<(u64, f64)> {
    store.query(FIRST, of_tier, EVER.0, EVER.1).unwrap().points().collect()
}

/// A store of one series, one tier of 10 ns, so many slots.
fn tens(image: &mut Vec<u8>, slots: u64) -> Store<'_> {
    let plan = Plan::new().schema(1, 7, &[tier(10, 10 * slots, None)]);
    *image = bytes_for(&plan);
    Store::create(&plan, image).unwrap()
}

#[test]
fn a_where_stamps_and_columns_stand() {
    let plan = Plan::new().schema(2, 7, &[tier(10, 600, None)]);
    assert_eq!(plan.image_size(), Ok(HEAD as u64 + 1512));
    let mut image = bytes_for(&plan);
    let mut store = Store::create(&plan, &mut image).unwrap();
    for column in 0..2 {
        let handle = rondo::SeriesHandle::new(0, column);
        store.record(handle, f64::from(column) + 1.0, 600).unwrap(); // slot 0
    }
    let slab = &store.image()[HEAD..];
    assert_eq!(number_at(slab, 72, 8), 600);
    assert_eq!(number_at(slab, 552, 8), 1.0f64.to_bits());
    assert_eq!(number_at(slab, 1032, 8), 2.0f64.to_bits());
}

#[test]
fn b_three_tiers() {
    let tiers = [(1, 3600, None), (60, 86_400, AVERAGE), (3600, 2_592_000, AVERAGE)];
    let tiers = tiers.map(|(i, r, f)| tier(i * SECOND, r * SECOND, f));
    assert_eq!(tiers.map(|t| t.slot_count()), [3600, 1440, 720]);
    let plan = Plan::new().schema(2, 7, &tiers);
    assert_eq!(plan.image_size(), Ok(138_680));
    let mut image = bytes_for(&plan);
    Store::create(&plan, &mut image).unwrap();
    let slabs = [0, 1, 2].map(|row| number_at(&image, 32 + 64 * row + 32, 8));
    assert_eq!(slabs, [224, 86_696, 121_328]);
}

#[test]
fn c_so_many_slots() {
    let size = |retention| Plan::new().schema(1, 7, &[tier(1, retention, None)]).image_size();
    assert_eq!(size(1_000_000_000), Ok(HEAD as u64 + 64 + 4 + 16_000_000_000));
    assert_eq!(size(1_000_000_001), Err(Refusal::TooManySlots));
}

#[test]
fn d_and_e_order_and_nan() {
    let mut image = Vec::new();
    let mut store = tens(&mut image, 4);
    for k in 1..=4 {
        assert_eq!(store.flags(), 0);
        store.record(FIRST, k as f64, 10 * k).unwrap();
    }
    assert_eq!(store.flags(), 1);
    assert_eq!(all(&store, 0), [(10, 1.0), (20, 2.0), (30, 3.0), (40, 4.0)]);
    store.record(FIRST, f64::NAN, 15).unwrap();
    assert_eq!(all(&store, 0), [(20, 2.0), (30, 3.0), (40, 4.0)]);
    assert_eq!(store.query(FIRST, 0, 0, 100).unwrap().available_range(), (Some(20), Some(15)));
}

#[test]
fn f_in_full_or_incomplete() {
    let mut image = Vec::new();
    let mut store = tens(&mut image, 4);
    for k in 1..=4 {
        store.record(FIRST, k as f64, 10 * k).unwrap();
    }
    let incomplete = |start, end| store.query(FIRST, 0, start, end).unwrap().may_be_incomplete();
    assert_eq!(store.query(FIRST, 0, 10, 40).unwrap().available_range(), (Some(10), Some(40)));
    assert!(!incomplete(10, 40) && !incomplete(10, 41) && incomplete(9, 40));
    // in full or not shows in which tier is taken; ends 30 and 60 of the finer, 30 and 60 of the coarser
    let plan = tens_into_thirties();
    let mut image = bytes_for(&plan);
    let mut store = Store::create(&plan, &mut image).unwrap();
    assert_eq!(store.query_auto(FIRST, 30, 60).unwrap().tier_used(), 0); // all are empty
    for k in 3..=6 {
        store.record(FIRST, k as f64, 10 * k).unwrap();
    }
    assert_eq!(store.query_auto(FIRST, 29, 60).unwrap().tier_used(), 0); // the coarser is empty
    store.consolidate().unwrap();
    let taken = |start, end| store.query_auto(FIRST, start, end).unwrap().tier_used();
    assert_eq!([taken(30, 60), taken(30, 61), taken(29, 60)], [0, 1, 1]);
}

#[test]
fn g_infinity_at_stamp_0() {
    let mut image = Vec::new();
    let mut store = tens(&mut image, 4);
    assert_eq!(store.record(FIRST, f64::INFINITY, 0), Err(Refusal::InvalidValue));
    let entries = [Entry::new(FIRST, f64::INFINITY)];
    assert_eq!(store.record_batch(&entries, 0), Err(Refusal::InvalidTimestamp));
    assert_eq!(store.record_batch(&entries, 10), Err(Refusal::InvalidValue));
}

#[test]
fn h_means() {
    let plan = tens_into_thirties();
    let mut image = bytes_for(&plan);
    let mut store = Store::create(&plan, &mut image).unwrap();
    for (stamp, value) in [(30, 1.0), (40, 2.0), (50, 4.0)] {
        store.record(FIRST, value, stamp).unwrap();
    }
    assert_eq!(store.consolidate(), Ok(1));
    assert_eq!(all(&store, 1), [(30, 7.0 / 3.0)]);
    // infinities alone: no call stores one, so they are written into the cells of slots 3, 4 and 5
    let (image, flags) = store.into_parts();
    for slot in 3..6 {
        put(image, 160 + 64 + 4 + 8 * 12 + 8 * slot, f64::INFINITY.to_bits());
    }
    let mut store = Store::resume(image, flags);
    assert_eq!(store.consolidate(), Ok(1)); // NaN is written and counted, and not read
    assert_eq!(all(&store, 1), []);
    // the coarser slab stands behind the finer of 64 + 4 + 96 + 96 bytes; its cells behind four stamps; window 30 is slot 1
    assert_eq!(number_at(store.image(), 160 + 260 + 64 + 4 + 32 + 8, 8), 0x7ff8_0000_0000_0000);
}

#[test]
fn i_tier_3_of_three() {
    let plan = Plan::new().schema(1, 7, &[tier(1, 90, None), tier(10, 90, AVERAGE), tier(30, 90, AVERAGE)]);
    let mut image = bytes_for(&plan);
    let store = Store::create(&plan, &mut image).unwrap();
    assert_eq!(store.query(FIRST, 3, 5, 5).unwrap_err(), Refusal::InvalidTier);
    assert_eq!(store.query(FIRST, 2, 5, 5).unwrap_err(), Refusal::InvalidTimeRange);
}

#[test]
fn j_a_window_in_two_runs() {
    let plan = tens_into_thirties();
    let mut image = bytes_for(&plan);
    let mut store = Store::create(&plan, &mut image).unwrap();
    let mut after = |samples: &[(u64, f64)]| {
        for &(stamp, value) in samples {
            store.record(FIRST, value, stamp).unwrap();
        }
        (store.consolidate().unwrap(), all(&store, 1))
    };
    assert_eq!(after(&[(30, 1.0), (40, 2.0), (50, 6.0)]), (1, vec![(30, 3.0)]));
    assert_eq!(after(&[(60, 5.0)]), (2, vec![(30, 3.0), (60, 5.0)]));
    assert_eq!(after(&[(70, 7.0), (80, 9.0)]), (1, vec![(30, 3.0), (60, 7.0)]));
}

#[test]
fn k_window_0() {
    let plan = tens_into_thirties();
    let mut image = bytes_for(&plan);
    let mut store = Store::create(&plan, &mut image).unwrap();
    store.record(FIRST, 1.0, 10).unwrap();
    let before = store.image().to_vec();
    assert_eq!(store.consolidate(), Err(Refusal::InvalidTimestamp));
    assert_eq!(store.image(), before); // the mark too
}

#[test]
fn l_opened_anew() {
    let mut image = Vec::new();
    let mut store = tens(&mut image, 10);
    for k in 5..=11 {
        store.record(FIRST, k as f64, 10 * k).unwrap();
    }
    let before = patterns(store.query(FIRST, 0, EVER.0, EVER.1).unwrap());
    let store = Store::open(&mut image).unwrap();
    assert_eq!(patterns(store.query(FIRST, 0, EVER.0, EVER.1).unwrap()), before);
    assert_eq!(before.iter().map(|p| p.0).collect::<Vec<_>>(), [50, 60, 70, 80, 90, 100, 110]);
}
