//! The flags after creation, recording, opening and resuming.

use rondo::{Plan, SeriesHandle, Store};

mod shared;
use shared::{EVER, FIRST, Numbers, bytes_for, patterns, tier};

#[test]
fn after_opening() {
    let plan = Plan::new().schema(1, 7, &[tier(10, 40, None)]).schema(1, 8, &[tier(10, 40, None)]);
    let mut image = bytes_for(&plan);
    let mut store = Store::create(&plan, &mut image).unwrap();
    let second = SeriesHandle::new(1, 0);
    store.record(second, 1.0, 30).unwrap(); // slot 3
    assert_eq!(store.flags(), 0b00);
    store.record(second, 2.0, 40).unwrap(); // slot 0: the ring is wrapped
    assert_eq!(store.flags(), 0b10);
    store.record(FIRST, 3.0, 10).unwrap();
    assert_eq!(Store::open(&mut image).unwrap().flags(), 0b10);
    // the cursor in the last slot: none is above it
    let mut store = Store::open(&mut image).unwrap();
    store.record(second, 5.0, 70).unwrap();
    assert_eq!(store.flags(), 0b10);
    assert_eq!(Store::open(&mut image).unwrap().flags(), 0b00);
}

#[test]
fn parts_are_kept_together() {
    let plan = Plan::new().schema(1, 7, &[tier(10, 40, None)]);
    let mut image = bytes_for(&plan);
    let mut store = Store::create(&plan, &mut image).unwrap();
    for k in 3..6 {
        store.record(FIRST, k as f64, 10 * k).unwrap();
    }
    let (image, flags) = store.into_parts();
    assert_eq!(flags, 1);
    let store = Store::resume(image, flags);
    assert!(store.query(FIRST, 0, 0, 100).unwrap().points().eq([(30, 3.0), (40, 4.0), (50, 5.0)]));
    let (image, _) = store.into_parts();
    // with flags that were not left, a slot is not read
    assert!(Store::resume(image, 0).query(FIRST, 0, 0, 100).unwrap().points().eq([(40, 4.0), (50, 5.0)]));
}

/// Two stores with the same calls, one of them opened anew before each call: the same bytes and points.
#[test]
fn opening_changes_nothing() {
    let mut numbers = Numbers(362436069);
    let average = Some(rondo::ConsolidationFn::Average);
    let plan = Plan::new().schema(2, 7, &[tier(10, 120, None), tier(30, 180, average), tier(60, 180, average)]);
    let (mut kept, mut opened) = (bytes_for(&plan), bytes_for(&plan));
    let mut store = Store::create(&plan, &mut kept).unwrap();
    Store::create(&plan, &mut opened).unwrap();
    for k in 0..600 {
        let mut other = Store::open(&mut opened).unwrap();
        let (handle, stamp) = (SeriesHandle::new(0, numbers.below(2) as u32), 60 + 7 * k + numbers.below(40));
        if numbers.below(4) == 0 {
            assert_eq!(store.consolidate(), other.consolidate());
        }
        assert_eq!(store.record(handle, k as f64, stamp), other.record(handle, k as f64, stamp));
        assert_eq!(store.image(), other.image());
        for tier in 0..3 {
            let points = |s: &Store| patterns(s.query(handle, tier, EVER.0, EVER.1).unwrap());
            assert_eq!(points(&store), points(&other));
        }
    }
}

/// Bytes past the image and flags past the rows stay.
#[test]
fn surplus_stays() {
    let plan = Plan::new().schema(1, 7, &[tier(10, 40, None)]);
    let size = plan.image_size().unwrap() as usize;
    let mut image = vec![0x5a; size + 99];
    let mut store = Store::create(&plan, &mut image).unwrap();
    for k in 1..50 {
        store.record(FIRST, 1.0, 10 * k).unwrap();
    }
    assert!(store.image()[size..].iter().all(|&byte| byte == 0x5a));
    assert_eq!(store.image().len(), size + 99);
    let (image, _) = store.into_parts();
    let mut store = Store::resume(image, 0xffff_fffe);
    store.record(FIRST, 1.0, 500).unwrap();
    assert_eq!(store.flags() | 1, u32::MAX);
}
