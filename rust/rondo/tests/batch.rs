//! Batches of no, one and many entries.

use rondo::{Entry, Plan, Refusal, SeriesHandle, Store};

mod shared;
use shared::{EVER, FIRST, bytes_for, tier};

/// Eight schemas of four series, one tier each.
fn eight() -> Plan {
    (0..8).fold(Plan::new(), |plan, hash| plan.schema(4, hash, &[tier(10 + hash, 400, None)]))
}

fn read(store: &Store, handle: SeriesHandle) -> Vec<(u64, f64)> {
    store.query(handle, 0, EVER.0, EVER.1).unwrap().points().collect()
}

#[test]
fn none() {
    let plan = eight();
    let mut image = bytes_for(&plan);
    let mut store = Store::create(&plan, &mut image).unwrap();
    store.record(FIRST, 1.0, 390).unwrap();
    let before = (store.image().to_vec(), store.flags());
    for stamp in [0, 10, 1 << 63, u64::MAX] {
        assert_eq!(store.record_batch(&[], stamp), Ok(()));
    }
    assert_eq!((store.image().to_vec(), store.flags()), before);
}

#[test]
fn one_is_as_a_record() {
    let plan = eight();
    let (mut image, mut other) = (bytes_for(&plan), bytes_for(&plan));
    let mut store = Store::create(&plan, &mut image).unwrap();
    let mut single = Store::create(&plan, &mut other).unwrap();
    for k in 1..100 {
        let handle = SeriesHandle::new(k % 8, k % 4);
        let (value, stamp) = (f64::from(k) / 7.0, u64::from(k) * 17);
        store.record_batch(&[(handle, value).into()], stamp).unwrap();
        single.record(handle, value, stamp).unwrap();
        assert_eq!((store.image(), store.flags()), (single.image(), single.flags()));
    }
}

#[test]
fn many() {
    let plan = eight();
    let mut image = bytes_for(&plan);
    let mut store = Store::create(&plan, &mut image).unwrap();
    // each series three times, in a mixed order: the last value stays
    let entries: Vec<Entry> = (0..96u32).map(|k| Entry::new(SeriesHandle::new(k * 5 % 8, k / 8 % 4), f64::from(k))).collect();
    store.record_batch(&entries, 777).unwrap();
    for schema in 0..8 {
        for column in 0..4 {
            let handle = SeriesHandle::new(schema, column);
            let last = entries.iter().rev().find(|e| e.handle == handle).unwrap();
            assert_eq!(read(&store, handle), [(777, last.value)]);
        }
    }
}

#[test]
fn all_or_none() {
    let plan = eight();
    let mut image = bytes_for(&plan);
    let mut store = Store::create(&plan, &mut image).unwrap();
    let before = store.image().to_vec();
    let mut entries = vec![Entry::new(FIRST, 1.0); 50];
    entries[49].value = f64::NEG_INFINITY;
    assert_eq!(store.record_batch(&entries, 10), Err(Refusal::InvalidValue));
    entries[49].handle.schema = 8;
    assert_eq!(store.record_batch(&entries, 10), Err(Refusal::InvalidHandle));
    assert_eq!(store.image(), before);
}

/// A NaN's bits are stored as they are.
#[test]
fn nan_bits() {
    let plan = eight();
    let mut image = bytes_for(&plan);
    let mut store = Store::create(&plan, &mut image).unwrap();
    for bits in [0x7ff0_0000_0000_0001, 0xfff8_0000_dead_beef, 0x7fff_ffff_ffff_ffff_u64] {
        store.record_batch(&[Entry::new(FIRST, f64::from_bits(bits))], 10).unwrap();
        let there = store.image().windows(8).any(|cell| cell == bits.to_le_bytes());
        assert!(there);
        store.record(FIRST, 0.0, 10).unwrap();
        store.record(FIRST, f64::from_bits(bits), 10).unwrap();
        assert!(store.image().windows(8).any(|cell| cell == bits.to_le_bytes()));
    }
}
