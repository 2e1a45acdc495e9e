//! Which sample supersedes which: the later stamp of a slot wins, on equal stamps the later call; what a run passes over.

use rondo::{ConsolidationFn, Entry, Plan, Refusal, SeriesHandle, Store};

mod shared;
use shared::{EVER, FIRST, Numbers, bytes_for, number_at, patterns, tier};

const OTHER: SeriesHandle = SeriesHandle::new(0, 1);
const SECOND: SeriesHandle = SeriesHandle::new(1, 0);
const OLD: Result<(), Refusal> = Err(Refusal::OldSample);

/// A store of two schemas, each of two series in one ring of 10 ns and four slots.
fn two(image: &mut Vec<u8>) -> Store<'_> {
    let plan = Plan::new().schema(2, 7, &[tier(10, 40, None)]).schema(2, 8, &[tier(10, 40, None)]);
    *image = bytes_for(&plan);
    Store::create(&plan, image).unwrap()
}

fn read(store: &Store, handle: SeriesHandle, tier: u32) -> Vec<(u64, f64)> {
    store.query(handle, tier, EVER.0, EVER.1).unwrap().points().collect()
}

/// Makes a call that must be refused as old, and leaves image and flags.
fn refused(store: &mut Store, call: impl FnOnce(&mut Store) -> Result<(), Refusal>) {
    let before = (store.image().to_vec(), store.flags());
    assert_eq!(call(store), OLD);
    assert_eq!((store.image().to_vec(), store.flags()), before);
}

/// 50, 90 and 10 have slot 1.
#[test]
fn the_later_stamp_wins() {
    let mut image = Vec::new();
    let mut store = two(&mut image);
    store.record(FIRST, 5.0, 50).unwrap();
    store.record(FIRST, 9.0, 90).unwrap();
    for stamp in [50, 10, 59, 19] {
        refused(&mut store, |s| s.record(FIRST, 1.0, stamp));
        refused(&mut store, |s| s.record(FIRST, f64::NAN, stamp));
        // a slot has one stamp for all its series
        refused(&mut store, |s| s.record(OTHER, 1.0, stamp));
    }
    assert_eq!(read(&store, FIRST, 0), [(90, 9.0)]);
    // another schema has another ring
    store.record(SECOND, 1.0, 50).unwrap();
}

#[test]
fn on_equal_stamps_the_later_call_wins() {
    let mut image = Vec::new();
    let mut store = two(&mut image);
    for value in [9.0, 8.0] {
        store.record(FIRST, value, 90).unwrap();
        store.record(OTHER, -value, 90).unwrap();
    }
    store.record_batch(&[Entry::new(OTHER, 7.0)], 90).unwrap();
    assert_eq!((read(&store, FIRST, 0), read(&store, OTHER, 0)), (vec![(90, 8.0)], vec![(90, 7.0)]));
}

/// Stamps are compared, not the numbers of their intervals.
#[test]
fn within_one_interval_too() {
    let mut image = Vec::new();
    let mut store = two(&mut image);
    store.record(FIRST, 0.0, 90).unwrap();
    store.record(FIRST, 1.0, 91).unwrap();
    refused(&mut store, |s| s.record(FIRST, 2.0, 90));
    store.record(FIRST, 3.0, 91).unwrap();
    assert_eq!(read(&store, FIRST, 0), [(91, 3.0)]);
}

/// The slot's stamp decides, not the newest.
#[test]
fn a_late_sample_is_taken_in_a_slot_that_holds_no_later_one() {
    let mut image = Vec::new();
    let mut store = two(&mut image);
    for stamp in [20, 90] {
        store.record(FIRST, stamp as f64, stamp).unwrap();
    }
    store.record(FIRST, 70.0, 70).unwrap(); // slot 3 is fresh
    store.record(FIRST, 60.0, 60).unwrap(); // slot 2 holds 20
    assert_eq!(store.query(FIRST, 0, EVER.0, EVER.1).unwrap().newest(), Some(60));
    refused(&mut store, |s| s.record(FIRST, 1.0, 30));
}

/// A stamp that ran ahead keeps its slot, and no other.
#[test]
fn a_stamp_that_ran_ahead_keeps_its_slot() {
    let mut image = Vec::new();
    let mut store = two(&mut image);
    let ahead = (1 << 63) - 8; // a multiple of 10: slot 0
    assert_eq!((ahead % 10, ahead / 10 % 4), (0, 0));
    store.record(FIRST, 1.0, ahead).unwrap();
    let taken: Vec<bool> = (1..=9).map(|k| store.record(FIRST, 2.0, 10 * k).is_ok()).collect();
    assert_eq!(taken, [true, true, true, false, true, true, true, false, true]);
}

#[test]
fn a_batch_over_two_schemas_stores_nothing_if_one_ring_refuses() {
    let mut image = Vec::new();
    let mut store = two(&mut image);
    store.record(SECOND, 9.0, 90).unwrap();
    let (one, other) = (Entry::new(FIRST, 1.0), Entry::new(SECOND, 2.0));
    for entries in [[one, other], [other, one]] {
        refused(&mut store, |s| s.record_batch(&entries, 50));
    }
    assert_eq!((read(&store, FIRST, 0), read(&store, SECOND, 0)), (vec![], vec![(90, 9.0)]));
    // a schema without an entry is not asked
    store.record_batch(&[one, one], 50).unwrap();
    store.record_batch(&[other, one], 90).unwrap();
    assert_eq!((read(&store, FIRST, 0), read(&store, SECOND, 0)), (vec![(90, 1.0)], vec![(90, 2.0)]));
    assert_eq!(store.record_batch(&[], 50), Ok(()));
}

/// 11, 12, 13, 18 for one; 11, 13, 12, 18 for a batch. Stamp 0 has slot 0, which holds 80.
#[test]
fn it_is_the_last_refusal() {
    let mut image = Vec::new();
    let mut store = two(&mut image);
    store.record(FIRST, 8.0, 80).unwrap();
    let (nobody, infinite) = (SeriesHandle::new(0, 2), f64::INFINITY);
    let mut numbers = |handle, value, stamp| {
        let batch = [Entry::new(FIRST, 1.0), Entry::new(handle, value)];
        [store.record(handle, value, stamp), store.record_batch(&batch, stamp)].map(|answer| answer.unwrap_err().number())
    };
    assert_eq!(numbers(nobody, infinite, 0), [11, 11]);
    assert_eq!(numbers(nobody, 1.0, 40), [11, 11]);
    assert_eq!(numbers(FIRST, infinite, 0), [12, 13]);
    assert_eq!(numbers(FIRST, infinite, 40), [12, 12]);
    assert_eq!(numbers(FIRST, 1.0, 0), [13, 13]);
    assert_eq!(numbers(FIRST, 1.0, 40), [18, 18]);
}

/// 10 ns into means of 30 ns, in three slots: windows 30 and 120 share one. A run is refused at window 180, whose sum is
/// infinite: it keeps 30, then 120 in its place, and 150, and no mark.
fn halted(image: &mut Vec<u8>) -> Store<'_> {
    let plan = Plan::new().schema(1, 7, &[tier(10, 200, None), tier(30, 90, Some(ConsolidationFn::Average))]);
    *image = bytes_for(&plan);
    let mut store = Store::create(&plan, image).unwrap();
    for (stamp, value) in [(30, 1.0), (120, 4.0), (150, 5.0), (180, f64::MAX), (190, f64::MAX)] {
        store.record(FIRST, value, stamp).unwrap();
    }
    assert_eq!(store.consolidate(), Err(Refusal::InvalidValue));
    assert_eq!(read(&store, FIRST, 1), [(120, 4.0), (150, 5.0)]);
    assert_eq!(mark(&store), None);
    store
}

fn mark(store: &Store) -> Option<u64> {
    store.view().tiers().unwrap().next().unwrap().consolidated_to
}

#[test]
fn a_run_after_a_refused_one_passes_over() {
    let mut image = Vec::new();
    let mut store = halted(&mut image);
    store.record(FIRST, 6.0, 180).unwrap();
    store.record(FIRST, 8.0, 190).unwrap();
    // 120 and 150 again, 180; not 30
    assert_eq!(store.consolidate(), Ok(3));
    assert_eq!(read(&store, FIRST, 1), [(120, 4.0), (150, 5.0), (180, 7.0)]);
    assert_eq!(mark(&store), Some(190));
    // and no more, now that the mark has moved
    assert_eq!(store.consolidate(), Ok(1));
}

/// The one write is passed over: nothing is counted, and slots, cursor, flag and mark stay.
#[test]
fn where_all_is_passed_over_the_mark_stays() {
    let mut image = Vec::new();
    let mut store = halted(&mut image);
    for stamp in [120, 150, 180, 190] {
        store.record(FIRST, f64::NAN, stamp).unwrap();
    }
    let before = (store.image().to_vec(), store.flags());
    assert_eq!(store.consolidate(), Ok(0));
    assert_eq!((store.image().to_vec(), store.flags()), before);
    assert_eq!(mark(&store), None);
}

/// Any samples in any order: a store holds in each slot the last of those with the slot's greatest stamp.
#[test]
fn as_the_rule_says() {
    let mut numbers = Numbers(88172645463325252);
    let (mut taken, mut old) = (0, 0);
    for slots in [1, 2, 3, 7, 12] {
        let plan = Plan::new().schema(1, 7, &[tier(10, 10 * slots, None)]);
        let mut image = bytes_for(&plan);
        let mut store = Store::create(&plan, &mut image).unwrap();
        let mut held = vec![(0, f64::NAN); slots as usize];
        for k in 0..2000 {
            let (stamp, value) = (1 + numbers.below(10 * k + 1), k as f64);
            let slot = &mut held[(stamp / 10 % slots) as usize];
            let answer = store.record(FIRST, value, stamp);
            assert_eq!(answer, if stamp < slot.0 { OLD } else { Ok(()) });
            if answer.is_ok() {
                *slot = (stamp, value);
                taken += 1;
            } else {
                old += 1;
            }
        }
        // past the head, the slab's header and a directory of four bytes: stamps, then cells
        let at = |word: u64| number_at(store.image(), 96 + 64 + 4 + 8 * word as usize, 8);
        assert!((0..slots).all(|i| (at(i), at(slots + i)) == (held[i as usize].0, held[i as usize].1.to_bits())));
        let mut all = patterns(store.query(FIRST, 0, EVER.0, EVER.1).unwrap());
        all.sort();
        held.sort_by_key(|point| point.0);
        assert!(all.into_iter().eq(held.iter().map(|&(stamp, value)| (stamp, value.to_bits()))));
    }
    println!("{taken} samples taken, {old} refused");
    assert!(taken > 500 && old > 500);
}

/// How many windows of so many ns a tier's points are in, from the one on that the mark is in.
fn windows(store: &Store, tier: u32, long: u64, mark: Option<u64>) -> u64 {
    let start = mark.map_or(0, |mark| mark / long);
    let mut all: Vec<u64> = read(store, FIRST, tier).iter().map(|point| point.0 / long).filter(|&w| w >= start).collect();
    all.sort();
    all.dedup();
    all.len() as u64
}

/// In time order none is refused and none is passed over, however far apart and however often a run comes.
#[test]
fn in_time_order_all_is_taken_and_written() {
    let mut numbers = Numbers(521288629);
    let mean = Some(ConsolidationFn::Average);
    let plan = Plan::new().schema(1, 7, &[tier(10, 120, None), tier(30, 90, mean), tier(60, 120, mean)]);
    let mut image = bytes_for(&plan);
    let mut store = Store::create(&plan, &mut image).unwrap();
    let mut stamp = 60;
    for _ in 0..2000 {
        stamp += numbers.below(40) * numbers.below(3);
        store.record(FIRST, 1.0, stamp).unwrap();
        if numbers.below(5) == 0 {
            let marks: Vec<Option<u64>> = store.view().tiers().unwrap().map(|tier| tier.consolidated_to).collect();
            let finer = windows(&store, 0, 30, marks[0]);
            let written = store.consolidate().unwrap();
            assert_eq!(written, finer + windows(&store, 1, 60, marks[1]));
        }
    }
}
