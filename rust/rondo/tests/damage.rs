//! Images with some bytes changed at random: each call answers or refuses, a refusal leaves the image, and no point is read
//! from outside it.

use rondo::{ConsolidationFn, Entry, Plan, Refusal, SeriesHandle, Store};

mod shared;
use shared::{EVER, FIRST, Numbers, bytes_for, tier};

fn good() -> Vec<u8> {
    let (average, count) = (Some(ConsolidationFn::Average), Some(ConsolidationFn::Count));
    let plan = Plan::new().schema(2, 7, &[tier(10, 240, None), tier(30, 240, average), tier(120, 240, count)]);
    let plan = plan.schema(1, 8, &[tier(10, 50, None)]);
    let mut image = bytes_for(&plan);
    let mut store = Store::create(&plan, &mut image).unwrap();
    for k in 12..40 {
        store.record_batch(&[Entry::new(FIRST, k as f64), Entry::new(SeriesHandle::new(1, 0), 1.0)], 10 * k).unwrap();
        store.consolidate().unwrap();
    }
    image
}

/// Changes one to four bytes, half of them in the table or the first slab's header.
fn damage(image: &mut [u8], numbers: &mut Numbers) {
    for _ in 0..=numbers.below(4) {
        let limit = if numbers.below(2) == 0 { image.len() } else { 32 + 4 * 64 + 64 };
        let at = numbers.below(limit as u64) as usize;
        image[at] = if numbers.below(2) == 0 { numbers.below(256) as u8 } else { image[at] ^ (1 << numbers.below(8)) };
    }
}

/// Counts a call's answer by its number, 0 where it was accepted.
fn count<T>(seen: &mut [u32; 19], answer: Result<T, Refusal>) -> Option<T> {
    seen[answer.as_ref().err().map_or(0, |refusal| refusal.number()) as usize] += 1;
    answer.ok()
}

fn read(store: &Store, numbers: &mut Numbers, seen: &mut [u32; 19]) -> usize {
    let mut points = 0;
    for (schema, column) in [(0, 0), (0, 1), (1, 0)] {
        let handle = SeriesHandle::new(schema, column);
        let tier = numbers.below(3) as u32;
        let answer = count(seen, store.query(handle, tier, EVER.0, EVER.1));
        let figure = count(seen, store.service(handle, tier));
        count(seen, store.panel(handle, tier));
        let (last, ends) = answer.map_or((None, None), |a| (a.points().last(), a.oldest().zip(a.newest())));
        assert_eq!(figure.flatten().map(|f| (f.stamp, f.value)), last);
        assert!(figure.flatten().is_none_or(|f| Some((f.oldest, f.newest)) == ends));
        points += answer.map_or(0, |answer| answer.points().count());
        let answer = count(seen, store.query_auto(handle, numbers.below(500), 500 + numbers.below(500)));
        points += answer.map_or(0, |answer| answer.points().count());
    }
    points
}

#[test]
fn every_call_answers() {
    let (good, mut numbers, mut seen, mut points) = (good(), Numbers(2463534242), [0; 19], 0);
    for _ in 0..20_000 {
        let mut image = good.clone();
        damage(&mut image, &mut numbers);
        let len = if numbers.below(50) == 0 { numbers.below(image.len() as u64) as usize } else { image.len() };
        let opened = count(&mut seen, Store::open(&mut image[..len])).map(|store| store.flags());
        let before = image.clone();
        let mut store = Store::resume(&mut image[..len], opened.unwrap_or(numbers.below(16) as u32));
        points += read(&store, &mut numbers, &mut seen);
        assert_eq!(store.image(), &before[..len]);
        if count(&mut seen, store.record(FIRST, 1.0, 400)).is_none() {
            assert_eq!(store.image(), &before[..len]);
            let batch = store.record_batch(&[Entry::new(FIRST, 2.0)], 400);
            assert!(batch.is_err() && opened.is_none_or(|flags| flags == store.flags()));
        }
        count(&mut seen, store.consolidate());
        points += read(&store, &mut numbers, &mut seen);
    }
    println!("answers by number: {seen:?}, {points} points");
    assert!([0, 1, 2, 4, 5, 6, 7, 8, 10, 14, 18].iter().all(|&number| seen[number] > 0) && points > 100_000);
}
