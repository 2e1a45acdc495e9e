//! The iterator over points, held against one point a call.

use rondo::{ConsolidationFn, Plan, QueryResult, Refusal, SeriesHandle, Store};

mod shared;
use shared::{EVER, FIRST, Numbers, bytes_for, patterns, raw, tens_into_thirties, tier};

/// Holds an answer of the crate against the library's, and its points against one a call; answers how many there are.
fn same(image: &[u8], answer: QueryResult, mut plain: raw::Answer) -> usize {
    assert_eq!(answer.tier_used(), plain.tier as u32);
    assert_eq!(answer.oldest().unwrap_or(0), plain.oldest);
    assert_eq!(answer.newest().unwrap_or(0), plain.newest);
    assert_eq!(answer.requested_range(), (plain.start, plain.end));
    assert_eq!(answer.may_be_incomplete(), plain.incomplete == 1);
    let mut points = answer.points();
    let mut count = 0;
    while let Some(point) = raw::next(image, &mut plain) {
        let (least, most) = points.size_hint();
        assert!(most.is_some_and(|most| most >= 1 && most >= least));
        assert_eq!(points.next().map(|(stamp, value)| (stamp, value.to_bits())), Some(point));
        count += 1;
    }
    for _ in 0..3 {
        assert_eq!(points.next(), None);
    }
    assert_eq!(points.size_hint(), (0, Some(0)));
    count
}

/// A query of a column of the first schema's finest tier.
fn compare(store: &Store, column: u32, range: (u64, u64)) -> usize {
    let answer = store.query(SeriesHandle::new(0, column), 0, range.0, range.1).unwrap();
    same(store.image(), answer, raw::query(store.image(), store.flags(), column, 0, range))
}

#[test]
fn as_one_point_a_call() {
    let mut numbers = Numbers(88172645463325252);
    let (mut queries, mut points, mut old) = (0, 0, 0);
    for slots in [1, 2, 3, 31, 32, 33, 63, 64, 65, 95, 96, 97, 200] {
        let plan = Plan::new().schema(3, 7, &[tier(10, 10 * slots, None)]);
        let mut image = bytes_for(&plan);
        for _ in 0..20 {
            let mut store = Store::create(&plan, &mut image).unwrap();
            for _ in 0..numbers.below(3 * slots) {
                let (column, stamp) = (numbers.below(3) as u32, 1 + numbers.below(50 * slots));
                let value = if numbers.below(5) == 0 { f64::NAN } else { numbers.below(1000) as f64 };
                let answer = store.record(SeriesHandle::new(0, column), value, stamp);
                assert!(matches!(answer, Ok(()) | Err(Refusal::OldSample)));
                old += usize::from(answer.is_err());
            }
            // the flags as left, and the other ones
            let (image, flags) = store.into_parts();
            for flags in [flags, flags ^ 1] {
                let store = Store::resume(image, flags);
                for column in 0..3 {
                    let start = numbers.below(50 * slots);
                    let ranges = [EVER, (start, start + 1 + numbers.below(50 * slots))];
                    points += ranges.map(|range| compare(&store, column, range)).iter().sum::<usize>();
                    queries += 2;
                }
            }
        }
    }
    println!("{queries} queries, {points} points, {old} old samples refused");
    assert!(points > 10_000 && old > 1000);
}

/// Two schemas, one of two columns and three tiers: the tier that covers best.
#[test]
fn the_tier_that_covers_best() {
    let mut numbers = Numbers(521288629);
    let (last, sum) = (Some(ConsolidationFn::Last), Some(ConsolidationFn::Sum));
    let plan = Plan::new().schema(1, 5, &[tier(7, 70, None)]);
    let plan = plan.schema(2, 6, &[tier(10, 240, None), tier(30, 600, last), tier(120, 1200, sum)]);
    let mut image = bytes_for(&plan);
    let mut store = Store::create(&plan, &mut image).unwrap();
    let mut taken = [0; 3];
    for k in 12..500 {
        for (schema, column) in [(0, 0), (1, 0), (1, 1)] {
            store.record(SeriesHandle::new(schema, column), numbers.below(100) as f64, 10 * k).unwrap();
        }
        store.consolidate().unwrap();
        let start = 10 * k - numbers.below(10 * k);
        let range = (start, start + 1 + numbers.below(400));
        for (schema, column) in [(0, 0), (1, 0), (1, 1)] {
            let answer = store.query_auto(SeriesHandle::new(schema, column), range.0, range.1).unwrap();
            taken[answer.tier_used() as usize] += 1;
            same(store.image(), answer, raw::query_auto(store.image(), store.flags(), schema, column, range));
        }
    }
    println!("tiers taken: {taken:?}");
    assert!(taken.iter().all(|&times| times > 50));
}

#[test]
fn full_rings_around_32_points() {
    for slots in 1..=130 {
        let plan = Plan::new().schema(1, 7, &[tier(10, 10 * slots, None)]);
        let mut image = bytes_for(&plan);
        let mut store = Store::create(&plan, &mut image).unwrap();
        for k in 1..=slots {
            store.record(FIRST, k as f64, 10 * k).unwrap();
        }
        assert_eq!(compare(&store, 0, EVER) as u64, slots);
    }
}

#[test]
fn an_answer_can_be_read_again() {
    let plan = tens_into_thirties();
    let mut image = bytes_for(&plan);
    let mut store = Store::create(&plan, &mut image).unwrap();
    for k in 3..9 {
        store.record(FIRST, k as f64, 10 * k).unwrap();
    }
    let answer = store.query(FIRST, 0, 40, 80).unwrap();
    let mut half = answer.points();
    half.next();
    assert!(half.clone().eq([(50, 5.0), (60, 6.0), (70, 7.0)]));
    assert!(half.eq([(50, 5.0), (60, 6.0), (70, 7.0)]));
    assert_eq!(patterns(answer).len(), 4);
    let mut stamps = Vec::new();
    for (stamp, _) in &answer {
        stamps.push(stamp);
    }
    assert_eq!(stamps, [40, 50, 60, 70]);
    assert_eq!(answer.into_iter().last(), Some((70, 7.0)));
    assert_eq!(
        format!("{answer:?}"),
        "QueryResult { tier_used: 0, available_range: (Some(30), Some(80)), requested_range: (40, 80), \
         may_be_incomplete: false, .. }"
    );
}
