//! Document 01's marked cases A to L, the rows of requests 2026-01, 2026-02, 2026-04 and 2026-05, and
//! the order of the refusals.

use super::*;
use crate::calls::{Plan, Schema, Tier, entry_bytes};

const INF: u64 = 0x7ff0_0000_0000_0000;
const ALL: (u64, u64) = (0, u64::MAX);

/// Interval, slots, function of each tier; two series.
fn plan_of(tiers: &[(u64, u64, u32)]) -> Plan {
    let tier = |&(interval, n, function): &(u64, u64, u32)| Tier {
        interval,
        retention: interval * n,
        function,
    };
    Plan(vec![Schema { series: 2, tiers: tiers.iter().map(tier).collect() }])
}

fn made(plan: &Plan) -> (Vec<u8>, Flags) {
    let (mut image, mut flags) = (vec![0; 200_000], [false; 32]);
    create(&plan.bytes(|_| 7), &mut image, &mut flags).unwrap();
    let total = get64(&image, 16) as usize;
    image.truncate(total);
    (image, flags)
}

fn put(s: &mut (Vec<u8>, Flags), stamp: u64, value: f64) {
    record(&mut s.0, &mut s.1, (0, 0, value.to_bits(), stamp)).unwrap();
}

fn read(s: &(Vec<u8>, Flags), tier: u32, range: (u64, u64)) -> Vec<(u64, f64)> {
    let found = query(&s.0, &s.1, 0, 0, tier, range).unwrap();
    found.reader.map(|(t, v)| (t, f64::from_bits(v))).collect()
}

fn check_plan(plan: &Plan) -> Result<(), u32> {
    create(&plan.bytes(|_| 7), &mut vec![0; 4096], &mut [false; 32])
}

fn numbers(values: &[f64]) -> Vec<u64> {
    values.iter().map(|v| v.to_bits()).collect()
}

#[test]
fn a_layout_of_a_slab() {
    let (image, _) = made(&plan_of(&[(1, 60, 0)]));
    let row = check(&image).unwrap().rows[0];
    let slab = &image[row.place()];
    assert_eq!(stamp_at(slab, 0), 72);
    assert_eq!((value_at(slab, 0, 0), value_at(slab, 1, 0)), (552, 1032));
    assert_eq!(row.length, 1512);
}

#[test]
fn b_layout_of_an_image() {
    let s = 1_000_000_000;
    let (image, _) = made(&plan_of(&[(s, 3600, 0), (60 * s, 24 * 60, 1), (3600 * s, 30 * 24, 1)]));
    let rows = check(&image).unwrap().rows;
    assert_eq!(rows.iter().map(Row::slots).collect::<Vec<_>>(), [3600, 1440, 720]);
    assert_eq!(rows.iter().map(|r| r.offset).collect::<Vec<_>>(), [224, 86_696, 121_328]);
    assert_eq!(image.len(), 138_680);
}

#[test]
fn c_slots_up_to_a_thousand_million() {
    assert_eq!(check_plan(&plan_of(&[(1, 1_000_000_000, 0)])), Err(SHORT_BUFFER));
    assert_eq!(check_plan(&plan_of(&[(1, 1_000_000_001, 0)])), Err(TOO_MANY_SLOTS));
}

fn case_d() -> (Vec<u8>, Flags) {
    let mut s = made(&plan_of(&[(10, 4, 0)]));
    for k in 1..=4 {
        put(&mut s, 10 * k, k as f64);
    }
    s
}

#[test]
fn d_wrapped_and_read_in_order() {
    let s = case_d();
    assert!(s.1[0]);
    assert_eq!(read(&s, 0, ALL), [(10, 1.0), (20, 2.0), (30, 3.0), (40, 4.0)]);
}

#[test]
fn e_nan_takes_a_slot() {
    let mut s = case_d();
    put(&mut s, 15, f64::NAN);
    assert_eq!(read(&s, 0, ALL), [(20, 2.0), (30, 3.0), (40, 4.0)]);
    assert_eq!(query(&s.0, &s.1, 0, 0, 0, ALL).unwrap().newest, Some(15));
}

#[test]
fn f_coverage() {
    let ends = (Some(10), Some(40));
    assert_eq!(coverage(ends.0, ends.1, (10, 40)), (true, false));
    assert_eq!(coverage(ends.0, ends.1, (10, 41)), (false, false));
    assert_eq!(coverage(ends.0, ends.1, (9, 40)), (false, true));
    assert_eq!(coverage(None, None, (9, 40)), (false, true));
}

#[test]
fn g_infinity_at_stamp_0() {
    let mut s = case_d();
    let before = s.clone();
    assert_eq!(record(&mut s.0, &mut s.1, (0, 0, INF, 0)), Err(INVALID_VALUE));
    let entries = entry_bytes(&[(0, 0, INF)], 0);
    assert_eq!(record_batch(&mut s.0, &mut s.1, &entries, 0), Err(INVALID_TIMESTAMP));
    assert_eq!(record_batch(&mut s.0, &mut s.1, &[], 0), Ok(()));
    assert!(s == before);
}

#[test]
fn h_average() {
    assert_eq!(apply(1, &numbers(&[1.0, 2.0, 4.0])), Window::Number(7.0 / 3.0));
    assert_eq!(apply(1, &[INF, INF | 1 << 63]), Window::NothingFinite);
    assert_eq!(apply(1, &[]), Window::Empty);
}

#[test]
fn i_tier_before_range() {
    let (image, flags) = made(&plan_of(&[(1, 2, 0), (2, 2, 1), (4, 2, 1)]));
    assert_eq!(query(&image, &flags, 0, 0, 3, (5, 5)).err(), Some(INVALID_TIER));
    assert_eq!(query(&image, &flags, 0, 0, 2, (5, 5)).err(), Some(INVALID_TIME_RANGE));
}

/// Case J with this start: what its three runs write, and what tier 1 then holds.
fn case_j(start: Start) -> ([Result<u64, u32>; 3], Vec<(u64, f64)>) {
    let mut s = made(&plan_of(&[(10, 20, 0), (30, 20, 1)]));
    for (stamp, value) in [(30, 1.0), (40, 2.0), (50, 6.0)] {
        put(&mut s, stamp, value);
    }
    let first = consolidate_by(&mut s.0, &mut s.1, (start, apply), &mut put_found);
    assert_eq!(read(&s, 1, ALL), [(30, 3.0)]);
    put(&mut s, 60, 5.0);
    let middle = consolidate_by(&mut s.0, &mut s.1, (start, apply), &mut put_found);
    assert_eq!(read(&s, 1, ALL), [(30, 3.0), (60, 5.0)]);
    put(&mut s, 70, 7.0);
    put(&mut s, 80, 9.0);
    let last = consolidate_by(&mut s.0, &mut s.1, (start, apply), &mut put_found);
    ([first, middle, last], read(&s, 1, ALL))
}

/// Document 01's start with a nonzero mark, before request 2026-01.
fn after_the_mark(source: &Row, _: &Row, oldest: Option<u64>) -> u64 {
    if source.mark == 0 { oldest.unwrap_or(0) } else { source.mark + source.interval }
}

#[test]
fn j_means_and_a_window_met_twice() {
    // Document 01: the minute shows the samples since the last run, 8.
    assert_eq!(case_j(after_the_mark), ([Ok(1), Ok(1), Ok(1)], vec![(30, 3.0), (60, 8.0)]));
    // Request 2026-01: all of its samples, 7. The middle run reads from 30 on and writes 2.
    assert_eq!(case_j(start_of), ([Ok(1), Ok(2), Ok(1)], vec![(30, 3.0), (60, 7.0)]));
}

/// Request 2026-01: a window is averaged over those of its samples that are still in the ring.
#[test]
fn first_samples_that_have_left_the_ring() {
    let mut s = made(&plan_of(&[(1, 3, 0), (4, 3, 1)]));
    put(&mut s, 4, 1.0);
    put(&mut s, 5, 2.0);
    assert_eq!(consolidate(&mut s.0, &mut s.1), Ok(1));
    assert_eq!(read(&s, 1, ALL), [(4, 1.5)]);
    put(&mut s, 6, 4.0);
    put(&mut s, 7, 9.0);
    assert_eq!(consolidate(&mut s.0, &mut s.1), Ok(1));
    assert_eq!(read(&s, 1, ALL), [(4, 5.0)]);
}

/// Request 2026-01: with a nonzero mark below the destination interval the reading starts at 0.
#[test]
fn a_mark_in_window_0() {
    let mark = HEADER + 48;
    for below in [1, 10, 29] {
        let mut s = made(&plan_of(&[(10, 20, 0), (30, 20, 1)]));
        put64(&mut s.0, mark, below);
        // The mean of both, though the mark's next tick is past the first for 29.
        put(&mut s, 30, 1.0);
        put(&mut s, 40, 2.0);
        assert_eq!(consolidate(&mut s.0, &mut s.1), Ok(1));
        assert_eq!((read(&s, 1, ALL), get64(&s.0, mark)), (vec![(30, 1.5)], 40));
        // What stands in window 0, be it stamped 0, is read and refused.
        for stamp in [0, 1, 20] {
            let mut s = made(&plan_of(&[(10, 20, 0), (30, 20, 1)]));
            put64(&mut s.0, mark, below);
            put(&mut s, 10, 1.0);
            put(&mut s, 40, 2.0);
            let slab = check(&s.0).unwrap().rows[0].offset as usize;
            put64(&mut s.0, slab + 72 + 8, stamp);
            assert_eq!(consolidate(&mut s.0, &mut s.1), Err(INVALID_TIMESTAMP));
            assert_eq!((read(&s, 1, ALL), get64(&s.0, mark)), (vec![], below));
        }
    }
}

/// Request 2026-01: the start itself, at a window's edges.
#[test]
fn start_of_a_reading() {
    let mut row = check(&made(&plan_of(&[(10, 20, 0), (30, 20, 1)])).0).unwrap().rows;
    let mut start = |mark: u64, oldest: Option<u64>| {
        row[0].mark = mark;
        start_of(&row[0], &row[1], oldest)
    };
    assert_eq!((start(0, None), start(0, Some(40))), (0, 40));
    assert_eq!((start(1, Some(40)), start(29, Some(40)), start(30, Some(40))), (0, 0, 30));
    assert_eq!((start(59, None), start(60, Some(9))), (30, 60));
    assert_eq!(start(TOP - 1, None), (TOP - 1) / 30 * 30);
}

#[test]
fn k_window_0_is_refused() {
    let mut s = made(&plan_of(&[(10, 20, 0), (30, 20, 1)]));
    put(&mut s, 10, 1.0);
    let before = s.clone();
    assert_eq!(consolidate(&mut s.0, &mut s.1), Err(INVALID_TIMESTAMP));
    assert!(s == before);
}

/// A ring of so many slots, interval 10, after samples at these stamps.
fn ring_after(slots: u64, stamps: &[u64]) -> (Vec<u8>, Flags) {
    let mut s = made(&plan_of(&[(10, slots, 0)]));
    stamps.iter().for_each(|&stamp| put(&mut s, stamp, 1.0));
    s
}

fn stamps(s: &(Vec<u8>, Flags)) -> Vec<u64> {
    read(s, 0, ALL).iter().map(|p| p.0).collect()
}

#[test]
fn l_reopened_it_reads_the_same() {
    let mut s = ring_after(10, &[50, 60, 70, 80, 90, 100, 110]);
    assert_eq!(stamps(&s), [50, 60, 70, 80, 90, 100, 110]);
    // Request 2026-02, whatever flags are handed.
    for handed in [true, false] {
        s.1 = [handed; 32];
        open(&s.0, &mut s.1).unwrap();
        assert_eq!(s.1.iter().position(|&f| f != handed), (!handed).then_some(0));
        assert_eq!(stamps(&s), [50, 60, 70, 80, 90, 100, 110]);
    }
    // Document 01: 100 and 110 only.
    open_by(&s.0, &mut s.1, old_wrap_flag).unwrap();
    assert_eq!(stamps(&s), [100, 110]);
}

/// Request 2026-02: the flag before opening, after it, and by document 01's rule; the points stay.
#[test]
fn flags_at_opening() {
    for (slots, samples, flags) in [
        (1, &[][..], [false, false, false]),
        (1, &[10, 20, 30], [false, false, false]),
        (2, &[10], [false, false, false]),
        (2, &[10, 20], [true, true, true]),
        // The cursor on the last slot: nothing stands above it.
        (2, &[10, 20, 30], [true, false, true]),
        (4, &[40, 50, 60, 70], [false, false, true]),
        (4, &[10, 20, 30, 40, 50], [true, true, true]),
        // From the middle of the ring on, past slot 0, with slots between still fresh.
        (4, &[20, 30, 40], [true, true, false]),
        (4, &[30, 40, 50], [true, true, false]),
        (4, &[20], [false, false, false]),
        // An interval skipped; a stamp out of order.
        (4, &[10, 30, 40], [true, true, true]),
        (4, &[30, 10], [true, true, false]),
        (5, &[40, 10], [true, true, false]),
        (5, &[40, 10, 40], [true, false, false]),
    ] {
        let mut s = ring_after(slots, samples);
        let (before, points) = (s.1[0], stamps(&s));
        open(&s.0, &mut s.1).unwrap();
        let after = s.1[0];
        assert_eq!(stamps(&s), points, "{slots} {samples:?}");
        open_by(&s.0, &mut s.1, old_wrap_flag).unwrap();
        assert_eq!([before, after, s.1[0]], flags, "{slots} {samples:?}");
    }
}

/// Flags that are not as left are another matter: opening may show more than they did.
#[test]
fn flags_not_as_left() {
    let mut s = ring_after(4, &[10, 20, 30, 40, 50]);
    s.1[0] = false;
    assert_eq!(stamps(&s), [40, 50]);
    open(&s.0, &mut s.1).unwrap();
    assert_eq!(stamps(&s), [20, 30, 40, 50]);
}

/// Request 2026-04: what the panel shows of a value, its own rows first.
#[test]
fn whole_numbers() {
    let limit = 9_007_199_254_740_992.0;
    for (value, shown) in [
        (-0.5, Some(0)),
        (1.5, Some(2)),
        (-2.5, Some(-2)),
        (0.0, Some(0)),
        (-0.0, Some(0)),
        (0.5f64.next_up(), Some(1)),
        (0.5f64.next_down(), Some(0)),
        (-0.75, Some(-1)),
        (2.4, Some(2)),
        (3.5, Some(4)),
        (f64::from_bits(1), Some(0)),
        (limit / 2.0 - 0.5, Some(1 << 52)),
        (limit / 2.0 - 1.5, Some((1 << 52) - 2)),
        (limit - 1.0, Some((1 << 53) - 1)),
        (limit, Some(1 << 53)),
        (-limit, Some(-(1 << 53))),
        (limit.next_up(), None),
        (-limit.next_up(), None),
        (f64::MAX, None),
        (f64::INFINITY, None),
        (f64::NEG_INFINITY, None),
    ] {
        assert_eq!(whole(value), shown, "{value:?}");
    }
}

/// The same held against the value as a fraction of integers: twice the distance is at most the
/// divisor, and where it is the divisor the number is even.
#[test]
fn whole_numbers_are_nearest() {
    let mut r = crate::generate::Random(4);
    let (mut ties, mut shown) = (0, 0);
    for _ in 0..400_000 {
        let bits = crate::figures::value(&mut r);
        let (sign, exponent) = (bits >> 63, (bits >> 52 & 0x7ff) as i32);
        let Some(whole) = whole(f64::from_bits(bits)) else {
            assert!(bits & !(1 << 63) > 0x4340_0000_0000_0000);
            continue;
        };
        assert!(bits & !(1 << 63) <= 0x4340_0000_0000_0000);
        shown += 1;
        if exponent < 1000 {
            assert_eq!(whole, 0);
            continue;
        }
        // value = top / 2^75
        let significand = (bits & ((1 << 52) - 1) | 1 << 52) as i128;
        let size = significand << (exponent - 1000);
        let top = if sign == 1 { -size } else { size };
        let distance = 2 * (top - ((whole as i128) << 75)).abs();
        assert!(distance <= 1 << 75, "{bits:x}: {whole}");
        if distance == 1 << 75 {
            assert!(whole % 2 == 0, "{bits:x}: {whole}");
            ties += 1;
        }
    }
    assert!(ties > 50_000 && shown > 300_000, "{ties} {shown}");
}

/// Request 2026-04: the last point in reading order; without one neither number nor ends.
#[test]
fn figures_of_case_e() {
    let mut s = case_d();
    let four = Figure { stamp: 40, value: 4f64.to_bits(), oldest: 10, newest: 40 };
    assert_eq!(service(&s.0, &s.1, 0, 0, 0), Ok(Some(four)));
    assert_eq!(panel(&s.0, &s.1, 0, 0, 0), Ok(Some(4)));
    put(&mut s, 15, f64::NAN);
    let four = Figure { oldest: 20, newest: 15, ..four };
    assert_eq!(service(&s.0, &s.1, 0, 0, 0), Ok(Some(four)));
    assert_eq!(panel(&s.0, &s.1, 0, 0, 0), Ok(Some(4)));
    // The last is 15's, not that of the greatest stamp.
    put(&mut s, 15, 0.5);
    let half = Figure { stamp: 15, value: 0.5f64.to_bits(), ..four };
    assert_eq!(service(&s.0, &s.1, 0, 0, 0), Ok(Some(half)));
    assert_eq!(panel(&s.0, &s.1, 0, 0, 0), Ok(Some(0)));
    // The other column has no value; nor has a fresh ring.
    assert_eq!((service(&s.0, &s.1, 0, 1, 0), panel(&s.0, &s.1, 0, 1, 0)), (Ok(None), Ok(None)));
}

/// Request 2026-04: 11, then 14, then 17, for the panel only and only where there is a point.
#[test]
fn refusals_of_figures() {
    let mut s = made(&plan_of(&[(10, 4, 0), (20, 4, 1)]));
    let asked = |s: &(Vec<u8>, Flags), schema, column, tier| {
        let (panel, service) =
            (panel(&s.0, &s.1, schema, column, tier), service(&s.0, &s.1, schema, column, tier));
        (panel.err(), service.err())
    };
    put(&mut s, 20, 1e300);
    assert_eq!(asked(&s, 0, 2, 2), (Some(INVALID_HANDLE), Some(INVALID_HANDLE)));
    assert_eq!(asked(&s, 1, 0, 0), (Some(INVALID_HANDLE), Some(INVALID_HANDLE)));
    assert_eq!(asked(&s, 0, 0, 2), (Some(INVALID_TIER), Some(INVALID_TIER)));
    assert_eq!(asked(&s, 0, 0, 0), (Some(OFF_PANEL), None));
    assert_eq!(asked(&s, 0, 0, 1), (None, None));
    assert_eq!(asked(&s, 0, 1, 0), (None, None));
}

/// Records into column 0 of schema 0, value 1: the refusals, 0 where one is accepted. What is refused
/// leaves all.
fn tried(s: &mut (Vec<u8>, Flags), stamps: &[u64]) -> Vec<u32> {
    let each = stamps.iter().map(|&stamp| {
        let before = s.clone();
        let done = record(&mut s.0, &mut s.1, (0, 0, 1f64.to_bits(), stamp));
        assert!(done.is_ok() || *s == before);
        done.err().unwrap_or(0)
    });
    each.collect()
}

/// Request 2026-05: the later stamp wins, and on equal stamps the later call.
#[test]
fn the_later_stamp_wins() {
    // 50 and 90 have one slot, as have 90 and 91.
    let mut s = made(&plan_of(&[(10, 4, 0)]));
    assert_eq!(tried(&mut s, &[50, 90, 50, 10, 90, 91, 90, 91]), [0, 0, 18, 18, 0, 0, 18, 0]);
    // Below the newest: a fresh slot takes it, and so does one that holds an earlier stamp.
    assert_eq!(tried(&mut s, &[60, 20, 64, 63, 100, 64]), [0, 18, 0, 18, 0, 18]);
    // Equal stamps: the later call's value.
    let mut s = made(&plan_of(&[(10, 4, 0)]));
    put(&mut s, 50, 5.0);
    put(&mut s, 90, 9.0);
    put(&mut s, 90, 8.0);
    assert_eq!(tried(&mut s, &[50]), [18]);
    assert_eq!(read(&s, 0, ALL), [(90, 8.0)]);
    // A slot has one stamp: it decides for a column without a value there, and for a NaN.
    let one = 1f64.to_bits();
    for (column, value) in [(1, one), (1, FRESH), (0, FRESH)] {
        let before = s.clone();
        assert_eq!(record(&mut s.0, &mut s.1, (0, column, value, 50)), Err(OLD_SAMPLE));
        assert!(s == before);
    }
    // The ends: a slot's first sample, the greatest stamp, the one below it.
    let mut s = made(&plan_of(&[(10, 1, 0)]));
    assert_eq!(tried(&mut s, &[1, TOP - 1, TOP - 2, TOP - 1, 1]), [0, 0, 18, 0, 18]);
}

/// Request 2026-05: 11, 12, 13, 18 for one value, 11, 13, 12, 18 for a batch.
#[test]
fn old_samples_are_refused_last() {
    let mut s = made(&plan_of(&[(10, 4, 0)]));
    put(&mut s, 90, 9.0);
    put(&mut s, 80, 8.0);
    let before = s.clone();
    for (sample, number) in [
        ((0, 2, INF, 0), INVALID_HANDLE),
        ((0, 0, INF, 0), INVALID_VALUE),
        ((0, 0, INF, 50), INVALID_VALUE),
        ((0, 0, 0, 0), INVALID_TIMESTAMP), // slot 0 holds 80
        ((0, 0, 0, 50), OLD_SAMPLE),
    ] {
        assert_eq!(record(&mut s.0, &mut s.1, sample), Err(number));
    }
    for (entries, stamp, number) in [
        (&[(0, 0, INF), (0, 2, 0)][..], 0, INVALID_HANDLE),
        (&[(0, 0, INF)], 0, INVALID_TIMESTAMP),
        (&[(0, 0, 0)], 0, INVALID_TIMESTAMP),
        (&[(0, 0, 0), (0, 1, INF)], 50, INVALID_VALUE),
        (&[(0, 0, 0), (0, 1, 0)], 50, OLD_SAMPLE),
    ] {
        let entries = entry_bytes(entries, 0);
        assert_eq!(record_batch(&mut s.0, &mut s.1, &entries, stamp), Err(number));
    }
    assert!(s == before);
    assert_eq!(record_batch(&mut s.0, &mut s.1, &[], 50), Ok(()));
    assert!(s == before);
}

/// Request 2026-05: every ring that has entries is asked before any is written.
#[test]
fn a_batch_over_two_schemas() {
    let ring = plan_of(&[(10, 4, 0)]).0.remove(0);
    let mut s = made(&Plan(vec![ring.clone(), ring.clone(), ring]));
    let one = 1f64.to_bits();
    record(&mut s.0, &mut s.1, (1, 0, one, 90)).unwrap();
    let before = s.clone();
    for entries in [&[(0, 0, one), (1, 1, one)][..], &[(1, 1, one), (2, 0, one)], &[(1, 0, one)]] {
        let entries = entry_bytes(entries, 0);
        assert_eq!(record_batch(&mut s.0, &mut s.1, &entries, 50), Err(OLD_SAMPLE));
        assert!(s == before);
    }
    // Rings without entries are not asked; equal stamps are taken, a column named twice too.
    let entries = entry_bytes(&[(0, 0, one), (2, 1, one)], 0);
    assert_eq!(record_batch(&mut s.0, &mut s.1, &entries, 50), Ok(()));
    let entries = entry_bytes(&[(0, 0, one), (1, 0, one), (1, 0, 2f64.to_bits())], 0);
    assert_eq!(record_batch(&mut s.0, &mut s.1, &entries, 90), Ok(()));
    let found = query(&s.0, &s.1, 1, 0, 0, ALL).unwrap();
    assert_eq!(found.reader.collect::<Vec<_>>(), [(90, 2f64.to_bits())]);
}

/// Mark of the first pair; cursor, flag and stamps of the second row's ring.
fn coarse(s: &(Vec<u8>, Flags)) -> (u64, usize, bool, Vec<u64>) {
    let slab = &s.0[check(&s.0).unwrap().rows[1].place()];
    let stamps = (0..slots(slab)).map(|slot| stamp(slab, slot)).collect();
    (get64(&s.0, HEADER + 48), cursor(slab), s.1[1], stamps)
}

/// The run before request 2026-05: what is old is written and counted.
fn old_run(s: &mut (Vec<u8>, Flags)) -> Result<u64, u32> {
    let mut put = |slab: &mut [u8], flag: &mut bool, (window, column, value): Found| {
        value_check(value)?;
        stamp_check(window)?;
        write(slab, flag, window, &[(column, value)]);
        Ok(true)
    };
    consolidate_by(&mut s.0, &mut s.1, (start_of, apply), &mut put)
}

/// Request 2026-05, after a refused run: 3 writes before, 2 now.
#[test]
fn three_writes_before_and_two_now() {
    let mut s = made(&plan_of(&[(1, 6, 0), (2, 1, 1)]));
    for (stamp, value) in [(2, 1.0), (4, 1.0), (6, 1.7e308), (7, 1.7e308)] {
        put(&mut s, stamp, value);
    }
    assert_eq!(consolidate(&mut s.0, &mut s.1), Err(INVALID_VALUE));
    assert_eq!(coarse(&s), (0, 0, false, vec![4]));
    put(&mut s, 7, 0.0);
    assert_eq!(passed_over(&s.0, &s.1), (2, 1));
    assert_eq!(old_run(&mut s.clone()), Ok(3));
    assert_eq!(consolidate(&mut s.0, &mut s.1), Ok(2));
    assert_eq!(read(&s, 1, ALL), [(6, 0.85e308)]);
    assert_eq!(coarse(&s), (7, 0, false, vec![6]));
}

/// Request 2026-05: what a passed-over write leaves. The coarser ring has three slots: windows 30 and
/// 120 share slot 1, 150 has slot 2; the sum of window 180 is infinite.
#[test]
fn what_a_passed_over_write_leaves() {
    let mut halted = made(&plan_of(&[(10, 20, 0), (30, 3, 1)]));
    for (stamp, value) in [(30, 1.0), (120, 4.0), (150, 5.0), (180, f64::MAX), (190, f64::MAX)] {
        put(&mut halted, stamp, value);
    }
    assert_eq!(consolidate(&mut halted.0, &mut halted.1), Err(INVALID_VALUE));
    assert_eq!(coarse(&halted), (0, 2, false, vec![0, 120, 150]));
    // Mended: 30 is passed over, 120 and 150 are equal and written again, 180 is new.
    let mut s = halted.clone();
    put(&mut s, 180, 6.0);
    put(&mut s, 190, 8.0);
    assert_eq!(consolidate(&mut s.0, &mut s.1), Ok(3));
    assert_eq!(coarse(&s), (190, 0, true, vec![180, 120, 150]));
    assert_eq!(read(&s, 1, ALL), [(120, 4.0), (150, 5.0), (180, 7.0)]);
    // 30 alone: cursor, flag, mark and cells stay, and nothing is counted.
    let mut s = halted.clone();
    for stamp in [120, 150, 180, 190] {
        put(&mut s, stamp, f64::NAN);
    }
    let before = s.clone();
    assert_eq!(consolidate(&mut s.0, &mut s.1), Ok(0));
    assert!(s == before);
    assert_eq!(read(&s, 1, ALL), [(120, 4.0), (150, 5.0)]);
}

/// Request 2026-05: 12 and 13 are tried first; a passed-over write ends nothing.
#[test]
fn tried_before_it_is_passed_over() {
    for (samples, done) in [
        (&[(30, 1.0)][..], Ok(0)),
        (&[(30, f64::MAX), (40, f64::MAX)], Err(INVALID_VALUE)),
        (&[(10, 1.0)], Err(INVALID_TIMESTAMP)),
        (&[(90, 1.0)], Ok(1)),
        (&[(30, 1.0), (90, 2.0)], Ok(1)),
        (&[(30, 1.0), (120, 2.0)], Ok(1)),
    ] {
        // The coarser ring's one slot holds 90, by hand.
        let mut s = made(&plan_of(&[(10, 20, 0), (30, 1, 1)]));
        let slab = check(&s.0).unwrap().rows[1].offset as usize;
        put64(&mut s.0, slab + 72, 90);
        samples.iter().for_each(|&(stamp, value)| put(&mut s, stamp, value));
        assert_eq!(consolidate(&mut s.0, &mut s.1), done, "{samples:?}");
        let mark = if done == Ok(1) { samples[samples.len() - 1].0 } else { 0 };
        assert_eq!(coarse(&s).0, mark, "{samples:?}");
    }
}

#[test]
fn sums_start_from_negative_zero() {
    let bits = |w| match w {
        Window::Number(x) => x.to_bits(),
        other => panic!("{other:?}"),
    };
    assert_eq!(bits(apply(5, &numbers(&[-0.0]))), 1 << 63);
    assert_eq!(bits(apply(1, &numbers(&[-0.0, -0.0]))), 1 << 63);
    assert_eq!(bits(apply(2, &numbers(&[0.0, -0.0]))), 0);
    assert_eq!(bits(apply(3, &numbers(&[-0.0, 0.0]))), 1 << 63);
}

#[test]
fn patterns() {
    assert!(infinite(INF) && infinite(INF | 1 << 63) && !nan(INF));
    assert!(nan(INF | 1) && nan(FRESH) && nan(u64::MAX) && !infinite(INF | 1));
    assert!(!nan(INF - 1) && !infinite(INF - 1) && !nan(0) && !infinite(1 << 63));
}

#[test]
fn refusals_of_a_plan_in_their_order() {
    let good = plan_of(&[(10, 2, 0), (20, 2, 1)]);
    let expect = |number: u32, f: &dyn Fn(&mut Plan)| {
        let mut plan = good.clone();
        f(&mut plan);
        assert_eq!(check_plan(&plan), if number == 0 { Ok(()) } else { Err(number) });
    };
    expect(0, &|_| {});
    expect(NO_TIERS, &|p| p.0[0].tiers.clear());
    expect(INVALID_MAX_SERIES, &|p| p.0[0].series = 0);
    expect(INVALID_TIER_CONFIG, &|p| p.0[0].tiers[0].interval = 0);
    expect(INVALID_TIER_CONFIG, &|p| p.0[0].tiers[1].retention = 1 << 63);
    expect(INVALID_TIER_CONFIG, &|p| p.0[0].tiers[1].retention = 19);
    expect(TIERS_NOT_ORDERED, &|p| p.0[0].tiers[1].interval = 10);
    expect(CONSOLIDATION_ON_HIGHEST_TIER, &|p| p.0[0].tiers[0].function = 1);
    expect(BAD_IMAGE, &|p| p.0[0].tiers[1].function = 7);
    expect(LAYOUT_TOO_LARGE, &|p| {
        p.0[0].series = u32::MAX;
        p.0[0].tiers[0].retention = 10_000_000_000;
    });
    // Two at once: the earlier schema, then the earlier number.
    expect(INVALID_MAX_SERIES, &|p| (p.0[0].series, p.0[0].tiers[0].interval) = (0, 0));
    expect(TOO_MANY_SLOTS, &|p| {
        p.0[0].tiers[0].retention = 10_000_000_010;
        p.0[0].tiers[1].interval = 0;
    });
    expect(INVALID_TIER_CONFIG, &|p| {
        p.0[0].tiers[0].interval = 0;
        p.0.push(Schema { series: 2, tiers: Vec::new() });
    });
    expect(NO_TIERS, &|p| p.0.push(Schema { series: 2, tiers: Vec::new() }));
}

#[test]
fn each_call_on_a_damaged_image() {
    let mut s = made(&plan_of(&[(10, 2, 0), (20, 2, 1)]));
    for (at, byte, number) in
        [(0, 0, BAD_IMAGE), (24, 1, BAD_IMAGE), (16, 0, BAD_IMAGE), (160, 0, CORRUPTED_SLAB)]
    {
        let old = std::mem::replace(&mut s.0[at], byte);
        let before = s.clone();
        assert_eq!(open(&s.0, &mut s.1), Err(number));
        assert_eq!(record(&mut s.0, &mut s.1, (9, 9, INF, 0)), Err(number));
        assert_eq!(record_batch(&mut s.0, &mut s.1, &[], 0), Err(number));
        assert_eq!(query(&s.0, &s.1, 9, 9, 9, (1, 0)).err(), Some(number));
        assert_eq!(query_auto(&s.0, &s.1, 9, 9, (1, 0)).err(), Some(number));
        assert_eq!(panel(&s.0, &s.1, 9, 9, 9), Err(number));
        assert_eq!(service(&s.0, &s.1, 9, 9, 9), Err(number));
        assert_eq!(consolidate(&mut s.0, &mut s.1), Err(number));
        assert!(s == before);
        s.0[at] = old;
    }
    assert_eq!(open(&s.0, &mut s.1), Ok(()));
    let short = s.0.len() - 1;
    assert_eq!(open(&s.0[..short], &mut s.1), Err(BAD_IMAGE));
}
