//! The tour of c/tour.rs through the crate: the same bytes and flags after every call, and the lines of c/expected.

use std::fmt::Write;

use rondo::{ConsolidationFn, Entry, Plan, QueryResult, Refusal, SeriesHandle, Store};

mod shared;
use shared::{EVER, bytes_for, raw, tier};

const SECOND: u64 = 1_000_000_000;
/// FNV-1a over the image that c/tour.rs has once its three hours are recorded.
const TOURS_IMAGE: u64 = 0x9e2f_c78b_2b1e_85d7;
const AVERAGE: Option<ConsolidationFn> = Some(ConsolidationFn::Average);
const OFFSET: SeriesHandle = SeriesHandle::new(0, 0);
const OTHER: SeriesHandle = SeriesHandle::new(0, 1);

fn plan() -> Plan {
    let tiers = [(1, 7200, None), (60, 86_400, AVERAGE), (3600, 2_592_000, AVERAGE)];
    Plan::new().schema(2, 7, &tiers.map(|(interval, retention, f)| tier(interval * SECOND, retention * SECOND, f)))
}

/// The plan's bytes as tour.rs writes them.
fn tours_plan() -> Vec<u8> {
    let mut out = b"RSTO".to_vec();
    for x in [1, 1, 3u32] {
        out.extend(x.to_le_bytes());
    }
    out.extend([0; 16]);
    for (tier, (interval, retention, function)) in [(1, 7200, 0u32), (60, 86_400, 1), (3600, 2_592_000, 1)].iter().enumerate() {
        out.extend(0u32.to_le_bytes());
        out.extend((tier as u32).to_le_bytes());
        out.extend((interval * SECOND).to_le_bytes());
        out.extend((retention * SECOND).to_le_bytes());
        out.extend(function.to_le_bytes());
        out.extend(2u32.to_le_bytes());
        out.extend([0; 24]);
        out.extend(7u64.to_le_bytes());
    }
    out
}

#[test]
fn the_same_bytes() {
    let plan = plan();
    assert_eq!(plan.as_bytes(), tours_plan());
    let mut image = bytes_for(&plan);
    let mut plain = raw::Store::create(&tours_plan(), image.len());
    let mut store = Store::create(&plan, &mut image).unwrap();
    assert_eq!((store.image(), store.flags()), (plain.image.as_slice(), plain.flags));
    for s in 3600..4 * 3600 {
        let values = [(s % 60) as f64, s as f64];
        plain.batch(&values, s * SECOND);
        store.record_batch(&[Entry::new(OFFSET, values[0]), Entry::new(OTHER, values[1])], s * SECOND).unwrap();
        assert_eq!(store.flags(), plain.flags);
        if s % 3600 == 3599 || s == 9029 {
            assert_eq!(store.consolidate().unwrap(), plain.consolidate());
        }
        if s == 9029 {
            plain.open();
            store = Store::open(store.into_parts().0).unwrap();
            assert_eq!(store.flags(), plain.flags);
        }
        if s % 60 == 59 || s == 9029 {
            assert!(store.image() == plain.image);
        }
    }
    assert!(store.image() == plain.image);
    assert_eq!(fnv(store.image()), TOURS_IMAGE);
}

fn fnv(bytes: &[u8]) -> u64 {
    bytes.iter().fold(0xcbf2_9ce4_8422_2325, |sum, &byte| (sum ^ u64::from(byte)).wrapping_mul(0x100_0000_01b3))
}

fn show(out: &mut String, answer: QueryResult) {
    let values: Vec<f64> = answer.points().map(|(_, value)| value).collect();
    let (n, sum) = (values.len(), values.iter().sum::<f64>());
    writeln!(
        out,
        "tier {} from {} to {}{}: {n} points, first {:.6}, last {:.6}, mean {:.6}",
        answer.tier_used(),
        answer.oldest().unwrap_or(0) / SECOND,
        answer.newest().unwrap_or(0) / SECOND,
        if answer.may_be_incomplete() { " (may be incomplete)" } else { "" },
        values.first().unwrap_or(&0.0),
        values.last().unwrap_or(&0.0),
        if n > 0 { sum / n as f64 } else { 0.0 },
    )
    .unwrap();
}

/// Three hours, with a run after each and one at second 9029, where the flags are lost.
fn record(store: Store<'_>, out: &mut String) -> u32 {
    let mut store = store;
    for s in 3600..4 * 3600 {
        let entries = [Entry::new(OFFSET, (s % 60) as f64), Entry::new(OTHER, s as f64)];
        store.record_batch(&entries, s * SECOND).unwrap();
        if s % 3600 == 3599 || s == 9029 {
            writeln!(out, "second {s}: {} values written", store.consolidate().unwrap()).unwrap();
        }
        if s == 9029 {
            store = Store::open(store.into_parts().0).unwrap();
            show(out, store.query(OTHER, 0, EVER.0, EVER.1).unwrap());
        }
    }
    store.flags()
}

/// The lines of the tour's second half, but for the one on reading sixteen at a time, which the crate does by 32.
fn ask(store: &mut Store, out: &mut String) {
    for tier in 0..3 {
        show(out, store.query(OTHER, tier, EVER.0, EVER.1).unwrap());
    }
    show(out, store.query_auto(OFFSET, 3600 * SECOND, 7200 * SECOND).unwrap());
    writeln!(
        out,
        "refused: value {}, stamp {}, column {}, tier {}, range {}",
        store.record(OFFSET, f64::INFINITY, 1).unwrap_err().number(),
        store.record(OFFSET, 0.0, 0).unwrap_err().number(),
        store.record(SeriesHandle::new(0, 2), 0.0, 1).unwrap_err().number(),
        store.query(OFFSET, 3, 5, 5).unwrap_err().number(),
        store.query(OFFSET, 0, 5, 5).unwrap_err().number(),
    )
    .unwrap();
}

/// A second that shares its slot with a later one, alone and in a batch; then the later one again.
fn come_late(store: &mut Store, out: &mut String) {
    let both = [Entry::new(OFFSET, 1.0), Entry::new(OTHER, 14399.0)];
    writeln!(
        out,
        "a lap late: {}, in a batch {}; the same second again: {}",
        store.record(OFFSET, 1.0, 7199 * SECOND).unwrap_err().number(),
        store.record_batch(&both, 7199 * SECOND).unwrap_err().number(),
        store.record_batch(&both, 14399 * SECOND).err().map_or(0, Refusal::number),
    )
    .unwrap();
}

/// The last minute's mean as the panel shows it and in full; then a value that no panel shows.
fn figures(store: &mut Store, out: &mut String) {
    let (shown, full) = (store.panel(OTHER, 1).unwrap(), store.service(OTHER, 1).unwrap());
    let figure = full.unwrap();
    writeln!(
        out,
        "panel: {}, {}; service: {}, {:.6} of second {}, ring from {} to {}",
        u32::from(shown.is_some()),
        shown.unwrap(),
        u32::from(full.is_some()),
        figure.value,
        figure.stamp / SECOND,
        figure.oldest / SECOND,
        figure.newest / SECOND,
    )
    .unwrap();
    store.record(OFFSET, 9007199254740994.0, 14399 * SECOND).unwrap();
    let (panel, service) = (store.panel(OFFSET, 0), store.service(OFFSET, 0));
    let number = |refusal: Option<Refusal>| refusal.map_or(0, Refusal::number);
    writeln!(out, "beyond 2^53: panel {}, service {}", number(panel.err()), number(service.err())).unwrap();
}

#[test]
fn the_same_lines() {
    let plan = plan();
    let mut image = bytes_for(&plan);
    let mut out = format!("image of {} bytes\n", image.len());
    let flags = record(Store::create(&plan, &mut image).unwrap(), &mut out);
    ask(&mut Store::resume(&mut image, flags), &mut out);
    come_late(&mut Store::resume(&mut image, flags), &mut out);
    figures(&mut Store::resume(&mut image, flags), &mut out);
    let again = Store::open(&mut image).unwrap();
    writeln!(out, "flags {flags}, opened again {}", again.flags()).unwrap();
    show(&mut out, again.query(OTHER, 0, EVER.0, EVER.1).unwrap());
    image[0] ^= 1;
    writeln!(out, "damaged: {}", Store::open(&mut image).unwrap_err().number()).unwrap();
    let expected: Vec<&str> = include_str!("../../../c/expected").lines().filter(|line| !line.starts_with("sixteen")).collect();
    assert_eq!(out.lines().collect::<Vec<_>>(), expected);
}
