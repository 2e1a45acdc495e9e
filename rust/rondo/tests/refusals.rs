//! Every refusal, provoked through the crate; its number held against the header for C.

use rondo::{ConsolidationFn, Entry, Plan, Refusal, SeriesHandle, Store, TierConfig};

mod shared;
use shared::{EVER, FIRST, bytes_for, put, tens_into_thirties, tier};

const HEADER: &str = include_str!("../../../c/include/rondo.h");
const AVERAGE: Option<ConsolidationFn> = Some(ConsolidationFn::Average);

/// The header's `RONDO_.. = number`, in its order.
fn numbers() -> Vec<(String, u32)> {
    let mut found = Vec::new();
    for part in HEADER.split("RONDO_").skip(1) {
        let Some((name, rest)) = part.split_once(" = ") else { continue };
        let digits: String = rest.chars().take_while(char::is_ascii_digit).collect();
        if name.chars().all(|c| c.is_ascii_uppercase() || c == '_') && !digits.is_empty() {
            found.push((name.to_string(), digits.parse().unwrap()));
        }
    }
    found
}

/// BadImage as BAD_IMAGE.
fn upper(name: &str) -> String {
    let mut out = String::new();
    for (at, c) in name.chars().enumerate() {
        if at > 0 && c.is_uppercase() {
            out.push('_');
        }
        out.push(c.to_ascii_uppercase());
    }
    out
}

#[test]
fn names_and_numbers_are_the_headers() {
    let (answers, functions): (Vec<_>, Vec<_>) = {
        let all = numbers();
        (all[..19].to_vec(), all[19..].to_vec())
    };
    assert_eq!(answers[0], ("ACCEPTED".to_string(), 0));
    for (refusal, (name, number)) in Refusal::ALL.into_iter().zip(&answers[1..]) {
        assert_eq!((&upper(refusal.name()), refusal.number()), (name, *number));
        assert_eq!(Refusal::from_number(*number), Some(refusal));
        assert_eq!(format!("{refusal:?}"), refusal.name());
    }
    use ConsolidationFn::*;
    assert_eq!(functions.len(), 7);
    for (function, (name, number)) in [Average, Min, Max, Last, Sum, Count].into_iter().zip(&functions[1..]) {
        assert_eq!((format!("{function:?}").to_uppercase(), function.number()), (name.clone(), *number));
    }
}

#[test]
fn each_has_a_sentence_of_its_own_and_is_an_error() {
    let mut words: Vec<String> = Refusal::ALL.iter().map(Refusal::to_string).collect();
    words.sort();
    words.dedup();
    assert_eq!(words.len(), 18);
    let boxed: Box<dyn std::error::Error> = Refusal::NoTiers.into();
    assert_eq!(boxed.to_string(), "a schema has no tier");
    assert_eq!(format!("{:>22}|", Refusal::NoTiers), "  a schema has no tier|");
}

fn of(tiers: &[TierConfig]) -> Refusal {
    Plan::new().schema(1, 7, tiers).image_size().unwrap_err()
}

#[test]
fn plans() {
    assert_eq!(Plan::new().image_size(), Err(Refusal::BadImage));
    assert_eq!(of(&[]), Refusal::NoTiers);
    assert_eq!(Plan::new().schema(0, 7, &[tier(1, 9, None)]).image_size(), Err(Refusal::InvalidMaxSeries));
    for (interval, retention) in [(0, 9), (9, 0), (9, 8), (1 << 63, 1 << 63), (1, 1 << 63), (u64::MAX, u64::MAX)] {
        assert_eq!(of(&[tier(interval, retention, None)]), Refusal::InvalidTierConfig);
    }
    assert_eq!(of(&[tier(1, 1_000_000_001, None)]), Refusal::TooManySlots);
    assert_eq!(of(&[tier(10, 60, None), tier(10, 60, AVERAGE)]), Refusal::TiersNotOrdered);
    assert_eq!(of(&[tier(10, 60, AVERAGE)]), Refusal::ConsolidationOnHighestTier);
    let wide = Plan::new().schema(1000, 7, &[tier(1, 1_000_000_000, None)]);
    assert_eq!(wide.image_size(), Err(Refusal::LayoutTooLarge));
    assert_eq!(Store::create(&wide, &mut []).unwrap_err(), Refusal::LayoutTooLarge);
}

#[test]
fn a_schema_or_a_tier_too_many() {
    let mut plan = Plan::new();
    for schemas in 1..=9 {
        plan = plan.schema(1, 7, &[tier(10, 60, None)]);
        assert_eq!((plan.image_size().is_ok(), plan.schema_count()), (schemas <= 8, schemas));
    }
    assert_eq!(plan.image_size(), Err(Refusal::BadImage));
    let many: Vec<_> = (1..=200).map(|i| tier(i, 1000, (i > 1).then_some(ConsolidationFn::Sum))).collect();
    for tiers in [31, 32, 33, 200] {
        let plan = Plan::new().schema(1, 7, &many[..tiers]);
        assert_eq!(plan.image_size().err(), (tiers > 32).then_some(Refusal::BadImage));
        assert_eq!(plan.tier_count(), tiers);
        assert_eq!(plan.as_bytes().len(), 32 + 64 * tiers.min(32));
    }
}

#[test]
fn creation_and_opening() {
    let plan = tens_into_thirties();
    let mut image = bytes_for(&plan);
    image.fill(0xaa);
    let short = image.len() - 1;
    assert_eq!(Store::create(&plan, &mut image[..short]).unwrap_err(), Refusal::ShortBuffer);
    assert!(image.iter().all(|&byte| byte == 0xaa));
    assert_eq!(Store::open(&mut image).unwrap_err(), Refusal::BadImage);
    assert_eq!(Store::open(&mut []).unwrap_err(), Refusal::BadImage);
    Store::create(&plan, &mut image).unwrap();
    assert_eq!(Store::open(&mut image[..short]).unwrap_err(), Refusal::BadImage);
    // a wrong total length together with interval 0 is 4, not 1
    let mut twice = image.clone();
    put(&mut twice, 16, 1);
    assert_eq!(Store::open(&mut twice).unwrap_err(), Refusal::BadImage);
    put(&mut twice, 40, 0);
    assert_eq!(Store::open(&mut twice).unwrap_err(), Refusal::InvalidTierConfig);
    // the first slab's magic
    image[160] ^= 1;
    assert_eq!(Store::open(&mut image).unwrap_err(), Refusal::CorruptedSlab);
}

/// Calls that are refused, and leave image and flags.
#[test]
fn recordings_and_queries() {
    let plan = tens_into_thirties();
    let mut image = bytes_for(&plan);
    let mut store = Store::create(&plan, &mut image).unwrap();
    store.record(FIRST, 1.0, 130).unwrap(); // slot 1
    let before = (store.image().to_vec(), store.flags());
    for wrong in [SeriesHandle::new(1, 0), SeriesHandle::new(0, 1), SeriesHandle::new(u32::MAX, u32::MAX)] {
        assert_eq!(store.record(wrong, f64::INFINITY, 0), Err(Refusal::InvalidHandle));
        let entries = [Entry::new(FIRST, f64::INFINITY), Entry::new(wrong, 1.0)];
        assert_eq!(store.record_batch(&entries, 0), Err(Refusal::InvalidHandle));
        assert_eq!(store.query(wrong, 2, 5, 5).unwrap_err(), Refusal::InvalidHandle);
        assert_eq!(store.query_auto(wrong, 5, 5).unwrap_err(), Refusal::InvalidHandle);
        assert_eq!(store.panel(wrong, 2), Err(Refusal::InvalidHandle));
        assert_eq!(store.service(wrong, 2), Err(Refusal::InvalidHandle));
    }
    for value in [f64::INFINITY, f64::NEG_INFINITY] {
        assert_eq!(store.record(FIRST, value, 20), Err(Refusal::InvalidValue));
    }
    for stamp in [0, 1 << 63, u64::MAX] {
        assert_eq!(store.record(FIRST, 1.0, stamp), Err(Refusal::InvalidTimestamp));
    }
    for stamp in [10, 19] {
        assert_eq!(store.record(FIRST, 1.0, stamp), Err(Refusal::OldSample));
        assert_eq!(store.record_batch(&[Entry::new(FIRST, 1.0)], stamp), Err(Refusal::OldSample));
    }
    assert_eq!(store.query(FIRST, 2, 5, 5).unwrap_err(), Refusal::InvalidTier);
    assert_eq!(store.query(FIRST, 1, 5, 5).unwrap_err(), Refusal::InvalidTimeRange);
    assert_eq!(store.query_auto(FIRST, 6, 5).unwrap_err(), Refusal::InvalidTimeRange);
    assert_eq!(store.panel(FIRST, 2), Err(Refusal::InvalidTier));
    assert_eq!(store.service(FIRST, 2), Err(Refusal::InvalidTier));
    assert_eq!((store.image().to_vec(), store.flags()), before);
}

/// A run's own refusals: 16, 10, 12, 13.
#[test]
fn runs() {
    let refused = |function, values: &[(u64, f64)], poke: Option<(usize, u64)>| {
        let plan = Plan::new().schema(1, 7, &[tier(10, 120, None), tier(30, 120, function)]);
        let mut image = bytes_for(&plan);
        let mut store = Store::create(&plan, &mut image).unwrap();
        for &(stamp, value) in values {
            store.record(FIRST, value, stamp).unwrap();
        }
        let (image, flags) = store.into_parts();
        if let Some((at, number)) = poke {
            put(image, at, number);
        }
        Store::resume(image, flags).consolidate().unwrap_err()
    };
    assert_eq!(refused(None, &[], None), Refusal::NoConsolidationFunction);
    // the stamp of slot 0: past the head, the slab's header and a directory of four bytes
    assert_eq!(refused(AVERAGE, &[(30, 1.0)], Some((160 + 64 + 4, 1 << 63))), Refusal::CorruptedSlab);
    assert_eq!(refused(Some(ConsolidationFn::Sum), &[(30, f64::MAX), (40, f64::MAX)], None), Refusal::InvalidValue);
    assert_eq!(refused(AVERAGE, &[(10, 1.0)], None), Refusal::InvalidTimestamp);
}

/// Calls on bytes that are no image.
#[test]
fn any_bytes_may_be_lent() {
    let mut bytes = [7; 300];
    let mut store = Store::resume(&mut bytes, u32::MAX);
    assert_eq!(store.record(FIRST, 1.0, 10), Err(Refusal::BadImage));
    assert_eq!(store.record_batch(&[], 10), Err(Refusal::BadImage));
    assert_eq!(store.query(FIRST, 0, EVER.0, EVER.1).unwrap_err(), Refusal::BadImage);
    assert_eq!(store.query_auto(FIRST, EVER.0, EVER.1).unwrap_err(), Refusal::BadImage);
    assert_eq!(store.panel(FIRST, 0), Err(Refusal::BadImage));
    assert_eq!(store.service(FIRST, 0), Err(Refusal::BadImage));
    assert_eq!(store.consolidate(), Err(Refusal::BadImage));
    assert_eq!((store.image(), store.flags()), ([7; 300].as_slice(), u32::MAX));
}
