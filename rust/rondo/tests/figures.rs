//! The panel's figure and the service figure: the last point that a query over all time hands out, as a whole number and in full.

use rondo::{ConsolidationFn, Plan, Refusal, SeriesHandle, ServiceFigure, Store};

mod shared;
use shared::{EVER, FIRST, Numbers, bytes_for, put, raw, tier};

const OTHER: SeriesHandle = SeriesHandle::new(0, 1);
const MOST: f64 = 9_007_199_254_740_992.0; // 2^53

/// Where the first of two columns' cells begin in a ring of four slots: past the head, the slab's header, a directory, the stamps.
const CELLS: usize = 96 + 64 + 8 + 4 * 8;

/// A store of two series, one tier of 10 ns, four slots.
fn four(image: &mut Vec<u8>) -> Store<'_> {
    let plan = Plan::new().schema(2, 7, &[tier(10, 40, None)]);
    *image = bytes_for(&plan);
    Store::create(&plan, image).unwrap()
}

fn shown(value: f64) -> Result<Option<i64>, Refusal> {
    let mut image = Vec::new();
    let mut store = four(&mut image);
    store.record(FIRST, value, 10).unwrap();
    let given = store.service(FIRST, 0).unwrap().unwrap();
    assert_eq!((given.stamp, given.value.to_bits(), given.oldest, given.newest), (10, value.to_bits(), 10, 10));
    store.panel(FIRST, 0)
}

#[test]
fn to_nearest_and_ties_to_even() {
    for (value, whole) in [
        (-0.5, 0),
        (1.5, 2),
        (-2.5, -2),
        (0.5, 0),
        (2.5, 2),
        (-1.5, -2),
        (-0.0, 0),
        (0.49999999999999994, 0), // half added to it is 1
        (0.5000000000000001, 1),
        (-12.4, -12),
        (12.6, 13),
        (5e-324, 0),
        (2251799813685248.5, 2251799813685248), // 2^51
        (2251799813685249.5, 2251799813685250),
        (-4503599627370495.5, -4503599627370496),
        (4503599627370497.0, 4503599627370497), // from 2^52 on all are whole
        (MOST - 1.0, (1 << 53) - 1),
    ] {
        assert_eq!(shown(value), Ok(Some(whole)), "{value:?}");
    }
}

#[test]
fn as_the_standard_library_rounds() {
    let mut numbers = Numbers(88172645463325252);
    for _ in 0..10_000 {
        let exponent = 1000 + numbers.below(76); // 2^-23 to 2^52
        let few = !0 << numbers.below(53); // ties among them
        let bits = numbers.below(2) << 63 | exponent << 52 | (numbers.below(1 << 52) & few);
        let value = f64::from_bits(bits);
        assert_eq!(shown(value), Ok(Some(value.round_ties_even() as i64)), "{value:?}");
    }
}

#[test]
fn two_to_53_is_shown_and_the_next_is_not() {
    assert_eq!(shown(MOST), Ok(Some(1 << 53)));
    assert_eq!(shown(-MOST), Ok(Some(-(1 << 53))));
    for value in [MOST.next_up(), -MOST.next_up(), 1e300, -f64::MAX] {
        assert_eq!(shown(value), Err(Refusal::OffPanel), "{value:?}");
    }
    assert_eq!(Refusal::OffPanel.number(), 17);
    // no call stores an infinite one: into the cell of slot 1
    for value in [f64::INFINITY, f64::NEG_INFINITY] {
        let mut image = Vec::new();
        let flags = {
            let mut store = four(&mut image);
            store.record(FIRST, 1.0, 10).unwrap();
            store.flags()
        };
        put(&mut image, CELLS + 8, value.to_bits());
        let store = Store::resume(&mut image, flags);
        assert_eq!(store.panel(FIRST, 0), Err(Refusal::OffPanel));
        assert_eq!(store.service(FIRST, 0), Ok(Some(ServiceFigure { stamp: 10, value, oldest: 10, newest: 10 })));
    }
}

/// Case E of docs/FORMAT.md, section 14: the slot written last has no value.
#[test]
fn the_last_in_reading_order() {
    let mut image = Vec::new();
    let mut store = four(&mut image);
    for k in 1..=4 {
        store.record(FIRST, k as f64 + 0.25, 10 * k).unwrap();
    }
    store.record(FIRST, f64::NAN, 15).unwrap();
    assert_eq!(store.panel(FIRST, 0), Ok(Some(4)));
    assert_eq!(store.service(FIRST, 0), Ok(Some(ServiceFigure { stamp: 40, value: 4.25, oldest: 20, newest: 15 })));
    // a late one is the last, though its stamp is below others
    store.record(FIRST, -7.0, 25).unwrap();
    assert_eq!(store.panel(FIRST, 0), Ok(Some(-7)));
    assert_eq!(store.service(FIRST, 0), Ok(Some(ServiceFigure { stamp: 25, value: -7.0, oldest: 30, newest: 25 })));
}

#[test]
fn no_point() {
    let mut image = Vec::new();
    let mut store = four(&mut image);
    assert_eq!((store.panel(FIRST, 0), store.service(FIRST, 0)), (Ok(None), Ok(None)));
    for k in 1..=9 {
        store.record(FIRST, f64::NAN, 10 * k).unwrap();
        store.record(OTHER, 1e300, 10 * k).unwrap();
    }
    assert_eq!((store.panel(FIRST, 0), store.service(FIRST, 0)), (Ok(None), Ok(None)));
    assert_eq!(store.panel(OTHER, 0), Err(Refusal::OffPanel));
}

/// The greatest stamp is in no range, so its point is not handed out; as an end it is told.
#[test]
fn the_greatest_stamp() {
    let mut image = Vec::new();
    let flags = {
        let mut store = four(&mut image);
        store.record(FIRST, 1.0, 10).unwrap();
        store.record(FIRST, 2.0, 20).unwrap();
        store.flags()
    };
    put(&mut image, CELLS - 32 + 16, u64::MAX);
    let store = Store::resume(&mut image, flags);
    assert_eq!(store.panel(FIRST, 0), Ok(Some(1)));
    assert_eq!(store.service(FIRST, 0), Ok(Some(ServiceFigure { stamp: 10, value: 1.0, oldest: 10, newest: u64::MAX })));
}

/// 10, then 11, then 14, then 17.
#[test]
fn order_of_refusals() {
    let mut image = Vec::new();
    let mut store = four(&mut image);
    store.record(FIRST, 1e300, 10).unwrap();
    let both =
        |store: &Store, handle, tier| (store.panel(handle, tier), store.service(handle, tier).map(|f| f.map(|f| f.value)));
    for wrong in [SeriesHandle::new(1, 0), SeriesHandle::new(0, 2)] {
        assert_eq!(both(&store, wrong, 1), (Err(Refusal::InvalidHandle), Err(Refusal::InvalidHandle)));
    }
    assert_eq!(both(&store, FIRST, 1), (Err(Refusal::InvalidTier), Err(Refusal::InvalidTier)));
    assert_eq!(both(&store, FIRST, 0), (Err(Refusal::OffPanel), Ok(Some(1e300))));
    let (image, flags) = store.into_parts();
    image[96] ^= 1; // the slab's magic
    let store = Store::resume(image, flags);
    for (handle, tier) in [(FIRST, 0), (FIRST, 1), (SeriesHandle::new(1, 0), 1)] {
        assert_eq!(both(&store, handle, tier), (Err(Refusal::CorruptedSlab), Err(Refusal::CorruptedSlab)));
    }
}

/// By the library's calls: no point leaves all but the word that says so, a refusal leaves all.
#[test]
fn what_was_lent_is_left() {
    let mut image = Vec::new();
    let mut store = four(&mut image);
    store.record(OTHER, 1e300, 10).unwrap();
    let flags = store.flags();
    let (panel, service) = ((7, -8), [1, 2, 3, 4, 5]);
    assert_eq!(raw::panel(&image, flags, 0, 0, panel), (0, (0, -8)));
    assert_eq!(raw::service(&image, flags, 0, 0, service), (0, [0, 2, 3, 4, 5]));
    assert_eq!(raw::panel(&image, flags, 1, 0, panel), (17, panel));
    assert_eq!(raw::service(&image, flags, 1, 0, service), (0, [1, 10, 1e300f64.to_bits(), 10, 10]));
    for (column, tier, number) in [(2, 1, 11), (1, 1, 14)] {
        assert_eq!(raw::panel(&image, flags, column, tier, panel), (number, panel));
        assert_eq!(raw::service(&image, flags, column, tier, service), (number, service));
    }
    image[96] ^= 1;
    assert_eq!(raw::panel(&image, flags, 0, 0, panel), (10, panel));
    assert_eq!(raw::service(&image, flags, 0, 0, service), (10, service));
}

/// In every tier, by store and by view, the last point and the ends of a query over all time.
#[test]
fn as_a_query_has_it() {
    let plan = Plan::new().schema(2, 7, &[tier(10, 120, None), tier(30, 120, Some(ConsolidationFn::Average))]);
    let mut image = bytes_for(&plan);
    let mut store = Store::create(&plan, &mut image).unwrap();
    let (mut numbers, mut seen) = (Numbers(916191069), [0, 0]);
    for k in 6..2000 {
        let value = if numbers.below(3) == 0 { f64::NAN } else { numbers.below(1000) as f64 / 8.0 - 60.0 };
        let column = numbers.below(2) as u32;
        // in a ring of 12 slots, so that one in some is old
        let answer = store.record(SeriesHandle::new(0, column), value, 10 * (k + numbers.below(9)) + numbers.below(10));
        assert!(matches!(answer, Ok(()) | Err(Refusal::OldSample)));
        store.consolidate().unwrap();
        for (handle, tier) in [(FIRST, 0), (FIRST, 1), (OTHER, 0), (OTHER, 1)] {
            let answer = store.query(handle, tier, EVER.0, EVER.1).unwrap();
            let last = answer.points().last().map(|(stamp, value)| {
                let (oldest, newest) = (answer.oldest().unwrap(), answer.newest().unwrap());
                ServiceFigure { stamp, value, oldest, newest }
            });
            let whole = last.map(|figure| figure.value.round_ties_even() as i64);
            assert_eq!((store.service(handle, tier), store.panel(handle, tier)), (Ok(last), Ok(whole)));
            assert_eq!((store.view().service(handle, tier), store.view().panel(handle, tier)), (Ok(last), Ok(whole)));
            seen[usize::from(last.is_some_and(|figure| figure.stamp != figure.newest))] += 1;
        }
    }
    assert!(seen[0] > 1000 && seen[1] > 1000, "{seen:?}");
}
