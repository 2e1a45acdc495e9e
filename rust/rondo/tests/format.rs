//! The worked example of docs/FORMAT.md, section 13: the fresh image to the byte, and every byte that each call changes.

use rondo::{ConsolidationFn, Entry, Plan, Refusal, Store};

mod shared;
use shared::{EVER, FIRST, tier};

const PAGE: &str = include_str!("../../../docs/FORMAT.md");

/// The page's hex listing: lines of an offset and bytes in hex, two a byte.
fn listing() -> Vec<u8> {
    let section = PAGE.split("## 13. ").nth(1).unwrap().split("## 14. ").next().unwrap();
    let mut bytes = Vec::new();
    for line in section.lines().filter(|line| line.starts_with("    ")) {
        let mut words = line.split_whitespace();
        if words.next().and_then(|word| word.parse().ok()) == Some(bytes.len()) {
            let hex = words.map_while(|word| if word.len() == 2 { u8::from_str_radix(word, 16).ok() } else { None });
            bytes.extend(hex.take(16));
        }
    }
    bytes
}

fn plan() -> Plan {
    Plan::new().schema(2, 7, &[tier(10, 30, None), tier(30, 60, Some(ConsolidationFn::Average))])
}

/// Holds the image against the one before with some bytes changed, each an offset and its new bytes.
fn changed(before: &mut [u8], store: &Store, changes: &[(usize, &[u8])], flags: u32) {
    for &(at, bytes) in changes {
        before[at..at + bytes.len()].copy_from_slice(bytes);
    }
    assert_eq!((store.image(), store.flags()), (&*before, flags));
}

#[test]
fn the_fresh_image() {
    let listed = listing();
    assert_eq!(listed.len(), 424);
    let mut image = vec![0; 424];
    assert_eq!(plan().image_size(), Ok(424));
    Store::create(&plan(), &mut image).unwrap();
    assert_eq!(image, listed);
}

#[test]
fn the_calls() {
    let (mut image, mut was) = (vec![0; 424], listing());
    let mut store = Store::create(&plan(), &mut image).unwrap();
    store.record(FIRST, 1.0, 30).unwrap();
    changed(&mut was, &store, &[(232, &[0x1e]), (262, &[0xf0, 0x3f])], 0);
    store.record(FIRST, 2.0, 40).unwrap();
    changed(&mut was, &store, &[(192, &[1]), (240, &[0x28]), (270, &[0, 0x40])], 0);
    store.record(FIRST, 6.0, 50).unwrap();
    changed(&mut was, &store, &[(192, &[2]), (248, &[0x32]), (278, &[0x18, 0x40])], 0);
    assert_eq!(store.consolidate(), Ok(1));
    changed(&mut was, &store, &[(80, &[0x32]), (336, &[1]), (384, &[0x1e]), (406, &[8, 0x40])], 0);
    store.record(FIRST, 5.0, 60).unwrap();
    changed(&mut was, &store, &[(192, &[0]), (232, &[0x3c]), (262, &[0x14, 0x40])], 1);
    assert_eq!(store.consolidate(), Ok(2));
    changed(&mut was, &store, &[(80, &[0x3c]), (336, &[0]), (376, &[0x3c]), (398, &[0x14, 0x40]), (406, &[0x10])], 3);
    let answer = store.query(FIRST, 1, EVER.0, EVER.1).unwrap();
    assert_eq!((answer.available_range(), answer.may_be_incomplete()), ((Some(30), Some(60)), true));
    assert!(answer.points().eq([(30, 4.0), (60, 5.0)]));
    let mut store = Store::open(store.into_parts().0).unwrap();
    changed(&mut was, &store, &[], 3);
    assert_eq!(store.consolidate(), Ok(1));
    assert_eq!(store.record(FIRST, f64::INFINITY, 0), Err(Refusal::InvalidValue));
    assert_eq!(store.record_batch(&[Entry::new(FIRST, f64::INFINITY)], 0), Err(Refusal::InvalidTimestamp));
    changed(&mut was, &store, &[], 3);
    assert_eq!(Store::open(&mut store.into_parts().0[..423]).unwrap_err(), Refusal::BadImage);
}
