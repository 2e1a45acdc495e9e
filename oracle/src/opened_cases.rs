//! The check of openings can fail: other flags at opening change answers or bytes. And the lists
//! that it is given have openings of all kinds.

use super::*;
use crate::calls::OPEN;
use crate::compare::Tally;
use crate::faults::{Fault, Faulty};

/// A ring of so many slots, interval 1; 0 stands for an opening.
fn ring(slots: u64, words: &[u64]) -> List {
    let call = |&t: &u64| if t == 0 { OPEN } else { crate::record(0, t, t as f64) };
    List::new(crate::one_schema(&[(1, slots, 0)]), words.iter().map(call).collect())
}

/// Case L, and rings that the request's page names.
fn named() -> Vec<List> {
    let mut lists = vec![
        ring(10, &[5, 6, 7, 8, 9, 10, 11, 0]),
        ring(2, &[1, 2, 3, 0, 4]),
        ring(4, &[1, 2, 3, 4, 5, 0]),
        ring(4, &[0, 2, 0, 3, 0, 4, 0]),
    ];
    let mut runs = ring(4, &[2, 3, 4, 0]);
    runs.plan = crate::one_schema(&[(1, 4, 0), (2, 2, 1)]);
    runs.calls.insert(2, Call::Consolidate);
    runs.calls.push(Call::Consolidate);
    lists.push(runs);
    lists
}

#[test]
fn nothing_changes() {
    for list in named() {
        let openings = list.calls.iter().filter(|c| is_opening(c)).count() as u64;
        let seen = check(&mut pair(Plain), &list, &mut Random(1)).unwrap();
        assert_eq!(seen.openings, openings);
        // At least: each call, and each tier and column before and after each opening.
        assert!(seen.alike >= list.calls.len() as u64 + 3 * openings);
    }
}

/// The first list of the generator's that shows a fault.
fn caught(fault: Fault) -> Option<u64> {
    let mut sides = pair(Faulty(fault));
    (0..200).find(|&i| {
        let r = &mut Random(i);
        let list = generate::cycles(r);
        check(&mut sides, &list, r).is_err()
    })
}

#[test]
fn other_flags_change_something() {
    use Fault::*;
    assert_eq!(caught(None_), None);
    for fault in
        [FlagOfDocument01, FlagNever, FlagByTheNextSlot, FlagButForTheLastSlot, FlagFromHistory]
    {
        assert!(caught(fault).is_some(), "{fault:?} was not caught");
    }
    // A flag that is true too often costs no point: it is seen where flags are compared.
    assert_eq!((caught(FlagAlways), caught(FlagByTheCursorsSlot)), (None, None));
    let case_l = &named()[0];
    assert!(check(&mut pair(Faulty(FlagOfDocument01)), case_l, &mut Random(1)).is_err());
}

/// What the generator makes: openings where the rules agree and part both ways, rings of one slot
/// and two, refused calls, runs.
#[test]
fn lists_of_all_kinds() {
    let mut t = Tally::default();
    let (mut one, mut two, mut refused, mut fresh, mut middle) = (0, 0, 0, 0, 0);
    for i in 0..400 {
        let list = generate::cycles(&mut Random(i));
        assert!(crate::compare::run(&list, &mut [], &mut t).is_none());
        let slots = |n: u64| {
            let all = |t: &crate::calls::Tier| t.retention / t.interval == n;
            list.plan.0.iter().any(|s| s.tiers.iter().any(all)) as u32
        };
        (one, two) = (one + slots(1), two + slots(2));
        fresh += is_opening(&list.calls[0]) as u32;
        let fine = list.plan.0[0].tiers[0];
        let first = list.calls.iter().find_map(|c| match *c {
            Call::Record { stamp, .. } => {
                Some(stamp / fine.interval % (fine.retention / fine.interval))
            }
            _ => None,
        });
        middle += first.is_some_and(|slot| slot > 0) as u32;
    }
    refused += t.refusals[11..=15].iter().filter(|&&n| n > 20).count();
    assert!(t.only_new > 400 && t.only_old > 200 && t.opened > 2 * t.parted, "{t:?}");
    assert!(one > 50 && two > 50 && fresh > 100 && middle > 100 && refused == 5, "{t:?}");
}
