//! The third demand's check can fail: lists outside of its supposition, other starts of a reading,
//! other flags at opening, altered points. The lists are those of requests 2026-01's and 2026-02's
//! readings and rows.

use super::*;
use crate::faults::{Fault, Faulty};

/// Interval and slots of each tier.
fn plan_of(tiers: &[(u64, u64)]) -> Plan {
    let tier = |(k, &(interval, n)): (usize, &(u64, u64))| (interval, n, (k > 0) as u32);
    crate::one_schema(&tiers.iter().enumerate().map(tier).collect::<Vec<_>>())
}

/// `2 run 3 open`: a sample at 2, a run with the queries after it, a sample at 3, an opening with
/// the queries after it. Openings are handed no flag and all flags in turn.
fn calls_of(plan: &Plan, words: &str) -> Vec<Call> {
    let mut calls = Vec::new();
    for (i, word) in words.split(' ').enumerate() {
        if let Ok(stamp) = word.parse() {
            calls.push(crate::record(0, stamp, (1u64 << stamp) as f64));
            continue;
        }
        let handed = Some(if i % 2 == 0 { 0 } else { u32::MAX });
        calls.push(if word == "run" { Call::Consolidate } else { Call::Open { handed } });
        calls.extend((0..plan.0[0].tiers.len() as u32).map(crate::all_time));
    }
    calls
}

/// Whether a list meets the supposition, and whether it gives what the demand says.
fn tried(tiers: &[(u64, u64)], words: &str) -> (bool, bool) {
    let plan = plan_of(tiers);
    let calls = calls_of(&plan, words);
    // Runs, and openings after a run with no sample between.
    let (mut ran, mut asked) = (false, 0);
    for word in words.split(' ') {
        ran = word == "run" || (ran && word == "open");
        asked += ran as usize * tiers.len();
    }
    let found = check(Plain, &plan, &calls);
    assert!(found.as_ref().map_or(true, |&checked| checked == asked as u64));
    (supposed(&plan, &events(&plan, &calls)), found.is_ok())
}

#[test]
fn two_coarsest_intervals_are_needed() {
    assert_eq!(tried(&[(1, 3), (2, 2)], "2 run 3 4 5 run"), (false, false));
    assert_eq!(tried(&[(1, 4), (2, 2)], "2 run 3 4 5 run"), (true, true));
    let long = "4 run 5 6 7 8 9 10 run";
    assert_eq!(tried(&[(1, 8), (2, 3), (4, 2)], long), (false, false));
    assert_eq!(tried(&[(1, 8), (2, 4), (4, 2)], long), (true, true));
    let often = "4 run 5 6 run 7 8 run run 9 10 11 run 12 run";
    assert_eq!(tried(&[(1, 8), (2, 4), (4, 2)], often), (true, true));
    // On document 01's schedule, too.
    assert_eq!(tried(&[(1, 3), (2, 2)], "2 3 run 4 5 run"), (false, false));
    assert_eq!(tried(&[(1, 4), (2, 2)], "2 3 run 4 5 run"), (true, true));
}

#[test]
fn a_run_in_each_coarsest_interval_is_needed() {
    assert_eq!(tried(&[(1, 4), (2, 3)], "2 run 3 4 5 6 run"), (false, false));
    assert_eq!(tried(&[(1, 4), (2, 3)], "2 run 3 4 5 run 6 run"), (true, true));
    // A run after an interval's last tick is that interval's, and not the next one's.
    assert_eq!(tried(&[(1, 4), (2, 3)], "2 3 run 4 5 6 run"), (false, false));
    assert_eq!(tried(&[(1, 4), (2, 3)], "2 3 run 4 run 5 6 run"), (true, true));
}

#[test]
fn slots_hold_the_open_window_too() {
    let words = "2 3 run 4 5 run 6 run";
    assert_eq!(tried(&[(1, 4), (2, 2)], words), (true, true));
    let plan = plan_of(&[(1, 4), (2, 2)]);
    let mut side = Lent::new("document 01", Plain);
    side.create(&plan);
    let answers: Vec<Answer> = calls_of(&plan, words).iter().map(|c| side.call(c)).collect();
    let Some(Answer::Points { points, .. }) = answers.last() else { panic!("{answers:?}") };
    assert_eq!(points.iter().map(|p| p.0).collect::<Vec<_>>(), [4, 6]);
}

#[test]
fn what_else_the_supposition_asks() {
    let tight = [(1, 4), (2, 2)];
    for (words, met) in [
        ("2 run", true),
        ("2 run run 3 run", true),
        ("4 run", true),
        ("run 2 run", false), // before the first sample
        ("3 run", false),     // not a multiple of the coarsest interval
        ("2 2 run", false),   // twice at a tick
        ("2 run 2 run", false),
        ("2 4 run", false), // a tick left out
        ("2 3 2 run", false),
        ("2 3 4 run", false), // no run in the first interval
    ] {
        assert_eq!(tried_supposition(&tight, words), met, "{words}");
    }
    for tiers in [
        &[(1, 4)][..],
        &[(2, 6), (3, 4)],
        &[(1, 8194), (4097, 2)],
        &[(1, 64), (2, 32), (4, 16), (8, 8), (16, 4)],
    ] {
        assert!(!suited(&plan_of(tiers)), "{tiers:?}");
    }
    assert!(suited(&plan_of(&[(1, 8192), (4096, 2)])));
    assert!(!suited(&crate::one_schema(&[(1, 4, 0), (2, 2, 5)])));
}

fn tried_supposition(tiers: &[(u64, u64)], words: &str) -> bool {
    let plan = plan_of(tiers);
    supposed(&plan, &events(&plan, &calls_of(&plan, words)))
}

/// Each other start breaks the demand on a list that meets its supposition.
#[test]
fn other_starts() {
    for (fault, tiers, words) in [
        (Fault::StartsAfterTheMark, &[(1, 4), (2, 2)], "2 run 3 run"),
        (Fault::StartsAtTheMark, &[(1, 6), (3, 2)], "3 4 run 5 run"),
        (Fault::StartsAfterTheMarksWindow, &[(1, 4), (2, 2)], "2 run 3 run"),
        (Fault::StartsAtTheOldest, &[(1, 4), (2, 3)], "2 3 run 4 5 run 6 run"),
    ] {
        assert_eq!(tried(tiers, words), (true, true));
        let plan = plan_of(tiers);
        let found = check(Faulty(fault), &plan, &calls_of(&plan, words));
        assert!(found.is_err(), "{fault:?} was not caught");
    }
}

/// Request 2026-02: openings anywhere; by document 01's rule, and by others, the demand fails.
#[test]
fn openings_anywhere() {
    for (tiers, words) in [
        (&[(1, 4), (2, 2)][..], "2 3 run 4 open run"),
        (&[(1, 4), (2, 2)], "open open 2 run open 3 open run open 4 open open run 5 run"),
        (&[(1, 4), (2, 2)], "6 open 7 run open 8 run open 9 open run 10 open run"),
        (&[(1, 8), (2, 4), (4, 2)], "open 4 open 5 6 run 7 open 8 open run 9 10 open 11 run open"),
    ] {
        assert_eq!(tried(tiers, words), (true, true), "{words}");
    }
    // A sample that an opening stands before is still a sample; a run still has to be there.
    assert_eq!(tried(&[(1, 4), (2, 3)], "2 run 3 4 open 5 open 6 run"), (false, false));
    assert!(!tried_supposition(&[(1, 4), (2, 2)], "open run 2 run"));
    for (fault, words) in [
        (Fault::FlagOfDocument01, "2 3 run 4 open run"),
        (Fault::FlagNever, "2 3 run 4 open run"),
        (Fault::FlagByTheNextSlot, "2 3 run 4 open run"),
        (Fault::FlagFromHistory, "2 3 run 4 run run open"),
    ] {
        let plan = plan_of(&[(1, 4), (2, 2)]);
        assert_eq!(tried(&[(1, 4), (2, 2)], words), (true, true));
        let found = check(Faulty(fault), &plan, &calls_of(&plan, words));
        assert!(found.is_err(), "{fault:?} was not caught");
    }
}

/// Samples at 2 to 6: window 6 is open, 2 and 4 are closed.
#[test]
fn altered_points() {
    let plan = plan_of(&[(1, 8), (2, 4)]);
    let mut samples = Samples::default();
    for stamp in 2..=6 {
        samples.take(0, stamp, (stamp as f64).to_bits());
    }
    let points = [(2, 2.5), (4, 4.5), (6, 6.0)];
    let with = |f: &dyn Fn(&mut Vec<(u64, f64)>)| {
        let mut altered = points.to_vec();
        f(&mut altered);
        let bits: Vec<(u64, u64)> = altered.iter().map(|p| (p.0, p.1.to_bits())).collect();
        samples.given(&plan, 0, 1, &bits)
    };
    assert!(with(&|_| {}));
    // The open one has no bound, but must be there, once, as the last, with its stamp.
    assert!(with(&|p| p[2].1 = 1e9));
    assert!(!with(&|p| p.truncate(2)));
    assert!(!with(&|p| p.push((6, 6.0))));
    assert!(!with(&|p| p.push((8, 8.0))));
    assert!(!with(&|p| p[2].0 = 7));
    assert!(!with(&|p| p.swap(1, 2)));
    // A closed one has the bound, 1/4,096 at tier 1.
    assert!(with(&|p| p[1].1 = 4.5 + 1.0 / 4097.0));
    assert!(!with(&|p| p[1].1 = 4.5 + 1.0 / 4095.0));
    assert!(!with(&|p| p[0].1 = 2.5 - 1.0 / 4095.0));
    assert!(!with(&|p| {
        p.remove(0);
    }));
    // At tier 0 every point is the sample itself.
    let bits = |last: f64| -> Vec<(u64, u64)> {
        (2..=6).map(|t| (t, if t == 6 { last } else { t as f64 }.to_bits())).collect()
    };
    assert!(samples.given(&plan, 0, 0, &bits(6.0)));
    assert!(!samples.given(&plan, 0, 0, &bits(f64::from_bits(6f64.to_bits() + 1))));
}

/// Each kind of schedule gives lists that meet the supposition, and all their queries are checked.
#[test]
fn lists_meet_the_supposition() {
    use Schedule::*;
    let mut old = 0;
    for i in 0..400 {
        let mut r = Random(i);
        let schedule = [EachTick, SomeTicks, EarlyAndLate, LastTicks][i as usize % 4];
        let plan = plan(&mut r, &[10, 20, 60]);
        let list = list(&mut r, plan, schedule, 6 * (1 + i / 4 % 5), i % 3 == 0);
        old += olds(&list);
        assert!(i % 3 == 0 || olds(&list) == 0);
        let events = events(&list.plan, &list.calls);
        assert!(supposed(&list.plan, &events));
        let checked = check(Plain, &list.plan, &list.calls).unwrap();
        // The least: after each coarsest interval, one column.
        assert!(schedule == EarlyAndLate || checked >= 3 * (1 + i / 4 % 5));
    }
    assert!(old > 500, "{old}");
}

/// How many calls of a list are refused with 18.
fn olds(list: &List) -> u64 {
    let mut side = Lent::new("document 01", Plain);
    side.create(&list.plan);
    list.calls.iter().filter(|c| side.call(c) == Answer::Refused(18)).count() as u64
}

/// Request 2026-05: old samples between, whatever they are, are refused and change nothing; taken, they
/// break the demand.
#[test]
fn old_samples_anywhere() {
    let plan = plan_of(&[(1, 4), (2, 2)]);
    let mut calls = calls_of(&plan, "6 7 run 8 9 run");
    for at in (2..=calls.len()).rev() {
        // 6 and 7 are in, and their slots hold no earlier stamps.
        calls.insert(at, crate::record(0, 2, 1.0));
        calls.insert(at, crate::record(0, 3, 1.0));
    }
    assert_eq!(olds(&List::new(plan.clone(), calls.clone())), calls.len() as u64 / 3 * 2);
    assert!(supposed(&plan, &events(&plan, &calls)));
    assert_eq!(check(Plain, &plan, &calls), Ok(4));
    assert!(check(Faulty(Fault::OldIsTaken), &plan, &calls).is_err());
}
