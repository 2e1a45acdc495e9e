//! Request 2026-02: in a list of calls from creation on, nobody else writing, an opening handed the
//! image as left and whatever flags changes no end, no coverage, no tier that `query_auto` picks
//! and no point. So the same list without its openings gives the same answers and the same bytes.

use crate::Session;
use crate::calls::{Answer, Call, Plan, Side};
use crate::compare::List;
use crate::edge::Edge;
use crate::generate::{self, Random};
use crate::sides::{Lent, Library, Plain, SURPLUS, room};

/// A side, and whether it is asked to open.
pub type Asked = (Box<dyn Side>, bool);

/// A library as two sides: opened as the list says, and never.
pub fn pair<L: Library + Copy + 'static>(library: L) -> Vec<Asked> {
    vec![
        (Box::new(Lent::new("opened", library)), true),
        (Box::new(Lent::new("never opened", library)), false),
    ]
}

/// The plain side and the library.
pub fn both() -> Vec<Asked> {
    let mut sides = pair(Plain);
    sides.push((Box::new(Lent::new("library, opened", Edge)), true));
    sides.push((Box::new(Lent::new("library, never opened", Edge)), false));
    sides
}

fn is_opening(call: &Call) -> bool {
    matches!(call, Call::Open { .. })
}

pub fn without_openings(list: &List) -> List {
    let mut list = list.clone();
    list.calls.retain(|c| !is_opening(c));
    list
}

/// Queries of each column and tier: over all time, and over ranges around the rings' ends; and both
/// figures of each tier.
fn questions(r: &mut Random, plan: &Plan, side: &mut dyn Side) -> Vec<Call> {
    let mut found = Vec::new();
    for (k, schema) in plan.0.iter().enumerate() {
        let k = k as u32;
        let (tiers, columns) = (schema.tiers.len() as u32, schema.series.min(2));
        let mut ends = vec![0, u64::MAX];
        for tier in 0..tiers {
            let all =
                |column: u32| Call::Query { schema: k, column, tier, start: 0, end: u64::MAX };
            found.extend((0..columns).map(all));
            if let Answer::Points { oldest: Some(a), newest: Some(b), .. } = side.call(&all(0)) {
                ends.extend([a - 1, a, a + 1, b - 1, b, b + 1]);
            }
            let column = tier % columns;
            found.push(Call::Panel { schema: k, column, tier });
            found.push(Call::Service { schema: k, column, tier });
        }
        for _ in 0..2 {
            let (a, b) = (r.of(&ends), r.of(&ends));
            let (start, end) = (a.min(b), a.max(b));
            let (column, tier) = (r.below(columns as u64) as u32, r.below(tiers as u64) as u32);
            found.push(Call::Auto { schema: k, column, start, end });
            found.push(Call::Query { schema: k, column, tier, start, end });
        }
    }
    found
}

#[derive(Clone, Copy, Default, Debug, PartialEq)]
pub struct Seen {
    pub openings: u64,
    /// Answers held against the first side's.
    pub alike: u64,
}

/// Asks all sides one call: each answer must be the first side's.
fn ask(sides: &mut [Asked], call: &Call, seen: &mut Seen) -> Result<(), String> {
    let (first, others) = sides.split_first_mut().unwrap();
    let wanted = first.0.call(call);
    for (side, _) in others {
        let answer = side.call(call);
        seen.alike += 1;
        if answer != wanted {
            return Err(format!("{}, {call:x?}: {wanted:x?} and {answer:x?}", side.name()));
        }
    }
    Ok(())
}

fn ask_questions(
    sides: &mut [Asked],
    plan: &Plan,
    r: &mut Random,
    seen: &mut Seen,
) -> Result<(), String> {
    let found = questions(r, plan, sides[0].0.as_mut());
    found.iter().try_for_each(|question| ask(sides, question, seen))
}

fn same_bytes(sides: &[Asked]) -> Result<(), String> {
    let image = sides[0].0.state().lent.unwrap().0;
    match sides.iter().find(|s| s.0.state().lent.unwrap().0 != image) {
        Some((side, _)) => Err(format!("{}: other bytes", side.name())),
        None => Ok(()),
    }
}

fn carried_out(
    sides: &mut [Asked],
    list: &List,
    r: &mut Random,
    at: &mut usize,
) -> Result<Seen, String> {
    let (bytes, room) = (list.plan.bytes(|_| 0x1234), room(&list.plan) + SURPLUS);
    let mut seen = Seen::default();
    for (side, _) in sides.iter_mut() {
        let made = side.create_from(&bytes, room);
        if made != Answer::Done {
            return Err(format!("{}: creation {made:?}", side.name()));
        }
    }
    for call in &list.calls {
        *at += 1;
        if is_opening(call) {
            ask_questions(sides, &list.plan, r, &mut seen)?;
            for (side, _) in sides.iter_mut().filter(|s| s.1) {
                let answer = side.call(call);
                if answer != Answer::Done {
                    return Err(format!("{}: {answer:?}", side.name()));
                }
            }
            seen.openings += 1;
            ask_questions(sides, &list.plan, r, &mut seen)?;
        } else {
            ask(sides, call, &mut seen)?;
        }
        same_bytes(sides)?;
    }
    ask_questions(sides, &list.plan, r, &mut seen)?;
    Ok(seen)
}

/// Carries a list out on all sides at once: each answer, and the image's bytes after each call,
/// must be the first side's. Queries stand before and after each opening, and at the end.
pub fn check(sides: &mut [Asked], list: &List, r: &mut Random) -> Result<Seen, String> {
    let mut at = 0;
    carried_out(sides, list, r, &mut at)
        .map_err(|what| format!("with and without openings, call {at} of {list:x?}: {what}"))
}

// Lists

/// What a list shows, with all calls left out that it does without.
fn smallest(sides: &mut [Asked], list: &List, what: String) -> String {
    let (mut list, mut what, mut at) = (list.clone(), what, 0);
    while at < list.calls.len() {
        let mut fewer = list.clone();
        fewer.calls.remove(at);
        match check(sides, &fewer, &mut Random(1)) {
            Ok(_) => at += 1,
            Err(other) => (list, what) = (fewer, other),
        }
    }
    what
}

/// Checks a list on the plain side and on the library.
pub fn checked(s: &mut Session, sides: &mut [Asked], list: &List, r: &mut Random) {
    match check(sides, list, r) {
        Ok(seen) => {
            s.tally.cycled += 1;
            s.tally.taken_out += seen.openings;
            s.tally.alike += seen.alike;
        }
        Err(what) => s.differs(smallest(sides, list, what)),
    }
}

/// A random list: with and without its openings, and both beside the Rust. Every third is one as
/// the part `random` compares.
pub fn power_cycles(s: &mut Session, sides: &mut [Asked], r: &mut Random, length: u64) {
    if !s.own() || s.found >= 5 {
        return;
    }
    let any = r.one_in(3);
    let list = if any { generate::list(r, length, false) } else { generate::cycles(r) };
    checked(s, sides, &list, r);
    if s.found < 5 && list.raw.is_none() && !any {
        s.compare(without_openings(&list));
        s.compare(list);
    }
}

/// Tiny rings: every short list of samples with openings after any of them; then every short list
/// of samples, runs and openings on two tiers.
pub fn every_power_cycle(s: &mut Session, sides: &mut [Asked]) {
    let flags = [None, Some(0), Some(u32::MAX), Some(0x5555_5555)];
    for (n, length) in [(1, 4), (2, 5), (3, 4), (4, 4), (3, 5), (4, 5)] {
        // With five samples on three or four slots, only an opening after each.
        let places = if n > 2 && length == 5 { (1 << length) - 1 } else { 1 }..1 << length;
        let stock: Vec<Call> = (1..=2 * n + 1).map(|t| crate::record(0, t, t as f64)).collect();
        generate::every(&crate::one_schema(&[(1, n, 0)]), &stock, length, |list| {
            for places in places.clone() {
                if s.own() && s.found < 5 {
                    let r = &mut Random(s.number);
                    let mut with = Vec::new();
                    for (i, call) in list.calls.iter().enumerate() {
                        with.push(call.clone());
                        if places >> i & 1 == 1 {
                            with.push(Call::Open { handed: r.of(&flags) });
                        }
                    }
                    checked(s, sides, &List::new(list.plan.clone(), with), r);
                }
            }
            s.found < 5
        });
    }
    for (fine, coarse) in [(1, 2), (1, 3)] {
        for (n, k) in [(1, 1), (2, 1), (2, 2), (3, 2), (4, 1), (4, 3)] {
            let mut stock: Vec<Call> =
                [1, 2, 3, 4, 5, 7].map(|t| crate::record(t as u32 % 2, t, t as f64)).to_vec();
            stock.extend([Call::Consolidate, Call::Open { handed: Some(0) }]);
            let plan = crate::one_schema(&[(fine, n, 0), (coarse, k, 1)]);
            generate::every(&plan, &stock, 5, |mut list| {
                let runs = list.calls.contains(&Call::Consolidate);
                if runs && list.calls.iter().any(is_opening) && s.own() {
                    let r = &mut Random(s.number);
                    for call in list.calls.iter_mut().filter(|c| is_opening(c)) {
                        *call = Call::Open { handed: r.of(&flags) };
                    }
                    checked(s, sides, &list, r);
                }
                s.found < 5
            });
        }
    }
}

#[cfg(test)]
#[path = "opened_cases.rs"]
mod cases;
