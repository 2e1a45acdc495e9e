//! Which lists the Rust is run beside (request 2026-05), and up to where.

use super::*;
use crate::generate::{self, INFINITY, Random};
use crate::sides::ordered;

/// Two schemas of four slots, interval 10; the first has a coarser tier of 20.
fn plan() -> Plan {
    let mut plan = crate::one_schema(&[(10, 4, 0), (20, 2, 1)]);
    plan.0.extend(crate::one_schema(&[(10, 4, 0)]).0);
    plan
}

fn record(schema: u32, stamp: u64) -> Call {
    Call::Record { schema, column: 0, value: 1f64.to_bits(), stamp }
}

fn batch(schemas: &[u32], stamp: u64) -> Call {
    let entries = schemas.iter().map(|&schema| (schema, 1, 2f64.to_bits())).collect();
    Call::Batch { entries, tail: 0, stamp }
}

/// How many calls of a list go by before it is no longer such a history.
fn up_to(calls: &[Call]) -> usize {
    let mut leader = Lent::new("document 01", Plain);
    leader.create(&plan());
    let mut history = History::default();
    calls.iter().take_while(|call| history.goes_on(call, &leader.call(call))).count()
}

#[test]
fn in_time_order() {
    let infinite = |stamp: u64| Call::Record { schema: 0, column: 0, value: INFINITY, stamp };
    let poke = |cell: Cell| Call::Poke { row: 0, cell };
    let value = Cell::Value { column: 0, slot: 0, value: INFINITY };
    for (calls, goes) in [
        (vec![record(0, 50), record(0, 50), record(0, 51), record(0, 900), Call::Consolidate], 5),
        // Refused with 18, or taken into a fresh slot or over an earlier stamp: it falls.
        (vec![record(0, 50), record(0, 10)], 1),
        (vec![record(0, 50), record(0, 49)], 1),
        (vec![record(0, 60), record(0, 100), record(0, 65)], 2),
        // From there on for good.
        (vec![record(0, 50), record(0, 40), record(0, 60)], 1),
        // Schema by schema.
        (vec![record(0, 50), record(1, 20), batch(&[1], 30), batch(&[0, 1], 50)], 4),
        (vec![record(0, 50), record(1, 20), batch(&[1, 0], 30)], 2),
        (vec![batch(&[0, 1], 50), record(1, 40)], 1),
        // 11, 12 and 13 are no recordings, nor is an empty batch.
        (vec![record(0, 50), infinite(20), record(2, 20), record(0, 0), batch(&[], 20)], 5),
        (vec![record(0, 50), batch(&[0, 2], 20), record(0, 1 << 63), record(0, 50)], 4),
        // A refused run: window 0.
        (vec![record(0, 10), Call::Consolidate, record(0, 20)], 1),
        // Somebody else's values, and bytes that no rule reads; stamps, cursors and marks.
        (vec![poke(value), poke(Cell::Loose { at: 40, byte: 1 }), OPEN, record(0, 1)], 4),
        (vec![poke(Cell::Stamp { slot: 0, stamp: 1 })], 0),
        (vec![poke(Cell::Cursor(0))], 0),
        (vec![poke(Cell::Mark(0))], 0),
    ] {
        assert_eq!(up_to(&calls), goes, "{calls:?}");
    }
}

/// The Rust, which takes old samples, is beside a list up to the call that breaks the order; if it
/// stayed, each of these would show a difference.
#[test]
fn the_rust_leaves() {
    let mut sides: Vec<Box<dyn Side>> = vec![Box::new(ordered::Rust::new("leaves", Kind::Store))];
    let mut t = Tally::default();
    let calls = vec![record(0, 50), record(0, 90), record(0, 50), record(0, 100)];
    assert!(run(&List::new(plan(), calls.clone()), &mut sides, &mut t).is_none());
    assert_eq!((t.compared, t.in_order, t.left, t.alone, t.refusals[18]), (3, 3, 1, 2, 1));
    for call in &calls[..2] {
        assert_eq!(sides[0].call(call), Answer::Done);
    }
    assert_eq!(sides[0].call(&calls[2]), Answer::Done);
}

/// The part `in order` keeps its word, and has what it is made for.
#[test]
fn lists_in_order() {
    let (mut t, mut equal, mut laps, mut several) = (Tally::default(), 0, 0, 0);
    for i in 0..200 {
        let list = generate::in_order(&mut Random(i), 100);
        assert!(run(&list, &mut [], &mut t).is_none());
        let mut leader = Lent::new("document 01", Plain);
        leader.create(&list.plan);
        let (mut history, mut newest) = (History::default(), [0; 8]);
        for call in &list.calls {
            let answer = leader.call(call);
            assert!(history.goes_on(call, &answer), "{call:?} of {list:?}");
            let (schemas, stamp): (Vec<u32>, u64) = match call {
                Call::Record { schema, stamp, .. } => (vec![*schema], *stamp),
                Call::Batch { entries, stamp, .. } => {
                    (entries.iter().map(|e| e.0).collect(), *stamp)
                }
                _ => continue,
            };
            if answer != Answer::Done {
                continue;
            }
            several += schemas.iter().any(|s| *s != schemas[0]) as u64;
            for schema in schemas {
                let fine = list.plan.0[schema as usize].tiers[0];
                let lap = fine.retention / fine.interval * fine.interval;
                let last = std::mem::replace(&mut newest[schema as usize], stamp);
                equal += (stamp == last) as u64;
                laps += (last > 0 && stamp >= last + lap) as u64;
            }
        }
    }
    assert_eq!((t.refusals[18], t.refusals[16], t.passed[0]), (0, 0, 0));
    assert!(equal > 1000 && laps > 1000 && several > 200, "{equal} {laps} {several}");
    assert!(t.opened > 200 && t.refusals[11..=15].iter().all(|&n| n > 100), "{t:?}");
}
