//! Lists for request 2026-04: the panel's figure and the service figure of any store, and values
//! aimed at what rounding to a whole number tells apart.

use crate::Session;
use crate::calls::{Call, Cell, Plan};
use crate::compare::List;
use crate::generate::{self, INFINITY, Random};
use crate::plain::FRESH;

const LIMIT: u64 = 0x4340_0000_0000_0000; // 2^53

/// Ties, halves, wholes and their neighbours, 2^51 to 2^53, the first doubles beyond, subnormals.
pub fn value(r: &mut Random) -> u64 {
    let near = |r: &mut Random, x: f64| x.to_bits() + r.below(5) - 2;
    let below = 1 + r.below(52);
    let number = (1 + r.below(1 << below)) as f64;
    let size = match r.below(12) {
        0 => number + 0.5,
        1 => f64::from_bits(near(r, number + 0.5)),
        2 => f64::from_bits(near(r, number)),
        3 => f64::from_bits(near(r, 0.5)),
        4 => f64::from_bits(LIMIT - (1 << 52) + (r.next() >> 12)),
        5 => f64::from_bits(LIMIT - (2 << 52) + (r.next() >> 12)),
        6 => f64::from_bits(near(r, f64::from_bits(LIMIT))),
        7 => f64::from_bits(LIMIT + r.below(INFINITY - LIMIT)),
        8 => f64::from_bits(r.next() >> 12),
        9 => r.of(&[0.0, 0.25, 0.5, 0.75, 1.0, 1.5, 2.5, 3.5]),
        10 => f64::from_bits((1020 + r.below(58)) << 52 | r.next() >> 12),
        _ => {
            // A tie: behind the point a one, and zeros.
            let behind = 1 + r.below(52);
            let fraction = r.next() >> 12 >> behind << behind | 1 << (behind - 1);
            f64::from_bits((1075 - behind) << 52 | fraction)
        }
    };
    size.to_bits() | r.below(2) << 63
}

fn nan(r: &mut Random) -> u64 {
    r.of(&[FRESH, INFINITY | 1, u64::MAX, 1 << 63 | FRESH])
}

/// The panel's figure or the service figure, mostly of a column and a tier that are there.
pub fn figure(r: &mut Random, plan: &Plan) -> Call {
    let (schema, column) = generate::handle(r, plan);
    let count = plan.0.get(schema as usize).map_or(0, |s| s.tiers.len() as u32);
    let beyond = r.of(&[count, count + 1, u32::MAX]);
    let tier = if r.one_in(12) { beyond } else { r.below(count.max(1) as u64) as u32 };
    match r.below(2) {
        0 => Call::Panel { schema, column, tier },
        _ => Call::Service { schema, column, tier },
    }
}

/// A list as it is made, with figures among its calls.
pub fn among(r: &mut Random, make: &dyn Fn(&mut Random) -> List) -> List {
    let mut list = make(r);
    let often = r.of(&[2, 4, 12]);
    let mut calls = Vec::new();
    for call in list.calls.drain(..) {
        calls.push(call);
        if r.one_in(often) {
            calls.push(figure(r, &list.plan));
        }
    }
    calls.push(figure(r, &list.plan));
    list.calls = calls;
    list
}

/// Somebody else's stamps, values and cursors.
fn poke(r: &mut Random, plan: &Plan, now: u64) -> Call {
    let row = r.below(plan.rows() as u64) as usize;
    let (s, t) = plan.places()[row];
    let (m, tier) = (plan.0[s].series as u64, plan.0[s].tiers[t]);
    let slot = r.below(tier.retention / tier.interval);
    let cell = match r.below(5) {
        0 | 1 => {
            let stamp = r.of(&[0, 1, now, 1 << 63, u64::MAX - 1, u64::MAX, u64::MAX]);
            Cell::Stamp { slot, stamp }
        }
        2 | 3 => {
            let value = match r.below(3) {
                0 => INFINITY | r.below(2) << 63,
                1 => nan(r),
                _ => value(r),
            };
            Cell::Value { column: r.below(m), slot, value }
        }
        _ => Cell::Cursor(slot as u32),
    };
    Call::Poke { row, cell }
}

/// Rings that have wrapped or not, columns without a value, and in a third of the lists somebody else
/// who writes. In a fourth of them any number of series: for sides on lent bytes.
pub fn list(r: &mut Random) -> List {
    let mut plan = generate::plan(r);
    let raw = r.one_in(4);
    if raw {
        plan.0.iter_mut().for_each(|s| s.series = r.of(&[1, 1, 2, 3, 5]));
    }
    let (pokes, empty, nans) = (r.one_in(3), r.of(&[0, 1, 9, 9]), r.of(&[2, 5, 20]));
    // In most lists that nobody else writes in, stamps never fall.
    let order = !pokes && !r.one_in(4);
    let coarsest = plan.0.iter().map(|s| s.tiers[s.tiers.len() - 1].interval).max().unwrap();
    let mut now = coarsest * if order { 4 } else { r.of(&[0, 1, 1, 3]) };
    let mut calls = Vec::new();
    for _ in 0..20 + r.below(60) {
        let schema = r.below(plan.0.len() as u64) as u32;
        let own = &plan.0[schema as usize];
        let (fine, column) = (own.tiers[0], r.below(own.series as u64) as u32);
        let lap = fine.retention / fine.interval * fine.interval;
        now = (now + fine.interval * r.of(&[0, 1, 1, 1, 1, 2])).min(1 << 62);
        let back = if !order && r.one_in(9) { r.below(lap + 1) } else { 0 };
        calls.push(match r.below(12) {
            0 => generate::opening(r),
            1 => Call::Consolidate,
            2..5 if pokes => poke(r, &plan, now),
            _ => {
                let value =
                    if column as u64 == empty || r.one_in(nans) { nan(r) } else { value(r) };
                Call::Record { schema, column, value, stamp: now.saturating_sub(back).max(1) }
            }
        });
        calls.extend([figure(r, &plan), figure(r, &plan)]);
    }
    let raw = raw.then(|| (plan.bytes(|_| 0x1234), crate::sides::room(&plan) + 9));
    List { plan, raw, calls }
}

fn both(column: u32) -> [Call; 2] {
    [Call::Panel { schema: 0, column, tier: 0 }, Call::Service { schema: 0, column, tier: 0 }]
}

/// Every quarter up to 64, every power of two and what stands around it, halves around the powers
/// up to 2^53, and infinities, NaNs; of both signs.
fn stock() -> Vec<u64> {
    let mut found: Vec<u64> = (0..=256).map(|k| (k as f64 / 4.0).to_bits()).collect();
    found.extend((1..0x7ff).map(|e: u64| e << 52).chain((0..52).map(|b| 1 << b)));
    for e in 0..=53 {
        let power = (1u64 << e) as f64;
        found.extend([0.25, 0.5, 0.75, 1.5, 2.5, 3.0].map(|x| (power + x).to_bits()));
        found.extend([0.25, 0.5, 0.75].map(|x| (power - x).to_bits()));
    }
    let around = |&bits: &u64| [bits.saturating_sub(1), bits, bits + 1];
    found = found.iter().flat_map(around).collect();
    found.extend([INFINITY, INFINITY - 1, INFINITY | 1, FRESH]);
    found.sort();
    found.dedup();
    found.iter().flat_map(|&bits| [bits, 1 << 63 | bits]).collect()
}

/// Each value of the stock under the cursor, after others in the ring. An infinite one is somebody
/// else's.
pub fn values(s: &mut Session) {
    for part in stock().chunks(64) {
        let mut calls = Vec::new();
        for (i, &value) in part.iter().enumerate() {
            let stamp = 1 + i as u64;
            let cell = Cell::Value { column: 0, slot: stamp % 4, value };
            if crate::plain::infinite(value) {
                calls.extend([crate::record(0, stamp, 1.0), Call::Poke { row: 0, cell }]);
            } else {
                calls.push(Call::Record { schema: 0, column: 0, value, stamp });
            }
            calls.extend(both(0));
        }
        s.list(List::new(crate::one_schema(&[(1, 4, 0)]), calls));
    }
}

/// Every ring of one to four slots, wrapped and not, whose slots are of five kinds, with every
/// cursor: fresh, stamped with and without a value, a value at stamp 0 and at 2^64 - 1.
pub fn rings(s: &mut Session) {
    for n in 1..=4u64 {
        for wrapped in [false, true].into_iter().take(n.min(2) as usize) {
            for kinds in 0..5u64.pow(n as u32) {
                for cursor in 0..n {
                    s.list(ring(n, wrapped, kinds, cursor));
                }
            }
        }
    }
}

fn ring(n: u64, wrapped: bool, kinds: u64, cursor: u64) -> List {
    let mut calls = Vec::new();
    if wrapped {
        // Slot n - 1, then slot 0.
        calls.extend([crate::record(0, n - 1, 9.0), crate::record(0, n, 9.0)]);
    }
    for slot in 0..n {
        let seven = (7.5 + slot as f64).to_bits();
        let (stamp, value) = match kinds / 5u64.pow(slot as u32) % 5 {
            0 => (0, FRESH),
            1 => (20 + slot, FRESH),
            2 => (20 + slot, seven),
            3 => (0, seven),
            _ => (u64::MAX, seven),
        };
        let cells = [Cell::Stamp { slot, stamp }, Cell::Value { column: 0, slot, value }];
        calls.extend(cells.map(|cell| Call::Poke { row: 0, cell }));
    }
    calls.push(Call::Poke { row: 0, cell: Cell::Cursor(cursor as u32) });
    calls.extend(both(0));
    List::new(crate::one_schema(&[(1, n, 0)]), calls)
}
