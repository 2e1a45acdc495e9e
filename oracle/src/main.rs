//! Runs the plain reading of document 01 beside the Rust and the proved library. See ../README.md.

mod calls;
mod compare;
mod demand;
mod edge;
#[cfg(test)]
mod faults;
mod figures;
mod generate;
mod opened;
mod plain;
mod sides;
mod special;
mod stored;

use std::time::Instant;

use calls::{Call, OPEN, Plan, Schema, Side, Tier};
use compare::{List, Tally, run, show, shrink};
use generate::Random;

/// The number after a name on the command line.
fn argument(name: &str, otherwise: u64) -> u64 {
    let mut args = std::env::args().skip_while(|a| a != name).skip(1);
    args.next().map_or(otherwise, |x| x.parse().expect("a number"))
}

/// What one thread compares: of all lists, every `threads`-th.
pub struct Session {
    sides: Vec<Box<dyn Side>>,
    tally: Tally,
    found: u64,
    thread: u64,
    threads: u64,
    /// The next list's number.
    number: u64,
    parts: Vec<(String, Tally, f64)>,
}

impl Session {
    fn new(thread: u64, threads: u64) -> Self {
        let (sides, tally, parts) = (sides::all(), Tally::default(), Vec::new());
        Self { sides, tally, found: 0, thread, threads, number: 0, parts }
    }

    /// Whether what comes next is this thread's.
    pub fn own(&mut self) -> bool {
        self.number += 1;
        self.number % self.threads == self.thread
    }

    /// Compares on one list, if it is this thread's. False once enough differences were found.
    pub fn list(&mut self, list: List) -> bool {
        if self.own() {
            self.compare(list);
        }
        self.found < 5
    }

    pub fn compare(&mut self, list: List) {
        if let Some(d) = run(&list, &mut self.sides, &mut self.tally) {
            let (list, d) = shrink(&list, &mut self.sides, d);
            show(&list, &d);
            self.found += 1;
        }
    }

    /// A difference found outside of a list.
    pub fn differs(&mut self, what: String) {
        println!("DIFFERENCE: {what}");
        self.found += 1;
    }

    fn part(&mut self, name: &str, part: impl FnOnce(&mut Self)) {
        let only: Vec<String> =
            std::env::args().skip_while(|a| a != "--only").skip(1).take(1).collect();
        if !only.is_empty() && only[0] != name {
            return;
        }
        let (start, whole) = (Instant::now(), std::mem::take(&mut self.tally));
        part(self);
        let own = std::mem::replace(&mut self.tally, whole);
        self.tally.add(&own);
        self.parts.push((name.to_string(), own, start.elapsed().as_secs_f64()));
    }

    /// A part that is not made of lists: the first thread's.
    fn alone(&mut self, name: &str, part: impl FnOnce(&mut Self)) {
        if self.thread == 0 {
            self.part(name, part);
        }
    }
}

fn one_schema(tiers: &[(u64, u64, u32)]) -> Plan {
    let tier = |&(interval, n, function): &(u64, u64, u32)| Tier {
        interval,
        retention: interval * n,
        function,
    };
    Plan(vec![Schema { series: 2, tiers: tiers.iter().map(tier).collect() }])
}

fn record(column: u32, stamp: u64, value: f64) -> Call {
    Call::Record { schema: 0, column, value: value.to_bits(), stamp }
}

fn all_time(tier: u32) -> Call {
    Call::Query { schema: 0, column: 0, tier, start: 0, end: u64::MAX }
}

/// Every list of a few calls over a small stock, on many small plans.
fn exhaustive(s: &mut Session) {
    let end = [all_time(0), Call::Query { schema: 0, column: 1, tier: 0, start: 2, end: 7 }];
    for n in 1..=4 {
        let mut stock: Vec<Call> =
            [1, 2, 3, 4, 5, 6, 7, 9].map(|t| record(0, t, t as f64)).to_vec();
        stock.push(record(1, 4, f64::NAN));
        stock.push(OPEN);
        generate::every(&one_schema(&[(2, n, 0)]), &stock, 3, |mut list| {
            list.calls.extend(end.clone());
            s.list(list)
        });
    }
    let end = [all_time(0), all_time(1), Call::Auto { schema: 0, column: 0, start: 2, end: 4 }];
    for (fine, coarse) in [(1, 2), (1, 3), (2, 3)] {
        for n in 1..=4 {
            for k in 1..=3 {
                let mut stock: Vec<Call> =
                    [1, 2, 3, 4, 5, 7].map(|t| record(t as u32 % 2, t, t as f64)).to_vec();
                stock.extend([Call::Consolidate, OPEN]);
                generate::every(
                    &one_schema(&[(fine, n, 0), (coarse, k, 1)]),
                    &stock,
                    4,
                    |mut list| {
                        if !list.calls.contains(&Call::Consolidate) {
                            return true;
                        }
                        list.calls.extend(end.clone());
                        s.list(list)
                    },
                );
            }
        }
    }
    let batch = |stamp: u64| {
        let entries = vec![(0, 0, (stamp as f64).to_bits()), (0, 1, (-(stamp as f64)).to_bits())];
        Call::Batch { entries, tail: 3, stamp }
    };
    let end = [all_time(0), all_time(1), all_time(2)];
    for (n, k, l) in [(4, 2, 1), (3, 3, 2), (2, 1, 2)] {
        let stock = [batch(4), batch(5), batch(6), batch(8), Call::Consolidate];
        generate::every(&one_schema(&[(1, n, 0), (2, k, 5), (4, l, 1)]), &stock, 5, |mut list| {
            list.calls.extend(end.clone());
            s.list(list)
        });
    }
}

/// The same on fewer plans with any number of series, odd ones too: for sides on lent bytes.
fn exhaustive_any_series(s: &mut Session) {
    for (series, n, k) in [(1, 1, 1), (1, 2, 2), (1, 3, 1), (1, 4, 3), (3, 2, 1), (3, 3, 2)] {
        let mut plan = one_schema(&[(1, n, 0), (2, k, 1)]);
        plan.0[0].series = series;
        let raw = Some((plan.bytes(|_| 7), sides::room(&plan)));
        let mut stock: Vec<Call> =
            [1, 2, 3, 4, 5, 7].map(|t| record(t as u32 % series, t, t as f64)).to_vec();
        stock.extend([Call::Consolidate, OPEN]);
        generate::every(&plan, &stock, 4, |mut list| {
            list.raw.clone_from(&raw);
            list.calls.extend([all_time(0), all_time(1)]);
            s.list(list)
        });
    }
}

/// Every short list of batches into two schemas, of both and of one; then what a run meets after a
/// refused one: every list of three calls over samples that overflow, that do not, and runs.
fn old_samples(s: &mut Session) {
    let at = |schema: u32, stamp: u64| (schema, stamp as u32 % 2, (stamp as f64).to_bits());
    let all = |schema: u32| Call::Query { schema, column: 0, tier: 0, start: 0, end: u64::MAX };
    for (n, k) in [(1, 3), (2, 2), (3, 1)] {
        let mut plan = one_schema(&[(2, n, 0)]);
        plan.0.extend(one_schema(&[(3, k, 0)]).0);
        let mut stock = Vec::new();
        for stamp in 1..=7 {
            let batch = |entries: Vec<_>| Call::Batch { entries, tail: 0, stamp };
            stock.extend([batch(vec![at(0, stamp)]), batch(vec![at(1, stamp)])]);
            stock.push(batch(vec![at(1, stamp), at(0, stamp)]));
        }
        generate::every(&plan, &stock, 3, |mut list| {
            list.calls.extend([all(0), all(1)]);
            s.list(list)
        });
    }
    let huge = 1.7e308;
    for (n, k) in [(6, 1), (6, 2), (8, 3), (12, 2), (3, 1)] {
        for (first, second) in [(2, 4), (2, 6), (4, 6), (2, 8)] {
            let plan = one_schema(&[(1, n, 0), (2, k, 1)]);
            let (third, fourth) = (second + 2, second + 3);
            let samples = [(first, 1.0), (second, 1.0), (third, huge), (fourth, huge)];
            let mut stock = vec![Call::Consolidate, OPEN];
            for (stamp, value) in
                [(1, 1.0), (first, huge), (first + 1, huge), (second, f64::NAN), (fourth, 0.0)]
            {
                stock.push(record(0, stamp, value));
            }
            stock.extend([record(0, third, f64::NAN), record(1, first, 2.0)]);
            generate::every(&plan, &stock, 3, |list| {
                let mut calls = samples.map(|(stamp, value)| record(0, stamp, value)).to_vec();
                calls.push(Call::Consolidate);
                calls.extend(list.calls);
                calls.extend([Call::Consolidate, all_time(1)]);
                s.list(List::new(plan.clone(), calls))
            });
        }
    }
}

/// Every range and tier of a few filled stores.
fn ranges(s: &mut Session, seed: u64) {
    for i in 0..40 {
        let mut r = Random(seed + i);
        let plan = one_schema(&[(1, 4, 0), (2, 3, 1), (6, 2, 3)]);
        let mut stamps: Vec<u64> = (0..r.below(10)).map(|_| 1 + r.below(9)).collect();
        if i % 2 == 1 {
            // In time order, and behind window 0 of each tier, so that the Rust stays beside.
            stamps.iter_mut().for_each(|t| *t += 5);
            stamps.sort();
        }
        let mut calls: Vec<Call> =
            stamps.into_iter().map(|t| record(0, t, r.below(5) as f64)).collect();
        calls.insert(r.below(calls.len() as u64 + 1) as usize, Call::Consolidate);
        let ends: Vec<u64> = (0..16).chain([u64::MAX - 1, u64::MAX]).collect();
        for &start in &ends {
            for &end in &ends {
                let column = r.below(3) as u32;
                calls.push(Call::Auto { schema: 0, column, start, end });
                let tier = r.below(5) as u32;
                calls.push(Call::Query { schema: 0, column: 0, tier, start, end });
            }
        }
        s.list(List::new(plan, calls));
    }
}

/// All parts, as far as they are this thread's.
fn parts(s: &mut Session, seed: u64, lists: u64, length: u64) {
    let random = |i: u64| Random(seed.wrapping_mul(1 << 40).wrapping_add(i));
    let each = |s: &mut Session, count: u64, make: &dyn Fn(&mut Random) -> List| {
        for i in 0..count {
            let _ = s.found < 5 && s.list(make(&mut random(i)));
        }
    };
    s.alone("windows", |s| special::windows(s, &mut random(0)));
    s.alone("coverage", special::coverage);
    s.part("cases", special::cases);
    s.part("exhaustive", exhaustive);
    s.part("exhaustive, any series", exhaustive_any_series);
    s.part("ranges", |s| ranges(s, seed));
    s.part("plans", |s| each(s, 5 * lists, &generate::odd_plan));
    let some = |s: &mut Session, count: u64, make: &dyn Fn(&mut Random) -> List| {
        each(s, count, &|r| figures::among(r, make));
    };
    s.part("random", |s| some(s, lists, &|r| generate::list(r, length, false)));
    s.part("poked", |s| some(s, lists, &|r| generate::list(r, length, true)));
    s.part("any series", |s| some(s, lists, &|r| generate::any_series(r, length)));
    s.part("in order", |s| some(s, lists, &|r| generate::in_order(r, 3 * length)));
    s.part("in order, poked", |s| some(s, lists / 4, &|r| generate::poked_in_order(r, length)));
    s.part("old samples", |s| some(s, 2 * lists, &|r| generate::old_samples(r, length)));
    s.part("old samples, exhaustive", old_samples);
    s.part("readers", |s| each(s, lists, &|r| generate::readers(r, length)));
    s.part("damaged", |s| some(s, 10 * lists, &generate::damaged));
    s.part("long", |s| some(s, lists / 100, &generate::long));
    s.part("large", special::large);
    s.part("figures", |s| each(s, lists, &figures::list));
    s.part("figures, exhaustive", |s| {
        figures::values(s);
        figures::rings(s);
    });
    let mut sides = opened::both();
    s.part("power cycles", |s| {
        for i in 0..lists / 4 {
            opened::power_cycles(s, &mut sides, &mut random(i), length);
        }
    });
    s.part("power cycles, exhaustive", |s| opened::every_power_cycle(s, &mut sides));
    s.part("flags", special::flags);
    s.part("third demand", |s| {
        for i in 0..lists / 20 {
            demand::third_demand(s, &mut random(i));
        }
        demand::third_demand_large(s);
    });
    s.part("schedules", |s| demand::schedules(s, &mut sides));
    s.alone("openings", special::openings);
    s.alone("hash order", special::hash_order);
    s.alone("departures", special::departures);
}

fn main() {
    sides::quiet_sides();
    let seed = argument("--seed", 1);
    let lists = argument("--lists", 40_000);
    let length = argument("--length", 60);
    let threads = argument("--threads", 2);
    if let Some(folder) = std::env::args().skip_while(|a| a != "--store").nth(1) {
        return stored::write(&folder, seed);
    }
    println!("seed {seed}");
    let start = Instant::now();
    let worker = |thread: u64| {
        let mut s = Session::new(thread, threads);
        parts(&mut s, seed, lists, length);
        (s.parts, s.found)
    };
    let done: Vec<_> = std::thread::scope(|scope| {
        let each: Vec<_> = (0..threads).map(|t| scope.spawn(move || worker(t))).collect();
        each.into_iter().map(|t| t.join().expect("a thread")).collect()
    });
    let mut t = Tally::default();
    for (name, ..) in &done[0].0 {
        let (mut own, mut seconds) = (Tally::default(), 0.0);
        for (_, tally, spent) in done.iter().flat_map(|d| &d.0).filter(|p| p.0 == *name) {
            own.add(tally);
            seconds += spent;
        }
        t.add(&own);
        println!("{name}: {} lists, {} calls, {seconds:.1} s of a thread", own.lists, own.calls);
    }
    let found: u64 = done.iter().map(|d| d.1).sum();
    println!("refusals 1 to 18: {:?}", &t.refusals[1..]);
    println!("{} points handed out, {} calls not asked of a side", t.points, t.not_asked);
    println!(
        "in time order, no run refused: {} calls beside the Rust; {} lists left that, and {} calls from there on were run beside the plain reading alone",
        t.in_order, t.left, t.alone
    );
    println!(
        "old samples: records {} into an interval with a later stamp, {} into a slot with a later interval; batches {} into one ring, \
         {} over rings one of which would take them, {} over rings that all refuse",
        t.old[0], t.old[1], t.old[2], t.old[3], t.old[4]
    );
    println!(
        "passed over: {} writes by {} runs; {} of the runs made no write, {} were refused; {} stand in lists in which nobody else wrote",
        t.passed[0], t.passed[1], t.passed[2], t.passed[3], t.passed[4]
    );
    println!(
        "figures: of the panel {} shown, {} none, {} refused ({} with 17); for service {} given, {} none, {} refused; of all {} beside the Rust",
        t.panels[0],
        t.panels[1],
        t.panels[2],
        t.refusals[17],
        t.services[0],
        t.services[1],
        t.services[2],
        t.figures_beside
    );
    println!(
        "openings: {} refused, {} accepted; the old rule sets the same flags at {}: {} run beside the Rust, {} in lists \
         for lent bytes only, {} after the Rust had left; other flags at {}: beside the plain reading alone",
        t.not_opened,
        t.opened,
        t.opened - t.parted,
        t.beside,
        t.lent_only,
        t.opened - t.parted - t.beside - t.lent_only,
        t.parted
    );
    println!(
        "of these {}: {} set a flag that the old rule does not, {} the reverse; the Rust's flags seen to be the old rule's at {}, it came back at {} others",
        t.parted, t.only_new, t.only_old, t.seen_old, t.returned
    );
    println!(
        "openings taken out: {} lists, {} openings, {} answers alike",
        t.cycled, t.taken_out, t.alike
    );
    println!(
        "third demand: {} queries checked; of {} schedules outside its supposition {} break it",
        t.demanded, t.outside, t.broken
    );
    println!("the Rust went another way by hash order {} times", t.by_hash_order);
    println!(
        "seed {seed}: {} lists, {} calls, compared {} of the library and {} of the Rust, {found} differences, {:.1} s",
        t.lists,
        t.calls,
        t.library,
        t.compared,
        start.elapsed().as_secs_f64()
    );
    std::process::exit((found > 0) as i32);
}
