//! The third demand: document 01's words for it with requests 2026-01, 2026-02 and 2026-05, and lists that
//! meet its supposition. A list's samples and runs go by the plain reading.

use std::collections::BTreeMap;

use crate::Session;
use crate::calls::{Answer, Call, Plan, Schema, Side, Tier};
use crate::compare::List;
use crate::edge::Edge;
use crate::generate::{self, INFINITY, Random};
use crate::opened;
use crate::sides::{Lent, Library, Plain};

const ALL: (u64, u64) = (0, u64::MAX);

// The words

#[derive(Clone, Copy, Debug, PartialEq)]
pub enum Event {
    /// The column, stamp and value pattern of an accepted recording.
    Sample(u32, u64, u64),
    Run,
}

/// What a call did, once it was accepted.
fn events_of(call: &Call, answer: &Answer) -> Vec<Event> {
    match call {
        Call::Consolidate => vec![Event::Run],
        &Call::Record { column, value, stamp, .. } if *answer == Answer::Done => {
            vec![Event::Sample(column, stamp, value)]
        }
        Call::Batch { entries, stamp, .. } if *answer == Answer::Done => {
            entries.iter().map(|e| Event::Sample(e.1, *stamp, e.2)).collect()
        }
        _ => Vec::new(),
    }
}

pub fn events(plan: &Plan, calls: &[Call]) -> Vec<Event> {
    let mut side = Lent::new("document 01", Plain);
    side.create(plan);
    calls.iter().flat_map(|call| events_of(call, &side.call(call))).collect()
}

/// The whole offset within ±2^30 that a pattern stands for.
fn offset(value: u64) -> Option<i64> {
    let x = f64::from_bits(value);
    (x.trunc() == x && x.abs() <= (1 << 30) as f64).then_some(x as i64)
}

/// One schema, two to four tiers, whole ratios of 2 to 4,096, averages; each ring's slots span
/// two coarsest intervals.
pub fn suited(plan: &Plan) -> bool {
    let [Schema { tiers, .. }] = &plan.0[..] else {
        return false;
    };
    let ratio = |p: &[Tier]| {
        let (fine, coarse) = (p[0].interval, p[1].interval);
        coarse % fine == 0 && (2..=4096).contains(&(coarse / fine)) && p[1].function == 1
    };
    let two = 2 * tiers.last().map_or(0, |t| t.interval);
    let spans = |t: &Tier| t.retention / t.interval * t.interval >= two;
    (2..=4).contains(&tiers.len()) && tiers.windows(2).all(ratio) && tiers.iter().all(spans)
}

/// Runs follow a tick once all its samples are in, at least one in each coarsest interval.
fn scheduled(coarsest: u64, events: &[Event]) -> bool {
    // The last stamp, whether a run followed it, whether one stood in its coarsest interval.
    let (mut last, mut followed, mut served) = (0, false, false);
    for &event in events {
        match event {
            Event::Sample(_, x, _) => {
                let same = x / coarsest == last / coarsest;
                if (x == last && followed) || !(last == 0 || same || served) {
                    return false;
                }
                (last, followed, served) = (x, false, served && same);
            }
            Event::Run if last == 0 => return false,
            Event::Run => (followed, served) = (true, true),
        }
    }
    true
}

/// The supposition, of the calls up to the last run.
pub fn supposed(plan: &Plan, events: &[Event]) -> bool {
    let tiers = &plan.0[0].tiers;
    let (finest, coarsest) = (tiers[0].interval, tiers[tiers.len() - 1].interval);
    let mut columns: BTreeMap<u32, Vec<u64>> = BTreeMap::new();
    let mut greatest = 0;
    for &event in events {
        if let Event::Sample(column, stamp, value) = event {
            if stamp < greatest || offset(value).is_none() {
                return false;
            }
            greatest = stamp;
            columns.entry(column).or_default().push(stamp);
        }
    }
    let Some(first) = columns.values().map(|c| c[0]).min() else {
        return false;
    };
    let ticks: Vec<u64> = (first..=greatest).step_by(finest as usize).collect();
    suited(plan)
        && first % coarsest == 0
        && columns.values().all(|c| *c == ticks)
        && scheduled(coarsest, events)
}

/// The samples so far, by column, in stamp order.
#[derive(Default)]
struct Samples {
    first: u64,
    greatest: u64,
    columns: BTreeMap<u32, Vec<(u64, i64)>>,
}

impl Samples {
    fn take(&mut self, column: u32, stamp: u64, value: u64) {
        if self.columns.is_empty() {
            self.first = stamp;
        }
        self.greatest = stamp;
        self.columns.entry(column).or_default().push((stamp, offset(value).unwrap()));
    }

    /// How many samples a window has, and their whole sum.
    fn of(&self, column: u32, start: u64, end: u64) -> (i128, i128) {
        let own = &self.columns[&column];
        let own = &own[own.partition_point(|x| x.0 < start)..own.partition_point(|x| x.0 < end)];
        (own.len() as i128, own.iter().map(|x| x.1 as i128).sum())
    }

    /// Whether a tier's points are those that the demand names: one for each of the newest begun
    /// windows that its slots can hold, ascending, stamped with their starts; all but the last are
    /// closed, and so may be the last; a closed one's value is within k/4,096 of the exact mean.
    fn given(&self, plan: &Plan, column: u32, k: u32, points: &[(u64, u64)]) -> bool {
        let (finest, t) = (plan.0[0].tiers[0].interval, plan.0[0].tiers[k as usize]);
        let begun = (self.greatest - self.first) / t.interval + 1;
        let held = begun.min(t.retention / t.interval);
        let mut good = points.len() as u64 == held;
        for (&(stamp, value), w) in points.iter().zip(begun - held..begun) {
            let start = self.first + w * t.interval;
            good &= stamp == start;
            if start + t.interval > self.greatest + finest {
                continue; // still open: its stamp alone
            }
            let (n, sum) = self.of(column, start, start + t.interval);
            let (k, value) = (k as i128, f64::from_bits(value));
            // In units of 2^-60; what is cut off there counts against the bound.
            let scaled = (value * (1u64 << 60) as f64) as i128;
            let off = (scaled * n - (sum << 60)).abs() + if k == 0 { 0 } else { n };
            good &= off * 4096 <= (k * n) << 60;
        }
        good
    }
}

/// Carries a list out and holds each query over all time that stands after a run, no sample
/// between, against the demand: how many there were, or the first that is unlike it.
pub fn check(library: impl Library, plan: &Plan, calls: &[Call]) -> Result<u64, String> {
    let mut side = Lent::new("third demand", library);
    side.create(plan);
    // What is accepted goes by the rules, whatever the library answers.
    let mut rules = Lent::new("document 01", Plain);
    rules.create(plan);
    let (mut samples, mut ran, mut checked) = (Samples::default(), false, 0);
    for (i, call) in calls.iter().enumerate() {
        let answer = side.call(call);
        let by_rules = if call.reads() { Answer::Done } else { rules.call(call) };
        for event in events_of(call, &by_rules) {
            ran = event == Event::Run;
            if let Event::Sample(column, stamp, value) = event {
                samples.take(column, stamp, value);
            }
        }
        let &Call::Query { schema: 0, column, tier, start, end } = call else {
            continue;
        };
        let used = samples.columns.contains_key(&column);
        if !ran || !used || (start, end) != ALL || tier as usize >= plan.0[0].tiers.len() {
            continue;
        }
        checked += 1;
        match &answer {
            Answer::Points { points, .. } if samples.given(plan, column, tier, points) => {}
            _ => {
                let ticks = samples.columns[&column].len();
                let what = format!("column {column}, tier {tier} after {ticks} ticks, call {i}");
                return Err(format!("third demand: {what} of {plan:?}: {answer:?}"));
            }
        }
    }
    Ok(checked)
}

// Lists

/// After which ticks runs stand.
#[derive(Clone, Copy, Debug, PartialEq)]
pub enum Schedule {
    EachTick,
    /// Any ticks, at least one in each coarsest interval.
    SomeTicks,
    /// The first of one coarsest interval, the last of the next: the longest and the shortest way
    /// from run to run.
    EarlyAndLate,
    /// The last of each coarsest interval, as in document 01.
    LastTicks,
}

/// After which of so many ticks a run stands; a coarsest interval has `per` of them.
fn runs(r: &mut Random, schedule: Schedule, per: u64, ticks: u64) -> Vec<bool> {
    let early = r.below(2);
    let rare = if per > 60 { 1 + per / 3 } else { r.of(&[2, 5, 2 * per]) };
    let mut found: Vec<bool> = (0..ticks)
        .map(|i| match schedule {
            Schedule::EachTick => true,
            Schedule::SomeTicks => r.one_in(rare),
            Schedule::EarlyAndLate if i / per % 2 == early => i % per == 0,
            Schedule::EarlyAndLate | Schedule::LastTicks => i % per == per - 1,
        })
        .collect();
    if schedule == Schedule::SomeTicks {
        for interval in found.chunks_mut(per as usize) {
            if !interval.contains(&true) {
                interval[r.below(interval.len() as u64) as usize] = true;
            }
        }
    }
    found
}

/// A plan of two series with these intervals, whose rings span two coarsest intervals: exactly, or
/// by up to three slots more.
pub fn plan(r: &mut Random, intervals: &[u64]) -> Plan {
    let two = 2 * intervals[intervals.len() - 1];
    let tight = r.one_in(2);
    let tiers = intervals.iter().enumerate().map(|(k, &interval)| Tier {
        interval,
        retention: two + r.below(interval) + if tight { 0 } else { interval * r.below(4) },
        function: (k > 0) as u32,
    });
    Plan(vec![Schema { series: 2, tiers: tiers.collect() }])
}

/// A list on such a plan that meets the supposition, with the queries that it speaks of after each
/// run, and calls between that are refused or change nothing; openings, handed any flags, among them.
/// `old`: samples that their slot holds a later stamp than, too (18, request 2026-05).
pub fn list(r: &mut Random, plan: Plan, schedule: Schedule, ticks: u64, old: bool) -> List {
    let tiers = &plan.0[0].tiers;
    let (fine, coarse) = (tiers[0].interval, tiers[tiers.len() - 1].interval);
    let first = coarse * (1 + r.below(9));
    let used: &[u32] = r.of(&[&[0][..], &[1], &[0, 1], &[1, 0]]);
    let style = r.below(5);
    let offset = |r: &mut Random| match style {
        0 => 1 << 30,
        1 => r.of(&[1 << 30, -(1i64 << 30)]),
        2 => r.of(&[(1 << 30) - 1, 1 << 30]),
        3 => r.below(3) as i64 - 1,
        _ => r.below((1 << 31) + 1) as i64 - (1 << 30),
    };
    let all =
        |column: u32, tier: u32| Call::Query { schema: 0, column, tier, start: 0, end: ALL.1 };
    let noise = [
        Call::Record { schema: 0, column: 0, value: INFINITY, stamp: first },
        Call::Record { schema: 0, column: 2, value: 0, stamp: first },
        Call::Record { schema: 1, column: 0, value: 0, stamp: first },
        crate::record(0, 0, 1.0),
        Call::Batch { entries: vec![], tail: 5, stamp: 0 },
        Call::Batch { entries: vec![(0, 1, 0), (0, 0, INFINITY)], tail: 0, stamp: first },
        Call::Batch { entries: vec![(0, 0, 0)], tail: 1, stamp: 0 },
        all(0, 0),
        all(0, 9),
        Call::Query { schema: 0, column: 1, tier: 1, start: first, end: first },
        Call::Auto { schema: 0, column: 1, start: first, end: first + coarse },
    ];
    // Half of the lists have no openings; in the others they stand anywhere.
    let opens = if ticks > 1000 { r.of(&[0, 300]) } else { r.of(&[0, 0, 0, 1, 3, 20]) };
    let mut calls = Vec::new();
    let lap = tiers[0].retention / fine * fine;
    // The last stamp that is in: a lap below it, and below those before it, is old.
    let last = std::cell::Cell::new(0);
    let stir = |r: &mut Random, calls: &mut Vec<Call>| {
        if r.one_in(8) {
            calls.push(noise[r.below(noise.len() as u64) as usize].clone());
        }
        let held = (last.get() + fine).saturating_sub(first).min(lap) / fine;
        let below = (last.get() + fine).saturating_sub(fine * (1 + r.below(held.max(1))) + lap);
        if old && held > 0 && below > 0 && r.one_in(4) {
            let stamp = below + r.below(fine);
            let entries = vec![(0, 0, 0), (0, 1, 0)];
            calls.push(match r.below(3) {
                0 => Call::Batch { entries, tail: 0, stamp },
                column => Call::Record { schema: 0, column: column as u32 - 1, value: 0, stamp },
            });
        }
        if opens > 0 && r.one_in(opens) {
            calls.push(generate::opening(r));
        }
    };
    for (i, run) in runs(r, schedule, coarse / fine, ticks).into_iter().enumerate() {
        let stamp = first + i as u64 * fine;
        let mut entries = Vec::new();
        for &column in used {
            let x = offset(r);
            let value = if x == 0 && r.one_in(2) { -0.0 } else { x as f64 };
            entries.push((0, column, value.to_bits()));
        }
        stir(r, &mut calls);
        if r.one_in(2) {
            calls.push(Call::Batch { entries, tail: 0, stamp });
            last.set(stamp);
        } else {
            for (schema, column, value) in entries {
                calls.push(Call::Record { schema, column, value, stamp });
                last.set(stamp);
                stir(r, &mut calls);
            }
        }
        if run {
            for _ in 0..1 + r.one_in(4) as usize {
                stir(r, &mut calls);
                calls.push(Call::Consolidate);
            }
            for &column in used {
                for tier in 0..tiers.len() as u32 {
                    stir(r, &mut calls);
                    calls.push(all(column, tier));
                }
            }
        }
    }
    List::new(plan, calls)
}

/// Checks a list on the plain side, and compares every call of it.
fn demanded(s: &mut Session, list: List) {
    if !supposed(&list.plan, &events(&list.plan, &list.calls)) {
        return s.differs(format!("not a list of the third demand: {list:?}"));
    }
    match check(Plain, &list.plan, &list.calls) {
        Ok(checked) => s.tally.demanded += checked,
        Err(what) => s.differs(what),
    }
    if s.found < 5 {
        s.compare(list);
    }
}

/// A random list that meets the supposition.
pub fn third_demand(s: &mut Session, r: &mut Random) {
    use Schedule::*;
    if !s.own() || s.found >= 5 {
        return;
    }
    let mut intervals = vec![r.of(&[1, 2, 5, 10, 1_000_000_000])];
    for _ in 0..1 + r.below(3) {
        let ratio = if r.one_in(6) { 2 + r.below(30) } else { 2 + r.below(4) };
        intervals.push(intervals[intervals.len() - 1] * ratio);
    }
    let per = intervals[intervals.len() - 1] / intervals[0];
    let schedule = r.of(&[EachTick, SomeTicks, SomeTicks, EarlyAndLate, LastTicks]);
    if per > if schedule == EachTick { 40 } else { 400 } {
        return;
    }
    let ticks = per * (1 + r.below(5)) + if schedule == LastTicks { 0 } else { r.below(per) };
    let plan = plan(r, &intervals);
    let old = r.one_in(4);
    demanded(s, list(r, plan, schedule, ticks, old));
}

/// The same for seconds, minutes and hours, and for the greatest ratio.
pub fn third_demand_large(s: &mut Session) {
    use Schedule::*;
    let second = 1_000_000_000;
    for (i, schedule) in [SomeTicks, EarlyAndLate, LastTicks].into_iter().enumerate() {
        for intervals in [&[second, 60 * second, 3600 * second][..], &[1, 4096], &[10, 640, 40960]]
        {
            if s.own() && s.found < 5 {
                let r = &mut Random(i as u64);
                let per = intervals[intervals.len() - 1] / intervals[0];
                let plan = plan(r, intervals);
                demanded(s, list(r, plan, schedule, 4 * per, false));
            }
        }
    }
}

/// One column's samples at so many ticks, with a run and the queries after those that the bits
/// of `runs` name.
fn scheduled_list(plan: &Plan, ticks: u64, runs: u64) -> List {
    let tiers = &plan.0[0].tiers;
    let (fine, coarse) = (tiers[0].interval, tiers[tiers.len() - 1].interval);
    let mut calls = Vec::new();
    for i in 0..ticks {
        // No two windows have the same mean.
        calls.push(crate::record(0, coarse + i * fine, (1u64 << i) as f64));
        if runs >> i & 1 == 1 {
            calls.push(Call::Consolidate);
            calls.extend((0..tiers.len() as u32).map(crate::all_time));
        }
    }
    List::new(plan.clone(), calls)
}

/// The same list with openings put in: before the first call and after each. The demand is checked
/// of the plain side and of the library, and they are compared, with and without the openings.
fn with_openings(s: &mut Session, sides: &mut [opened::Asked], list: &List, seed: u64) {
    let r = &mut Random(seed);
    let mut calls = vec![generate::opening(r)];
    for call in &list.calls {
        calls.extend([call.clone(), generate::opening(r)]);
    }
    let list = List::new(list.plan.clone(), calls);
    if !supposed(&list.plan, &events(&list.plan, &list.calls)) {
        return s.differs(format!("not a list of the third demand: {list:?}"));
    }
    for found in [check(Plain, &list.plan, &list.calls), check(Edge, &list.plan, &list.calls)] {
        match found {
            Ok(checked) => s.tally.demanded += checked,
            Err(what) => s.differs(what),
        }
    }
    opened::checked(s, sides, &list, r);
}

/// Ways to set runs after a few ticks, on small plans whose finer rings span two coarsest intervals
/// exactly: every way on the first six, every so many-th on the others. The demand is checked of
/// those that meet its supposition, with openings too; all are compared.
pub fn schedules(s: &mut Session, sides: &mut [opened::Asked]) {
    let plans: [(&[(u64, u64, u32)], u64, usize); 8] = [
        (&[(1, 4, 0), (2, 2, 1)], 10, 1),
        (&[(1, 4, 0), (2, 5, 1)], 10, 1),
        (&[(1, 6, 0), (3, 2, 1)], 10, 1),
        (&[(1, 6, 0), (3, 4, 1)], 10, 1),
        (&[(2, 8, 0), (8, 3, 1)], 11, 1),
        (&[(1, 8, 0), (2, 4, 1), (4, 4, 1)], 12, 1),
        (&[(1, 12, 0), (3, 4, 1), (6, 3, 1)], 18, 131),
        (&[(1, 16, 0), (2, 8, 1), (4, 4, 1), (8, 2, 1)], 20, 521),
    ];
    for (tiers, ticks, step) in plans {
        let plan = crate::one_schema(tiers);
        for runs in (0..1u64 << ticks).step_by(step) {
            if !s.own() || s.found >= 5 {
                continue;
            }
            let list = scheduled_list(&plan, ticks, runs);
            if supposed(&plan, &events(&plan, &list.calls)) {
                with_openings(s, sides, &list, runs);
                demanded(s, list);
            } else {
                s.tally.outside += 1;
                s.tally.broken += check(Plain, &plan, &list.calls).is_err() as u64;
                s.compare(list);
            }
        }
    }
}

#[cfg(test)]
#[path = "demand_cases.rs"]
mod cases;
