//! One driver for both sides: the proved library through librondo.a, and the published Rust with request 2026-01's line
//! altered. Times are the thread's processor time, so that a busy machine tells less.
//!
//!   bench                         every measure, a Markdown row each: median, least and greatest of the repetitions, ratio
//!   bench --only NAME             one measure
//!   bench --side ours|rust        one side
//!   bench --turns N [--idle]      N turns of a measure once, no timing, or what goes before them alone: for callgrind
//!   bench --repetitions N         7 unless given
//!   bench --list                  the measures: turns for callgrind of the Rust (0: it is not asked) and of ours, what a turn counts for, name
//!   bench --fill                  creation beside memset on the same slice: bytes a second
mod calls;
mod ours;
mod published;

use std::hint::black_box;

use calls::{Plan, SECOND, Side, Tier};

/// 1 s for 2 h, 60 s for 24 h, 1 h for 30 days.
fn three(series: u32) -> Plan {
    let tier = |seconds, slots, function| Tier { interval: seconds * SECOND, slots, function };
    Plan { schemas: 1, series, tiers: vec![tier(1, 7200, 0), tier(60, 1440, 1), tier(3600, 720, 1)] }
}

/// Seconds straight into hours.
fn hours(series: u32) -> Plan {
    let mut plan = three(series);
    plan.tiers.remove(1);
    plan
}

/// The first of three's tiers alone, `schemas` of them.
fn rings(schemas: u32, tiers: u64) -> Plan {
    let tier = |j: u64| Tier { interval: SECOND * (j + 1), slots: 7200, function: (j > 0) as u32 };
    Plan { schemas, series: 2, tiers: (0..tiers).map(tier).collect() }
}

/// Three tiers that are 1 s, 60 s and this.
fn three_to(last: u64, slots: u64) -> Plan {
    let mut plan = three(2);
    plan.tiers[2].interval = last * SECOND;
    plan.tiers[2].slots = slots;
    plan
}

/// Three tiers, the first of so many seconds.
fn three_from(slots: u64) -> Plan {
    let mut plan = three(2);
    plan.tiers[0].slots = slots;
    plan
}

/// One ring of so many seconds.
fn ring_of(slots: u64) -> Plan {
    Plan { schemas: 1, series: 2, tiers: vec![Tier { interval: SECOND, slots, function: 0 }] }
}

type Step = Box<dyn Fn(&mut dyn Side)>;
type Turn = Box<dyn Fn(&mut dyn Side, u64)>;

/// A measure: what is set up, and what is timed. `turn` is given its number.
struct Measure {
    name: &'static str,
    unit: &'static str,
    /// Turns of a repetition (of the Rust's, where it makes fewer), and what a turn counts for; turns under callgrind.
    turns: u64,
    rust_turns: Option<u64>,
    per_turn: u64,
    counted: u64,
    /// What the Rust has no answer to compare with.
    ours_alone: bool,
    plan: Plan,
    setup: Step,
    /// Before a turn, not timed. Where there is one, each turn is timed by itself.
    before: Option<Turn>,
    turn: Turn,
}

/// The stamp of second s of a store's life, which starts at an hour.
fn at(s: u64) -> u64 {
    (3600 + s) * SECOND
}

/// Seconds of a store's life, all columns: `entries` has them.
fn seconds(side: &mut dyn Side, from: u64, count: u64) {
    for s in from..from + count {
        side.batch(at(s));
    }
}

/// Three hours, so that the ring of seconds has wrapped.
fn three_hours(side: &mut dyn Side) {
    side.entries(2);
    seconds(side, 0, 10_800);
}

/// 1,000 seconds from slot 1,240 on: the slots before them are empty, and no ring has wrapped.
fn late(side: &mut dyn Side) {
    side.entries(2);
    seconds(side, 4840, 1000);
}

/// Every ring of `three` full and wrapped: a second in each 61 minutes, so that every minute and hour comes up in 61 days,
/// then more seconds than their ring has slots.
fn all_wrapped(side: &mut dyn Side) {
    side.entries(2);
    for i in 0..1440 {
        side.batch(at(61 * 60 * i));
        side.consolidate();
    }
    seconds(side, 61 * 60 * 1440, 9000);
    side.consolidate();
}

/// A ring of a million seconds, wrapped.
fn more_than_a_million(side: &mut dyn Side) {
    side.entries(2);
    seconds(side, 0, 1_000_100);
}

/// The flags that opening works out, in rings as `fill` leaves them. The Rust's part is `RingBuffer::new` alone, which looks
/// at one slot a ring; ours is the whole opening, with the check of the image.
fn flags(name: &'static str, turns: u64, counted: u64, plan: Plan, fill: Step) -> Measure {
    Measure {
        name,
        unit: "an opening",
        turns,
        rust_turns: None,
        per_turn: 1,
        counted,
        ours_alone: false,
        plan,
        setup: Box::new(move |side| {
            fill(side);
            side.hold();
            side.flags();
        }),
        before: None,
        turn: Box::new(|side, _| side.flags()),
    }
}

/// What column 1 of a wrapped ring has: values; values and a NaN at the cursor; NaN alone; values at stamps that no reading
/// hands out, which no list of calls leaves; values in the last slot and the first, all others empty.
#[derive(Clone, Copy, PartialEq)]
enum Column {
    Full,
    NanLast,
    Nan,
    Top,
    Ends,
}

fn fill_column(side: &mut dyn Side, slots: u64, column: Column) {
    // at() begins an hour behind slot 0
    let (first, count) = match column {
        Column::Ends => (2 * slots - 1 - 3600 % slots, 2),
        _ => (0, slots + 100),
    };
    if column == Column::Nan {
        (0..count).for_each(|s| side.record(0, s as f64, at(s)));
    } else {
        side.entries(2);
        seconds(side, first, count);
    }
    let last = match column {
        Column::Full | Column::Ends => Some(at(first + count - 1)),
        Column::NanLast => {
            side.record(1, f64::NAN, at(count - 1));
            Some(at(count - 2))
        }
        Column::Nan => None,
        Column::Top => {
            side.set_stamps(&vec![u64::MAX; slots as usize]);
            None
        }
    };
    assert_eq!((side.panel(1, 0), side.service(1, 0).map(|f| f[0])), (last.map(|_| 1), last));
}

/// A figure of column 1, the ring of seconds having so many slots.
fn figure(name: &'static str, turns: u64, slots: u64, column: Column, ask: fn(&mut dyn Side)) -> Measure {
    Measure {
        name,
        unit: "a call",
        turns,
        rust_turns: Some(if slots > 100_000 { 3 } else { 200 }),
        per_turn: 1,
        counted: turns.min(2000),
        ours_alone: false,
        plan: three_from(slots),
        setup: Box::new(move |side| fill_column(side, slots, column)),
        before: None,
        turn: Box::new(move |side, _| ask(side)),
    }
}

fn panel(side: &mut dyn Side) {
    black_box(side.panel(1, 0));
}

fn service(side: &mut dyn Side) {
    black_box(side.service(1, 0));
}

/// A run after `new` seconds, in a full ring of `slots` seconds.
fn run(name: &'static str, turns: u64, series: u32, slots: u64, new: u64) -> Measure {
    let mut plan = three(series);
    plan.tiers[0].slots = slots;
    if slots > 7200 {
        plan.tiers.truncate(2);
    }
    // Whole hours, so that new seconds start with a minute.
    let filled = slots.div_ceil(3600) * 3600 + 3600;
    let setup = move |side: &mut dyn Side| {
        side.entries(series);
        seconds(side, 0, filled);
        if slots > 7200 {
            side.set_mark(at(filled - 1));
        } else {
            side.consolidate();
        }
    };
    Measure {
        name,
        unit: "a run",
        turns,
        rust_turns: None,
        per_turn: 1,
        counted: 2,
        ours_alone: false,
        plan,
        setup: Box::new(setup),
        before: Some(Box::new(move |side, i| seconds(side, filled + new * i, new))),
        turn: Box::new(|side, _| {
            black_box(side.consolidate());
        }),
    }
}

/// The stamps of a lap, slot by slot.
fn lap(slots: u64, number: u64) -> Vec<u64> {
    (0..slots).map(|i| (number * slots + i) * SECOND).collect()
}

/// One sample was missed: its slot keeps the stamp of the lap before.
fn one_fall(slots: u64) -> Vec<u64> {
    let mut stamps = lap(slots, 3);
    stamps[slots as usize / 2] = lap(slots, 2)[slots as usize / 2];
    stamps
}

/// Every second one was missed.
fn half_missed(slots: u64) -> Vec<u64> {
    lap(slots, 3).into_iter().zip(lap(slots, 2)).enumerate().map(|(i, (now, then))| if i % 2 == 0 { then } else { now }).collect()
}

/// Written by hand: the last slot has the newest stamp, and before it stamps fall by `step` seconds a slot.
fn all_falling(slots: u64, step: u64) -> Vec<u64> {
    let from = 3 * slots * step;
    (0..slots).map(|i| if i + 1 == slots { from + slots * step } else { from + (slots - i) * step }).map(|s| s * SECOND).collect()
}

/// A run over a whole ring of seconds with these stamps, the mark before all of them. Where the windows are more than the 1,440
/// slots of minutes, there is one turn: a second would meet windows whose slots hold later ones, and pass over them.
fn falls(name: &'static str, turns: u64, series: u32, slots: u64, stamps: Vec<u64>) -> Measure {
    let mut plan = three(series);
    plan.tiers[0].slots = slots;
    plan.tiers.truncate(2);
    let least = *stamps.iter().min().unwrap();
    let fill = move |side: &mut dyn Side| {
        side.entries(series);
        lap(slots, 3).into_iter().for_each(|t| side.batch(t));
        side.set_stamps(&stamps);
    };
    Measure {
        name,
        unit: "a run",
        turns,
        rust_turns: None,
        per_turn: 1,
        counted: 1,
        ours_alone: false,
        plan,
        setup: Box::new(fill),
        before: Some(Box::new(move |side, _| side.set_mark(least))),
        turn: Box::new(|side, _| {
            black_box(side.consolidate());
        }),
    }
}

fn measures() -> Vec<Measure> {
    let base = |name, turns, counted, plan, turn: Turn| Measure {
        name,
        unit: "a call",
        turns,
        rust_turns: None,
        per_turn: 1,
        counted,
        ours_alone: false,
        plan,
        setup: Box::new(|_| ()),
        before: None,
        turn,
    };
    let record = |name, plan| {
        let turn = |side: &mut dyn Side, i: u64| side.record((i % 2) as u32, i as f64, at(i / 2));
        base(name, 1_000_000, 2000, plan, Box::new(turn))
    };
    // The ring of seconds is full of its second lap, and the samples are of the first.
    let old = Measure {
        ours_alone: true,
        setup: Box::new(|side| {
            side.entries(2);
            seconds(side, 7200, 7200);
        }),
        ..base(
            "record refused with 18, 3 rows",
            1_000_000,
            2000,
            three(2),
            Box::new(|side, i| side.record_old((i % 2) as u32, i as f64, at(i / 2 % 7200))),
        )
    };
    let batch = |name, turns, series: u32| Measure {
        setup: Box::new(move |s| s.entries(series)),
        ..base(name, turns, 2000, three(series), Box::new(|side, i| side.batch(at(i))))
    };
    let query = |name, turns, turn: Turn| Measure {
        setup: Box::new(three_hours),
        ..base(name, turns, 10, three(2), turn)
    };
    let whole = |side: &mut dyn Side, _: u64| {
        let (n, sum) = side.query(1, 0, 0, u64::MAX);
        assert_eq!(n, 7200);
        black_box(sum);
    };
    let point = |side: &mut dyn Side, i: u64| {
        let t = at(3600 + i % 7200);
        assert_eq!(side.query(1, 0, t, t + 1).0, 1);
    };
    let auto = |side: &mut dyn Side, i: u64| {
        let t = at(3600 + 60 * (i % 119));
        assert_eq!(side.query_auto(1, t, t + 60 * SECOND).0, 60);
    };
    let ask = |side: &mut dyn Side, i: u64| side.ask((i % 2) as u32, 0, at(3700 + i % 60), at(3800));
    let ask_auto = |side: &mut dyn Side, i: u64| side.ask_auto((i % 2) as u32, at(4900 + i % 60), at(5000));
    let alone = |name, turns, plan, fill: Step, turn: Turn| Measure { setup: fill, ..base(name, turns, 2000, plan, turn) };
    let idle_run = |side: &mut dyn Side, _: u64| {
        black_box(side.consolidate());
    };
    let nothing_new = Measure {
        unit: "a run",
        setup: Box::new(|side| {
            three_hours(side);
            side.consolidate();
        }),
        ..base("run, nothing new", 200, 10, three(2), Box::new(idle_run))
    };
    let many_idle = Measure {
        unit: "a run",
        setup: Box::new(|side| {
            three_hours(side);
            side.consolidate();
        }),
        ..base("run, nothing new, 32 rows", 50, 10, rings(8, 4), Box::new(idle_run))
    };
    // The hour that holds the mark, 3,600 slots of 64 columns, gathered again by each run: hardly anything else is done.
    let gathering = Measure {
        unit: "a value",
        per_turn: 3600 * 64,
        setup: Box::new(|side| {
            side.entries(64);
            seconds(side, 0, 7200);
            side.consolidate();
        }),
        ..base("gathering an hour of 64 series", 5, 2, hours(64), Box::new(idle_run))
    };
    vec![
        record("record, 1 row", rings(1, 1)),
        record("record, 3 rows", three(2)),
        record("record, 3 rows, one of weeks", three_to(7 * 86_400, 520)),
        record("record, 3 rows, one of 80 years", three_to(365 * 86_400, 80)),
        record("record, 3 rows, a day of seconds", three_from(86_400)),
        record("record, 3 rows, a month of seconds", three_from(30 * 86_400)),
        record("record, 4 rows in 2 schemas", rings(2, 2)),
        record("record, 8 rows", rings(2, 4)),
        record("record, 32 rows", rings(8, 4)),
        old,
        batch("batch of 2", 200_000, 2),
        batch("batch of 64", 50_000, 64),
        Measure { per_turn: 7200, unit: "a point", ..query("query, all of 7,200 points", 50, Box::new(whole)) },
        Measure {
            per_turn: 7200,
            unit: "a point",
            setup: Box::new(|side| {
                three_hours(side);
                side.step_readers();
            }),
            ..query("the same, one point a call", 50, Box::new(whole))
        },
        query("query, one point of 7,200", 2000, Box::new(point)),
        query("query_auto, 60 points", 2000, Box::new(auto)),
        alone("query alone, 3 rows", 200_000, three(2), Box::new(three_hours), Box::new(ask)),
        alone("query alone, 32 rows", 200_000, rings(8, 4), Box::new(three_hours), Box::new(ask)),
        alone("query_auto alone, 3 rows", 200_000, three(2), Box::new(three_hours), Box::new(ask_auto)),
        alone("query_auto alone, 1,240 empty slots first", 20_000, three(2), Box::new(late), Box::new(ask_auto)),
        figure("panel, 3,600 slots", 200_000, 3600, Column::Full, panel),
        figure("panel, 10^6 slots", 200_000, 1_000_000, Column::Full, panel),
        figure("panel, NaN at the cursor, 10^6 slots", 200_000, 1_000_000, Column::NanLast, panel),
        figure("panel, a column of NaN, 3,600 slots", 2000, 3600, Column::Nan, panel),
        figure("panel, a column of NaN, 10^6 slots", 10, 1_000_000, Column::Nan, panel),
        figure("panel, every stamp 2^64 - 1, 3,600 slots", 2000, 3600, Column::Top, panel),
        figure("panel, every stamp 2^64 - 1, 10^6 slots", 10, 1_000_000, Column::Top, panel),
        figure("service, 3,600 slots", 200_000, 3600, Column::Full, service),
        figure("service, 10^6 slots", 200_000, 1_000_000, Column::Full, service),
        figure("service, NaN at the cursor, 10^6 slots", 200_000, 1_000_000, Column::NanLast, service),
        figure("service, a column of NaN, 3,600 slots", 2000, 3600, Column::Nan, service),
        figure("service, a column of NaN, 10^6 slots", 10, 1_000_000, Column::Nan, service),
        figure("service, empty slots first, 3,600 slots", 20_000, 3600, Column::Ends, service),
        figure("service, empty slots first, 10^6 slots", 100, 1_000_000, Column::Ends, service),
        run("run after each second", 60, 2, 7200, 1),
        run("run after a minute (1 new window)", 20, 2, 7200, 60),
        run("run after ten minutes (10)", 10, 2, 7200, 600),
        run("run after an hour (60), 2 series", 5, 2, 7200, 3600),
        run("run after an hour, 8 series", 5, 8, 7200, 3600),
        run("run after an hour, 64 series", 3, 64, 7200, 3600),
        run("run after an hour, 36,000 slots", 3, 2, 36_000, 3600),
        run("run after an hour, 10^6 slots", 3, 2, 1_000_000, 3600),
        falls("run, no fall, 36,000 slots", 3, 2, 36_000, lap(36_000, 3)),
        falls("run, one fall, 3,600 slots", 10, 2, 3600, one_fall(3600)),
        falls("run, one fall, 36,000 slots", 3, 2, 36_000, one_fall(36_000)),
        falls("run, one fall, 100,000 slots", 1, 2, 100_000, one_fall(100_000)),
        falls("run, one fall, 10^6 slots", 1, 2, 1_000_000, one_fall(1_000_000)),
        falls("run, every second sample missed, 36,000 slots", 3, 2, 36_000, half_missed(36_000)),
        falls("run, every second sample missed, 64 series", 1, 64, 36_000, half_missed(36_000)),
        falls("run, all falling, 3,600 slots", 10, 2, 3600, all_falling(3600, 1)),
        falls("run, all falling, 36,000 slots", 1, 2, 36_000, all_falling(36_000, 1)),
        falls("run, all falling, a window a slot, 3,600 slots", 1, 2, 3600, all_falling(3600, 60)),
        nothing_new,
        many_idle,
        gathering,
        base("creation", 50, 10, three(2), Box::new(|side, _| side.create(&three(2)))),
        query("opening", 50, Box::new(|side, _| side.open())),
        flags("flags of 3 fresh rings", 2000, 10, three(2), Box::new(|_| ())),
        // many turns, since the Rust's runs before them take now some more instructions, now some fewer
        flags("flags of 3 wrapped rings", 2000, 20_000, three(2), Box::new(all_wrapped)),
        flags("flags of a fresh ring of 3,600 slots", 2000, 10, ring_of(3600), Box::new(|_| ())),
        flags("flags of a fresh ring of 10^6 slots", 100, 10, ring_of(1_000_000), Box::new(|_| ())),
        flags("flags of a wrapped ring of 10^6 slots", 2000, 10, ring_of(1_000_000), Box::new(more_than_a_million)),
    ]
}

#[repr(C)]
struct Timespec {
    seconds: i64,
    nanoseconds: i64,
}

unsafe extern "C" {
    fn clock_gettime(clock: i32, at: *mut Timespec) -> i32;
}

/// Nanoseconds of processor time that this thread has had, the kernel's for it among them (CLOCK_THREAD_CPUTIME_ID):
/// what others do on the machine meanwhile does not count.
fn now() -> f64 {
    let mut at = Timespec { seconds: 0, nanoseconds: 0 };
    assert_eq!(unsafe { clock_gettime(3, &mut at) }, 0);
    at.seconds as f64 * 1e9 + at.nanoseconds as f64
}

/// Nanoseconds for each of what a turn counts.
fn repetition(m: &Measure, side: &mut dyn Side, turns: u64) -> f64 {
    side.create(&m.plan);
    (m.setup)(side);
    let mut spent = 0.0;
    if let Some(before) = &m.before {
        for i in 0..turns {
            before(side, i);
            let start = now();
            (m.turn)(side, i);
            spent += now() - start;
        }
    } else {
        let start = now();
        for i in 0..turns {
            (m.turn)(side, i);
        }
        spent = now() - start;
    }
    spent / (turns * m.per_turn) as f64
}

fn shown(ns: f64) -> String {
    match ns {
        _ if ns < 1e3 => format!("{ns:.1} ns"),
        _ if ns < 1e6 => format!("{:.2} us", ns / 1e3),
        _ => format!("{:.2} ms", ns / 1e6),
    }
}

/// Creation of an image beside memset on the same slice, in turn: the median of each, in GB a second.
fn fill(repetitions: usize) {
    for slots in [7_200, 100_000, 1_000_000, 4_000_000] {
        let mut plan = three(2);
        plan.tiers.truncate(1);
        plan.tiers[0].slots = slots;
        let mut side = ours::Ours::default();
        side.create(&plan);
        let (mut set, mut made) = (Vec::new(), Vec::new());
        for _ in 0..repetitions {
            let start = now();
            black_box(side.image()).fill(black_box(0));
            set.push((now() - start) / 1e9);
            let start = now();
            side.create(&plan);
            made.push((now() - start) / 1e9);
        }
        let bytes = side.image().len() as f64;
        let rate = |t: &mut Vec<f64>| {
            t.sort_by(f64::total_cmp);
            bytes / t[t.len() / 2] / 1e9
        };
        let (set, made) = (rate(&mut set), rate(&mut made));
        println!("creation of {bytes:>10} bytes: {made:6.2} GB/s, memset {set:6.2} GB/s, ratio of times {:.2}", set / made);
    }
}

fn main() {
    let args: Vec<String> = std::env::args().collect();
    let option = |name: &str| args.iter().position(|a| a == name).map(|i| args[i + 1].as_str());
    let repetitions: usize = option("--repetitions").map_or(7, |n| n.parse().unwrap());
    let make = |name: &str| -> Box<dyn Side> {
        match name {
            "ours" => Box::new(ours::Ours::default()),
            _ => Box::new(published::Published::new()),
        }
    };
    let names = option("--side").map_or(vec!["rust", "ours"], |s| vec![if s == "ours" { "ours" } else { "rust" }]);
    let one_side = option("--side").is_some();
    let only = option("--only");
    let chosen = measures().into_iter().filter(|m| only.is_none_or(|o| m.name == o));
    if let Some(turns) = option("--turns") {
        let turns = turns.parse().unwrap();
        for mut m in chosen {
            if args.iter().any(|a| a == "--idle") {
                m.turn = Box::new(|_, _| ());
            }
            for name in names.iter().filter(|n| **n == "ours" || !m.ours_alone) {
                repetition(&m, &mut *make(name), turns);
            }
        }
        return;
    }
    if args.iter().any(|a| a == "--fill") {
        fill(repetitions);
        return;
    }
    if args.iter().any(|a| a == "--list") {
        let rust = |m: &Measure| if m.ours_alone { 0 } else { m.rust_turns.map_or(m.counted, |turns| turns.min(m.counted)) };
        chosen.for_each(|m| println!("{}\t{}\t{}\t{}", rust(&m), m.counted, m.per_turn, m.name));
        return;
    }
    for m in chosen {
        let names: Vec<&str> = names.iter().copied().filter(|n| *n == "ours" || !m.ours_alone).collect();
        let mut sides: Vec<Box<dyn Side>> = names.iter().map(|n| make(n)).collect();
        let mut times: Vec<Vec<f64>> = vec![Vec::new(); sides.len()];
        // In turn, so that a busy moment of the machine meets both sides.
        for _ in 0..repetitions {
            for ((side, t), name) in sides.iter_mut().zip(&mut times).zip(&names) {
                let turns = if *name == "ours" { m.turns } else { m.rust_turns.unwrap_or(m.turns) };
                t.push(repetition(&m, &mut **side, turns));
            }
        }
        print!("| {}, {} |{}", m.name, m.unit, if m.ours_alone && !one_side { " none |" } else { "" });
        for t in &mut times {
            t.sort_by(f64::total_cmp);
            print!(" {} ({} .. {}) |", shown(t[t.len() / 2]), shown(t[0]), shown(t[t.len() - 1]));
        }
        if let [rust, ours] = &times[..] {
            let ratio = ours[ours.len() / 2] / rust[rust.len() / 2];
            match ratio {
                _ if ratio < 0.001 => print!(" {ratio:.1e} |"),
                _ => print!(" {ratio:.*} |", if ratio < 0.1 { 3 } else { 2 }),
            }
        } else if m.ours_alone && !one_side {
            print!(" none |");
        }
        println!();
    }
}
