//! Writes the list of calls that the program `replay` carries out, with the Rust's answers, and
//! what that program must print. How the list is laid out: ../../crates/replay/README.md.

use crate::calls::{Answer, Call, Cell, Kind, OPEN, Plan, Schema, Side, Tier, entry_bytes};
use crate::compare::{Asked, History, List, asked};
use crate::demand::{self, Schedule};
use crate::generate::{self, INFINITY, Random};
use crate::plain::{self, Flags, HEADER, ROW, get64, put64};
use crate::sides::{Lent, Plain, ordered, published};
use crate::special;

const BLOCK: usize = 65536;
/// The program lends an image of this length.
const IMAGE: usize = 65536;

/// The sum that the program takes of the image's bytes.
fn sum(bytes: &[u8]) -> u64 {
    bytes.iter().fold(0, |sum, &b| (sum * 257 + b as u64 + 1) % 4_294_967_291)
}

/// Whether document 01's rule would set other flags at an opening of this image.
fn rules_part(image: &[u8]) -> bool {
    let by = |rule: plain::WrapFlag| {
        let mut flags = [false; 32];
        plain::open_by(image, &mut flags, rule).map(|()| flags)
    };
    by(plain::wrap_flag) != by(plain::old_wrap_flag)
}

/// What the list has in it, so that nothing is left out unseen.
#[derive(Default)]
pub struct Stock {
    pub refusals: [u64; 17],
    pub functions: [u64; 7],
    /// Calls after which some ring had wrapped, runs with several writes, points handed out.
    pub wrapped: u64,
    pub several: u64,
    pub points: u64,
    /// Openings accepted, those of them that set a flag, and those left out.
    pub openings: u64,
    pub set: u64,
    pub left_out: u64,
    /// Lists that were cut short, since they were no longer in time order or a run was refused, and
    /// their calls from there on.
    pub cut: u64,
    pub cut_calls: u64,
}

struct Writer {
    bytes: Vec<u8>,
    printed: String,
    group: u64,
    all: u64,
    stock: Stock,
    store: ordered::Rust,
    /// What the program holds: the image's bytes by the Rust, and the flags.
    image: Vec<u8>,
    flags: Flags,
    rows: usize,
}

impl Writer {
    /// Puts an item into the list; none reaches from one block into the next.
    fn put(&mut self, kind: u64, refused: u32, rest: &[u8]) {
        let mut item = vec![0; 48];
        put64(&mut item, 0, 48 + rest.len() as u64);
        put64(&mut item, 8, kind);
        put64(&mut item, 16, refused as u64);
        put64(&mut item, 24, self.image.len() as u64);
        put64(&mut item, 32, sum(&self.image));
        let flags = self.flags.iter().enumerate().map(|(i, &f)| (f as u64) << i).sum();
        put64(&mut item, 40, flags);
        item.extend(rest);
        assert!(item.len() <= BLOCK);
        let room = BLOCK - self.bytes.len() % BLOCK;
        if room < item.len() {
            self.bytes.extend(vec![0; room]);
        }
        self.bytes.extend(item);
    }

    fn call(&mut self, kind: u64, refused: u32, rest: &[u8]) {
        self.put(kind, refused, rest);
        self.group += 1;
        self.stock.refusals[refused as usize] += 1;
        self.stock.wrapped += self.flags[..self.rows].contains(&true) as u64;
    }

    fn end_group(&mut self, name: &str) {
        self.put(9, 0, name.as_bytes());
        self.printed += &format!("{name}: {} calls, 0 unlike the Rust\n", self.group);
        self.all += self.group;
        self.group = 0;
    }

    /// The image as the Rust has it: its slabs and marks below our head.
    fn take(&mut self) {
        let state = self.store.state();
        let head = HEADER + ROW * state.slabs.len();
        self.image.truncate(head);
        for (row, &mark) in state.marks.iter().enumerate() {
            put64(&mut self.image, HEADER + ROW * row + 48, mark);
        }
        for slab in &state.slabs {
            self.image.extend_from_slice(slab);
        }
    }

    fn take_flags(&mut self) {
        let state = self.store.state();
        self.rows = state.flags.len();
        self.flags[..self.rows].copy_from_slice(&state.flags);
    }

    /// One list: creation, and the calls that the Rust can be asked.
    fn list(&mut self, list: &List) {
        let plan = list.plan.bytes(published::hash);
        let mut leader = Lent::new("document 01", Plain);
        let made = leader.create_from(&plan, IMAGE);
        if let Answer::Refused(n @ 2..=7) = made {
            // 2^63 and more is a departure.
            let bound = |t: &Tier| t.interval < 1 << 63 && t.retention < 1 << 63;
            if list.plan.0.iter().all(|s| s.tiers.iter().all(bound)) {
                assert_eq!(published::validate(&list.plan), made);
                self.call(1, n, &plan);
            }
        }
        if made != Answer::Done {
            return;
        }
        assert_eq!(self.store.create(&list.plan), Answer::Done);
        let total = get64(leader.state().lent.unwrap().0, 16) as usize;
        self.image = leader.state().lent.unwrap().0[..total].to_vec();
        self.take();
        self.take_flags();
        for schema in &list.plan.0 {
            schema.tiers.iter().for_each(|t| self.stock.functions[t.function as usize] += 1);
        }
        self.call(1, 0, &plan);
        let (mut history, cut) = (History::default(), self.stock.cut);
        for (i, call) in list.calls.iter().enumerate() {
            if !self.ask(call, &mut leader, &mut history) {
                let behind = (list.calls.len() - i) as u64;
                self.stock.cut_calls += behind * (self.stock.cut - cut);
                break;
            }
        }
    }

    /// False where the Rust cannot follow any more.
    fn ask(&mut self, call: &Call, leader: &mut Lent<Plain>, history: &mut History) -> bool {
        // The program hands its flags as left.
        let call = if matches!(call, Call::Open { .. }) { &OPEN } else { call };
        // Where document 01's rule and request 2026-02's set other flags, the Rust has no answer to
        // store: the opening stays out, for all sides.
        if *call == OPEN && rules_part(leader.state().lent.unwrap().0) {
            self.stock.left_out += 1;
            return true;
        }
        let ours = leader.call(call);
        if !history.goes_on(call, &ours) {
            self.stock.cut += 1;
            return false;
        }
        let damaged = *call == OPEN && ours == Answer::Refused(10);
        match asked(Kind::Store, call, &ours) {
            Asked::Yes => {}
            Asked::Stop if damaged => {}
            Asked::Pass | Asked::This(_) => return true,
            Asked::Stop => return false,
        }
        let theirs = self.store.call(call);
        assert_eq!(ours, theirs, "{call:?}");
        let refused = match theirs {
            Answer::Refused(n) => n,
            _ => 0,
        };
        self.take();
        if !damaged {
            self.take_flags();
        }
        let (image, flags) = leader.state().lent.unwrap();
        let rows = self.rows;
        assert!(image[..self.image.len()] == self.image, "{call:?}");
        assert!(flags[..rows] == self.flags[..rows], "{call:?}");
        self.item(call, &theirs, refused);
        !damaged
    }

    fn item(&mut self, call: &Call, answer: &Answer, refused: u32) {
        let words = |xs: &[u64]| xs.iter().flat_map(|x| x.to_le_bytes()).collect::<Vec<u8>>();
        match call {
            Call::Open { .. } => {
                self.stock.openings += (refused == 0) as u64;
                self.stock.set += (refused == 0 && self.flags[..self.rows].contains(&true)) as u64;
                self.call(2, refused, &[]);
            }
            &Call::Record { schema, column, value, stamp } => {
                self.call(3, refused, &words(&[schema as u64, column as u64, value, stamp]));
            }
            Call::Batch { entries, tail, stamp } => {
                let mut rest = words(&[*stamp]);
                rest.extend(entry_bytes(entries, *tail));
                self.call(4, refused, &rest);
            }
            &Call::Query { schema, column, tier, start, end } => {
                let mut rest = words(&[schema as u64, column as u64, tier as u64, start, end]);
                rest.extend(self.found(answer));
                self.call(5, refused, &rest);
            }
            &Call::Auto { schema, column, start, end } => {
                let mut rest = words(&[schema as u64, column as u64, 0, start, end]);
                rest.extend(self.found(answer));
                self.call(6, refused, &rest);
            }
            Call::Consolidate => {
                let count = if let Answer::Count(n) = answer { *n } else { 0 };
                self.stock.several += (count > 1) as u64;
                self.call(7, refused, &words(&[count]));
            }
            &Call::Poke { row, cell } => {
                let at = HEADER + ROW * row;
                let place = match cell.bytes(
                    get64(&self.image, at + 16) / get64(&self.image, at + 8),
                    crate::plain::get32(&self.image, at + 28) as u64,
                ) {
                    Some((place, _)) => get64(&self.image, at + 32) as usize + place,
                    None => at + 48,
                };
                let place = place.min(self.image.len() - 8);
                self.call(8, 0, &words(&[place as u64, get64(&self.image, place)]));
            }
            Call::Panel { .. } | Call::Service { .. } => unreachable!("the list has no figures"),
            Call::Next { .. } | Call::Damage { .. } | Call::Cut { .. } => unreachable!(),
        }
    }

    /// A query's answer, with its points.
    fn found(&mut self, answer: &Answer) -> Vec<u8> {
        let Answer::Points { tier, oldest, newest, incomplete, points, .. } = answer else {
            return Vec::new();
        };
        self.stock.points += points.len() as u64;
        let ends = [oldest.unwrap_or(0), newest.unwrap_or(0)];
        let count = points.len() as u64;
        let head = [*tier as u64, ends[0], ends[1], *incomplete as u64, count];
        let points = points.iter().flat_map(|p| [p.0, p.1]);
        head.into_iter().chain(points).flat_map(|x| x.to_le_bytes()).collect()
    }
}

fn one(series: u32, tiers: &[(u64, u64, u32)]) -> Plan {
    let tier = |&(interval, n, function): &(u64, u64, u32)| Tier {
        interval,
        retention: interval * n,
        function,
    };
    Plan(vec![Schema { series, tiers: tiers.iter().map(tier).collect() }])
}

fn query(column: u32, tier: u32) -> Call {
    Call::Query { schema: 0, column, tier, start: 0, end: u64::MAX }
}

/// Slabs that the Rust will not open again, and heads that it opens.
fn openings() -> Vec<List> {
    let plan = one(2, &[(10, 4, 0), (20, 3, 1)]);
    let each = [(0, 0, 0), (0, 3, 1), (1, 2, 5), (1, 4, 0), (0, 40, 7), (1, 64, 9)];
    let list = |&(row, at, byte): &(usize, usize, u8)| {
        // Up to 60: at the opening after them both rules set the flag, of both rings.
        let mut calls: Vec<Call> = (2..7).map(|k| crate::record(0, 10 * k, k as f64)).collect();
        calls.extend([Call::Consolidate, OPEN, query(0, 0), query(0, 1)]);
        calls.push(Call::Poke { row, cell: Cell::Loose { at, byte } });
        calls.extend([OPEN, query(0, 0)]);
        List::new(plan.clone(), calls)
    };
    each.iter().map(list).collect()
}

/// Each function over several windows, on special values, with infinite ones put in.
fn functions(r: &mut Random) -> Vec<List> {
    let list = |function: u32| {
        let plan = one(2, &[(10, 12, 0), (30, 5, function), (60, 3, function)]);
        let mut calls = Vec::new();
        for k in 0..60 {
            // No sum overflows, so that no run is refused.
            let value = generate::tame(generate::value(r));
            calls.push(Call::Record { schema: 0, column: k % 2, value, stamp: 60 + 10 * k as u64 });
            if r.one_in(8) {
                let value = INFINITY | r.below(2) << 63;
                let cell = Cell::Value { column: r.below(2), slot: r.below(12), value };
                calls.push(Call::Poke { row: 0, cell });
            }
            if k % 7 == 6 {
                calls.extend([Call::Consolidate, query(0, 1), query(1, 2)]);
            }
        }
        List::new(plan, calls)
    };
    (1..=6).map(list).collect()
}

/// The third demand: no tick left out, runs on this schedule, queries after each.
fn scheduled(r: &mut Random, schedule: Schedule, intervals: &[u64], ticks: u64) -> List {
    let plan = demand::plan(r, intervals);
    let list = demand::list(r, plan, schedule, ticks, false);
    assert!(demand::supposed(&list.plan, &demand::events(&list.plan, &list.calls)));
    assert!(demand::check(Plain, &list.plan, &list.calls).is_ok());
    list
}

/// Whether a list is in time order up to its end, and no run of it refused.
fn in_order(list: &List) -> bool {
    let mut leader = Lent::new("document 01", Plain);
    leader.create(&list.plan);
    let mut history = History::default();
    list.calls.iter().all(|call| history.goes_on(call, &leader.call(call)))
}

/// Stores that are opened again and again, as far as the Rust can be asked.
fn cycles(random: &dyn Fn(u64) -> Random) -> Vec<List> {
    let each = (2000..).map(|i| generate::cycles(&mut random(i)));
    each.filter(|list| list.raw.is_none() && in_order(list)).take(40).collect()
}

/// A few of the short lists over small stocks.
fn short(r: &mut Random) -> Vec<List> {
    let mut found = Vec::new();
    for (fine, coarse) in [(1, 2), (1, 3), (2, 3)] {
        for n in 1..=4 {
            let plan = one(2, &[(fine, n, 0), (coarse, 1 + n % 3, 1)]);
            for _ in 0..6 {
                // Stamps that never fall, behind window 0.
                let mut stamp = 4;
                let mut calls = Vec::new();
                for _ in 0..5 {
                    calls.push(match r.below(8) {
                        0 => Call::Consolidate,
                        1 => OPEN,
                        _ => {
                            stamp += r.below(4);
                            crate::record(stamp as u32 % 2, stamp, stamp as f64)
                        }
                    });
                }
                calls.extend([Call::Consolidate, query(0, 0), query(0, 1), query(1, 1)]);
                found.push(List::new(plan.clone(), calls));
            }
        }
    }
    found
}

/// Writes `stdin` and `stdout` of the program into a folder.
pub fn write(folder: &str, seed: u64) {
    use Schedule::*;
    let mut w = Writer {
        bytes: Vec::new(),
        printed: String::new(),
        group: 0,
        all: 0,
        stock: Stock::default(),
        store: ordered::Rust::new("stored", Kind::Store),
        image: Vec::new(),
        flags: [false; 32],
        rows: 0,
    };
    let mut r = Random(seed.wrapping_mul(1 << 40));
    let random = |i: u64| Random(seed.wrapping_mul(1 << 40).wrapping_add(i));
    let second = 1_000_000_000;
    let groups: Vec<(&str, Vec<List>)> = vec![
        ("cases A to L and those of the requests", special::case_lists()),
        ("plans", (0..400).map(|i| generate::odd_plan(&mut random(i))).collect()),
        ("short lists", short(&mut r)),
        ("openings", openings()),
        ("functions", functions(&mut r)),
        (
            "third demand, a run after each tick",
            vec![
                scheduled(&mut r, EachTick, &[1, 2], 9),
                scheduled(&mut r, EachTick, &[second, 3 * second, 6 * second], 27),
            ],
        ),
        (
            "third demand, after some ticks",
            vec![
                scheduled(&mut r, SomeTicks, &[second, 5 * second, 20 * second], 70),
                scheduled(&mut r, SomeTicks, &[10, 20, 60, 240], 80),
            ],
        ),
        (
            "third demand, early and late",
            vec![
                scheduled(&mut r, EarlyAndLate, &[second, 5 * second, 60 * second], 240),
                scheduled(&mut r, EarlyAndLate, &[10, 20, 60, 240], 130),
            ],
        ),
        (
            "third demand, after each last tick",
            vec![scheduled(&mut r, LastTicks, &[second, 5 * second, 60 * second], 180)],
        ),
        ("one to three schemas", (0..40).map(|i| generate::in_order(&mut random(i), 38)).collect()),
        ("poked", (0..40).map(|i| generate::poked_in_order(&mut random(1000 + i), 38)).collect()),
        ("opened again and again", cycles(&random)),
    ];
    for (name, lists) in groups {
        lists.iter().for_each(|l| w.list(l));
        w.end_group(name);
    }
    w.printed += &format!("all: {} calls, 0 unlike the Rust\n", w.all);
    let s = &w.stock;
    for n in (2..=7).chain([10]).chain(12..=15) {
        assert!(s.refusals[n] > 0, "no refusal {n} in the list");
    }
    assert!(s.functions[1..].iter().all(|&n| n > 0) && s.wrapped > 0 && s.several > 0);
    assert!(s.openings > s.set && s.set > 0 && s.refusals[16] == 0);
    std::fs::write(format!("{folder}/stdin"), &w.bytes).unwrap();
    std::fs::write(format!("{folder}/stdout"), &w.printed).unwrap();
    print!("{}", w.printed);
    println!("{} bytes; refusals 1 to 16: {:?}", w.bytes.len(), &s.refusals[1..]);
    println!(
        "tiers by function 0 to 6: {:?}; {} calls with a wrapped ring, {} runs with several writes, {} points",
        s.functions, s.wrapped, s.several, s.points
    );
    println!(
        "{} openings accepted, {} of them set a flag; left out, since the rules part: {}",
        s.openings, s.set, s.left_out
    );
    println!(
        "{} lists end where a stamp falls, a run is refused or somebody else writes a stamp, cursor or mark; {} calls from there on left out",
        s.cut, s.cut_calls
    );
}
