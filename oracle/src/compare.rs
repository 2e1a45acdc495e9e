//! Runs one list of calls on all sides and compares after each call; makes a list that
//! shows a difference as small as it can.

use crate::calls::{Answer, Call, Cell, Kind, OPEN, Plan, Side, State, Tier};
use crate::plain::{self, Flags, HEADER, OLD_SAMPLE, ROW, infinite};
use crate::sides::{Lent, Plain, lent_flags, published};

#[derive(Clone, Debug, PartialEq, Eq)]
pub struct List {
    pub plan: Plan,
    /// Other bytes than the plan's, and the room lent to creation: only for sides on lent
    /// bytes, as is a list with damage.
    pub raw: Option<(Vec<u8>, usize)>,
    pub calls: Vec<Call>,
}

impl List {
    pub fn new(plan: Plan, calls: Vec<Call>) -> Self {
        Self { plan, raw: None, calls }
    }

    fn for_lent_bytes(&self) -> bool {
        let damage = |c: &Call| matches!(c, Call::Damage { .. } | Call::Cut { .. });
        self.raw.is_some() || self.calls.iter().any(damage)
    }
}

#[derive(Clone, Debug)]
pub struct Difference {
    /// 0 is the creation, k the k-th call.
    pub at: usize,
    pub side: &'static str,
    pub what: String,
}

/// What was run, and what was passed over for a reason.
#[derive(Clone, Debug, Default)]
pub struct Tally {
    pub lists: u64,
    /// Calls answered by the plain side, creations included.
    pub calls: u64,
    /// Answers of the proved library held against the plain side's.
    pub library: u64,
    /// Answers of the Rust's sides held against them.
    pub compared: u64,
    pub points: u64,
    pub refusals: [u64; 19],
    /// Calls on histories that the Rust is run beside, one or more of its sides held to them; lists
    /// that stopped being such a history, and their calls from there on.
    pub in_order: u64,
    pub left: u64,
    pub alone: u64,
    /// Old samples: records into an interval that the slot holds a later stamp of, and into a slot that
    /// holds a later interval; batches into one ring, over rings one of which would take them, over
    /// rings that all refuse.
    pub old: [u64; 5],
    /// Writes that runs passed over; the runs; those of them that made no write, that were refused, that
    /// stand in lists in which nobody else wrote.
    pub passed: [u64; 5],
    /// The panel's figures and the service figures, each given, none and refused; and those of them
    /// that one or more of the Rust's sides were held to.
    pub panels: [u64; 3],
    pub services: [u64; 3],
    pub figures_beside: u64,
    /// Refused by document 01 alone [D]: not asked of the Rust.
    pub not_asked: u64,
    /// Runs after which the published Rust went another way by its hash order.
    pub by_hash_order: u64,
    /// Openings refused; accepted; and those of them where document 01's rule sets other flags: some
    /// flag true by request 2026-02 alone, some by document 01 alone.
    pub not_opened: u64,
    pub opened: u64,
    pub parted: u64,
    pub only_new: u64,
    pub only_old: u64,
    /// Openings that the Rust's sides, one or more, were held to with the same flags; openings where
    /// the rules part and the Rust's flags were seen to be document 01's; those at which it came back.
    pub beside: u64,
    /// Those with the same flags that stand in lists for sides on lent bytes only.
    pub lent_only: u64,
    pub seen_old: u64,
    pub returned: u64,
    /// Lists carried out without their openings too, of the plain side and of the library; the
    /// openings taken out; the answers held against those of the list without them.
    pub cycled: u64,
    pub taken_out: u64,
    pub alike: u64,
    /// Queries held against the third demand.
    pub demanded: u64,
    /// Schedules that do not meet its supposition, and those of them after which a query is unlike it.
    pub outside: u64,
    pub broken: u64,
}

impl Tally {
    fn count(&mut self, kind: Kind) {
        *(if kind == Kind::Whole { &mut self.library } else { &mut self.compared }) += 1;
    }

    fn figure(&mut self, call: &Call, answer: &Answer) {
        let kind = match answer {
            Answer::Shown(Some(_)) | Answer::Served(Some(_)) => 0,
            Answer::Shown(None) | Answer::Served(None) => 1,
            _ => 2,
        };
        match call {
            Call::Panel { .. } => self.panels[kind] += 1,
            Call::Service { .. } => self.services[kind] += 1,
            _ => {}
        }
    }

    pub fn add(&mut self, t: &Tally) {
        self.lists += t.lists;
        self.calls += t.calls;
        self.library += t.library;
        self.compared += t.compared;
        self.points += t.points;
        self.not_asked += t.not_asked;
        self.by_hash_order += t.by_hash_order;
        self.in_order += t.in_order;
        self.left += t.left;
        self.alone += t.alone;
        self.not_opened += t.not_opened;
        self.opened += t.opened;
        self.parted += t.parted;
        self.only_new += t.only_new;
        self.only_old += t.only_old;
        self.beside += t.beside;
        self.lent_only += t.lent_only;
        self.seen_old += t.seen_old;
        self.returned += t.returned;
        self.cycled += t.cycled;
        self.taken_out += t.taken_out;
        self.alike += t.alike;
        self.demanded += t.demanded;
        self.outside += t.outside;
        self.broken += t.broken;
        self.figures_beside += t.figures_beside;
        self.panels.iter_mut().zip(t.panels).for_each(|(a, b)| *a += b);
        self.services.iter_mut().zip(t.services).for_each(|(a, b)| *a += b);
        self.refusals.iter_mut().zip(t.refusals).for_each(|(a, b)| *a += b);
        self.old.iter_mut().zip(t.old).for_each(|(a, b)| *a += b);
        self.passed.iter_mut().zip(t.passed).for_each(|(a, b)| *a += b);
    }

    /// Which kind of old sample was refused, the image being this.
    fn old_sample(&mut self, call: &Call, image: &[u8]) {
        let c = plain::check(image).expect("a sound image");
        let slab = |schema: u32| &image[c.rows[c.tiers(schema)[0]].place()];
        let kind = match call {
            &Call::Record { schema, stamp, .. } => {
                let slab = slab(schema);
                let interval = plain::get64(slab, 24);
                let held = plain::stamp(slab, plain::slot_of(slab, stamp));
                (held / interval != stamp / interval) as usize
            }
            Call::Batch { entries, stamp, .. } => {
                let several = entries.iter().any(|e| e.0 != entries[0].0);
                let all = entries.iter().all(|e| plain::is_old(slab(e.0), *stamp));
                2 + several as usize * (1 + all as usize)
            }
            _ => unreachable!("18 is a recording's"),
        };
        self.old[kind] += 1;
    }
}

/// Whether a list is one that the Rust is run beside (request 2026-05): schema by schema the stamps of
/// recordings that pass 11, 12 and 13 never fall, and no run is refused; nor does anybody else write
/// stamps, cursors or marks.
#[derive(Default)]
pub struct History {
    newest: [u64; 8],
    left: bool,
}

impl History {
    /// Takes a call and its answer by the rules: false from the first on with which it is no longer so.
    pub fn goes_on(&mut self, call: &Call, answer: &Answer) -> bool {
        let passes = !matches!(answer, Answer::Refused(n) if *n != OLD_SAMPLE);
        let mut falls = |schema: u32, stamp: u64| {
            let newest = &mut self.newest[schema as usize];
            let falls = stamp < *newest;
            *newest = stamp.max(*newest);
            falls
        };
        let leaves = match call {
            Call::Record { schema, stamp, .. } if passes => falls(*schema, *stamp),
            Call::Batch { entries, stamp, .. } if passes => {
                entries.iter().fold(false, |any, e| falls(e.0, *stamp) | any)
            }
            Call::Consolidate => matches!(answer, Answer::Refused(_)),
            Call::Poke { cell: Cell::Stamp { .. } | Cell::Cursor(_) | Cell::Mark(_), .. } => true,
            Call::Damage { .. } | Call::Cut { .. } => true,
            _ => false,
        };
        self.left |= leaves;
        !self.left
    }
}

pub enum Asked {
    Yes,
    This(Call),
    /// The side lacks this refusal and nothing has changed.
    Pass,
    /// The side cannot follow from here.
    Stop,
}

pub fn asked(kind: Kind, call: &Call, leader: &Answer) -> Asked {
    let refused = match leader {
        Answer::Refused(n) => *n,
        _ => 0,
    };
    match (kind, call) {
        (Kind::Whole, _) => Asked::Yes,
        (_, Call::Next { .. }) => Asked::Pass,
        (Kind::Engine, call) if call.reads() => Asked::Pass,
        (_, Call::Open { .. }) if refused != 0 => Asked::Stop,
        _ if refused == 11 => Asked::Pass,
        (_, Call::Record { stamp, .. } | Call::Batch { stamp, .. })
            if refused == 13 && *stamp >= 1 << 63 =>
        {
            Asked::Pass
        }
        // Over several schemas the Rust may store those that it comes to before the bad
        // one: of its outcomes, this is the one in which the bad one comes first.
        (_, Call::Batch { entries, tail, stamp }) if refused == 12 => {
            let bad = |s: u32| entries.iter().any(|e| e.0 == s && infinite(e.2));
            let entries = entries.iter().filter(|e| bad(e.0)).copied().collect();
            Asked::This(Call::Batch { entries, tail: *tail, stamp: *stamp })
        }
        _ => Asked::Yes,
    }
}

/// Where a side stands.
#[derive(Clone, Copy, PartialEq)]
enum Stand {
    Beside,
    /// Away since an opening where document 01's rule sets other flags, up to the next where it
    /// sets the same.
    Away,
    Gone,
}

/// The flags that document 01's rule sets where ours has opened.
fn old_flags(opened: &State) -> Vec<bool> {
    opened.slabs.iter().map(|slab| plain::old_wrap_flag(slab)).collect()
}

/// Where two states differ first, in words.
fn unlike(ours: &State, theirs: &State) -> Option<String> {
    for (row, (a, b)) in ours.slabs.iter().zip(&theirs.slabs).enumerate() {
        if a.len() != b.len() {
            return Some(format!("row {row}: slab length {} and {}", a.len(), b.len()));
        }
        if a != b
            && let Some(i) = (0..a.len()).find(|&i| a[i] != b[i])
        {
            let i = i.min(a.len().saturating_sub(8)) & !3;
            return Some(format!(
                "row {row}, slab byte {i}: {:02x?} and {:02x?}",
                &a[i..i + 8],
                &b[i..i + 8]
            ));
        }
    }
    if ours.slabs.len() != theirs.slabs.len() {
        return Some("number of slabs".to_string());
    }
    if ours.flags != theirs.flags {
        return Some(format!("flags {:?} and {:?}", ours.flags, theirs.flags));
    }
    if ours.marks != theirs.marks {
        return Some(format!("marks {:?} and {:?}", ours.marks, theirs.marks));
    }
    if let (Some(a), Some(b)) = (&ours.lent, &theirs.lent)
        && a != b
    {
        return Some("lent bytes or flags".to_string());
    }
    None
}

/// What a side on lent bytes held before a call.
#[derive(Default)]
struct Before {
    image: Vec<u8>,
    flags: Flags,
    marks: Vec<u64>,
}

impl Before {
    fn take(&mut self, s: &State) {
        let (image, flags) = s.lent.as_ref().unwrap();
        self.image.clear();
        self.image.extend_from_slice(image);
        self.flags = *flags;
        self.marks.clone_from(&s.marks);
    }
}

/// What must hold of a side that works on lent bytes, whatever the others say: a refusal
/// changes nothing, but for consolidation; header and rows (marks aside), the surplus and
/// the flags past R stay.
fn frame(call: &Call, answer: &Answer, before: &Before, after: &State) -> Option<String> {
    if matches!(call, Call::Poke { .. } | Call::Damage { .. } | Call::Cut { .. }) {
        return None;
    }
    if let Answer::Panicked(text) = answer {
        return Some(format!("panicked: {text}"));
    }
    let ((a, f), Some((b, g))) = ((&before.image, &before.flags), &after.lent) else {
        return None;
    };
    if a == b && f == g {
        return None;
    }
    let still = matches!(answer, Answer::Refused(_)) && *call != Call::Consolidate;
    if still || call.reads() {
        return Some("a refused or reading call changed bytes or flags".to_string());
    }
    let rows = after.flags.len();
    let mark = |i: usize| i >= HEADER && (48..56).contains(&((i - HEADER) % ROW));
    let head = HEADER + ROW * rows;
    let total = crate::plain::get64(a, 16) as usize;
    if (0..head).any(|i| !mark(i) && a[i] != b[i]) {
        return Some("header or rows changed".to_string());
    }
    if a[total..] != b[total..] || f[rows..] != g[rows..] {
        return Some("bytes past the image or flags past R changed".to_string());
    }
    None
}

fn words(a: &Answer) -> String {
    match a {
        Answer::Points { tier, oldest, newest, range, incomplete, points } => {
            let points: Vec<String> =
                points.iter().map(|p| format!("({}, 0x{:016x})", p.0, p.1)).collect();
            format!(
                "tier {tier}, ends {oldest:?} {newest:?}, range {range:?}, incomplete {incomplete}, points [{}]",
                points.join(", ")
            )
        }
        _ => format!("{a:?}"),
    }
}

fn not_checked_by_rust(plan: &Plan) -> bool {
    plan.0.iter().any(|s| s.tiers.iter().any(|t| t.interval >= 1 << 63 || t.retention >= 1 << 63))
}

fn create(side: &mut dyn Side, list: &List) -> Answer {
    match &list.raw {
        Some((plan, room)) => side.create_from(plan, *room),
        None => side.create(&list.plan),
    }
}

pub fn run(list: &List, sides: &mut [Box<dyn Side>], tally: &mut Tally) -> Option<Difference> {
    let mut leader = Lent::new("document 01", Plain);
    let whole = list.for_lent_bytes();
    let follows = |s: &dyn Side| !whole || s.kind() == Kind::Whole;
    tally.lists += 1;
    tally.calls += 1;
    let made = create(&mut leader, list);
    let mut before = Before::default();
    before.take(&leader.state());
    let differs = |at, side, what| Some(Difference { at, side, what });
    if let Answer::Refused(n) = made {
        tally.refusals[n as usize] += 1;
        if before.image.iter().any(|&b| b != 0xa5) || before.flags != lent_flags() {
            return differs(0, leader.name(), "a refused creation changed something".to_string());
        }
        for side in sides.iter_mut().filter(|s| s.kind() == Kind::Whole) {
            let theirs = create(side.as_mut(), list);
            tally.library += 1;
            if theirs != made || side.state().lent != leader.state().lent {
                return differs(0, side.name(), format!("creation: {made:?} and {theirs:?}"));
            }
        }
        // 8 and 9, and 4 for 2^63 or more, are ours alone.
        if whole || n == 8 || n == 9 || not_checked_by_rust(&list.plan) {
            tally.not_asked += 1;
            return None;
        }
        let theirs = published::validate(&list.plan);
        tally.compared += 1;
        if theirs != made {
            return differs(0, "published", format!("creation: {made:?} and {theirs:?}"));
        }
        return None;
    }
    if let Answer::Panicked(text) = made {
        return differs(0, leader.name(), format!("creation panicked: {text}"));
    }
    let rows = before.marks.len();
    let total = crate::plain::get64(&before.image, 16) as usize;
    if before.flags[..rows].iter().any(|&f| f)
        || before.flags[rows..] != lent_flags()[rows..]
        || before.image[total..].iter().any(|&b| b != 0xa5)
    {
        return differs(0, leader.name(), "creation: flags or surplus".to_string());
    }
    let stand = |s: &dyn Side| if follows(s) { Stand::Beside } else { Stand::Gone };
    let mut stands: Vec<Stand> = sides.iter().map(|s| stand(s.as_ref())).collect();
    for side in sides.iter_mut().filter(|s| follows(s.as_ref())) {
        let theirs = create(side.as_mut(), list);
        if theirs != made {
            return differs(0, side.name(), format!("creation: {made:?} and {theirs:?}"));
        }
        if let Some(what) = unlike(&leader.state(), &side.state()) {
            return differs(0, side.name(), format!("creation: {what}"));
        }
        tally.count(side.kind());
    }
    let with_rust = sides.iter().any(|s| s.kind() != Kind::Whole && follows(s.as_ref()));
    tally.in_order += with_rust as u64;
    let (mut history, mut in_order) = (History::default(), true);
    let (mut poked, mut halted) = (false, false);
    for (i, call) in list.calls.iter().enumerate() {
        poked |= matches!(call, Call::Poke { .. } | Call::Damage { .. } | Call::Cut { .. });
        let passed = match call {
            Call::Consolidate => plain::passed_over(&before.image, &before.flags),
            _ => (0, 0),
        };
        let ours = leader.call(call);
        let after = leader.state();
        tally.calls += 1;
        match &ours {
            Answer::Refused(n) => tally.refusals[*n as usize] += 1,
            Answer::Points { points, .. } => tally.points += points.len() as u64,
            _ => {}
        }
        tally.figure(call, &ours);
        if ours == Answer::Refused(OLD_SAMPLE) && *call != Call::Consolidate {
            tally.old_sample(call, &before.image);
        }
        if passed.1 > 0 {
            let refused = matches!(ours, Answer::Refused(_));
            tally.passed[0] += passed.1;
            tally.passed[1] += 1;
            tally.passed[2] += (passed.0 == 0 && !refused) as u64;
            tally.passed[3] += refused as u64;
            tally.passed[4] += !poked as u64;
        }
        let was = std::mem::replace(&mut in_order, history.goes_on(call, &ours));
        // From creation, nobody else writing, no run refused: a run passes nothing over, whatever the
        // order of the samples.
        let passes = passed.1 > 0 && !poked && !halted;
        if passes || (in_order && (ours == Answer::Refused(OLD_SAMPLE) || passed.1 > 0)) {
            let what = "an old sample or write where there can be none".to_string();
            return differs(i + 1, leader.name(), what);
        }
        halted |= *call == Call::Consolidate && matches!(ours, Answer::Refused(_));
        if was && !in_order && with_rust {
            tally.left += 1;
            for (side, stand) in sides.iter().zip(&mut stands) {
                if side.kind() != Kind::Whole {
                    *stand = Stand::Gone;
                }
            }
        }
        tally.alone += (with_rust && !in_order) as u64;
        if let &Call::Open { handed: Some(number) } = call {
            before.flags = plain::flags_of(number);
        }
        if let Some(what) = frame(call, &ours, &before, &after) {
            return differs(i + 1, leader.name(), what);
        }
        let opened = matches!(call, Call::Open { .. }) && ours == Answer::Done;
        let old = if opened { old_flags(&after) } else { Vec::new() };
        let parts = opened && old != after.flags;
        tally.not_opened += (!opened && matches!(call, Call::Open { .. })) as u64;
        if opened {
            let only = |a: &[bool], b: &[bool]| a.iter().zip(b).any(|(&a, &b)| a && !b) as u64;
            tally.opened += 1;
            tally.parted += parts as u64;
            tally.lent_only += (whole && !parts) as u64;
            tally.only_new += only(&after.flags, &old);
            tally.only_old += only(&old, &after.flags);
        }
        let (mut beside, mut seen_old, mut returned, mut held) = (false, false, false, false);
        for (side, stand) in sides.iter_mut().zip(&mut stands) {
            let rust = side.kind() != Kind::Whole;
            if *stand == Stand::Away && opened && !parts {
                side.hand(&after.slabs, &after.marks);
                *stand = Stand::Beside;
                returned = true;
            }
            if *stand != Stand::Beside {
                continue;
            }
            if parts && rust {
                // The Rust cannot follow from here; but it opens as document 01 says.
                let theirs = side.call(call);
                let as_old = State { flags: old.clone(), lent: None, ..after.clone() };
                let what = if theirs != ours {
                    Some(format!("{} and {}", words(&ours), words(&theirs)))
                } else {
                    unlike(&as_old, &side.state())
                };
                if let Some(what) = what {
                    return differs(i + 1, side.name(), format!("by document 01's rule: {what}"));
                }
                tally.count(side.kind());
                seen_old = true;
                *stand = Stand::Away;
                continue;
            }
            let theirs = match asked(side.kind(), call, &ours) {
                Asked::Yes => side.call(call),
                Asked::This(other) => side.call(&other),
                Asked::Pass => {
                    tally.not_asked += 1;
                    continue;
                }
                Asked::Stop => {
                    tally.not_asked += 1;
                    *stand = Stand::Gone;
                    continue;
                }
            };
            tally.count(side.kind());
            let what = if ours != theirs {
                Some(format!("{} and {}", words(&ours), words(&theirs)))
            } else {
                unlike(&after, &side.state())
            };
            if let Some(what) = what {
                if side.name() == "published" && matches!(ours, Answer::Count(2..)) {
                    tally.by_hash_order += 1;
                    *stand = Stand::Gone;
                    continue;
                }
                return differs(i + 1, side.name(), what);
            }
            beside |= opened && rust;
            held |= rust;
        }
        let figure = matches!(call, Call::Panel { .. } | Call::Service { .. });
        tally.figures_beside += (figure && held) as u64;
        tally.in_order += (held || seen_old) as u64;
        tally.beside += beside as u64;
        tally.seen_old += seen_old as u64;
        tally.returned += returned as u64;
        before.take(&after);
    }
    None
}

/// Lists a little smaller than this one.
fn smaller(list: &List) -> Vec<List> {
    let mut found = Vec::new();
    let with = |f: &dyn Fn(&mut List)| {
        let mut l = list.clone();
        f(&mut l);
        l
    };
    let mut size = list.calls.len();
    while size > 0 {
        for at in (0..list.calls.len()).step_by(size) {
            found.push(with(&|l| {
                l.calls.drain(at..(at + size).min(l.calls.len()));
            }));
        }
        size /= 2;
    }
    let schemas = &list.plan.0;
    if list.raw.is_some() {
        return found;
    }
    if schemas.len() > 1 {
        found.push(with(&|l| {
            l.plan.0.pop();
        }));
    }
    for s in 0..schemas.len() {
        if schemas[s].tiers.len() > 1 {
            found.push(with(&|l| {
                l.plan.0[s].tiers.pop();
            }));
        }
        if schemas[s].series > 2 {
            found.push(with(&|l| l.plan.0[s].series = 2));
        }
        for (t, &Tier { interval, retention, .. }) in schemas[s].tiers.iter().enumerate() {
            if interval > 0 && retention / interval > 1 {
                found.push(with(&|l| l.plan.0[s].tiers[t].retention = retention - interval));
            }
            if interval > 0 && retention % interval != 0 {
                found.push(with(&|l| l.plan.0[s].tiers[t].retention -= retention % interval));
            }
        }
    }
    let one = 1f64.to_bits();
    for (i, call) in list.calls.iter().enumerate() {
        match call {
            Call::Record { value, stamp, .. } => {
                if *value != one {
                    found.push(with(&|l| {
                        if let Call::Record { value, .. } = &mut l.calls[i] {
                            *value = one;
                        }
                    }));
                }
                for less in [1, stamp / 2, stamp.saturating_sub(1)] {
                    if less < *stamp && less > 0 {
                        found.push(with(&|l| {
                            if let Call::Record { stamp, .. } = &mut l.calls[i] {
                                *stamp = less;
                            }
                        }));
                    }
                }
            }
            Call::Open { handed: Some(_) } => found.push(with(&|l| l.calls[i] = OPEN)),
            Call::Batch { entries, .. } => {
                for e in 0..entries.len() {
                    found.push(with(&|l| {
                        if let Call::Batch { entries, .. } = &mut l.calls[i] {
                            entries.remove(e);
                        }
                    }));
                }
            }
            _ => {}
        }
    }
    // A call may name a row or a cell that is no longer there.
    found.retain(|l| l != list && l.calls.iter().all(|c| in_place(&l.plan, c)));
    found
}

fn in_place(plan: &Plan, call: &Call) -> bool {
    use crate::calls::Cell;
    let Call::Poke { row, cell } = call else {
        return true;
    };
    let Some(&(s, t)) = plan.places().get(*row) else {
        return false;
    };
    let (m, tier) = (plan.0[s].series as u64, plan.0[s].tiers[t]);
    let n = tier.retention / tier.interval;
    match *cell {
        Cell::Stamp { slot, .. } => slot < n,
        Cell::Value { column, slot, .. } => slot < n && column < m,
        Cell::Cursor(x) => (x as u64) < n,
        Cell::Loose { at, .. } => (at as u64) < 64 + 4 * m,
        Cell::Mark(_) => t + 1 < plan.0[s].tiers.len(),
    }
}

/// The smallest list that was found to show a difference, with that difference.
pub fn shrink(list: &List, sides: &mut [Box<dyn Side>], found: Difference) -> (List, Difference) {
    let (mut list, mut found) = (list.clone(), found);
    list.calls.truncate(found.at);
    let mut tries = 4_000;
    'again: loop {
        for candidate in smaller(&list) {
            tries -= 1;
            if tries == 0 {
                return (list, found);
            }
            if let Some(d) = run(&candidate, sides, &mut Tally::default()) {
                (list, found) = (candidate, d);
                list.calls.truncate(found.at);
                continue 'again;
            }
        }
        return (list, found);
    }
}

pub fn show(list: &List, d: &Difference) {
    println!("DIFFERENCE between document 01 and {}, call {}: {}", d.side, d.at, d.what);
    if let Some((plan, room)) = &list.raw {
        println!("  plan bytes {plan:02x?}, room {room}");
    }
    for (s, schema) in list.plan.0.iter().enumerate() {
        println!("  schema {s}, {} series", schema.series);
        for t in &schema.tiers {
            println!(
                "    interval {}, retention {}, function {}",
                t.interval, t.retention, t.function
            );
        }
    }
    for (i, call) in list.calls.iter().enumerate() {
        println!("  {}: {call:x?}", i + 1);
    }
}

#[cfg(test)]
#[path = "compare_cases.rs"]
mod cases;
