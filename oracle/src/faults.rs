//! Libraries with one fault each, set beside the plain reading as a third side would be:
//! the driver must tell them apart. The faults are those that document 01 wants caught,
//! its traps, other starts of a reading than that of request 2026-01, other flags at opening than
//! those of request 2026-02, other figures than those of request 2026-04, and other rules for old
//! samples than that of request 2026-05.

use crate::calls::{Answer, Side, entry_bytes};
use crate::compare::{List, Tally, run, shrink};
use crate::figures;
use crate::generate::{self, Random};
use crate::plain::{self, FRESH, Figure, Flags, Found, HEADER, ROW, Window};
use crate::sides::{Lent, Library, Plain};

#[derive(Clone, Copy, Debug, PartialEq)]
pub enum Fault {
    None_,
    RefusesEachPlan,
    RecordStoresNothing,
    InventedCount,
    OnlyTheFirstWindow,
    ReaderEndsAtOnce,
    AverageIsZero,
    NewestIsGreatest,
    ClearsOtherColumns,
    FlagFromHistory,
    WritesPastTheImage,
    ChangesFlagsPastR,
    RefusedBatchStores,
    MarkMovesOnRefusal,
    TailIsRead,
    DividesEachValue,
    // Where a reading starts with a nonzero mark.
    StartsAfterTheMark,
    StartsAtTheMark,
    StartsAfterTheMarksWindow,
    StartsAtTheOldest,
    // What flag opening sets.
    FlagOfDocument01,
    FlagNever,
    FlagAlways,
    FlagByTheNextSlot,
    FlagByTheCursorsSlot,
    FlagButForTheLastSlot,
    FlagByFourOfEight,
    FlagsPastROpened,
    RefusedOpeningSets,
    // Which point the figures are of, and which ends service tools get.
    FigureOfTheGreatestStamp,
    FigureOfTheNewestAlone,
    FigureUpToTheTop,
    FigureUpToSlot0,
    FigureRoundAnyRing,
    EndsOfTheColumn,
    // What the panel shows, and what is refused.
    PanelCuts,
    PanelAddsHalfAndCuts,
    PanelRoundsTiesAway,
    PanelIsASingle,
    PanelShowsZeroForNone,
    PanelRefusesNone,
    PanelRefusesTheLimit,
    PanelShowsOneBeyond,
    PanelShowsTheInfinite,
    ServiceRefusesBeyond,
    FiguresTryTheTierFirst,
    // Which sample is old, in recordings and runs.
    OldIsTaken,
    EqualIsOld,
    OldByTheNewest,
    OldByTheInterval,
    // In recordings: which column's, which refusal comes first, which rings are asked, what stays.
    OldByTheColumn,
    OldBefore12,
    OldBefore13,
    BatchOldBefore12,
    BatchOldBefore13,
    BatchStoresUpToTheOld,
    BatchStoresAllButTheOld,
    BatchAsksTheFirstRing,
    BatchAsksAllRings,
    OldMovesTheFlag,
    OldMovesTheCursor,
    // In runs.
    RunEndsWith18,
    RunWritesTheOld,
    PassedOverBefore12,
    PassedOverBefore13,
    PassedOverMovesTheFlag,
    PassedOverMovesTheCursor,
    PassedOverStoresTheValue,
    PassedOverIsCounted,
    PassedOverMovesTheMark,
    NothingAfterAPassedOver,
}
use Fault::*;

#[derive(Clone, Copy)]
pub struct Faulty(pub Fault);

impl Fault {
    fn start(self) -> plain::Start {
        match self {
            StartsAfterTheMark => |source, dest, oldest| match source.mark {
                0 => plain::start_of(source, dest, oldest),
                mark => mark + source.interval,
            },
            StartsAtTheMark => |source, dest, oldest| match source.mark {
                0 => plain::start_of(source, dest, oldest),
                mark => mark,
            },
            StartsAfterTheMarksWindow => |source, dest, oldest| match source.mark {
                0 => plain::start_of(source, dest, oldest),
                _ => plain::start_of(source, dest, oldest) + dest.interval,
            },
            StartsAtTheOldest => |_, _, oldest| oldest.unwrap_or(0),
            _ => plain::start_of,
        }
    }

    fn flag(self) -> plain::WrapFlag {
        // Cursor and slots, and a slot's stamp.
        fn ends(slab: &[u8]) -> (usize, usize) {
            (plain::get32(slab, 32) as usize, plain::get32(slab, 16) as usize)
        }
        fn stamped(slab: &[u8], slot: usize) -> bool {
            plain::get64(slab, 64 + 4 * plain::get32(slab, 20) as usize + 8 * slot) != 0
        }
        match self {
            FlagOfDocument01 => plain::old_wrap_flag,
            FlagNever => |_| false,
            FlagAlways => |_| true,
            FlagByTheNextSlot => |slab| {
                let (cursor, n) = ends(slab);
                cursor + 1 < n && stamped(slab, cursor + 1)
            },
            FlagByTheCursorsSlot => |slab| {
                let (cursor, n) = ends(slab);
                (cursor..n).any(|slot| stamped(slab, slot))
            },
            FlagButForTheLastSlot => |slab| {
                let (cursor, n) = ends(slab);
                (cursor + 1..n - 1).any(|slot| stamped(slab, slot))
            },
            FlagByFourOfEight => |slab| {
                let (cursor, n) = ends(slab);
                let left_out = |slot: usize| {
                    let (i, eights) = (slot - cursor - 1, (n - cursor - 1) / 8 * 8);
                    i < eights && i % 8 >= 4
                };
                (cursor + 1..n).any(|slot| !left_out(slot) && stamped(slab, slot))
            },
            _ => plain::wrap_flag,
        }
    }

    /// What the panel shows of a value.
    fn whole(self, x: f64) -> Option<i64> {
        let limit = (1u64 << 53) as f64;
        let on_panel = x.abs() <= limit;
        match self {
            PanelCuts => on_panel.then_some(x as i64),
            PanelAddsHalfAndCuts => on_panel.then_some((x + 0.5).floor() as i64),
            PanelRoundsTiesAway => on_panel.then_some(x.round() as i64),
            PanelIsASingle => on_panel.then_some((x as f32).round_ties_even() as i64),
            PanelRefusesTheLimit if x.abs() == limit => None,
            PanelShowsOneBeyond if x.abs() == limit.next_up() => Some(x as i64),
            PanelShowsTheInfinite if x.is_infinite() => Some(x as i64),
            _ => plain::whole(x),
        }
    }

    fn old(self) -> plain::Old {
        match self {
            OldIsTaken => |_, _| false,
            EqualIsOld => |slab, at| at <= plain::stamp(slab, plain::slot_of(slab, at)),
            OldByTheNewest => |slab, at| plain::newest(slab).is_some_and(|newest| at < newest),
            OldByTheInterval => |slab, at| {
                let number = |stamp: u64| stamp / plain::get64(slab, 24);
                number(at) < number(plain::stamp(slab, plain::slot_of(slab, at)))
            },
            _ => plain::is_old,
        }
    }

    /// A run's write.
    fn put(self, slab: &mut [u8], flag: &mut bool, found: Found) -> Result<bool, u32> {
        let (window, column, value) = found;
        let old = self.old()(slab, window);
        let (bad_value, bad_stamp) = (plain::value_check(value), plain::stamp_check(window));
        if !(old && self == PassedOverBefore12) {
            bad_value?;
        }
        if !(old && matches!(self, PassedOverBefore12 | PassedOverBefore13)) {
            bad_stamp?;
        }
        if !old || self == RunWritesTheOld {
            plain::write(slab, flag, window, &[(column, value)]);
            return Ok(true);
        }
        let slot = plain::slot_of(slab, window);
        match self {
            RunEndsWith18 => return Err(plain::OLD_SAMPLE),
            PassedOverMovesTheFlag => *flag |= slot < plain::cursor(slab),
            PassedOverMovesTheCursor => plain::put32(slab, 32, slot as u32),
            PassedOverStoresTheValue => {
                let at = plain::value_at(slab, column as usize, slot);
                plain::put64(slab, at, value);
            }
            _ => {}
        }
        Ok(self == PassedOverIsCounted)
    }

    /// What a recording answers by 18 in another place, or of other rings.
    fn misplaced(self, image: &[u8], entries: &[(u32, u32, u64)], stamp: u64, by: u32) -> u32 {
        let first = |schema: u32| rows(image).into_iter().find(|r| r.schema == schema);
        let old =
            |schema: u32| first(schema).is_some_and(|row| self.old()(&image[row.place()], stamp));
        let any = entries.iter().any(|e| old(e.0));
        let fresh = |e: &(u32, u32, u64)| {
            first(e.0).is_some_and(|row| {
                let slab = &image[row.place()];
                let slot = plain::slot_of(slab, stamp);
                plain::nan(plain::get64(slab, plain::value_at(slab, e.1 as usize, slot)))
            })
        };
        match (self, by) {
            (OldBefore12 | BatchOldBefore12, 12) | (OldBefore13 | BatchOldBefore13, 13) if any => {
                18
            }
            (OldByTheColumn, 18) if entries.iter().all(fresh) => 0,
            (BatchAsksTheFirstRing, 18) if !old(entries[0].0) => 0,
            (BatchAsksAllRings, 0) if !entries.is_empty() && (0..8).any(old) => 18,
            _ => by,
        }
    }

    fn apply(self) -> plain::Apply {
        match self {
            DividesEachValue => |function, values| match plain::apply(function, values) {
                Window::Number(_) if function == 1 => {
                    let finite =
                        values.iter().map(|&v| f64::from_bits(v)).filter(|v| v.is_finite());
                    let count = finite.clone().count() as f64;
                    Window::Number(finite.fold(-0.0, |sum, v| sum + v / count))
                }
                other => other,
            },
            _ => plain::apply,
        }
    }
}

impl Fault {
    /// What a refused old sample leaves behind in its ring.
    fn moves(self, image: &mut [u8], flags: &mut Flags, schema: u32, stamp: u64) {
        let rows = rows(image);
        let Some(i) = rows.iter().position(|r| r.schema == schema) else {
            return;
        };
        let slab = &mut image[rows[i].place()];
        let slot = plain::slot_of(slab, stamp);
        match self {
            OldMovesTheFlag => flags[i] |= slot < plain::cursor(slab),
            OldMovesTheCursor => plain::put32(slab, 32, slot as u32),
            _ => {}
        }
    }
}

/// A sound image's rows.
fn rows(image: &[u8]) -> Vec<plain::Row> {
    plain::check(image).map_or(Vec::new(), |c| c.rows)
}

/// The last point by this flag, whatever the ring's own.
fn last_with(image: &[u8], flag: bool, handle: (u32, u32), tier: u32) -> Option<(u64, u64)> {
    match Plain.service(image, &[flag; 32], handle, tier) {
        Answer::Served(Some(figure)) => Some((figure.stamp, figure.value)),
        _ => None,
    }
}

/// What stands in the cursor's slot, unless it is a NaN.
fn at_the_cursor(image: &[u8], handle: (u32, u32), tier: u32) -> Option<(u64, u64)> {
    let own = |r: &plain::Row| r.schema == handle.0 && r.tier == tier;
    let row = rows(image).into_iter().find(own)?;
    let slab = &image[row.offset as usize..];
    let (n, m) = (row.slots() as usize, row.series as usize);
    let (column, cursor) = (handle.1 as usize, plain::get32(slab, 32) as usize);
    let stamps = 64 + 4 * m;
    let value = plain::get64(slab, stamps + 8 * n + 8 * n * column + 8 * cursor);
    (!plain::nan(value)).then(|| (plain::get64(slab, stamps + 8 * cursor), value))
}

impl Library for Faulty {
    fn create(&self, plan: &[u8], image: &mut [u8], flags: &mut Flags) -> u32 {
        if self.0 == RefusesEachPlan { 4 } else { Plain.create(plan, image, flags) }
    }

    fn open(&self, image: &[u8], flags: &mut Flags) -> u32 {
        let history = *flags;
        let number = plain::open_by(image, flags, self.0.flag()).err().unwrap_or(0);
        if self.0 == FlagFromHistory {
            *flags = history;
        }
        if (self.0 == FlagsPastROpened && number == 0)
            || (self.0 == RefusedOpeningSets && number != 0)
        {
            flags[31] = false;
        }
        number
    }

    fn record(&self, image: &mut [u8], flags: &mut Flags, sample: (u32, u32, u64, u64)) -> u32 {
        if self.0 == RecordStoresNothing {
            return Plain.record(&mut image.to_vec(), &mut flags.clone(), sample);
        }
        let (schema, column, value, stamp) = sample;
        let mut stored = (image.to_vec(), *flags);
        let by = plain::record_by(&mut stored.0, &mut stored.1, sample, self.0.old());
        let by = by.err().unwrap_or(0);
        let batch = matches!(self.0, BatchOldBefore12 | BatchOldBefore13 | BatchAsksAllRings);
        let number = match batch {
            true => by,
            false => self.0.misplaced(image, &[(schema, column, value)], stamp, by),
        };
        if number == 0 && by == 18 {
            let taken = plain::record_by(image, flags, sample, OldIsTaken.old());
            return taken.err().unwrap_or(0);
        }
        if number == 0 {
            image.copy_from_slice(&stored.0);
            *flags = stored.1;
        }
        if number == 18 {
            self.0.moves(image, flags, schema, stamp);
        }
        if number == 0 && self.0 == ClearsOtherColumns {
            let row = rows(image).into_iter().find(|r| r.schema == sample.0).unwrap();
            let (n, m) = (row.slots() as usize, row.series as usize);
            let slot = (sample.3 / row.interval) as usize % n;
            for c in (0..m).filter(|&c| c != sample.1 as usize) {
                plain::put64(
                    image,
                    row.offset as usize + 64 + 4 * m + 8 * n + 8 * n * c + 8 * slot,
                    FRESH,
                );
            }
        }
        if number == 0 && self.0 == WritesPastTheImage {
            *image.last_mut().unwrap() = 1;
        }
        number
    }

    fn record_batch(&self, image: &mut [u8], flags: &mut Flags, entries: &[u8], stamp: u64) -> u32 {
        let mut entries = entries.to_vec();
        if self.0 == TailIsRead && entries.len() % 16 == 15 {
            entries.push(0);
        }
        let (list, before) = (plain::entries_of(&entries), (image.to_vec(), *flags));
        let by = plain::record_batch_by(image, flags, &entries, stamp, self.0.old());
        let by = by.err().unwrap_or(0);
        let single = matches!(self.0, OldBefore12 | OldBefore13);
        let number = match single {
            true => by,
            false => self.0.misplaced(&before.0, &list, stamp, by),
        };
        if number == 0 && by == 18 {
            let taken = plain::record_batch_by(image, flags, &entries, stamp, OldIsTaken.old());
            return taken.err().unwrap_or(0);
        }
        if number == 18 && by == 0 {
            image.copy_from_slice(&before.0);
            *flags = before.1;
        }
        if number == 12 && self.0 == RefusedBatchStores {
            Plain.record_batch(image, flags, &entries[..16], stamp);
        }
        if number == 18 {
            for schema in 0..8 {
                let own: Vec<_> = list.iter().filter(|e| e.0 == schema).copied().collect();
                if own.is_empty()
                    || !matches!(self.0, BatchStoresUpToTheOld | BatchStoresAllButTheOld)
                {
                    continue;
                }
                let done = Plain.record_batch(image, flags, &entry_bytes(&own, 0), stamp);
                if done != 0 && self.0 == BatchStoresUpToTheOld {
                    break;
                }
            }
            self.0.moves(image, flags, list[0].0, stamp);
        }
        number
    }

    fn query(
        &self,
        image: &[u8],
        flags: &Flags,
        handle: (u32, u32),
        tier: Option<u32>,
        range: (u64, u64),
    ) -> Answer {
        let mut answer = Plain.query(image, flags, handle, tier, range);
        if let Answer::Points { tier, newest, points, .. } = &mut answer {
            if self.0 == ReaderEndsAtOnce {
                points.clear();
            }
            if self.0 == NewestIsGreatest && newest.is_some() {
                let own = |r: &plain::Row| r.schema == handle.0 && r.tier == *tier;
                let row = rows(image).into_iter().find(own).unwrap();
                let at = row.offset as usize + 64 + 4 * row.series as usize;
                *newest = (0..row.slots() as usize).map(|k| plain::get64(image, at + 8 * k)).max();
            }
        }
        answer
    }

    fn panel(&self, image: &[u8], flags: &Flags, handle: (u32, u32), tier: u32) -> Answer {
        let shown = match self.service(image, flags, handle, tier) {
            Answer::Served(Some(figure)) => self.0.whole(f64::from_bits(figure.value)).map(Some),
            Answer::Served(None) if self.0 == PanelShowsZeroForNone => Some(Some(0)),
            Answer::Served(None) if self.0 == PanelRefusesNone => None,
            Answer::Served(None) => Some(None),
            refused => return refused,
        };
        shown.map_or(Answer::Refused(plain::OFF_PANEL), Answer::Shown)
    }

    fn service(&self, image: &[u8], flags: &Flags, handle: (u32, u32), tier: u32) -> Answer {
        let answer = Plain.service(image, flags, handle, tier);
        let all = Plain.query(image, flags, handle, Some(tier), (0, u64::MAX));
        let Answer::Points { oldest: Some(oldest), newest: Some(newest), points, .. } = all else {
            let own = |r: &plain::Row| r.schema == handle.0 && r.tier == tier;
            let no_tier = answer == Answer::Refused(11) && !rows(image).iter().any(own);
            let first = self.0 == FiguresTryTheTierFirst && no_tier;
            return if first { Answer::Refused(14) } else { answer };
        };
        let last = points.last().copied();
        let beyond = |p: (u64, u64)| plain::whole(f64::from_bits(p.1)).is_none();
        let point = match self.0 {
            FigureOfTheGreatestStamp => points.iter().copied().max_by_key(|p| p.0),
            FigureOfTheNewestAlone => last.filter(|p| p.0 == newest),
            FigureUpToTheTop => at_the_cursor(image, handle, tier).or(last),
            FigureUpToSlot0 => last_with(image, false, handle, tier),
            FigureRoundAnyRing => last_with(image, true, handle, tier),
            ServiceRefusesBeyond if last.is_some_and(beyond) => {
                return Answer::Refused(plain::OFF_PANEL);
            }
            _ => last,
        };
        let (oldest, newest) = match (self.0, points.first(), last) {
            (EndsOfTheColumn, Some(first), Some(last)) => (first.0, last.0),
            _ => (oldest, newest),
        };
        Answer::Served(point.map(|(stamp, value)| Figure { stamp, value, oldest, newest }))
    }

    fn next(&self, slab: &[u8], column: u32, range: (u64, u64), place: (u64, u64)) -> Answer {
        Plain.next(slab, column, range, place)
    }

    fn consolidate(&self, image: &mut [u8], flags: &mut Flags) -> Answer {
        let before = image.to_vec();
        let (mut passed, mut uncounted) = (false, 0);
        let mut put = |slab: &mut [u8], flag: &mut bool, found: Found| {
            if passed && self.0 == NothingAfterAPassedOver {
                return Ok(false);
            }
            let done = self.0.put(slab, flag, found)?;
            passed |= !done;
            if !done && self.0 == PassedOverMovesTheMark {
                uncounted += 1;
                return Ok(true);
            }
            Ok(done)
        };
        let by = (self.0.start(), self.0.apply());
        let answer = plain::consolidate_by(image, flags, by, &mut put)
            .map_or_else(Answer::Refused, |n| Answer::Count(n - uncounted));
        for (i, row) in rows(image).into_iter().enumerate() {
            let (n, m) = (row.slots() as usize, row.series as usize);
            let stamps = row.offset as usize + 64 + 4 * m;
            let cells = |slot: usize| (0..=m).map(move |c| stamps + 8 * n * c + 8 * slot);
            let new = |image: &[u8], slot: usize| {
                cells(slot).any(|at| plain::get64(image, at) != plain::get64(&before, at))
            };
            let written: Vec<usize> = (0..n).filter(|&slot| new(image, slot)).collect();
            if self.0 == OnlyTheFirstWindow {
                let first =
                    written.iter().copied().min_by_key(|&k| plain::get64(image, stamps + 8 * k));
                for &slot in written.iter().filter(|&&k| Some(k) != first) {
                    for at in cells(slot) {
                        plain::put64(image, at, plain::get64(&before, at));
                    }
                }
            }
            if self.0 == AverageIsZero && row.function == 1 {
                for &slot in &written {
                    cells(slot).skip(1).for_each(|at| {
                        if plain::get64(image, at) != plain::get64(&before, at) {
                            plain::put64(image, at, 0);
                        }
                    });
                }
            }
            if self.0 == MarkMovesOnRefusal
                && matches!(answer, Answer::Refused(12..=13))
                && row.tier == 0
            {
                plain::put64(image, HEADER + ROW * i + 48, 1);
            }
        }
        if self.0 == ChangesFlagsPastR {
            flags[31] = !flags[31];
        }
        match answer {
            Answer::Count(n @ 1..) if self.0 == InventedCount => Answer::Count(n + 1),
            other => other,
        }
    }
}

/// The number of calls in the smallest list that shows the fault.
fn caught(fault: Fault) -> Option<usize> {
    caught_by(fault, |i| {
        let r = &mut Random(i / 2);
        if i % 2 == 0 { generate::list(r, 60, true) } else { generate::damaged(r) }
    })
}

fn caught_by(fault: Fault, make: impl Fn(u64) -> List) -> Option<usize> {
    let mut sides: Vec<Box<dyn Side>> = vec![Box::new(Lent::new("faulty", Faulty(fault)))];
    for i in 0..600 {
        let list = make(i);
        if let Some(d) = run(&list, &mut sides, &mut Tally::default()) {
            return Some(shrink(&list, &mut sides, d).0.calls.len());
        }
    }
    None
}

#[test]
fn each_fault_is_caught_and_no_other() {
    assert_eq!(caught(None_), None);
    for (fault, most) in [
        (RefusesEachPlan, 0),
        (RecordStoresNothing, 1),
        (InventedCount, 2),
        (OnlyTheFirstWindow, 3),
        (ReaderEndsAtOnce, 2),
        (AverageIsZero, 2),
        (NewestIsGreatest, 3),
        (ClearsOtherColumns, 2),
        (FlagFromHistory, 1),
        (WritesPastTheImage, 1),
        (ChangesFlagsPastR, 1),
        (RefusedBatchStores, 1),
        (MarkMovesOnRefusal, 2),
        (TailIsRead, 1),
        (DividesEachValue, 6),
        (StartsAfterTheMark, 3),
        (StartsAtTheMark, 4),
        (StartsAfterTheMarksWindow, 3),
        (StartsAtTheOldest, 5),
        (FlagOfDocument01, 3),
        (FlagNever, 3),
        (FlagAlways, 1),
        (FlagByTheNextSlot, 3),
        (FlagByTheCursorsSlot, 2),
        (FlagButForTheLastSlot, 3),
        (FlagByFourOfEight, 3),
        (FlagsPastROpened, 1),
        (RefusedOpeningSets, 2),
    ] {
        let calls = caught(fault).unwrap_or_else(|| panic!("{fault:?} was not caught"));
        println!("{fault:?}: {calls} calls");
        assert!(calls <= most, "{fault:?}: {calls} calls");
    }
}

/// The lists of the part `old samples` tell these apart, and those of the part `in order` take no sound
/// library for a faulty one.
#[test]
fn each_fault_with_old_samples_is_caught() {
    let old = |i| generate::old_samples(&mut Random(i), 80);
    let order = |i| generate::in_order(&mut Random(i), 80);
    assert_eq!((caught_by(None_, old), caught_by(None_, order)), (None, None));
    for (fault, most) in [
        (OldIsTaken, 2),
        (EqualIsOld, 2),
        (OldByTheNewest, 2),
        (OldByTheInterval, 2),
        (OldByTheColumn, 2),
        (OldBefore12, 2),
        (OldBefore13, 2),
        (BatchOldBefore12, 2),
        (BatchOldBefore13, 2),
        (BatchStoresUpToTheOld, 2),
        (BatchStoresAllButTheOld, 2),
        (BatchAsksTheFirstRing, 2),
        (BatchAsksAllRings, 2),
        (OldMovesTheFlag, 3),
        (OldMovesTheCursor, 3),
        (RunEndsWith18, 7),
        (RunWritesTheOld, 7),
        (PassedOverBefore12, 7),
        (PassedOverBefore13, 7),
        (PassedOverMovesTheFlag, 7),
        (PassedOverMovesTheCursor, 7),
        (PassedOverStoresTheValue, 7),
        (PassedOverIsCounted, 7),
        (PassedOverMovesTheMark, 7),
        (NothingAfterAPassedOver, 7),
    ] {
        let calls = caught_by(fault, old).unwrap_or_else(|| panic!("{fault:?} was not caught"));
        println!("{fault:?}: {calls} calls");
        assert!(calls <= most, "{fault:?}: {calls} calls");
    }
}

/// The lists of the part `figures` tell these apart; those of the part `random`, with figures among
/// their calls, take no sound library for a faulty one.
#[test]
fn each_faulty_figure_is_caught() {
    let figures = |i| figures::list(&mut Random(i));
    let random = |i| figures::among(&mut Random(i), &|r| generate::list(r, 60, true));
    assert_eq!((caught_by(None_, figures), caught_by(None_, random)), (None, None));
    for (fault, most) in [
        (FigureOfTheGreatestStamp, 4),
        (FigureOfTheNewestAlone, 4),
        (FigureUpToTheTop, 4),
        (FigureUpToSlot0, 3),
        (FigureRoundAnyRing, 5),
        (EndsOfTheColumn, 4),
        (PanelCuts, 3),
        (PanelAddsHalfAndCuts, 3),
        (PanelRoundsTiesAway, 3),
        (PanelIsASingle, 3),
        (PanelShowsZeroForNone, 1),
        (PanelRefusesNone, 1),
        (PanelRefusesTheLimit, 3),
        (PanelShowsOneBeyond, 3),
        (PanelShowsTheInfinite, 3),
        (ServiceRefusesBeyond, 3),
        (FiguresTryTheTierFirst, 1),
    ] {
        let calls = caught_by(fault, figures).unwrap_or_else(|| panic!("{fault:?} was not caught"));
        println!("{fault:?}: {calls} calls");
        assert!(calls <= most, "{fault:?}: {calls} calls");
    }
}
