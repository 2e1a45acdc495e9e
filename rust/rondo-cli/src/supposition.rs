//! What the third demand supposes of a plan and of samples, and where these do not meet it (docs/FORMAT.md, section 14).

use std::collections::BTreeMap;

use crate::input::Sample;
use crate::table::{self, Row};
use crate::time::{date, spoken};

/// Where a plan does not meet the supposition, a line each.
pub fn of_plan(head: &[u8]) -> Vec<String> {
    let rows = table::rows(head);
    let mut notes = Vec::new();
    if table::schemas(head) != 1 {
        notes.push(format!("the promise is about one schema, and there are {}", table::schemas(head)));
    }
    for schema in 0..table::schemas(head) {
        let tiers = table::tiers(&rows, schema);
        if !(2..=4).contains(&tiers.len()) {
            notes.push(format!("schema {schema}: the number of its tiers is {}, not 2 to 4", tiers.len()));
        }
        notes.extend(tiers.windows(2).flat_map(of_pair));
        let coarsest = tiers.last().map_or(0, |t| t.interval);
        notes.extend(tiers.iter().filter_map(|tier| of_ring(tier, coarsest)));
    }
    notes
}

fn of_pair(pair: &[Row]) -> Vec<String> {
    let (finer, row) = (&pair[0], &pair[1]);
    let place = format!("schema {}, tier {}", row.schema, row.tier);
    let (times, rest) = (row.interval / finer.interval, row.interval % finer.interval);
    let mut notes = Vec::new();
    if rest != 0 || !(2..=4096).contains(&times) {
        let (this, that) = (spoken(row.interval), spoken(finer.interval));
        notes.push(format!("{place}: its interval, {this}, is not a whole 2 to 4096 times the finer tier's, {that}"));
    }
    if row.function != 1 {
        notes.push(format!("{place}: its function is {}, not average", row.function_name()));
    }
    notes
}

fn of_ring(row: &Row, coarsest: u64) -> Option<String> {
    let span = u128::from(row.slots()) * u128::from(row.interval);
    let short = span < 2 * u128::from(coarsest);
    short.then(|| {
        let (place, two) = (format!("schema {}, tier {}", row.schema, row.tier), spoken(coarsest.saturating_mul(2)));
        format!("{place}: its ring spans {}, below two coarsest intervals, {two}", spoken(span as u64))
    })
}

/// Coarsest intervals that samples in the image have passed without a run: the mark says when the last one was.
pub fn of_runs(image: &[u8], newest: &[Option<u64>]) -> Vec<String> {
    let rows = table::rows(image);
    let mut notes = Vec::new();
    for (schema, newest) in (0..).zip(newest) {
        let tiers = table::tiers(&rows, schema);
        let (Some(newest), [finest, .., coarsest]) = (newest, &tiers[..]) else { continue };
        let (passed, run) = (newest / coarsest.interval, finest.mark / coarsest.interval);
        if finest.mark == 0 && finest.used(image) > 0 && passed > 0 || finest.mark != 0 && passed > run + 1 {
            let last = if finest.mark == 0 { "none".to_string() } else { date(finest.mark) };
            notes.push(format!("schema {schema}: coarsest intervals before this import had no run (last run: {last})"));
        }
    }
    notes
}

/// What was seen of one column.
struct Column {
    next: u64,
    missing: u64,
    first_missing: u64,
}

/// Counts of what does not meet the supposition, each with the first place.
#[derive(Default)]
struct Faults(BTreeMap<&'static str, (u64, String)>);

impl Faults {
    fn add(&mut self, what: &'static str, count: u64, place: impl FnOnce() -> String) {
        self.0.entry(what).or_insert_with(|| (0, place())).0 += count;
    }
}

/// Where samples, in time order, do not meet the supposition: one line for each kind of fault, with its count and first place.
pub fn of_samples(image: &[u8], newest: &[Option<u64>], samples: &[Sample]) -> Vec<String> {
    let rows = table::rows(image);
    let mut faults = Faults::default();
    for schema in 0..table::schemas(image) {
        let tiers = table::tiers(&rows, schema);
        let mine: Vec<&Sample> = samples.iter().filter(|s| s.schema == schema).collect();
        let (Some(finest), Some(coarsest), Some(first)) = (tiers.first(), tiers.last(), mine.first()) else { continue };
        let begin = start(&mut faults, first, newest[schema as usize], finest.interval, coarsest.interval);
        ticks(&mut faults, &mine, begin, finest.interval);
        mine.iter().for_each(|sample| whole(&mut faults, sample));
    }
    faults.0.into_iter().map(|(what, (count, place))| format!("{what}: {count}, the first at {place}")).collect()
}

/// The tick that the samples must begin with.
fn start(faults: &mut Faults, first: &Sample, newest: Option<u64>, finest: u64, coarsest: u64) -> u64 {
    match newest {
        Some(newest) if first.stamp < newest => {
            faults.add("stamps that fall below what the image held", 1, || first.place());
            first.stamp - first.stamp % finest
        }
        // a tick that the image began may go on in another column
        Some(newest) => {
            if first.stamp == newest {
                newest
            } else {
                newest.saturating_add(finest)
            }
        }
        None => {
            if !first.stamp.is_multiple_of(coarsest) {
                faults.add("first samples that are not at a multiple of the coarsest interval", 1, || first.place());
            }
            first.stamp - first.stamp % finest
        }
    }
}

/// Each column must have one sample at each tick, and none elsewhere.
fn ticks(faults: &mut Faults, samples: &[&Sample], begin: u64, interval: u64) {
    let mut columns: BTreeMap<u32, Column> = BTreeMap::new();
    for sample in samples {
        let tick = sample.stamp - sample.stamp % interval;
        if tick != sample.stamp {
            faults.add("samples between ticks", 1, || sample.place());
        }
        let fresh = Column { next: begin, missing: 0, first_missing: 0 };
        let column = columns.entry(sample.column).or_insert(fresh);
        if tick < column.next {
            faults.add("samples more than one a tick", 1, || sample.place());
            continue;
        }
        column.skip_to(tick, interval);
        column.next = tick.saturating_add(interval);
    }
    let last = columns.values().map(|c| c.next).max().unwrap_or(0);
    for (number, column) in &mut columns {
        column.skip_to(last, interval);
        if column.missing > 0 {
            let at = || format!("schema {}, column {number}, {}", samples[0].schema, date(column.first_missing));
            faults.add("missing ticks", column.missing, at);
        }
    }
}

impl Column {
    fn skip_to(&mut self, tick: u64, interval: u64) {
        let missed = tick.saturating_sub(self.next) / interval;
        if missed > 0 && self.missing == 0 {
            self.first_missing = self.next;
        }
        self.missing += missed;
    }
}

fn whole(faults: &mut Faults, sample: &Sample) {
    let limit = f64::from(1 << 30);
    if sample.value.fract() != 0.0 || sample.value.is_nan() {
        faults.add("values that are not whole numbers", 1, || sample.place());
    } else if sample.value.abs() > limit {
        faults.add("values beyond 2^30", 1, || sample.place());
    }
}
