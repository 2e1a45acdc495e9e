//! The commands that write an image: create, record, consolidate; what import shares with them.

use std::path::Path;

use rondo::{Plan, Refusal, SeriesHandle, Store, View};

use crate::failure::{Done, Failure, refusal};
use crate::input::{self, Sample};
use crate::table::Row;
use crate::{file, locate, planning, refused_run, supposition, table, time, value};

pub fn create(name: &Path, words: &[String]) -> Done<String> {
    let plan = planning::read(words)?;
    file::absent(name)?;
    let bytes = fresh(name, &plan)?;
    file::create(name, &bytes)?;
    let mut report = format!("created, bytes: {}\n", bytes.len());
    add_notes(&mut report, &supposition::of_plan(&bytes));
    Ok(report)
}

/// A plan's fresh image.
pub fn fresh(name: &Path, plan: &Plan) -> Done<Vec<u8>> {
    let refused = |r: Refusal| refusal(r, &locate::plan(plan.as_bytes(), r));
    let size = plan.image_size().map_err(refused)?;
    let mut bytes = file::room(name, size)?;
    bytes.resize(size as usize, 0);
    Store::create(plan, &mut bytes).map_err(refused)?;
    Ok(bytes)
}

/// Adds what is not covered to a report.
pub fn add_notes(report: &mut String, notes: &[String]) {
    if notes.is_empty() {
        return;
    }
    report.push_str("the promise on coarser tiers (the third demand) does not cover this, because of:\n");
    notes.iter().for_each(|note| report.push_str(&format!("  {note}\n")));
}

/// Opens an image's bytes for reading, or says where they are damaged.
pub fn view<'a>(name: &Path, bytes: &'a [u8]) -> Done<View<'a>> {
    View::open(bytes).map_err(|r| refusal(r, &locate::image(bytes, r)).after(name.display()))
}

/// The same for writing.
pub fn open<'a>(name: &Path, bytes: &'a mut [u8]) -> Done<Store<'a>> {
    let flags = view(name, bytes)?.flags();
    Ok(Store::resume(bytes, flags))
}

pub fn record(name: &Path, words: &[&str], skip_old: bool, wait: u64) -> Done<String> {
    file::regular(name)?;
    let samples = samples(words)?;
    let mut locked = file::lock(name, wait)?;
    let mut bytes = locked.read()?;
    let mut store = open(name, &mut bytes)?;
    let mut old = Old::new(skip_old);
    for sample in &samples {
        store_sample(name, &mut store, sample, &mut old)?;
    }
    locked.replace(&bytes)?;
    let mut report = format!("recorded, samples: {}\n", samples.len() - old.count);
    old.add_to(&mut report);
    Ok(report)
}

fn samples(words: &[&str]) -> Done<Vec<Sample>> {
    let now = time::now();
    if words.is_empty() {
        return input::standard(now);
    }
    Ok(vec![input::sample(words, now).map_err(Failure::usage)?])
}

/// Samples that are older than what their slot holds: refused, or left out and counted.
pub struct Old {
    pub skipped: bool,
    pub count: usize,
    first: String,
}

impl Old {
    pub fn new(skipped: bool) -> Self {
        Old { skipped, count: 0, first: String::new() }
    }

    fn leave_out(&mut self, sample: &Sample, held: u64) {
        self.count += 1;
        if self.count == 1 {
            self.first = format!("{}, whose slot holds {}", sample.place(), time::date(held));
        }
    }

    /// Adds what was left out to a report.
    pub fn add_to(&self, report: &mut String) {
        if self.count > 0 {
            report.push_str(&format!(
                "left out, older than what their slot holds: {}, the first at {}\n",
                self.count, self.first
            ));
        }
    }
}

/// The stamp that a sample's slot holds, where that is later than the sample's.
pub fn held(image: &[u8], rows: &[Row], sample: &Sample) -> Option<u64> {
    let finest = rows.iter().find(|row| row.schema == sample.schema)?;
    Some(finest.stamp(image, finest.slot_of(sample.stamp))).filter(|held| *held > sample.stamp)
}

/// Records a sample, or leaves it out where it is old and that was asked for, or says why it is refused. Answers whether it is
/// recorded.
pub fn store_sample(name: &Path, store: &mut Store, sample: &Sample, old: &mut Old) -> Done<bool> {
    let handle = SeriesHandle::new(sample.schema, sample.column);
    let later = |store: &Store| held(store.image(), &table::rows(store.image()), sample).unwrap_or(0);
    let answer = store.record(handle, sample.value, sample.stamp);
    if old.skipped && answer == Err(Refusal::OldSample) {
        old.leave_out(sample, later(store));
        return Ok(false);
    }
    answer.map(|()| true).map_err(|r| {
        let why = match r {
            Refusal::InvalidHandle => no_series(store.image(), handle),
            Refusal::InvalidValue => format!("the value is {}; record nan where there is none", value::text(sample.value)),
            Refusal::InvalidTimestamp => format!("the stamp is {}ns; stamps are above 0 and below 2^63 ns", sample.stamp),
            Refusal::OldSample => superseded(sample, later(store)),
            other => locate::image(store.image(), other),
        };
        match sample.line {
            0 => refusal(r, &why).after(name.display()),
            line => refusal(r, &why).after(format!("line {line}")).and("nothing is stored"),
        }
    })
}

/// The stamp that a sample does not supersede, and what to do.
fn superseded(sample: &Sample, held: u64) -> String {
    let (this, that) = (time::date(sample.stamp), time::date(held));
    let advice = if sample.line == 0 { "" } else { "; --skip-old leaves such lines out" };
    format!("the sample at {this} is older than the one at {that} that its slot holds, and the later one stays{advice}")
}

/// Which series there are instead of one that is not there.
pub fn no_series(image: &[u8], handle: SeriesHandle) -> String {
    let rows = table::rows(image);
    let SeriesHandle { schema, column } = handle;
    match rows.iter().find(|row| row.schema == schema) {
        Some(row) => format!("schema {schema} has no column {column}; it has 0 to {}", row.series - 1),
        None => format!("there is no schema {schema}; there are 0 to {}", table::schemas(image).saturating_sub(1)),
    }
}

pub fn consolidate(name: &Path, wait: u64) -> Done<String> {
    let mut locked = file::lock(name, wait)?;
    let mut bytes = locked.read()?;
    let mut store = open(name, &mut bytes)?;
    let count = run(name, &mut store)?;
    locked.replace(&bytes)?;
    Ok(format!("consolidated, values written: {count}\n"))
}

/// Brings the coarser tiers up to date, or says why that is refused.
pub fn run(name: &Path, store: &mut Store) -> Done<u64> {
    let rows = table::rows(store.image());
    store
        .consolidate()
        .map_err(|r| refusal(r, &refused_run::place(&rows, store, r)).after(name.display()).and("the file is as it was"))
}
