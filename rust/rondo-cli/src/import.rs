//! import: samples in time order, with a run after each coarsest interval and at the end.

use std::borrow::Cow;
use std::fmt::Write;
use std::io::{self, IsTerminal};
use std::path::Path;

use rondo::{SeriesHandle, Store};

use crate::failure::Done;
use crate::input::{self, Sample};
use crate::writing::{Old, add_notes, held, open, run, store_sample};
use crate::{file, supposition, table, time};

pub fn import(name: &Path, skip_old: bool, wait: u64) -> Done<String> {
    file::regular(name)?;
    let mut samples = input::standard(time::now())?;
    samples.sort_by_key(|sample| sample.stamp);
    let mut locked = file::lock(name, wait)?;
    let mut bytes = locked.read()?;
    let mut store = open(name, &mut bytes)?;
    let newest = newest(&store);
    let mut notes = supposition::of_plan(store.image());
    notes.extend(supposition::of_runs(store.image(), &newest));
    let mut old = Old::new(skip_old);
    notes.extend(supposition::of_samples(store.image(), &newest, &taken(&store, &samples, &old)));
    let runs = in_order(name, &mut store, &samples, newest, &mut old)?;
    locked.replace(&bytes)?;
    let mut report = String::new();
    let _ = writeln!(report, "imported, samples: {}, runs: {runs}", samples.len() - old.count);
    old.add_to(&mut report);
    add_notes(&mut report, &notes);
    Ok(report)
}

/// The samples without those that will be left out. In time order none makes a later one old: the image as it stands decides.
fn taken<'a>(store: &Store, samples: &'a [Sample], old: &Old) -> Cow<'a, [Sample]> {
    if !old.skipped {
        return samples.into();
    }
    let rows = table::rows(store.image());
    samples.iter().filter(|sample| held(store.image(), &rows, sample).is_none()).copied().collect()
}

/// The newest stamp of each schema's finest tier.
fn newest(store: &Store) -> Vec<Option<u64>> {
    let schemas = 0..table::schemas(store.image());
    schemas.map(|s| store.query(SeriesHandle::new(s, 0), 0, 0, u64::MAX).ok().and_then(|a| a.newest())).collect()
}

/// Records the samples, and makes a run before each that begins a coarsest interval and at the end. Answers how many runs.
fn in_order(name: &Path, store: &mut Store, samples: &[Sample], mut newest: Vec<Option<u64>>, old: &mut Old) -> Done<u64> {
    let rows = table::rows(store.image());
    // a schema of one tier has none: there is nothing to consolidate
    let coarsest: Vec<Option<u64>> =
        (0..newest.len()).map(|s| table::tiers(&rows, s as u32).iter().skip(1).map(|t| t.interval).max()).collect();
    let mut runs = 0;
    let mut progress = Progress::new(samples.len());
    for tick in samples.chunk_by(|a, b| a.stamp == b.stamp) {
        let begins = |sample: &Sample| {
            let schema = sample.schema as usize;
            let last = newest.get(schema).copied().flatten();
            let is_left_out = || old.skipped && held(store.image(), &rows, sample).is_some();
            last.is_some_and(|last| coarsest[schema].is_some_and(|coarsest| last / coarsest != sample.stamp / coarsest))
                && !is_left_out()
        };
        if tick.iter().any(begins) {
            run(name, store)?;
            runs += 1;
        }
        for sample in tick {
            if store_sample(name, store, sample, old)? {
                newest[sample.schema as usize] = Some(sample.stamp);
            }
            progress.step();
        }
    }
    if !samples.is_empty() {
        run(name, store)?;
        runs += 1;
    }
    Ok(runs)
}

/// How far an import is, on a terminal.
struct Progress {
    shown: bool,
    all: usize,
    done: usize,
}

impl Progress {
    fn new(all: usize) -> Self {
        Progress { shown: io::stderr().is_terminal() && all > 10_000, all, done: 0 }
    }

    fn step(&mut self) {
        self.done += 1;
        if self.shown && self.done.is_multiple_of(self.all / 100 + 1) {
            eprint!("\rimporting: {} %", self.done * 100 / self.all);
        }
    }
}

impl Drop for Progress {
    fn drop(&mut self) {
        if self.shown {
            eprint!("\r\x1b[K");
        }
    }
}
