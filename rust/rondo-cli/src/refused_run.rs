//! Where and why a run is refused, in words: its pairs once more, by docs/FORMAT.md, section 9.

use std::collections::BTreeMap;

use rondo::{Refusal, Store};

use crate::locate;
use crate::table::Row;
use crate::time::{date, spoken};

/// The place of a run's refusal, from the rows before it and what it left. The pairs up to the refused one still have
/// their sources as the run read them.
pub fn place(rows: &[Row], left: &Store, refusal: Refusal) -> String {
    let mut sources = sources(rows, left);
    let found = match refusal {
        Refusal::NoConsolidationFunction => pairs(rows).find_map(|(i, _, row)| no_function(i + 1, row)),
        Refusal::CorruptedSlab => sources.find_map(|source| source.late()),
        Refusal::InvalidTimestamp | Refusal::InvalidValue => {
            sources.find_map(|source| source.refused_write()).filter(|(by, _)| *by == refusal).map(|(_, words)| words)
        }
        other => Some(locate::image(left.image(), other)),
    };
    found.unwrap_or_else(|| refusal.to_string())
}

/// Adjacent rows of a schema, with the finer one's number.
fn pairs(rows: &[Row]) -> impl Iterator<Item = (usize, &Row, &Row)> {
    let all = rows.iter().zip(rows.iter().skip(1)).enumerate();
    all.filter(|(_, (finer, row))| finer.schema == row.schema).map(|(i, (finer, row))| (i, finer, row))
}

fn sources<'a>(rows: &'a [Row], left: &'a Store) -> impl Iterator<Item = Source<'a>> {
    pairs(rows).map(|(i, source, row)| Source { image: left.image(), flags: left.flags(), i, source, row })
}

fn no_function(number: usize, row: &Row) -> Option<String> {
    let (schema, tier) = (row.schema, row.tier);
    let why = format!("schema {schema}, tier {tier} has none, so it cannot be made from the finer tier");
    (row.function == 0).then(|| format!("row {number}, field function: {why}"))
}

/// The finer row of a pair, number i, with its ring, and the coarser row.
struct Source<'a> {
    image: &'a [u8],
    flags: u32,
    i: usize,
    source: &'a Row,
    row: &'a Row,
}

impl Source<'_> {
    fn stamp(&self, slot: u64) -> u64 {
        self.source.stamp(self.image, slot)
    }

    fn value(&self, column: u32, slot: u64) -> f64 {
        f64::from_bits(self.source.cell(self.image, column, slot))
    }

    /// A stamp of 2^63 or more.
    fn late(&self) -> Option<String> {
        let slot = (0..self.source.slots()).find(|slot| self.stamp(*slot) >= 1 << 63)?;
        let why = "the stamp is 2^63 ns or more, which a run does not take, though opening does";
        let advice =
            "nothing is later, so nothing replaces it: take the slot's line out of a `rondo dump`, and `rondo restore` that";
        Some(format!("slab of row {}, slot {slot}: {why}; {advice}", self.i))
    }

    /// The slots of the run's range, in reading order.
    fn range(&self) -> Vec<u64> {
        let (n, cursor) = (self.source.slots(), u64::from(self.source.cursor(self.image)));
        let newest = self.stamp(cursor);
        let (first, count) = if self.flags >> self.i & 1 == 1 { (cursor + 1, n) } else { (0, cursor + 1) };
        let order = || (first..first + count).map(|slot| slot % n).filter(|_| newest != 0);
        let oldest = || order().map(|slot| self.stamp(slot)).find(|stamp| *stamp != 0).unwrap_or(0);
        let mark = self.source.mark;
        let start = if mark == 0 { oldest() } else { mark - mark % self.row.interval };
        order().filter(|slot| (start..=newest).contains(&self.stamp(*slot))).collect()
    }

    /// The first write that is refused, by what, and its words.
    fn refused_write(&self) -> Option<(Refusal, String)> {
        let range = self.range();
        let sums = self.sums(&range);
        let adds = ["average", "sum"].contains(&self.row.function_name());
        let beyond = |sum: f64| adds && sum.is_infinite();
        let ((window, column), sum) = sums.into_iter().find(|((window, _), sum)| *window == 0 || beyond(*sum))?;
        Some(if beyond(sum) {
            (Refusal::InvalidValue, self.overflow(window, column))
        } else {
            (Refusal::InvalidTimestamp, self.early(&range))
        })
    }

    /// The sum of the finite values of each window and column that has a value, windows first.
    fn sums(&self, range: &[u64]) -> BTreeMap<(u64, u32), f64> {
        let mut sums = BTreeMap::new();
        for slot in range {
            let stamp = self.stamp(*slot);
            for column in 0..self.row.series {
                let value = self.value(column, *slot);
                if !value.is_nan() {
                    let sum = sums.entry((stamp - stamp % self.row.interval, column)).or_insert(0.0);
                    *sum += if value.is_finite() { value } else { 0.0 };
                }
            }
        }
        sums
    }

    fn overflow(&self, window: u64, column: u32) -> String {
        let place = format!("row {}, column {column}, window {}", self.i + 1, date(window));
        format!("{place}: the sum of its values in the finer tier is beyond the greatest number of 64 bits")
    }

    /// Samples below the coarser interval, whose window would be stamped with 0.
    fn early(&self, range: &[u64]) -> String {
        let has_value = |slot: u64| (0..self.row.series).any(|column| !self.value(column, slot).is_nan());
        let below: Vec<u64> =
            range.iter().copied().filter(|slot| self.stamp(*slot) < self.row.interval && has_value(*slot)).collect();
        let (place, stamp) = (format!("slab of row {}, slot {}", self.i, below[0]), spoken(self.stamp(below[0])));
        let others = match below.len() - 1 {
            0 => String::new(),
            more => format!(" (and {more} more)"),
        };
        let (window, advice) = (spoken(self.row.interval), "let stamps begin at the coarsest interval or later");
        let why = format!("the sample at {stamp}{others} is in the window of {window} that starts at 0");
        format!("{place}: {why}; {advice}; this goes when its slot is written again")
    }
}

#[cfg(test)]
mod tests {
    use rondo::{Plan, SeriesHandle};

    use super::*;
    use crate::{planning, table};

    /// Numbers that look random, from a seed.
    fn below(seed: &mut u64, limit: u64) -> u64 {
        *seed = seed.wrapping_mul(6_364_136_223_846_793_005).wrapping_add(1_442_695_040_888_963_407);
        (*seed >> 33) % limit
    }

    fn plan(seed: &mut u64) -> Plan {
        let mut function = || ["average", "min", "max", "last", "sum", "count"][below(seed, 6) as usize];
        let words = format!("series 2 tier 1s 40s tier 10s 200s {} tier 30s 300s {}", function(), function());
        planning::read(&words.split(' ').map(String::from).collect::<Vec<_>>()).unwrap()
    }

    fn record(store: &mut Store, seed: &mut u64, from: u64) {
        for i in 0..below(seed, 30) {
            let value = [1.5e308, -1.5e308, f64::NAN, 1.0][below(seed, 4) as usize];
            let stamp = (from + i + below(seed, 4)) * 1_000_000_000;
            let handle = SeriesHandle::new(0, below(seed, 2) as u32);
            let answer = store.record(handle, value, stamp.max(1));
            assert!(matches!(answer, Ok(()) | Err(Refusal::OldSample)));
        }
    }

    /// What a run on these bytes is refused by, where row `number` has no function.
    fn without(bytes: &[u8], flags: u32, number: usize) -> Option<Refusal> {
        let mut bytes = bytes.to_vec();
        bytes[table::HEADER + table::ROW * number + 24] = 0;
        Store::resume(&mut bytes, flags).consolidate().err()
    }

    #[test]
    fn the_pair_that_the_library_refuses_is_found() {
        let mut seed = 5;
        let mut found = [0; 4];
        for _ in 0..3000 {
            let plan = plan(&mut seed);
            let mut bytes = vec![0; plan.image_size().unwrap() as usize];
            let mut store = Store::create(&plan, &mut bytes).unwrap();
            for _ in 0..3 {
                let from = below(&mut seed, 90);
                record(&mut store, &mut seed, from);
                let (before, flags) = (store.image().to_vec(), store.flags());
                let refused = store.consolidate().err();
                let rows = table::rows(&before);
                let said = sources(&rows, &store).find_map(|s| Some((s.i, s.refused_write()?.0)));
                assert_eq!(said.map(|(_, by)| by), refused);
                let Some((i, by)) = said else { continue };
                // the pairs before it pass, and it does not
                assert_eq!(without(&before, flags, i + 1), Some(Refusal::NoConsolidationFunction));
                assert!(i == 1 || without(&before, flags, 2) == refused);
                found[2 * i + usize::from(by == Refusal::InvalidValue)] += 1;
            }
        }
        assert!(found.iter().all(|count| *count > 100), "{found:?}");
    }
}
