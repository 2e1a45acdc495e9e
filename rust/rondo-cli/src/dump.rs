//! The whole image as text, and back, the same to the byte.
//!
//!     rondo-dump 1
//!     schema SERIES HASH                                  one a schema
//!     tier INTERVAL RETENTION FUNCTION MARK CURSOR        its tiers, the finest first
//!     SLOT STAMP VALUE VALUE ..                           the slots of the tier that are not fresh
//!     byte OFFSET VALUE                                   bytes that follow from none of these
//!     end
//!
//! Times are in ns, with the unit; values as `query` prints them.

use std::fmt::Write;
use std::path::Path;

use rondo::{ConsolidationFn, Plan, TierConfig, View};

use crate::failure::{Done, Failure};
use crate::table::{self, FUNCTIONS, Row};
use crate::writing::{fresh, view};
use crate::{file, input, locate, time, value};

const FIRST: &str = "rondo-dump 1";
const NAN: u64 = 0x7ff8_0000_0000_0000;

pub fn dump(name: &Path) -> Done<String> {
    let mut bytes = file::read(name)?;
    view(name, &bytes)?;
    let rows = table::rows(&bytes);
    let end = rows.last().map_or(0, |row| row.offset + row.length);
    bytes.truncate(end as usize);
    let mut out = format!("{FIRST}\n");
    for row in &rows {
        if row.tier == 0 {
            let _ = writeln!(out, "schema {} 0x{:016x}", row.series, row.hash);
        }
        let (interval, retention, function) = (row.interval, row.retention, row.function_name());
        let _ = writeln!(out, "tier {interval}ns {retention}ns {function} {}ns {}", row.mark, row.cursor(&bytes));
        slots(&mut out, &bytes, row);
    }
    let again = built(name, &out)?;
    for (at, (is, made)) in bytes.iter().zip(&again).enumerate() {
        if is != made {
            let _ = writeln!(out, "byte {at} {is}");
        }
    }
    out.push_str("end\n");
    Ok(out)
}

fn slots(out: &mut String, image: &[u8], row: &Row) {
    for slot in 0..row.slots() {
        let stamp = row.stamp(image, slot);
        let cells = || (0..row.series).map(|column| row.cell(image, column, slot));
        if stamp == 0 && cells().all(|cell| cell == NAN) {
            continue;
        }
        let _ = write!(out, "{slot} {stamp}ns");
        for cell in cells() {
            let _ = write!(out, " {}", value::text(f64::from_bits(cell)));
        }
        out.push('\n');
    }
}

pub fn restore(name: &Path) -> Done<String> {
    file::absent(name)?;
    let text = input::text()?;
    if text.lines().last() != Some("end") {
        let line = text.lines().count();
        return Err(Failure::refused(format!(
            "line {line}: the dump is cut short, its last line is not end; nothing is stored"
        )));
    }
    let bytes = built(name, &text)?;
    if let Err(r) = View::open(&bytes) {
        let place = locate::image(&bytes, r);
        return Err(crate::failure::refusal(r, &place).after("the dump makes an image that is refused"));
    }
    file::create(name, &bytes)?;
    Ok(format!("restored, bytes: {}\n", bytes.len()))
}

/// A line of a dump that cannot be read.
fn bad(line: usize, why: impl std::fmt::Display) -> Failure {
    Failure::refused(format!("line {line}: {why}; nothing is stored"))
}

/// The image that a dump's lines make.
fn built(name: &Path, text: &str) -> Done<Vec<u8>> {
    if text.lines().next() != Some(FIRST) {
        return Err(bad(1, format!("a dump begins with '{FIRST}'")));
    }
    let mut bytes = fresh(name, &planned(text)?)?;
    let rows = table::rows(&bytes);
    let mut row = None;
    for (line, words) in lines(text) {
        if let Some(word) = words.get(most_words(words[0])) {
            return Err(bad(line, format!("one word too many: '{word}'")));
        }
        match words[0] {
            "schema" | "end" => {}
            "tier" => {
                let number = row.map_or(0, |r: usize| r + 1);
                row = Some(number);
                state(&mut bytes, &rows[number], number, &words).ok_or_else(|| bad(line, "MARK or CURSOR cannot be read"))?;
            }
            "byte" => one_byte(&mut bytes, &words).ok_or_else(|| bad(line, "OFFSET or VALUE cannot be read"))?,
            _ => {
                let ring = row.map(|r| &rows[r]).ok_or_else(|| bad(line, "a slot stands before any tier"))?;
                one_slot(&mut bytes, ring, &words).map_err(|why| bad(line, why))?;
            }
        }
    }
    Ok(bytes)
}

/// How many words a line has that begins with this one; a slot's are counted with its series.
fn most_words(first: &str) -> usize {
    match first {
        "end" => 1,
        "schema" | "byte" => 3,
        "tier" => 6,
        _ => usize::MAX,
    }
}

/// The lines after the first with their numbers and words; empty ones are left out.
fn lines(text: &str) -> impl Iterator<Item = (usize, Vec<&str>)> {
    let all = text.lines().enumerate().skip(1).map(|(i, line)| (i + 1, line.split_whitespace().collect::<Vec<&str>>()));
    all.filter(|(_, words)| !words.is_empty())
}

/// The plan that a dump's lines name.
fn planned(text: &str) -> Done<Plan> {
    let mut schemas: Vec<(u32, u64, Vec<TierConfig>)> = Vec::new();
    for (line, words) in lines(text) {
        match words[0] {
            "schema" => schemas.push(schema(&words).ok_or_else(|| bad(line, "SERIES or HASH cannot be read"))?),
            "tier" => {
                let tier = tier(&words).ok_or_else(|| bad(line, "a tier's words cannot be read"))?;
                let (_, _, tiers) = schemas.last_mut().ok_or_else(|| bad(line, "a tier stands before any schema"))?;
                tiers.push(tier);
            }
            _ => {}
        }
    }
    Ok(schemas.iter().fold(Plan::new(), |plan, (series, hash, tiers)| plan.schema(*series, *hash, tiers)))
}

fn schema(words: &[&str]) -> Option<(u32, u64, Vec<TierConfig>)> {
    let hash = words.get(2)?.strip_prefix("0x")?;
    Some((words.get(1)?.parse().ok()?, u64::from_str_radix(hash, 16).ok()?, Vec::new()))
}

fn tier(words: &[&str]) -> Option<TierConfig> {
    let function = FUNCTIONS.iter().position(|name| Some(name) == words.get(3))?;
    let (interval, retention) = (time::span(words.get(1)?).ok()?, time::span(words.get(2)?).ok()?);
    Some(TierConfig::from_nanos(interval, retention, ConsolidationFn::from_number(function as u32)))
}

fn put(bytes: &mut [u8], at: usize, number: &[u8]) -> Option<()> {
    bytes.get_mut(at..at.checked_add(number.len())?)?.copy_from_slice(number);
    Some(())
}

/// A tier's mark and cursor.
fn state(bytes: &mut [u8], row: &Row, number: usize, words: &[&str]) -> Option<()> {
    let mark = time::span(words.get(4)?).ok()?;
    let cursor: u32 = words.get(5)?.parse().ok()?;
    put(bytes, table::HEADER + table::ROW * number + 48, &mark.to_le_bytes())?;
    put(bytes, row.offset as usize + 32, &cursor.to_le_bytes())
}

fn one_byte(bytes: &mut [u8], words: &[&str]) -> Option<()> {
    put(bytes, words.get(1)?.parse().ok()?, &[words.get(2)?.parse().ok()?])
}

fn one_slot(bytes: &mut [u8], row: &Row, words: &[&str]) -> Result<(), String> {
    let slot = words[0].parse::<u64>().map_err(|_| format!("SLOT cannot be read from '{}'", words[0]))?;
    if slot >= row.slots() {
        return Err(format!("slot {slot} is not below {}", row.slots()));
    }
    if words.len() != 2 + row.series as usize {
        return Err(format!("a slot has a stamp and {} values, not {} words", row.series, words.len() - 1));
    }
    let stamp = time::span(words[1]).map_err(|why| format!("STAMP cannot be read from '{}': {why}", words[1]))?;
    put(bytes, row.stamp_at(slot), &stamp.to_le_bytes()).ok_or("no such slot")?;
    for (column, word) in (0..).zip(&words[2..]) {
        let value = value::read(word).map_err(|why| format!("VALUE cannot be read from '{word}': {why}"))?;
        put(bytes, row.cell_at(column, slot), &value.to_bits().to_le_bytes()).ok_or("no such column")?;
    }
    Ok(())
}
