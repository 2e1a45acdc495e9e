//! The commands that read an image: query and check.

use std::fmt::Write;
use std::io::{self, IsTerminal};
use std::path::Path;

use rondo::{QueryResult, Refusal, SeriesHandle};
use serde_json::{Value, json};

use crate::cli::{Asked, Tier};
use crate::failure::{Done, Failure, refusal};
use crate::table;
use crate::time::{self, date};
use crate::writing::{no_series, view};
use crate::{file, value};

/// The form of the output.
#[derive(Clone, Copy, PartialEq)]
pub enum Form {
    Table,
    Csv,
    Json,
}

impl Form {
    pub fn of(csv: bool, json: bool) -> Form {
        match (csv, json) {
            (true, _) => Form::Csv,
            (_, true) => Form::Json,
            _ => Form::Table,
        }
    }
}

/// A query's answer and its points.
pub struct Answer {
    pub tier: u32,
    pub oldest: Option<u64>,
    pub newest: Option<u64>,
    pub incomplete: bool,
    pub points: Vec<(u64, f64)>,
}

pub fn ask(asked: &Asked) -> Done<Answer> {
    let now = time::now();
    let start = bound("START", asked.start.as_deref(), now, 0)?;
    if asked.start.is_some() && asked.end.is_none() {
        return Err(Failure::usage("<END> is missing: a range has a start and an end"));
    }
    let end = bound("END", asked.end.as_deref(), now, u64::MAX)?;
    let bytes = file::read(&asked.file)?;
    let view = view(&asked.file, &bytes)?;
    let handle = SeriesHandle::new(asked.schema, asked.column);
    let found = match asked.tier {
        Tier::Auto => view.query_auto(handle, start, end),
        Tier::Number(tier) => view.query(handle, tier, start, end),
    };
    match found {
        Ok(found) => Ok(answer(found)),
        Err(r) => Err(refusal(r, &why(&bytes, asked, r, start, end)).after(asked.file.display())),
    }
}

fn answer(found: QueryResult) -> Answer {
    let (oldest, newest) = found.available_range();
    let (tier, incomplete) = (found.tier_used(), found.may_be_incomplete());
    Answer { tier, oldest, newest, incomplete, points: found.points().collect() }
}

fn bound(name: &str, text: Option<&str>, now: u64, all: u64) -> Done<u64> {
    let Some(text) = text else { return Ok(all) };
    time::stamp(text, now).map_err(|why| Failure::usage(format!("{name} cannot be read from '{text}': {why}")))
}

fn why(image: &[u8], asked: &Asked, refusal: Refusal, start: u64, end: u64) -> String {
    match refusal {
        Refusal::InvalidTimeRange => {
            format!("the range starts at {} and must end later, not at {}", date(start), date(end))
        }
        other => not_there(image, SeriesHandle::new(asked.schema, asked.column), other),
    }
}

/// Which series or tiers there are instead of one that is not there.
pub fn not_there(image: &[u8], handle: SeriesHandle, refusal: Refusal) -> String {
    match refusal {
        Refusal::InvalidHandle => no_series(image, handle),
        Refusal::InvalidTier => {
            let tiers = table::tiers(&table::rows(image), handle.schema).len();
            format!("schema {} has tiers 0 to {}", handle.schema, tiers.saturating_sub(1))
        }
        other => other.to_string(),
    }
}

pub fn query(asked: &Asked, form: Form) -> Done<String> {
    let answer = ask(asked)?;
    Ok(match form {
        Form::Table => table_of(&answer),
        Form::Csv => csv_of(&answer)?,
        Form::Json => json_of(&answer),
    })
}

/// The line that says what was asked of: tier and ends.
pub fn heading(answer: &Answer) -> String {
    let end = |stamp: Option<u64>| stamp.map_or("none".to_string(), date);
    let incomplete = if answer.incomplete { ", may be incomplete" } else { "" };
    format!("# tier {}, oldest {}, newest {}{incomplete}\n", answer.tier, end(answer.oldest), end(answer.newest))
}

/// Text in bold on a terminal, plain elsewhere.
pub fn bold(text: &str) -> String {
    if io::stdout().is_terminal() && std::env::var_os("NO_COLOR").is_none() {
        format!("\x1b[1m{}\x1b[0m\n", text.trim_end())
    } else {
        text.to_string()
    }
}

fn table_of(answer: &Answer) -> String {
    let mut out = bold(&heading(answer));
    out.push_str(&bold(&format!("#{:>30} {:>22} {:>24}\n", "time", "stamp", "value")));
    for (stamp, v) in &answer.points {
        let _ = writeln!(out, "{:>31} {:>22} {:>24}", date(*stamp), format!("{stamp}ns"), value::text(*v));
    }
    out
}

fn csv_of(answer: &Answer) -> Done<String> {
    let fail = |e: csv::Error| Failure::refused(e.to_string());
    let mut writer = csv::Writer::from_writer(Vec::new());
    writer.write_record(["stamp_ns", "time", "value"]).map_err(fail)?;
    for (stamp, v) in &answer.points {
        writer.write_record([stamp.to_string(), date(*stamp), value::text(*v)]).map_err(fail)?;
    }
    let bytes = writer.into_inner().map_err(|e| Failure::refused(e.to_string()))?;
    Ok(String::from_utf8_lossy(&bytes).into_owned())
}

fn json_of(answer: &Answer) -> String {
    let point = |(stamp, v): &(u64, f64)| json!({ "stamp_ns": stamp, "time": date(*stamp), "value": json_value(*v) });
    let all = json!({
        "tier": answer.tier,
        "oldest_ns": answer.oldest,
        "newest_ns": answer.newest,
        "may_be_incomplete": answer.incomplete,
        "points": answer.points.iter().map(point).collect::<Vec<Value>>(),
    });
    format!("{all}\n")
}

/// A value in JSON, which has no infinite numbers, and an image from elsewhere may have some.
pub fn json_value(v: f64) -> Value {
    if v.is_finite() { json!(v) } else { Value::String(value::text(v)) }
}

pub fn check(name: &Path) -> Done<String> {
    view(name, &file::read(name)?)?;
    Ok("good\n".to_string())
}
