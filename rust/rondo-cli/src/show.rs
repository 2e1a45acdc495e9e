//! show: the rows of an image, with what their rings hold.

use std::fmt::Write;
use std::path::Path;

use rondo::TierInfo;
use serde_json::{Value, json};

use crate::failure::{Done, refusal};
use crate::file;
use crate::reading::{Form, bold};
use crate::table::{self, Row};
use crate::time::{date, spoken};
use crate::writing::view;

/// A row, and what its ring holds.
struct Shown {
    row: Row,
    used: u64,
    wrapped: bool,
    oldest: Option<u64>,
    newest: Option<u64>,
    mark: Option<u64>,
}

pub fn show(name: &Path, form: Form) -> Done<String> {
    let bytes = file::read(name)?;
    let tiers = view(name, &bytes)?.tiers().map_err(|r| refusal(r, &r.to_string()).after(name.display()))?;
    let all: Vec<Shown> = table::rows(&bytes).into_iter().zip(tiers).map(|(row, tier)| shown(&bytes, row, tier)).collect();
    Ok(match form {
        Form::Table => table_of(&bytes, &all),
        Form::Csv => csv_of(&all),
        Form::Json => format!("{}\n", Value::Array(all.iter().map(json_of).collect())),
    })
}

fn shown(image: &[u8], row: Row, tier: TierInfo) -> Shown {
    let (oldest, newest, mark) = (tier.oldest_timestamp, tier.newest_timestamp, tier.consolidated_to);
    Shown { used: row.used(image), row, wrapped: tier.has_wrapped, oldest, newest, mark }
}

fn table_of(image: &[u8], all: &[Shown]) -> String {
    let mut out = bold(&format!("# schemas {}, rows {}, bytes {}\n", table::schemas(image), all.len(), image.len()));
    let names = "#schema tier series  interval retention function      slots       used full ring";
    out.push_str(&bold(&format!("{names}  {:30} {:30} consolidated to\n", "oldest", "newest")));
    let end = |stamp: Option<u64>| stamp.map_or("-".to_string(), date);
    for one in all {
        let row = &one.row;
        let (interval, retention, function) = (spoken(row.interval), spoken(row.retention), row.function_name());
        let _ = write!(out, "{:>7} {:>4} {:>6} {interval:>9} {retention:>9} {function:>8}", row.schema, row.tier, row.series);
        let _ = write!(out, " {:>10} {:>10} {:>9}", row.slots(), one.used, if one.wrapped { "yes" } else { "no" });
        let _ = writeln!(out, "  {:30} {:30} {}", end(one.oldest), end(one.newest), end(one.mark));
    }
    out
}

fn csv_of(all: &[Shown]) -> String {
    let mut out =
        "schema,tier,series,interval_ns,retention_ns,function,slots,used,full_ring,oldest_ns,newest_ns,mark_ns\n".to_string();
    let end = |stamp: Option<u64>| stamp.map_or(String::new(), |s| s.to_string());
    for one in all {
        let row = &one.row;
        let (function, slots, used, wrapped) = (row.function_name(), row.slots(), one.used, one.wrapped);
        let _ = write!(out, "{},{},{},{},{},{function}", row.schema, row.tier, row.series, row.interval, row.retention);
        let _ = writeln!(out, ",{slots},{used},{wrapped},{},{},{}", end(one.oldest), end(one.newest), end(one.mark));
    }
    out
}

fn json_of(one: &Shown) -> Value {
    let row = &one.row;
    json!({
        "schema": row.schema,
        "tier": row.tier,
        "series": row.series,
        "interval_ns": row.interval,
        "retention_ns": row.retention,
        "function": row.function_name(),
        "slots": row.slots(),
        "used": one.used,
        "full_ring": one.wrapped,
        "oldest_ns": one.oldest,
        "newest_ns": one.newest,
        "mark_ns": one.mark,
    })
}
