//! Where and why an image or a plan is refused: the library's tests in its order, each with words.

use rondo::Refusal;

use crate::table::{self, HEADER, ROW, Row, u32_at, u64_at};
use crate::time::spoken;

const DAMAGED: &str = "it is damaged, or no image; take a copy of it that checks as good";

/// The place of a refusal of opening, in words, with what to do.
pub fn image(bytes: &[u8], refusal: Refusal) -> String {
    let found = match refusal {
        Refusal::BadImage => header(bytes).or_else(|| shape(bytes)).or_else(|| placed(bytes)),
        Refusal::CorruptedSlab => slabs(bytes),
        other => tiers(bytes, other),
    };
    format!("{}; {DAMAGED}", found.unwrap_or_else(|| refusal.to_string()))
}

/// The place of a refusal of a plan, in words.
pub fn plan(bytes: &[u8], refusal: Refusal) -> String {
    tiers(bytes, refusal).unwrap_or_else(|| refusal.to_string())
}

fn header(bytes: &[u8]) -> Option<String> {
    let (schemas, rows) = (u32_at(bytes, 8), u32_at(bytes, 12));
    let say = |field: &str, why: String| Some(format!("header, field {field}: {why}"));
    if bytes.len() < HEADER {
        return Some(format!("header: the file has {} bytes, and a header has {HEADER}", bytes.len()));
    }
    if bytes[..4] != *b"RSTO" {
        return say("magic", "it is not RSTO".into());
    }
    if u32_at(bytes, 4) != 1 {
        return say("version", format!("{} is not 1", u32_at(bytes, 4)));
    }
    if !(1..=8).contains(&schemas) {
        return say("schema count", format!("{schemas} is not 1 to 8"));
    }
    if rows > 32 {
        return say("row count", format!("{rows} is above 32"));
    }
    if u64_at(bytes, 24) != 0 {
        return say("zero bytes", "they are not 0".into());
    }
    let need = HEADER + ROW * rows as usize;
    if bytes.len() < need {
        return Some(format!("rows: the file has {} bytes, and header and rows have {need}", bytes.len()));
    }
    None
}

/// What is wrong in the shape of a row: order, function, mark, agreement.
fn shape(bytes: &[u8]) -> Option<String> {
    let rows = table::rows(bytes);
    for (i, row) in rows.iter().enumerate() {
        let before = i.checked_sub(1).map(|j| &rows[j]).filter(|b| b.schema == row.schema);
        let say = |field: &str, why: String| Some(format!("row {i}, field {field}: {why}"));
        if row.schema >= table::schemas(bytes) || (i > 0 && row.schema < rows[i - 1].schema) {
            return say("schema", format!("{} is out of order, or not below {}", row.schema, table::schemas(bytes)));
        }
        let tier = before.map_or(0, |b| b.tier + 1);
        if row.tier != tier {
            return say("tier", format!("{} where {tier} must stand", row.tier));
        }
        if row.function > 6 {
            return say("function", format!("{} is above 6", row.function));
        }
        if row.mark >= 1 << 63 {
            return say("mark", "it is 2^63 ns or more".into());
        }
        if let Some(b) = before {
            if b.series != row.series {
                return say("max series", format!("{} where row {} has {}", row.series, i - 1, b.series));
            }
            if b.hash != row.hash {
                return say("schema hash", format!("it is not that of row {}", i - 1));
            }
        }
    }
    None
}

/// The length of the image that rows make.
fn total(rows: &[Row]) -> u128 {
    (HEADER + ROW * rows.len()) as u128 + rows.iter().map(Row::slab_length).sum::<u128>()
}

/// What is wrong in total length, slab offsets, slab lengths; or the file is cut short.
fn placed(bytes: &[u8]) -> Option<String> {
    let rows = table::rows(bytes);
    let mut end = (HEADER + ROW * rows.len()) as u128;
    let total = total(&rows);
    if u128::from(u64_at(bytes, 16)) != total {
        return Some(format!("header, field total length: {} where the rows make {total}", u64_at(bytes, 16)));
    }
    for (i, row) in rows.iter().enumerate() {
        if u128::from(row.offset) != end {
            return Some(format!("row {i}, field slab offset: {} where {end} must stand", row.offset));
        }
        if u128::from(row.length) != row.slab_length() {
            return Some(format!("row {i}, field slab length: {} where {} must stand", row.length, row.slab_length()));
        }
        end += row.slab_length();
    }
    let cut = (bytes.len() as u128) < total;
    cut.then(|| format!("the file is cut short: it has {} bytes, and the image has {total}", bytes.len()))
}

/// What is wrong in a slab's header.
fn slabs(bytes: &[u8]) -> Option<String> {
    for (i, row) in table::rows(bytes).iter().enumerate() {
        let at = row.offset as usize;
        let fields = [
            ("magic", u64::from(u32_at(bytes, at)), u64::from(u32::from_le_bytes(*b"RNDO"))),
            ("version", u64::from(u32_at(bytes, at + 4)), 1),
            ("hash", u64_at(bytes, at + 8), row.hash),
            ("slots", u64::from(u32_at(bytes, at + 16)), row.slots()),
            ("max series", u64::from(u32_at(bytes, at + 20)), u64::from(row.series)),
            ("interval", u64_at(bytes, at + 24), row.interval),
        ];
        if let Some((field, is, must)) = fields.iter().find(|(_, is, must)| is != must) {
            return Some(format!("slab of row {i}, field {field}: {is} where {must} must stand"));
        }
        let cursor = row.cursor(bytes);
        if u64::from(cursor) >= row.slots() {
            return Some(format!("slab of row {i}, field cursor: {cursor} is not below {}, the slots", row.slots()));
        }
    }
    None
}

/// What is wrong in a schema's tiers.
fn tiers(bytes: &[u8], refusal: Refusal) -> Option<String> {
    let rows = table::rows(bytes);
    match refusal {
        Refusal::NoTiers => {
            let empty = (0..table::schemas(bytes)).find(|s| rows.iter().all(|row| row.schema != *s))?;
            Some(format!("schema {empty} has no tier: give it one"))
        }
        Refusal::LayoutTooLarge => {
            let total = total(&rows);
            Some(format!("the image would have {total} bytes, and 2^40 is the most: give fewer series or shorter retentions"))
        }
        _ => rows.iter().enumerate().find_map(|(i, row)| {
            let finer = i.checked_sub(1).map(|j| &rows[j]).filter(|b| b.schema == row.schema);
            let why = row_fault(row, finer, refusal)?;
            Some(format!("row {i}, field {why} (schema {}, tier {})", row.schema, row.tier))
        }),
    }
}

fn row_fault(row: &Row, finer: Option<&Row>, refusal: Refusal) -> Option<String> {
    let limit = 1 << 63;
    let (interval, retention) = (spoken(row.interval), spoken(row.retention));
    match refusal {
        Refusal::InvalidMaxSeries if row.series == 0 => Some("max series: 0, and a schema has one at least".into()),
        Refusal::InvalidTierConfig if row.interval == 0 || row.interval >= limit => {
            Some(format!("interval: {interval} is not above 0 and below 2^63 ns"))
        }
        Refusal::InvalidTierConfig if row.retention == 0 || row.retention >= limit => {
            Some(format!("retention: {retention} is not above 0 and below 2^63 ns"))
        }
        Refusal::InvalidTierConfig if row.retention < row.interval => {
            Some(format!("retention: {retention} is below the interval, {interval}"))
        }
        Refusal::TooManySlots if row.slots() > 1_000_000_000 => {
            Some(format!("retention: {retention} by {interval} are {} slots, and 1000000000 is the most", row.slots()))
        }
        Refusal::TiersNotOrdered => finer.filter(|f| f.interval >= row.interval).map(|f| {
            format!("interval: {interval} is not above the finer tier's, {}; tiers go from fine to coarse", spoken(f.interval))
        }),
        Refusal::ConsolidationOnHighestTier if finer.is_none() && row.function != 0 => {
            Some(format!("function: {}, and the first tier takes none, as samples are recorded there", row.function_name()))
        }
        _ => None,
    }
}
