//! Times: RFC 3339, `now`, `now-2h`, a number with a unit; spans of time; both written again.

use chrono::{DateTime, NaiveDateTime, SecondsFormat, Utc};

/// The units, the largest first, in nanoseconds.
const UNITS: [(&str, u64); 7] = [
    ("d", 86_400_000_000_000),
    ("h", 3_600_000_000_000),
    ("min", 60_000_000_000),
    ("s", 1_000_000_000),
    ("ms", 1_000_000),
    ("us", 1_000),
    ("ns", 1),
];

const NAMED: &str = "ns us ms s min h d";

/// The clock's time in nanoseconds since 1970.
pub fn now() -> u64 {
    let since = std::time::SystemTime::now().duration_since(std::time::UNIX_EPOCH);
    since.map_or(0, rondo::nanos)
}

/// A time in nanoseconds, or why there is none.
pub fn stamp(text: &str, now: u64) -> Result<u64, String> {
    if let Some(rest) = text.strip_prefix("now") {
        return from_now(rest, now);
    }
    if text.len() >= 8 && text.as_bytes()[4] == b'-' {
        return calendar(text);
    }
    span(text)
}

fn from_now(rest: &str, now: u64) -> Result<u64, String> {
    let far = "it is before 1970, or too far ahead".to_string();
    match rest.chars().next() {
        None => Ok(now),
        Some('-') => now.checked_sub(span(&rest[1..])?).ok_or(far),
        Some('+') => now.checked_add(span(&rest[1..])?).ok_or(far),
        Some(_) => Err("after now stands - or + and a time, as in now-2h".to_string()),
    }
}

fn calendar(text: &str) -> Result<u64, String> {
    let time = DateTime::parse_from_rfc3339(text)
        .map_err(|e| format!("{e}; a date is written as 2026-11-17T08:30:00Z or 2026-11-17T09:30:00+01:00"))?;
    let exact = i128::from(time.timestamp()) * 1_000_000_000 + i128::from(time.timestamp_subsec_nanos());
    u64::try_from(exact).map_err(|_| "it is before 1970, or after 2554".to_string())
}

/// A span of time: a number, whole or with decimals, and a unit.
pub fn span(text: &str) -> Result<u64, String> {
    let end = text.find(|c: char| !c.is_ascii_digit() && c != '.').unwrap_or(text.len());
    let (number, unit) = text.split_at(end);
    if number.is_empty() {
        return Err(format!("it is no number with a unit ({NAMED}), no date (2026-11-17T08:30:00Z) and not now"));
    }
    if unit.is_empty() {
        return Err(format!("a number needs its unit, one of {NAMED}: {number}s"));
    }
    let found = UNITS.iter().find(|(name, _)| *name == unit);
    let (_, size) = found.ok_or_else(|| format!("'{unit}' is no unit; the units are {NAMED}"))?;
    scaled(number, *size)
}

/// A decimal number times a unit, if it comes out in whole nanoseconds.
fn scaled(number: &str, size: u64) -> Result<u64, String> {
    let (whole, part) = number.split_once('.').unwrap_or((number, "0"));
    let digits = |t: &str| !t.is_empty() && t.bytes().all(|b| b.is_ascii_digit());
    if !digits(whole) || !digits(part) {
        return Err(format!("'{number}' is no number"));
    }
    let part = part.trim_end_matches('0');
    let scale = 10u128.checked_pow(part.len() as u32).filter(|_| part.len() <= 18);
    let scale = scale.ok_or("it has parts below a nanosecond")?;
    let fraction = part.parse::<u128>().unwrap_or(0) * u128::from(size);
    if fraction % scale != 0 {
        return Err("it has parts below a nanosecond".to_string());
    }
    let long = "it is longer than 2^64 ns";
    let whole = whole.parse::<u64>().map_err(|_| long)?;
    let exact = u128::from(whole) * u128::from(size) + fraction / scale;
    u64::try_from(exact).map_err(|_| long.to_string())
}

/// A span in the largest unit that it is a whole number of.
pub fn spoken(ns: u64) -> String {
    let unit = UNITS.iter().find(|(_, size)| ns != 0 && ns.is_multiple_of(*size));
    let (name, size) = unit.unwrap_or(&UNITS[6]);
    format!("{}{name}", ns / size)
}

/// A stamp as a date in UTC, with as many decimals as it needs.
pub fn date(ns: u64) -> String {
    let seconds = (ns / 1_000_000_000) as i64;
    let rest = (ns % 1_000_000_000) as u32;
    match NaiveDateTime::from_timestamp_opt(seconds, rest) {
        Some(time) => DateTime::<Utc>::from_utc(time, Utc).to_rfc3339_opts(SecondsFormat::AutoSi, true),
        None => format!("{ns}ns"),
    }
}

#[cfg(test)]
mod tests {
    use super::*;

    #[test]
    fn reads_what_is_written() {
        for ns in [1, 999, 1_500_000_000, 3_600_000_000_000, 1_763_280_000_123_456_789, (1 << 63) - 1] {
            assert_eq!(stamp(&date(ns), 0), Ok(ns));
            assert_eq!(stamp(&spoken(ns), 0), Ok(ns));
        }
    }

    #[test]
    fn units_decimals_and_now() {
        assert_eq!(stamp("1.5s", 0), Ok(1_500_000_000));
        assert_eq!(stamp("2min", 0), Ok(120_000_000_000));
        assert_eq!(stamp("now-2h", 8_000_000_000_000), Ok(800_000_000_000));
        assert_eq!(stamp("now+1ns", 5), Ok(6));
        assert_eq!(stamp("now", 5), Ok(5));
        assert_eq!(stamp("1970-01-01T02:00:00+01:00", 0), Ok(3_600_000_000_000));
    }

    #[test]
    fn refuses() {
        let none = [
            "",
            "5",
            "soon",
            "5x",
            "5m",
            "-5s",
            "1.5ns",
            "s",
            "1.s",
            ".5s",
            "1.2.3s",
            "213504d",
            "now-",
            "now5s",
            "now-9h",
            "18446744073709551616ns",
            "1969-12-31T23:59:59Z",
            "2026-13-01T00:00:00Z",
            "2026-11-17",
            "2026-11-17T00:00:00",
            "éééééééé",
        ];
        for text in none {
            assert!(stamp(text, 3_600_000_000_000).is_err(), "{text}");
        }
        assert!(stamp("5", 0).unwrap_err().contains("ns us ms s min h d"));
    }
}
