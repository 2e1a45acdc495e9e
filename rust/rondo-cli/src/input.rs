//! Samples from text: lines `SCHEMA COLUMN STAMP VALUE`, or CSV with or without a line of names.

use std::borrow::Cow;
use std::io::{self, Read};

use crate::failure::{Done, FILE, Failure, plain};
use crate::{time, value};

/// A sample, and the line that it came from; 0: from the command's words.
#[derive(Debug, Clone, Copy)]
pub struct Sample {
    pub line: u64,
    pub schema: u32,
    pub column: u32,
    pub stamp: u64,
    pub value: f64,
}

/// The samples of standard input, all of them, or the first line that is bad.
pub fn standard(now: u64) -> Done<Vec<Sample>> {
    let text = text()?;
    let text = text.trim_start_matches('\u{feff}');
    let first = text.lines().map(str::trim).find(|l| !l.is_empty() && !l.starts_with('#'));
    match first {
        Some(line) if is_csv(line) => csv_samples(text, now),
        _ => plain_samples(text, now),
    }
}

/// Whether a line has fields between commas, and not four words with a comma in the last, as in 1,5.
fn is_csv(line: &str) -> bool {
    let words: Vec<&str> = line.split_whitespace().collect();
    let (last, others) = words.split_last().unwrap_or((&"", &[]));
    let plain = words.len() == 4 && last.contains(',') && !others.iter().any(|word| word.contains(','));
    line.contains(',') && !plain
}

/// Standard input as text, in lines that end with a line feed.
pub fn text() -> Done<String> {
    let mut bytes = Vec::new();
    let input = |e: io::Error| Failure { status: FILE, words: format!("standard input: {}", plain(&e)) };
    io::stdin().lock().read_to_end(&mut bytes).map_err(input)?;
    let text = String::from_utf8(bytes).map_err(|e| {
        let good = e.utf8_error().valid_up_to();
        let line = e.as_bytes()[..good].iter().filter(|b| **b == b'\n').count() + 1;
        Failure::refused(format!("line {line}: it is not text in UTF-8; nothing is stored"))
    })?;
    // most text has none at all, which is found sooner than lines are
    let within = || (1..).zip(text.lines()).find(|(_, line)| line.trim_end().contains('\r'));
    match text.contains('\r').then(within).flatten() {
        Some((line, _)) => Err(bad(line, "a carriage return stands within it; end lines with a line feed")),
        None => Ok(text),
    }
}

fn bad(line: u64, why: &str) -> Failure {
    Failure::refused(format!("line {line}: {why}; nothing is stored"))
}

fn plain_samples(text: &str, now: u64) -> Done<Vec<Sample>> {
    let mut samples = Vec::new();
    for (line, words) in (1..).zip(text.lines()) {
        let words: Vec<&str> = words.split_whitespace().collect();
        if words.is_empty() || words[0].starts_with('#') {
            continue;
        }
        samples.push(sample(&words, now).map_err(|why| bad(line, &why))?.at(line));
    }
    Ok(samples)
}

/// A sample from its four words.
pub fn sample(words: &[&str], now: u64) -> Result<Sample, String> {
    if let Some(word) = words.get(4) {
        return Err(format!("one word too many: '{word}'"));
    }
    Ok(Sample {
        line: 0,
        schema: word("SCHEMA", words.first(), number)?,
        column: word("COLUMN", words.get(1), number)?,
        stamp: word("STAMP", words.get(2), |text| time::stamp(text, now))?,
        value: word("VALUE", words.get(3), value::read)?,
    })
}

/// One of the four words, read.
fn word<T>(name: &str, word: Option<&&str>, read: impl Fn(&str) -> Result<T, String>) -> Result<T, String> {
    let word = word.ok_or_else(|| format!("{name} is missing"))?;
    read(word).map_err(|why| format!("{name} cannot be read from '{word}': {why}"))
}

/// A whole number; one too large for a handle becomes the largest, which no image has.
pub fn number(text: &str) -> Result<u32, String> {
    if text.is_empty() || !text.bytes().all(|b| b.is_ascii_digit()) {
        return Err("it is no whole number".to_string());
    }
    Ok(text.parse().unwrap_or(u32::MAX))
}

impl Sample {
    fn at(mut self, line: u64) -> Self {
        self.line = line;
        self
    }

    /// Where it stood and what it is for.
    pub fn place(&self) -> String {
        let what = format!("schema {}, column {}, {}", self.schema, self.column, time::date(self.stamp));
        if self.line == 0 { what } else { format!("line {} ({what})", self.line) }
    }
}

/// Which field of a CSV record is which; none: schema and column are 0.
struct Fields {
    schema: Option<usize>,
    column: Option<usize>,
    stamp: usize,
    value: usize,
    bare_ns: bool,
}

fn csv_samples(text: &str, now: u64) -> Done<Vec<Sample>> {
    let mut fields = None;
    let mut samples = Vec::new();
    for (line, text) in (1..).zip(text.lines()) {
        if text.trim().is_empty() || text.trim_start().starts_with('#') {
            continue;
        }
        let record = csv_record(text).map_err(|why| bad(line, &why))?;
        match &fields {
            None if record.iter().any(|f| f.eq_ignore_ascii_case("value")) => {
                fields = Some(named(&record).map_err(|why| bad(line, &why))?)
            }
            _ => {
                let usual = Fields { schema: Some(0), column: Some(1), stamp: 2, value: 3, bare_ns: false };
                let fields = fields.get_or_insert(usual);
                samples.push(csv_sample(&record, fields, now).map_err(|why| bad(line, &why))?.at(line));
            }
        }
    }
    Ok(samples)
}

/// Fields as they stand in their line, or made from quotes.
type Record<'a> = Vec<Cow<'a, str>>;

/// The fields of one line. A line is a record, so that the line's number is known.
fn csv_record(text: &str) -> Result<Record<'_>, String> {
    // making a reader takes longer than reading a line, and a line without quotes needs none
    if !text.contains('"') {
        return Ok(text.split(',').map(|field| field.trim().into()).collect());
    }
    read_record(text)
}

fn read_record(text: &str) -> Result<Record<'_>, String> {
    let mut build = csv::ReaderBuilder::new();
    let build = build.has_headers(false).flexible(true).trim(csv::Trim::All).buffer_capacity(text.len() + 1);
    let mut record = csv::StringRecord::new();
    build.from_reader(text.as_bytes()).read_record(&mut record).map_err(|e| e.to_string())?;
    Ok(record.iter().map(|field| field.to_string().into()).collect())
}

/// The fields by a line of names: schema, column, stamp or time or stamp_ns, value.
fn named(record: &[Cow<str>]) -> Result<Fields, String> {
    let find = |name: &str| record.iter().position(|field| field.eq_ignore_ascii_case(name));
    let exact = find("stamp_ns");
    let stamp = exact.or(find("stamp")).or(find("time")).ok_or("no field is named stamp, stamp_ns or time")?;
    let value = find("value").ok_or("no field is named value")?;
    Ok(Fields { schema: find("schema"), column: find("column"), stamp, value, bare_ns: exact.is_some() })
}

fn csv_sample(record: &[Cow<str>], fields: &Fields, now: u64) -> Result<Sample, String> {
    let field = |at: Option<usize>, name: &str| match at {
        None => Ok("0"),
        Some(at) => record.get(at).map(Cow::as_ref).ok_or_else(|| format!("{name} is missing")),
    };
    let most = [fields.schema, fields.column, Some(fields.stamp), Some(fields.value)].into_iter().flatten().max();
    if fields.schema == Some(0) && fields.value == 3 && most == Some(3) && record.len() > 4 {
        return Err(format!("one field too many: '{}'", &record[4]));
    }
    let stamp = field(Some(fields.stamp), "STAMP")?;
    let stamp: Cow<str> = if fields.bare_ns { [stamp, "ns"].concat().into() } else { stamp.into() };
    let (schema, column) = (field(fields.schema, "SCHEMA")?, field(fields.column, "COLUMN")?);
    sample(&[schema, column, &stamp, field(Some(fields.value), "VALUE")?], now)
}

#[cfg(test)]
mod tests {
    use super::*;

    #[test]
    fn a_line_without_quotes_is_split_as_the_reader_does() {
        for line in [
            "0,0,5s,1",
            " 0 ,\t0, 5 s ,1 ",
            "a",
            "a,",
            ",a",
            ",",
            ",,",
            "a,,b",
            "a'b,c\\,d;e",
            "\u{a0}é ,\u{2003}1",
            "#,1",
            "a b,c",
        ] {
            assert_eq!(csv_record(line), read_record(line), "{line}");
            assert_eq!(csv_record(line).unwrap().len(), line.matches(',').count() + 1);
        }
        assert_eq!(csv_record("\"a,b\",c").unwrap(), vec!["a,b", "c"]);
    }
}
