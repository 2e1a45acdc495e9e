//! Plans from words: `series M tier INTERVAL RETENTION [FUNCTION] tier .. [schema series M tier ..]`.

use rondo::{ConsolidationFn, MAX_SCHEMAS, MAX_TIERS, Plan, TierConfig};

use crate::failure::{Done, Failure};
use crate::table::FUNCTIONS;
use crate::{input, time};

/// The words that are left, and how to say what was expected.
struct Words<'a> {
    left: std::iter::Peekable<std::slice::Iter<'a, String>>,
}

impl Words<'_> {
    fn next(&mut self, expected: &str) -> Done<&str> {
        let word = self.left.next().ok_or_else(|| Failure::usage(format!("the plan ends: expected {expected}")))?;
        Ok(word)
    }

    fn word(&mut self, must: &str) -> Done {
        let word = self.next(&format!("the word {must}"))?;
        if word == must { Ok(()) } else { Err(Failure::usage(format!("'{word}': expected the word {must}"))) }
    }

    fn span(&mut self, what: &str) -> Done<u64> {
        let word = self.next(what)?;
        time::span(word).map_err(|why| Failure::usage(format!("'{word}': expected {what}: {why}")))
    }

    fn peek(&mut self) -> Option<&str> {
        self.left.peek().map(|w| w.as_str())
    }
}

pub fn read(words: &[String]) -> Done<Plan> {
    let mut words = Words { left: words.iter().peekable() };
    let mut plan = Plan::new();
    loop {
        words.word("series")?;
        let text = words.next("a number of series")?;
        let series = input::number(text).ok().and(text.parse().ok());
        let series = series.ok_or_else(|| Failure::usage(format!("'{text}': expected a number of series")))?;
        let tiers = tiers(&mut words)?;
        plan = plan.schema(series, hash(series, &tiers), &tiers);
        if plan.schema_count() > MAX_SCHEMAS {
            return Err(Failure::usage(format!("an image has at most {MAX_SCHEMAS} schemas")));
        }
        if plan.tier_count() > MAX_TIERS {
            return Err(Failure::usage(format!("an image has at most {MAX_TIERS} tiers")));
        }
        if words.peek().is_none() {
            return Ok(plan);
        }
        words.word("schema")?;
    }
}

fn tiers(words: &mut Words) -> Done<Vec<TierConfig>> {
    let mut tiers = Vec::new();
    loop {
        words.word("tier")?;
        let interval = words.span("an interval")?;
        let retention = words.span("a retention")?;
        let function = match words.peek() {
            None | Some("tier" | "schema") => None,
            Some(_) => Some(function(words.next("a function")?)?),
        };
        tiers.push(TierConfig::from_nanos(interval, retention, function));
        if matches!(words.peek(), None | Some("schema")) {
            return Ok(tiers);
        }
    }
}

fn function(word: &str) -> Done<ConsolidationFn> {
    let number = FUNCTIONS.iter().position(|name| *name == word);
    let found = number.and_then(|number| ConsolidationFn::from_number(number as u32));
    let expected = "expected average, min, max, last, sum, count, or the next tier or schema";
    found.ok_or_else(|| Failure::usage(format!("'{word}': {expected}")))
}

/// The schema's hash: FNV-1a of 32 bits over interval, retention, function and series of each tier.
fn hash(series: u32, tiers: &[TierConfig]) -> u64 {
    let mut hash = 0x811c_9dc5u32;
    let mut add = |bytes: &[u8]| bytes.iter().for_each(|b| hash = (hash ^ u32::from(*b)).wrapping_mul(0x0100_0193));
    for tier in tiers {
        add(&tier.interval_ns.to_le_bytes());
        add(&tier.retention_ns.to_le_bytes());
        add(&tier.consolidation_fn.map_or(0, ConsolidationFn::number).to_le_bytes());
        add(&series.to_le_bytes());
    }
    u64::from(hash)
}
