//! Plots: in the terminal, or into a picture.

use std::path::Path;

use crate::cli::Asked;
use crate::failure::{Done, Failure};
use crate::picture::{self, Shape};
use crate::reading::{Answer, ask, bold, heading};
use crate::time::date;
use crate::{file, png, svg, value};

const WIDTH: usize = 64;
const HEIGHT: usize = 16;

/// The least and the greatest stamp and value.
pub struct Ends {
    pub times: (u64, u64),
    pub values: (f64, f64),
}

impl Ends {
    pub fn of(points: &[(u64, f64)]) -> Option<Ends> {
        let times = (points.iter().map(|p| p.0).min()?, points.iter().map(|p| p.0).max()?);
        let least = points.iter().map(|p| p.1).fold(f64::INFINITY, f64::min);
        let most = points.iter().map(|p| p.1).fold(f64::NEG_INFINITY, f64::max);
        Some(Ends { times, values: (least, most) })
    }

    /// How far a stamp lies between the ends, 0 to 1.
    pub fn across(&self, stamp: u64) -> f64 {
        let span = self.times.1 - self.times.0;
        if span == 0 { 0.5 } else { (stamp - self.times.0) as f64 / span as f64 }
    }

    /// How far a value lies between the ends, 0 to 1. Halves, so that no difference overflows.
    pub fn up(&self, value: f64) -> f64 {
        let span = self.values.1 / 2.0 - self.values.0 / 2.0;
        if span > 0.0 && span.is_finite() { (value / 2.0 - self.values.0 / 2.0) / span } else { 0.5 }
    }

    pub fn middle(&self) -> f64 {
        self.values.0 / 2.0 + self.values.1 / 2.0
    }
}

/// Draws a series: as text, or into a picture.
pub fn plot(asked: &Asked, out: Option<&Path>, wait: u64) -> Done<String> {
    let encoded = match out {
        None => None,
        Some(name) => Some((name, encoder(name)?)),
    };
    let mut answer = ask(asked)?;
    answer.points.retain(|(_, v)| v.is_finite());
    let Some((name, encoded)) = encoded else { return Ok(drawn(&answer)) };
    let title =
        format!("schema {}, column {}, tier {}, points: {}", asked.schema, asked.column, answer.tier, answer.points.len());
    let bytes = encoded(&picture::shapes(&title, &answer.points));
    file::put(name, &bytes, wait)?;
    Ok(format!("drawn, points: {}\n", answer.points.len()))
}

type Encoder = fn(&[Shape]) -> Vec<u8>;

/// How a picture is written, by its name's ending.
fn encoder(name: &Path) -> Done<Encoder> {
    match name.extension().and_then(|e| e.to_str()) {
        Some("svg") => Ok(svg::encoded),
        Some("png") => Ok(png::encoded),
        _ => Err(Failure::usage(format!("{}: a picture's name ends with .svg or .png", name.display()))),
    }
}

/// The plot as text.
fn drawn(answer: &Answer) -> String {
    let mut out = bold(&heading(answer));
    let Some(ends) = Ends::of(&answer.points) else {
        out.push_str("no points\n");
        return out;
    };
    let mut grid = vec![[b' '; WIDTH]; HEIGHT];
    for (stamp, v) in &answer.points {
        let x = (ends.across(*stamp) * (WIDTH - 1) as f64).round() as usize;
        let y = (ends.up(*v) * (HEIGHT - 1) as f64).round() as usize;
        grid[HEIGHT - 1 - y.min(HEIGHT - 1)][x.min(WIDTH - 1)] = b'*';
    }
    for (y, line) in grid.iter().enumerate() {
        let label = match y {
            0 => value::text(ends.values.1),
            y if y == HEIGHT / 2 => value::text(ends.middle()),
            y if y == HEIGHT - 1 => value::text(ends.values.0),
            _ => String::new(),
        };
        let mark = if label.is_empty() { '|' } else { '+' };
        let text = format!("{label:>24} {mark}{}", String::from_utf8_lossy(line));
        out.push_str(text.trim_end());
        out.push('\n');
    }
    out.push_str(&axis(&ends, answer.points.len()));
    out
}

/// The axis of time: a mark and a date at its ends and in its middle.
fn axis(ends: &Ends, points: usize) -> String {
    let (first, last) = ends.times;
    let (left, right) = (date(first), date(last));
    let middle = date(first + (last - first) / 2);
    let half = WIDTH / 2 - 1;
    let marks = format!("{:24} ++{}+{}+\n", "", "-".repeat(half - 1), "-".repeat(WIDTH - half - 2));
    format!(
        "{marks}{:26}{left}{}{right}\n{:26}middle {middle}, {points} points\n",
        "",
        " ".repeat(WIDTH.saturating_sub(left.len() + right.len()).max(1)),
        ""
    )
}
