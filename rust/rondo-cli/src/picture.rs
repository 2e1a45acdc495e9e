//! A plot as lines and texts, for a picture of any form.

use crate::plot::Ends;
use crate::time::date;
use crate::{ticks, value};

pub const WIDTH: i32 = 960;
pub const HEIGHT: i32 = 400;
const LEFT: i32 = 170;
const RIGHT: i32 = WIDTH - 100;
const TOP: i32 = 40;
const BOTTOM: i32 = HEIGHT - 50;

#[derive(Clone, Copy, PartialEq)]
pub enum Colour {
    Paper = 0,
    Grid = 1,
    Ink = 2,
    Curve = 3,
}

/// Where a text stands beside its point.
#[derive(Clone, Copy, PartialEq)]
pub enum Anchor {
    Start,
    Middle,
    End,
}

pub enum Shape {
    Line { from: (i32, i32), to: (i32, i32), colour: Colour },
    Dot { at: (i32, i32) },
    Text { at: (i32, i32), anchor: Anchor, text: String },
}

/// The shapes of a plot.
pub fn shapes(title: &str, points: &[(u64, f64)]) -> Vec<Shape> {
    let mut all = vec![Shape::Text { at: (LEFT, TOP - 18), anchor: Anchor::Start, text: title.to_string() }];
    let Some(ends) = Ends::of(points) else { return all };
    grid(&mut all, &ends);
    let places: Vec<(i32, i32)> = points.iter().map(|(stamp, v)| (across(&ends, *stamp), up(&ends, *v))).collect();
    for pair in places.windows(2) {
        all.push(Shape::Line { from: pair[0], to: pair[1], colour: Colour::Curve });
    }
    all.extend(places.iter().map(|at| Shape::Dot { at: *at }));
    all
}

fn across(ends: &Ends, stamp: u64) -> i32 {
    LEFT + (ends.across(stamp) * f64::from(RIGHT - LEFT)).round() as i32
}

fn up(ends: &Ends, v: f64) -> i32 {
    BOTTOM - (ends.up(v) * f64::from(BOTTOM - TOP)).round() as i32
}

/// Lines and labels, at round values and times.
fn grid(all: &mut Vec<Shape>, ends: &Ends) {
    for v in ticks::values(ends.values.0, ends.values.1) {
        let (y, text) = (up(ends, v), value::text(v));
        all.push(Shape::Line { from: (LEFT, y), to: (RIGHT, y), colour: Colour::Grid });
        all.push(Shape::Text { at: (LEFT - 8, y + 4), anchor: Anchor::End, text });
    }
    for stamp in ticks::times(ends.times.0, ends.times.1) {
        let x = across(ends, stamp);
        all.push(Shape::Line { from: (x, TOP), to: (x, BOTTOM + 5), colour: Colour::Grid });
        all.push(Shape::Text { at: (x, BOTTOM + 22), anchor: Anchor::Middle, text: date(stamp) });
    }
    all.push(Shape::Line { from: (LEFT, TOP), to: (LEFT, BOTTOM), colour: Colour::Ink });
    all.push(Shape::Line { from: (LEFT, BOTTOM), to: (RIGHT, BOTTOM), colour: Colour::Ink });
}
