//! A picture as SVG.

use std::fmt::Write;

use crate::picture::{Anchor, Colour, HEIGHT, Shape, WIDTH};

pub fn encoded(shapes: &[Shape]) -> Vec<u8> {
    let mut out = format!(
        "<svg xmlns=\"http://www.w3.org/2000/svg\" width=\"{WIDTH}\" height=\"{HEIGHT}\" viewBox=\"0 0 {WIDTH} {HEIGHT}\">\n\
         <rect width=\"100%\" height=\"100%\" fill=\"white\"/>\n<g font-family=\"monospace\" font-size=\"11\" stroke-width=\"1\">\n"
    );
    shapes.iter().for_each(|shape| add(&mut out, shape));
    out.push_str("</g>\n</svg>\n");
    out.into_bytes()
}

fn add(out: &mut String, shape: &Shape) {
    let _ = match shape {
        Shape::Line { from, to, colour } => {
            let (x1, y1, x2, y2) = (from.0, from.1, to.0, to.1);
            writeln!(out, "<line x1=\"{x1}\" y1=\"{y1}\" x2=\"{x2}\" y2=\"{y2}\" stroke=\"{}\"/>", name(*colour))
        }
        Shape::Dot { at } => {
            writeln!(out, "<circle cx=\"{}\" cy=\"{}\" r=\"1.5\" fill=\"{}\"/>", at.0, at.1, name(Colour::Curve))
        }
        Shape::Text { at, anchor, text } => {
            let anchor = match anchor {
                Anchor::Start => "start",
                Anchor::Middle => "middle",
                Anchor::End => "end",
            };
            let text = text.replace('&', "&amp;").replace('<', "&lt;").replace('>', "&gt;");
            writeln!(out, "<text x=\"{}\" y=\"{}\" text-anchor=\"{anchor}\">{text}</text>", at.0, at.1)
        }
    };
}

fn name(colour: Colour) -> &'static str {
    match colour {
        Colour::Paper => "#ffffff",
        Colour::Grid => "#d8d8d8",
        Colour::Ink => "#000000",
        Colour::Curve => "#1f5fbf",
    }
}
