//! A picture as PNG: four colours, two bits a pixel, not compressed.

use crate::font;
use crate::picture::{Anchor, Colour, HEIGHT, Shape, WIDTH};

const PALETTE: [u8; 12] = [255, 255, 255, 216, 216, 216, 0, 0, 0, 31, 95, 191];

/// The pixels, a colour each.
struct Canvas(Vec<u8>);

impl Canvas {
    fn put(&mut self, x: i32, y: i32, colour: Colour) {
        if (0..WIDTH).contains(&x) && (0..HEIGHT).contains(&y) {
            self.0[(y * WIDTH + x) as usize] = colour as u8;
        }
    }

    fn line(&mut self, from: (i32, i32), to: (i32, i32), colour: Colour) {
        let (dx, dy) = (to.0 - from.0, to.1 - from.1);
        let steps = dx.abs().max(dy.abs()).max(1);
        for step in 0..=steps {
            let along = |d: i32| (f64::from(d) * f64::from(step) / f64::from(steps)).round() as i32;
            self.put(from.0 + along(dx), from.1 + along(dy), colour);
        }
    }

    fn text(&mut self, at: (i32, i32), anchor: Anchor, text: &str) {
        let width = font::ADVANCE * text.chars().count() as i32;
        let left = match anchor {
            Anchor::Start => at.0,
            Anchor::Middle => at.0 - width / 2,
            Anchor::End => at.0 - width,
        };
        for (i, letter) in (0..).zip(text.chars()) {
            for (y, row) in (0..).zip(font::glyph(letter)) {
                for x in (0..5).filter(|x| row >> (4 - x) & 1 == 1) {
                    self.put(left + i * font::ADVANCE + x, at.1 - 7 + y, Colour::Ink);
                }
            }
        }
    }

    fn draw(&mut self, shape: &Shape) {
        match shape {
            Shape::Line { from, to, colour } => self.line(*from, *to, *colour),
            Shape::Dot { at } => {
                for (x, y) in [(0, 0), (1, 0), (-1, 0), (0, 1), (0, -1)] {
                    self.put(at.0 + x, at.1 + y, Colour::Curve);
                }
            }
            Shape::Text { at, anchor, text } => self.text(*at, *anchor, text),
        }
    }

    /// The rows as PNG has them: a byte for the filter, none, then four pixels a byte.
    fn rows(&self) -> Vec<u8> {
        let mut out = Vec::new();
        for row in self.0.chunks(WIDTH as usize) {
            out.push(0);
            out.extend(row.chunks(4).map(|four| four.iter().fold(0, |byte, pixel| byte << 2 | pixel)));
        }
        out
    }
}

pub fn encoded(shapes: &[Shape]) -> Vec<u8> {
    let mut canvas = Canvas(vec![Colour::Paper as u8; (WIDTH * HEIGHT) as usize]);
    shapes.iter().for_each(|shape| canvas.draw(shape));
    let mut out = b"\x89PNG\r\n\x1a\n".to_vec();
    let mut head = Vec::new();
    head.extend((WIDTH as u32).to_be_bytes());
    head.extend((HEIGHT as u32).to_be_bytes());
    head.extend([2, 3, 0, 0, 0]);
    chunk(&mut out, b"IHDR", &head);
    chunk(&mut out, b"PLTE", &PALETTE);
    chunk(&mut out, b"IDAT", &stored(&canvas.rows()));
    chunk(&mut out, b"IEND", &[]);
    out
}

fn chunk(out: &mut Vec<u8>, name: &[u8; 4], data: &[u8]) {
    out.extend((data.len() as u32).to_be_bytes());
    let start = out.len();
    out.extend(name);
    out.extend(data);
    let sum = crc(&out[start..]);
    out.extend(sum.to_be_bytes());
}

/// The bytes as a zlib stream of stored blocks.
fn stored(bytes: &[u8]) -> Vec<u8> {
    let mut out = vec![0x78, 0x01];
    let blocks = bytes.chunks(65_535);
    let last = blocks.len().saturating_sub(1);
    for (i, block) in blocks.enumerate() {
        let length = block.len() as u16;
        out.push(u8::from(i == last));
        out.extend(length.to_le_bytes());
        out.extend((!length).to_le_bytes());
        out.extend(block);
    }
    out.extend(adler(bytes).to_be_bytes());
    out
}

fn adler(bytes: &[u8]) -> u32 {
    let (a, b) = bytes.iter().fold((1u32, 0u32), |(a, b), byte| {
        let a = (a + u32::from(*byte)) % 65_521;
        (a, (b + a) % 65_521)
    });
    b << 16 | a
}

fn crc(bytes: &[u8]) -> u32 {
    let bit = |sum: u32| if sum & 1 == 1 { sum >> 1 ^ 0xedb8_8320 } else { sum >> 1 };
    !bytes.iter().fold(!0u32, |sum, byte| (0..8).fold(sum ^ u32::from(*byte), |sum, _| bit(sum)))
}
