//! The sides that can be set beside each other.

use std::panic::{AssertUnwindSafe, catch_unwind};
use std::path::PathBuf;

use crate::calls::{Answer, Call, Cell, Kind, Plan, Side, State, entry_bytes};
use crate::edge::Edge;
use crate::plain::{self, Flags, HEADER, ROW};

/// The Rust as published but for the line of request 2026-01.
pub mod published {
    use rondo as rust;
    include!("rust_side.rs");
}

/// The same with an ordered map: where hash order decides, this outcome is document 01's.
pub mod ordered {
    use rondo_ordered as rust;
    include!("rust_side.rs");
}

/// All sides but the plain one, which leads.
pub fn all() -> Vec<Box<dyn Side>> {
    vec![
        Box::new(Lent::new("library", Edge)),
        Box::new(ordered::Rust::new("ordered", Kind::Store)),
        Box::new(ordered::Rust::new("engine", Kind::Engine)),
        Box::new(published::Rust::new("published", Kind::Store)),
    ]
}

/// Document 01's calls on lent bytes, and request 2026-04's. 0 is accepted, else the refusal's number.
pub trait Library {
    fn create(&self, plan: &[u8], image: &mut [u8], flags: &mut Flags) -> u32;
    fn open(&self, image: &[u8], flags: &mut Flags) -> u32;
    /// `sample` is schema, column, value pattern, stamp.
    fn record(&self, image: &mut [u8], flags: &mut Flags, sample: (u32, u32, u64, u64)) -> u32;
    fn record_batch(&self, image: &mut [u8], flags: &mut Flags, entries: &[u8], stamp: u64) -> u32;
    /// `tier` none is `query_auto`. The points are what the reader hands out up to its end.
    fn query(
        &self,
        image: &[u8],
        flags: &Flags,
        handle: (u32, u32),
        tier: Option<u32>,
        range: (u64, u64),
    ) -> Answer;
    fn panel(&self, image: &[u8], flags: &Flags, handle: (u32, u32), tier: u32) -> Answer;
    fn service(&self, image: &[u8], flags: &Flags, handle: (u32, u32), tier: u32) -> Answer;
    /// One step of a reader made by hand.
    fn next(&self, slab: &[u8], column: u32, range: (u64, u64), place: (u64, u64)) -> Answer;
    fn consolidate(&self, image: &mut [u8], flags: &mut Flags) -> Answer;
}

/// The plain reading of document 01.
#[derive(Clone, Copy)]
pub struct Plain;

impl Library for Plain {
    fn create(&self, plan: &[u8], image: &mut [u8], flags: &mut Flags) -> u32 {
        plain::create(plan, image, flags).err().unwrap_or(0)
    }

    fn open(&self, image: &[u8], flags: &mut Flags) -> u32 {
        plain::open(image, flags).err().unwrap_or(0)
    }

    fn record(&self, image: &mut [u8], flags: &mut Flags, sample: (u32, u32, u64, u64)) -> u32 {
        plain::record(image, flags, sample).err().unwrap_or(0)
    }

    fn record_batch(&self, image: &mut [u8], flags: &mut Flags, entries: &[u8], stamp: u64) -> u32 {
        plain::record_batch(image, flags, entries, stamp).err().unwrap_or(0)
    }

    fn query(
        &self,
        image: &[u8],
        flags: &Flags,
        (schema, column): (u32, u32),
        tier: Option<u32>,
        range: (u64, u64),
    ) -> Answer {
        let found = match tier {
            Some(tier) => plain::query(image, flags, schema, column, tier, range),
            None => plain::query_auto(image, flags, schema, column, range),
        };
        match found {
            Err(n) => Answer::Refused(n),
            Ok(a) => Answer::Points {
                tier: a.tier,
                oldest: a.oldest,
                newest: a.newest,
                range: a.range,
                incomplete: a.incomplete,
                points: a.reader.collect(),
            },
        }
    }

    fn panel(
        &self,
        image: &[u8],
        flags: &Flags,
        (schema, column): (u32, u32),
        tier: u32,
    ) -> Answer {
        plain::panel(image, flags, schema, column, tier).map_or_else(Answer::Refused, Answer::Shown)
    }

    fn service(
        &self,
        image: &[u8],
        flags: &Flags,
        (schema, column): (u32, u32),
        tier: u32,
    ) -> Answer {
        plain::service(image, flags, schema, column, tier)
            .map_or_else(Answer::Refused, Answer::Served)
    }

    fn next(&self, slab: &[u8], column: u32, range: (u64, u64), place: (u64, u64)) -> Answer {
        let (point, place) = plain::next(slab, column, range, place);
        Answer::Stepped { point, place }
    }

    fn consolidate(&self, image: &mut [u8], flags: &mut Flags) -> Answer {
        plain::consolidate(image, flags).map_or_else(Answer::Refused, Answer::Count)
    }
}

/// A library on lent bytes as a side: it holds the image and the flags between calls.
pub struct Lent<L> {
    name: &'static str,
    library: L,
    image: Vec<u8>,
    flags: Flags,
}

/// Surplus behind the image, which no call may read or change.
pub const SURPLUS: usize = 24;

/// The flags lent to creation: what stands past R must stay.
pub fn lent_flags() -> Flags {
    std::array::from_fn(|i| i % 3 == 0)
}

/// The room that a plan's image needs, up to 256 KiB.
pub fn room(plan: &Plan) -> usize {
    let each = plan.0.iter().flat_map(|s| s.tiers.iter().map(move |t| (s.series, t)));
    let slabs: u128 = each
        .map(|(m, t)| (m as u128, t.retention.checked_div(t.interval).unwrap_or(0) as u128))
        .map(|(m, n)| 64 + 4 * m + 8 * n + 8 * n * m)
        .sum();
    HEADER + ROW * plan.rows() + slabs.min(1 << 18) as usize
}

fn answered(number: u32) -> Answer {
    if number == 0 { Answer::Done } else { Answer::Refused(number) }
}

impl<L: Library> Lent<L> {
    pub fn new(name: &'static str, library: L) -> Self {
        Self { name, library, image: Vec::new(), flags: [false; 32] }
    }
}

impl<L: Library> Side for Lent<L> {
    fn name(&self) -> &'static str {
        self.name
    }

    fn kind(&self) -> Kind {
        Kind::Whole
    }

    fn create(&mut self, plan: &Plan) -> Answer {
        self.create_from(&plan.bytes(published::hash), room(plan) + SURPLUS)
    }

    fn create_from(&mut self, plan: &[u8], room: usize) -> Answer {
        self.image = vec![0xa5; room];
        self.flags = lent_flags();
        guarded(|| answered(self.library.create(plan, &mut self.image, &mut self.flags)))
    }

    fn call(&mut self, call: &Call) -> Answer {
        let (library, image, flags) = (&self.library, &mut self.image, &mut self.flags);
        guarded(|| match call {
            &Call::Record { schema, column, value, stamp } => {
                answered(library.record(image, flags, (schema, column, value, stamp)))
            }
            Call::Batch { entries, tail, stamp } => {
                let bytes = entry_bytes(entries, *tail);
                answered(library.record_batch(image, flags, &bytes, *stamp))
            }
            &Call::Query { schema, column, tier, start, end } => {
                library.query(image, flags, (schema, column), Some(tier), (start, end))
            }
            &Call::Auto { schema, column, start, end } => {
                library.query(image, flags, (schema, column), None, (start, end))
            }
            &Call::Panel { schema, column, tier } => {
                library.panel(image, flags, (schema, column), tier)
            }
            &Call::Service { schema, column, tier } => {
                library.service(image, flags, (schema, column), tier)
            }
            &Call::Next { part, column, range, place } => {
                let to = part.1.min(image.len());
                library.next(&image[part.0.min(to)..to], column, range, place)
            }
            Call::Consolidate => library.consolidate(image, flags),
            &Call::Open { handed } => {
                *flags = handed.map_or(*flags, plain::flags_of);
                answered(library.open(image, flags))
            }
            &Call::Poke { row, cell } => {
                poke(image, row, cell);
                Answer::Done
            }
            Call::Damage { at, bytes } => {
                image[*at..*at + bytes.len()].copy_from_slice(bytes);
                Answer::Done
            }
            Call::Cut { length } => {
                image.truncate(*length);
                Answer::Done
            }
        })
    }

    fn state(&self) -> State<'_> {
        let mut state = split(&self.image, &self.flags);
        state.lent = Some((&self.image, self.flags));
        state
    }
}

/// Writes a cell into an image's slab, or its mark into the row.
fn poke(image: &mut [u8], row: usize, cell: Cell) {
    let at = HEADER + ROW * row;
    let offset = plain::get64(image, at + 32) as usize;
    let n = plain::get64(image, at + 16) / plain::get64(image, at + 8);
    match (cell, cell.bytes(n, plain::get32(image, at + 28) as u64)) {
        (_, Some((place, bytes))) => {
            image[offset + place..offset + place + bytes.len()].copy_from_slice(&bytes);
        }
        (Cell::Mark(mark), None) => plain::put64(image, at + 48, mark),
        _ => unreachable!(),
    }
}

/// An image and its flags, row by row; nothing where the image is not in order.
pub fn split<'a>(image: &'a [u8], flags: &Flags) -> State<'a> {
    let mut state = State::default();
    let rows = if image.len() < HEADER { 0 } else { plain::get32(image, 12) as usize };
    if rows > 32 || image.len() < HEADER + ROW * rows {
        return state;
    }
    for (i, &flag) in flags.iter().enumerate().take(rows) {
        let at = HEADER + ROW * i;
        let (offset, length) = (plain::get64(image, at + 32), plain::get64(image, at + 40));
        let place = offset as usize..offset.saturating_add(length) as usize;
        state.slabs.push(image.get(place).unwrap_or(&[]));
        state.flags.push(flag);
        state.marks.push(plain::get64(image, at + 48));
    }
    state
}

thread_local! {
    /// Whether a side is being asked: its panics are answers and print nothing.
    static ASKING: std::cell::Cell<bool> = const { std::cell::Cell::new(false) };
}

/// Keeps the panics of sides quiet and leaves the driver's own as they are.
pub fn quiet_sides() {
    let usual = std::panic::take_hook();
    std::panic::set_hook(Box::new(move |info| {
        if !ASKING.get() {
            usual(info);
        }
    }));
}

/// A call that comes to a stop is an answer, too.
pub fn guarded(f: impl FnOnce() -> Answer) -> Answer {
    ASKING.set(true);
    let done = catch_unwind(AssertUnwindSafe(f));
    ASKING.set(false);
    done.unwrap_or_else(|e| {
        let text = e.downcast_ref::<String>().cloned();
        let text = text.or_else(|| e.downcast_ref::<&str>().map(|s| s.to_string()));
        Answer::Panicked(text.unwrap_or_default())
    })
}

/// A folder in memory for a side's files.
pub fn scratch(name: &str) -> PathBuf {
    let base = std::env::var("ORACLE_DIR").unwrap_or_else(|_| "/dev/shm".to_string());
    let thread = format!("{:?}", std::thread::current().id()).replace(['(', ')'], "-");
    let id = format!("rondo-oracle-{}-{thread}{name}", std::process::id());
    let dir = PathBuf::from(base).join(id);
    let _ = std::fs::remove_dir_all(&dir);
    std::fs::create_dir_all(&dir).expect("a folder for the Rust's files");
    dir
}
