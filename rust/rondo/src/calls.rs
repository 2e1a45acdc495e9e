//! The calls of librondo.a as c/include/rondo.h has them, each behind a safe function. All unsafe code of the crate is here.
//!
//! The library may be handed any bytes and any numbers. What it asks (`SAFETY` below: "slices") is that a pointer and a length
//! describe memory of the caller's that does not overlap with the call's other blocks and that nothing else changes meanwhile.
//! Slices and references give that: a `&mut` is alone, and a slice of no bytes has a pointer that is not null.

use crate::{Entry, Refusal, SeriesHandle, ServiceFigure};

/// A query's answer: `struct rondo_answer`.
#[repr(C)]
#[derive(Clone, Copy, Default)]
pub(crate) struct Answer {
    pub(crate) tier: u64,
    pub(crate) oldest: u64,
    pub(crate) newest: u64,
    pub(crate) start: u64,
    pub(crate) end: u64,
    pub(crate) incomplete: u64,
    pub(crate) column: u64,
    pub(crate) from: u64,
    pub(crate) to: u64,
    pub(crate) place: Place,
}

/// Where a reader stands: `struct rondo_place`.
#[repr(C)]
#[derive(Clone, Copy, Default)]
pub(crate) struct Place {
    pub(crate) slot: u64,
    pub(crate) left: u64,
}

// an entry's bytes are those of section 7: schema, column, value
const _: () = assert!(size_of::<Entry>() == 16 && size_of::<Answer>() == 88);

mod raw {
    use super::{Answer, Place};

    unsafe extern "C" {
        pub(super) fn rondo_image_size(plan: *const u8, plan_len: usize, size: &mut u64) -> u32;
        pub(super) fn rondo_create(plan: *const u8, plan_len: usize, image: *mut u8, image_len: usize, flags: &mut u32) -> u32;
        pub(super) fn rondo_open(image: *const u8, image_len: usize, flags: &mut u32) -> u32;
        pub(super) fn rondo_record(
            image: *mut u8, image_len: usize, flags: &mut u32, schema: u32, column: u32, value: u64, stamp: u64,
        ) -> u32;
        pub(super) fn rondo_record_batch(
            image: *mut u8, image_len: usize, flags: &mut u32, entries: *const u8, entries_len: usize, stamp: u64,
        ) -> u32;
        pub(super) fn rondo_query(
            image: *const u8, image_len: usize, flags: u32, schema: u32, column: u32, tier: u32, start: u64, end: u64,
            answer: &mut Answer,
        ) -> u32;
        pub(super) fn rondo_query_auto(
            image: *const u8, image_len: usize, flags: u32, schema: u32, column: u32, start: u64, end: u64, answer: &mut Answer,
        ) -> u32;
        pub(super) fn rondo_read(
            slab: *const u8, slab_len: usize, column: u32, start: u64, end: u64, place: &mut Place, words: *mut u64,
            words_len: usize,
        ) -> usize;
        pub(super) fn rondo_panel(
            image: *const u8, image_len: usize, flags: u32, schema: u32, column: u32, tier: u32, shown: &mut u32,
            figure: &mut i64,
        ) -> u32;
        pub(super) fn rondo_service(
            image: *const u8, image_len: usize, flags: u32, schema: u32, column: u32, tier: u32, figure: &mut [u64; 5],
        ) -> u32;
        pub(super) fn rondo_consolidate(image: *mut u8, image_len: usize, flags: &mut u32, count: &mut u64) -> u32;
    }
}

/// A number as the library answers it. No other number than 0 to 18 is ever answered: that is proved of it.
fn accepted(number: u32) -> Result<(), Refusal> {
    match (number, Refusal::from_number(number)) {
        (0, _) => Ok(()),
        (_, Some(refusal)) => Err(refusal),
        (_, None) => panic!("librondo.a is not the library that this crate was written for: it answered {number}"),
    }
}

pub(crate) fn image_size(plan: &[u8]) -> Result<u64, Refusal> {
    let mut size = 0;
    // SAFETY: slices
    accepted(unsafe { raw::rondo_image_size(plan.as_ptr(), plan.len(), &mut size) })?;
    Ok(size)
}

pub(crate) fn create(plan: &[u8], image: &mut [u8], flags: &mut u32) -> Result<(), Refusal> {
    // SAFETY: slices
    accepted(unsafe { raw::rondo_create(plan.as_ptr(), plan.len(), image.as_mut_ptr(), image.len(), flags) })
}

pub(crate) fn open(image: &[u8], flags: &mut u32) -> Result<(), Refusal> {
    // SAFETY: slices
    accepted(unsafe { raw::rondo_open(image.as_ptr(), image.len(), flags) })
}

pub(crate) fn record(image: &mut [u8], flags: &mut u32, entry: Entry, stamp: u64) -> Result<(), Refusal> {
    let (schema, column, bits) = (entry.handle.schema, entry.handle.column, entry.value.to_bits());
    // SAFETY: slices
    accepted(unsafe { raw::rondo_record(image.as_mut_ptr(), image.len(), flags, schema, column, bits, stamp) })
}

pub(crate) fn record_batch(image: &mut [u8], flags: &mut u32, entries: &[Entry], stamp: u64) -> Result<(), Refusal> {
    let (at, len) = (entries.as_ptr().cast::<u8>(), size_of_val(entries));
    // SAFETY: slices; an entry is 16 bytes without a gap, in the order that the library reads
    accepted(unsafe { raw::rondo_record_batch(image.as_mut_ptr(), image.len(), flags, at, len, stamp) })
}

/// What a query asks for: a series, and the stamps from `start` up to `end`.
#[derive(Clone, Copy)]
pub(crate) struct Asked {
    pub(crate) schema: u32,
    pub(crate) column: u32,
    pub(crate) start: u64,
    pub(crate) end: u64,
}

pub(crate) fn query(image: &[u8], flags: u32, ask: Asked, tier: u32) -> Result<Answer, Refusal> {
    let Asked { schema, column, start, end } = ask;
    let (at, len, mut answer) = (image.as_ptr(), image.len(), Answer::default());
    // SAFETY: slices
    accepted(unsafe { raw::rondo_query(at, len, flags, schema, column, tier, start, end, &mut answer) })?;
    Ok(answer)
}

pub(crate) fn query_auto(image: &[u8], flags: u32, ask: Asked) -> Result<Answer, Refusal> {
    let Asked { schema, column, start, end } = ask;
    let (at, len, mut answer) = (image.as_ptr(), image.len(), Answer::default());
    // SAFETY: slices
    accepted(unsafe { raw::rondo_query_auto(at, len, flags, schema, column, start, end, &mut answer) })?;
    Ok(answer)
}

/// Stores the next points of an answer's reader, at most as many as there is room for, moves its place, answers how many.
pub(crate) fn read(slab: &[u8], answer: &mut Answer, points: &mut [[u64; 2]]) -> usize {
    let (column, start, end) = (answer.column as u32, answer.start, answer.end);
    let words = points.as_flattened_mut();
    let (at, len, place) = (words.as_mut_ptr(), words.len(), &mut answer.place);
    // SAFETY: slices
    unsafe { raw::rondo_read(slab.as_ptr(), slab.len(), column, start, end, place, at, len) }
}

/// The panel's figure; none where there is no point.
pub(crate) fn panel(image: &[u8], flags: u32, handle: SeriesHandle, tier: u32) -> Result<Option<i64>, Refusal> {
    let SeriesHandle { schema, column } = handle;
    let (at, len, mut shown, mut figure) = (image.as_ptr(), image.len(), 0, 0);
    // SAFETY: slices
    accepted(unsafe { raw::rondo_panel(at, len, flags, schema, column, tier, &mut shown, &mut figure) })?;
    Ok((shown != 0).then_some(figure))
}

/// The service figure; none where there is no point.
pub(crate) fn service(image: &[u8], flags: u32, handle: SeriesHandle, tier: u32) -> Result<Option<ServiceFigure>, Refusal> {
    let SeriesHandle { schema, column } = handle;
    let (at, len, mut figure) = (image.as_ptr(), image.len(), [0; 5]);
    // SAFETY: slices
    accepted(unsafe { raw::rondo_service(at, len, flags, schema, column, tier, &mut figure) })?;
    let [present, stamp, bits, oldest, newest] = figure;
    Ok((present != 0).then_some(ServiceFigure { stamp, value: f64::from_bits(bits), oldest, newest }))
}

pub(crate) fn consolidate(image: &mut [u8], flags: &mut u32) -> Result<u64, Refusal> {
    let mut count = 0;
    // SAFETY: slices
    accepted(unsafe { raw::rondo_consolidate(image.as_mut_ptr(), image.len(), flags, &mut count) })?;
    Ok(count)
}
