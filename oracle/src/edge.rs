//! The proved library, through librondo.a (c/include/rondo.h).

use crate::calls::Answer;
use crate::plain::{Figure, Flags, flags_of, get64};
use crate::sides::Library;

unsafe extern "C" {
    fn rondo_image_size(plan: *const u8, plan_len: usize, size: *mut u64) -> u32;
    fn rondo_create(
        plan: *const u8,
        plan_len: usize,
        image: *mut u8,
        image_len: usize,
        flags: *mut u32,
    ) -> u32;
    fn rondo_open(image: *const u8, image_len: usize, flags: *mut u32) -> u32;
    fn rondo_record(
        image: *mut u8,
        image_len: usize,
        flags: *mut u32,
        schema: u32,
        column: u32,
        value: u64,
        stamp: u64,
    ) -> u32;
    fn rondo_record_batch(
        image: *mut u8,
        image_len: usize,
        flags: *mut u32,
        entries: *const u8,
        entries_len: usize,
        stamp: u64,
    ) -> u32;
    fn rondo_query(
        image: *const u8,
        image_len: usize,
        flags: u32,
        schema: u32,
        column: u32,
        tier: u32,
        start: u64,
        end: u64,
        answer: *mut [u64; 11],
    ) -> u32;
    fn rondo_query_auto(
        image: *const u8,
        image_len: usize,
        flags: u32,
        schema: u32,
        column: u32,
        start: u64,
        end: u64,
        answer: *mut [u64; 11],
    ) -> u32;
    fn rondo_panel(
        image: *const u8,
        image_len: usize,
        flags: u32,
        schema: u32,
        column: u32,
        tier: u32,
        shown: *mut u32,
        figure: *mut i64,
    ) -> u32;
    fn rondo_service(
        image: *const u8,
        image_len: usize,
        flags: u32,
        schema: u32,
        column: u32,
        tier: u32,
        figure: *mut [u64; 5],
    ) -> u32;
    fn rondo_next(
        slab: *const u8,
        slab_len: usize,
        column: u32,
        start: u64,
        end: u64,
        place: *mut [u64; 2],
        point: *mut [u64; 2],
    ) -> u32;
    fn rondo_read(
        slab: *const u8,
        slab_len: usize,
        column: u32,
        start: u64,
        end: u64,
        place: *mut [u64; 2],
        words: *mut u64,
        words_len: usize,
    ) -> usize;
    fn rondo_consolidate(image: *mut u8, image_len: usize, flags: *mut u32, count: *mut u64)
    -> u32;
}

#[derive(Clone, Copy)]
pub struct Edge;

/// What stands in a lent word before a call: a refusal must leave it.
const LENT: u64 = 0x5eed_5eed_5eed_5eed;

fn number(flags: &Flags) -> u32 {
    flags.iter().enumerate().map(|(i, &f)| (f as u32) << i).sum()
}

/// Lends the flags as a number, and takes them back.
fn lending(flags: &mut Flags, call: impl FnOnce(&mut u32) -> u32) -> u32 {
    let mut lent = number(flags);
    let answer = call(&mut lent);
    *flags = flags_of(lent);
    answer
}

fn step(slab: &[u8], column: u32, range: (u64, u64), place: &mut [u64; 2]) -> Option<(u64, u64)> {
    let mut point = [LENT; 2];
    let (p, len) = (slab.as_ptr(), slab.len());
    let more = unsafe { rondo_next(p, len, column, range.0, range.1, place, &mut point) };
    assert!(more == 1 || (more == 0 && point == [LENT; 2]), "rondo_next: {more}, {point:x?}");
    (more == 1).then_some((point[0], point[1]))
}

/// The same points by `rondo_read`, `room` of them and an odd word at a time, up to the end or
/// `most` calls: what it stores, counts and leaves is what so many steps do.
fn read_agrees(
    slab: &[u8],
    column: u32,
    range: (u64, u64),
    from: [u64; 2],
    room: usize,
    most: u32,
) {
    let (mut stepping, mut reading) = (from, from);
    let (p, len) = (slab.as_ptr(), slab.len());
    for _ in 0..most {
        let mut words = vec![LENT; 2 * room + 1];
        let (w, size) = (words.as_mut_ptr(), words.len());
        let (start, end) = range;
        let n = unsafe { rondo_read(p, len, column, start, end, &mut reading, w, size) };
        let mut wanted = Vec::new();
        while wanted.len() < 2 * room
            && let Some((stamp, value)) = step(slab, column, range, &mut stepping)
        {
            wanted.extend([stamp, value]);
        }
        assert!(n == wanted.len() / 2, "rondo_read: {n} points, {} steps", wanted.len() / 2);
        wanted.resize(2 * room + 1, LENT);
        assert!(words == wanted && reading == stepping, "rondo_read: {words:x?}, {wanted:x?}");
        if n < room {
            return;
        }
    }
}

impl Library for Edge {
    fn create(&self, plan: &[u8], image: &mut [u8], flags: &mut Flags) -> u32 {
        let mut size = LENT;
        let sized = unsafe { rondo_image_size(plan.as_ptr(), plan.len(), &mut size) };
        let (i, len) = (image.as_mut_ptr(), image.len());
        let made =
            lending(flags, |f| unsafe { rondo_create(plan.as_ptr(), plan.len(), i, len, f) });
        let agrees = match made {
            0 => sized == 0 && size == get64(image, 16),
            9 => sized == 0 && size > len as u64,
            n => sized == n && size == LENT,
        };
        assert!(agrees, "rondo_image_size: {sized}, {size}; rondo_create: {made}");
        made
    }

    fn open(&self, image: &[u8], flags: &mut Flags) -> u32 {
        lending(flags, |f| unsafe { rondo_open(image.as_ptr(), image.len(), f) })
    }

    fn record(&self, image: &mut [u8], flags: &mut Flags, sample: (u32, u32, u64, u64)) -> u32 {
        let (schema, column, value, stamp) = sample;
        let (i, len) = (image.as_mut_ptr(), image.len());
        lending(flags, |f| unsafe { rondo_record(i, len, f, schema, column, value, stamp) })
    }

    fn record_batch(&self, image: &mut [u8], flags: &mut Flags, entries: &[u8], stamp: u64) -> u32 {
        let (i, len) = (image.as_mut_ptr(), image.len());
        let (e, entries_len) = (entries.as_ptr(), entries.len());
        lending(flags, |f| unsafe { rondo_record_batch(i, len, f, e, entries_len, stamp) })
    }

    fn query(
        &self,
        image: &[u8],
        flags: &Flags,
        (schema, column): (u32, u32),
        tier: Option<u32>,
        (start, end): (u64, u64),
    ) -> Answer {
        let (i, len, f) = (image.as_ptr(), image.len(), number(flags));
        let mut answer = [LENT; 11];
        let refused = match tier {
            Some(t) => unsafe {
                rondo_query(i, len, f, schema, column, t, start, end, &mut answer)
            },
            None => unsafe { rondo_query_auto(i, len, f, schema, column, start, end, &mut answer) },
        };
        if refused != 0 {
            assert!(answer == [LENT; 11], "a refused query changed its answer");
            return Answer::Refused(refused);
        }
        let [tier, oldest, newest, start, end, incomplete, asked, from, to, slot, left] = answer;
        assert!(asked == column as u64 && incomplete < 2, "answer {answer:x?}");
        let slab = &image[from as usize..to as usize];
        let mut place = [slot, left];
        let mut points = Vec::new();
        while let Some(point) = step(slab, column, (start, end), &mut place) {
            points.push(point);
            assert!(points.len() <= slab.len(), "a reader that does not end");
        }
        read_agrees(slab, column, (start, end), [slot, left], 1 + points.len() % 3, 1 << 20);
        let stands = |x: u64| (x != 0).then_some(x);
        Answer::Points {
            tier: tier as u32,
            oldest: stands(oldest),
            newest: stands(newest),
            range: (start, end),
            incomplete: incomplete == 1,
            points,
        }
    }

    fn panel(
        &self,
        image: &[u8],
        flags: &Flags,
        (schema, column): (u32, u32),
        tier: u32,
    ) -> Answer {
        let (i, len, f) = (image.as_ptr(), image.len(), number(flags));
        let (lent_shown, lent_figure) = (LENT as u32, LENT as i64);
        let (mut shown, mut figure) = (lent_shown, lent_figure);
        let refused =
            unsafe { rondo_panel(i, len, f, schema, column, tier, &mut shown, &mut figure) };
        match (refused, shown) {
            (0, 1) => Answer::Shown(Some(figure)),
            (0, 0) if figure == lent_figure => Answer::Shown(None),
            (1.., _) if (shown, figure) == (lent_shown, lent_figure) => Answer::Refused(refused),
            _ => panic!("rondo_panel: {refused}, shown {shown:x}, figure {figure:x}"),
        }
    }

    fn service(
        &self,
        image: &[u8],
        flags: &Flags,
        (schema, column): (u32, u32),
        tier: u32,
    ) -> Answer {
        let (i, len, f) = (image.as_ptr(), image.len(), number(flags));
        let mut figure = [LENT; 5];
        let refused = unsafe { rondo_service(i, len, f, schema, column, tier, &mut figure) };
        match (refused, figure) {
            (0, [1, stamp, value, oldest, newest]) => {
                Answer::Served(Some(Figure { stamp, value, oldest, newest }))
            }
            (0, [0, LENT, LENT, LENT, LENT]) => Answer::Served(None),
            (1.., [LENT, LENT, LENT, LENT, LENT]) => Answer::Refused(refused),
            _ => panic!("rondo_service: {refused}, {figure:x?}"),
        }
    }

    fn next(&self, slab: &[u8], column: u32, range: (u64, u64), place: (u64, u64)) -> Answer {
        let mut place = [place.0, place.1];
        read_agrees(slab, column, range, place, (place[1] % 4) as usize, 1);
        let point = step(slab, column, range, &mut place);
        Answer::Stepped { point, place: (place[0], place[1]) }
    }

    fn consolidate(&self, image: &mut [u8], flags: &mut Flags) -> Answer {
        let (i, len, mut count) = (image.as_mut_ptr(), image.len(), LENT);
        let refused = lending(flags, |f| unsafe { rondo_consolidate(i, len, f, &mut count) });
        if refused == 0 {
            return Answer::Count(count);
        }
        assert!(count == LENT, "a refused run changed the count");
        Answer::Refused(refused)
    }
}
