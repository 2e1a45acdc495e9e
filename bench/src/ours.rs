//! The proved library, through librondo.a.
use std::hint::black_box;

use crate::calls::{Plan, Side};

unsafe extern "C" {
    fn rondo_image_size(plan: *const u8, plan_len: usize, size: *mut u64) -> u32;
    fn rondo_create(plan: *const u8, plan_len: usize, image: *mut u8, image_len: usize, flags: *mut u32) -> u32;
    fn rondo_open(image: *const u8, image_len: usize, flags: *mut u32) -> u32;
    fn rondo_record(image: *mut u8, image_len: usize, flags: *mut u32, schema: u32, column: u32, value: u64, stamp: u64) -> u32;
    fn rondo_record_batch(image: *mut u8, image_len: usize, flags: *mut u32, entries: *const u8, entries_len: usize, stamp: u64) -> u32;
    fn rondo_query(image: *const u8, image_len: usize, flags: u32, schema: u32, column: u32, tier: u32, start: u64, end: u64, answer: *mut [u64; 11]) -> u32;
    fn rondo_query_auto(image: *const u8, image_len: usize, flags: u32, schema: u32, column: u32, start: u64, end: u64, answer: *mut [u64; 11]) -> u32;
    fn rondo_panel(image: *const u8, image_len: usize, flags: u32, schema: u32, column: u32, tier: u32, shown: *mut u32, figure: *mut i64) -> u32;
    fn rondo_service(image: *const u8, image_len: usize, flags: u32, schema: u32, column: u32, tier: u32, figure: *mut [u64; 5]) -> u32;
    fn rondo_next(slab: *const u8, slab_len: usize, column: u32, start: u64, end: u64, place: *mut u64, point: *mut [u64; 2]) -> u32;
    fn rondo_read(slab: *const u8, slab_len: usize, column: u32, start: u64, end: u64, place: *mut u64, words: *mut u64, words_len: usize) -> usize;
    fn rondo_consolidate(image: *mut u8, image_len: usize, flags: *mut u32, count: *mut u64) -> u32;
}

#[derive(Default)]
pub struct Ours {
    plan: Vec<u8>,
    image: Vec<u8>,
    flags: u32,
    entries: Vec<u8>,
    stepping: bool,
}

/// The bytes of a plan (document 01, "The image a call is handed").
pub fn plan_bytes(plan: &Plan) -> Vec<u8> {
    let rows = plan.schemas * plan.tiers.len() as u32;
    let mut out = b"RSTO".to_vec();
    for x in [1, plan.schemas, rows] {
        out.extend(x.to_le_bytes());
    }
    out.extend([0; 16]);
    for schema in 0..plan.schemas {
        for (j, t) in plan.tiers.iter().enumerate() {
            out.extend(schema.to_le_bytes());
            out.extend((j as u32).to_le_bytes());
            out.extend(t.interval.to_le_bytes());
            out.extend((t.interval * t.slots).to_le_bytes());
            out.extend(t.function.to_le_bytes());
            out.extend(plan.series.to_le_bytes());
            out.extend([0; 24]);
            out.extend(7u64.to_le_bytes());
        }
    }
    out
}

impl Ours {
    pub fn image(&mut self) -> &mut [u8] {
        &mut self.image
    }

    /// All points, 32 a call.
    fn read(&self, answer: [u64; 11]) -> (u64, f64) {
        let [_, _, _, start, end, _, column, from, to, slot, left] = answer;
        let slab = &self.image[from as usize..to as usize];
        let (mut place, mut words) = ([slot, left], [0; 64]);
        let (mut n, mut sum) = (0, 0.0);
        let (p, len, c) = (slab.as_ptr(), slab.len(), column as u32);
        loop {
            let k = unsafe { rondo_read(p, len, c, start, end, place.as_mut_ptr(), words.as_mut_ptr(), 64) };
            n += k as u64;
            sum = words[..2 * k].chunks_exact(2).fold(sum, |sum, w| sum + f64::from_bits(w[1]));
            if k < 32 {
                return (n, sum);
            }
        }
    }

    /// All points, one a call.
    fn step(&self, answer: [u64; 11]) -> (u64, f64) {
        let [_, _, _, start, end, _, column, from, to, slot, left] = answer;
        let slab = &self.image[from as usize..to as usize];
        let (mut place, mut point) = ([slot, left], [0; 2]);
        let (mut n, mut sum) = (0, 0.0);
        let (p, len, c) = (slab.as_ptr(), slab.len(), column as u32);
        while unsafe { rondo_next(p, len, c, start, end, place.as_mut_ptr(), &mut point) } != 0 {
            n += 1;
            sum += f64::from_bits(point[1]);
        }
        (n, sum)
    }
}

impl Side for Ours {
    fn create(&mut self, plan: &Plan) {
        let bytes = plan_bytes(plan);
        if bytes != self.plan {
            self.plan = bytes;
            let mut size = 0;
            assert_eq!(unsafe { rondo_image_size(self.plan.as_ptr(), self.plan.len(), &mut size) }, 0);
            // Touched, so that no page is fetched in what is timed.
            self.image = vec![1; size as usize];
        }
        let (p, i) = (&self.plan, &mut self.image);
        assert_eq!(unsafe { rondo_create(p.as_ptr(), p.len(), i.as_mut_ptr(), i.len(), &mut self.flags) }, 0);
    }

    fn open(&mut self) {
        assert_eq!(unsafe { rondo_open(self.image.as_ptr(), self.image.len(), &mut self.flags) }, 0);
    }

    fn flags(&mut self) {
        self.open();
    }

    fn record(&mut self, column: u32, value: f64, stamp: u64) {
        let i = &mut self.image;
        let done = unsafe { rondo_record(i.as_mut_ptr(), i.len(), &mut self.flags, 0, column, value.to_bits(), stamp) };
        assert_eq!(done, 0);
    }

    fn record_old(&mut self, column: u32, value: f64, stamp: u64) {
        let i = &mut self.image;
        let done = unsafe { rondo_record(i.as_mut_ptr(), i.len(), &mut self.flags, 0, column, value.to_bits(), stamp) };
        assert_eq!(done, 18);
    }

    fn entries(&mut self, series: u32) {
        self.entries.clear();
        for c in 0..series {
            self.entries.extend(0u32.to_le_bytes());
            self.entries.extend(c.to_le_bytes());
            self.entries.extend((c as f64).to_bits().to_le_bytes());
        }
    }

    fn batch(&mut self, stamp: u64) {
        let (i, e) = (&mut self.image, &self.entries);
        let done = unsafe { rondo_record_batch(i.as_mut_ptr(), i.len(), &mut self.flags, e.as_ptr(), e.len(), stamp) };
        assert_eq!(done, 0);
    }

    fn query(&mut self, column: u32, tier: u32, start: u64, end: u64) -> (u64, f64) {
        let (i, mut answer) = (&self.image, [0; 11]);
        let done = unsafe { rondo_query(i.as_ptr(), i.len(), self.flags, 0, column, tier, start, end, &mut answer) };
        assert_eq!(done, 0);
        if self.stepping { self.step(answer) } else { self.read(answer) }
    }

    fn step_readers(&mut self) {
        self.stepping = true;
    }

    fn query_auto(&mut self, column: u32, start: u64, end: u64) -> (u64, f64) {
        let (i, mut answer) = (&self.image, [0; 11]);
        let done = unsafe { rondo_query_auto(i.as_ptr(), i.len(), self.flags, 0, column, start, end, &mut answer) };
        assert_eq!(done, 0);
        self.read(answer)
    }

    fn ask(&mut self, column: u32, tier: u32, start: u64, end: u64) {
        let (i, mut answer) = (&self.image, [0; 11]);
        let done = unsafe { rondo_query(i.as_ptr(), i.len(), self.flags, 0, column, tier, start, end, &mut answer) };
        assert_eq!(done, 0);
        black_box(&answer);
    }

    fn ask_auto(&mut self, column: u32, start: u64, end: u64) {
        let (i, mut answer) = (&self.image, [0; 11]);
        let done = unsafe { rondo_query_auto(i.as_ptr(), i.len(), self.flags, 0, column, start, end, &mut answer) };
        assert_eq!(done, 0);
        black_box(&answer);
    }

    fn panel(&mut self, column: u32, tier: u32) -> Option<i64> {
        let (i, mut shown, mut figure) = (&self.image, 0, 0);
        let done = unsafe { rondo_panel(i.as_ptr(), i.len(), self.flags, 0, column, tier, &mut shown, &mut figure) };
        assert_eq!(done, 0);
        (shown != 0).then_some(figure)
    }

    fn service(&mut self, column: u32, tier: u32) -> Option<[u64; 4]> {
        let (i, mut figure) = (&self.image, [0; 5]);
        let done = unsafe { rondo_service(i.as_ptr(), i.len(), self.flags, 0, column, tier, &mut figure) };
        assert_eq!(done, 0);
        let [present, words @ ..] = figure;
        (present != 0).then_some(words)
    }

    fn consolidate(&mut self) -> u64 {
        let (i, mut count) = (&mut self.image, 0);
        assert_eq!(unsafe { rondo_consolidate(i.as_mut_ptr(), i.len(), &mut self.flags, &mut count) }, 0);
        count
    }

    fn set_mark(&mut self, mark: u64) {
        self.image[80..88].copy_from_slice(&mark.to_le_bytes());
    }

    fn set_stamps(&mut self, stamps: &[u64]) {
        let series = u32::from_le_bytes(self.image[60..64].try_into().unwrap()) as usize;
        let slab = u64::from_le_bytes(self.image[64..72].try_into().unwrap()) as usize;
        let at = slab + 64 + 4 * series;
        for (slot, stamp) in self.image[at..].chunks_exact_mut(8).zip(stamps) {
            slot.copy_from_slice(&stamp.to_le_bytes());
        }
    }
}
