//! The library's calls as c/tour.rs makes them, without the crate's types.

#[repr(C)]
#[derive(Default, Clone)]
pub struct Answer {
    pub tier: u64,
    pub oldest: u64,
    pub newest: u64,
    pub start: u64,
    pub end: u64,
    pub incomplete: u64,
    pub column: u64,
    pub from: u64,
    pub to: u64,
    pub place: [u64; 2],
}

unsafe extern "C" {
    fn rondo_create(plan: *const u8, plan_len: usize, image: *mut u8, image_len: usize, flags: &mut u32) -> u32;
    fn rondo_open(image: *const u8, image_len: usize, flags: &mut u32) -> u32;
    fn rondo_record_batch(
        image: *mut u8, image_len: usize, flags: &mut u32, entries: *const u8, entries_len: usize, stamp: u64,
    ) -> u32;
    fn rondo_query(
        image: *const u8, image_len: usize, flags: u32, schema: u32, column: u32, tier: u32, start: u64, end: u64,
        answer: &mut Answer,
    ) -> u32;
    fn rondo_query_auto(
        image: *const u8, image_len: usize, flags: u32, schema: u32, column: u32, start: u64, end: u64, answer: &mut Answer,
    ) -> u32;
    fn rondo_next(
        slab: *const u8, slab_len: usize, column: u32, start: u64, end: u64, place: &mut [u64; 2], point: &mut [u64; 2],
    ) -> u32;
    fn rondo_panel(
        image: *const u8, image_len: usize, flags: u32, schema: u32, column: u32, tier: u32, shown: &mut u32, figure: &mut i64,
    ) -> u32;
    fn rondo_service(
        image: *const u8, image_len: usize, flags: u32, schema: u32, column: u32, tier: u32, figure: &mut [u64; 5],
    ) -> u32;
    fn rondo_consolidate(image: *mut u8, image_len: usize, flags: &mut u32, count: &mut u64) -> u32;
}

/// A store as c/tour.rs has it.
pub struct Store {
    pub image: Vec<u8>,
    pub flags: u32,
}

impl Store {
    pub fn create(plan: &[u8], size: usize) -> Self {
        let mut s = Store { image: vec![0; size], flags: 0 };
        let i = &mut s.image;
        assert_eq!(unsafe { rondo_create(plan.as_ptr(), plan.len(), i.as_mut_ptr(), i.len(), &mut s.flags) }, 0);
        s
    }

    pub fn open(&mut self) {
        self.flags = 0;
        assert_eq!(unsafe { rondo_open(self.image.as_ptr(), self.image.len(), &mut self.flags) }, 0);
    }

    pub fn batch(&mut self, values: &[f64], stamp: u64) {
        let mut e = Vec::new();
        for (column, value) in values.iter().enumerate() {
            e.extend(0u32.to_le_bytes());
            e.extend((column as u32).to_le_bytes());
            e.extend(value.to_bits().to_le_bytes());
        }
        let i = &mut self.image;
        let (p, len) = (i.as_mut_ptr(), i.len());
        assert_eq!(unsafe { rondo_record_batch(p, len, &mut self.flags, e.as_ptr(), e.len(), stamp) }, 0);
    }

    pub fn consolidate(&mut self) -> u64 {
        let (i, mut count) = (&mut self.image, 0);
        assert_eq!(unsafe { rondo_consolidate(i.as_mut_ptr(), i.len(), &mut self.flags, &mut count) }, 0);
        count
    }
}

/// An answer from an image, for schema 0.
pub fn query(image: &[u8], flags: u32, column: u32, tier: u32, range: (u64, u64)) -> Answer {
    let (at, len, mut answer) = (image.as_ptr(), image.len(), Answer::default());
    assert_eq!(unsafe { rondo_query(at, len, flags, 0, column, tier, range.0, range.1, &mut answer) }, 0);
    answer
}

/// An answer from the tier that covers the range best.
pub fn query_auto(image: &[u8], flags: u32, schema: u32, column: u32, range: (u64, u64)) -> Answer {
    let (at, len, mut answer) = (image.as_ptr(), image.len(), Answer::default());
    assert_eq!(unsafe { rondo_query_auto(at, len, flags, schema, column, range.0, range.1, &mut answer) }, 0);
    answer
}

/// The panel's call for schema 0: its number, and what it left in what was lent.
pub fn panel(image: &[u8], flags: u32, column: u32, tier: u32, lent: (u32, i64)) -> (u32, (u32, i64)) {
    let (at, len, (mut shown, mut figure)) = (image.as_ptr(), image.len(), lent);
    let number = unsafe { rondo_panel(at, len, flags, 0, column, tier, &mut shown, &mut figure) };
    (number, (shown, figure))
}

/// The service tools' call for schema 0: its number, and what it left in what was lent.
pub fn service(image: &[u8], flags: u32, column: u32, tier: u32, lent: [u64; 5]) -> (u32, [u64; 5]) {
    let (at, len, mut figure) = (image.as_ptr(), image.len(), lent);
    let number = unsafe { rondo_service(at, len, flags, 0, column, tier, &mut figure) };
    (number, figure)
}

/// The next point, one a call.
pub fn next(image: &[u8], a: &mut Answer) -> Option<(u64, u64)> {
    let slab = &image[a.from as usize..a.to as usize];
    let (p, len, mut point) = (slab.as_ptr(), slab.len(), [0; 2]);
    let more = unsafe { rondo_next(p, len, a.column as u32, a.start, a.end, &mut a.place, &mut point) };
    (more != 0).then_some((point[0], point[1]))
}
