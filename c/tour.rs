//! A store of seconds, minutes and hours for two series: three hours recorded, consolidated, queried; the flags are
//! lost on the way, as when a cabinet is switched off, and opening works them out.
//! tour.c does the same in C and prints the same. The standard library alone.

/// The calls of librondo.a, as include/rondo.h has them.
mod rondo {
    #[repr(C)]
    #[derive(Default)]
    pub struct Answer {
        pub tier: u64,
        pub oldest: u64,
        pub newest: u64,
        pub start: u64,
        pub end: u64,
        pub incomplete: u64,
        pub column: u64,
        pub from: u64,
        pub to: u64,
        pub place: [u64; 2],
    }

    #[link(name = "rondo", kind = "static")]
    unsafe extern "C" {
        pub fn rondo_image_size(plan: *const u8, plan_len: usize, size: &mut u64) -> u32;
        pub fn rondo_create(plan: *const u8, plan_len: usize, image: *mut u8, image_len: usize, flags: &mut u32) -> u32;
        pub fn rondo_open(image: *const u8, image_len: usize, flags: &mut u32) -> u32;
        pub fn rondo_record(
            image: *mut u8, image_len: usize, flags: &mut u32, schema: u32, column: u32, value: u64, stamp: u64,
        ) -> u32;
        pub fn rondo_record_batch(
            image: *mut u8, image_len: usize, flags: &mut u32, entries: *const u8, entries_len: usize, stamp: u64,
        ) -> u32;
        pub fn rondo_query(
            image: *const u8, image_len: usize, flags: u32, schema: u32, column: u32, tier: u32, start: u64, end: u64,
            answer: &mut Answer,
        ) -> u32;
        pub fn rondo_query_auto(
            image: *const u8, image_len: usize, flags: u32, schema: u32, column: u32, start: u64, end: u64,
            answer: &mut Answer,
        ) -> u32;
        pub fn rondo_panel(
            image: *const u8, image_len: usize, flags: u32, schema: u32, column: u32, tier: u32, shown: &mut u32,
            figure: &mut i64,
        ) -> u32;
        pub fn rondo_service(
            image: *const u8, image_len: usize, flags: u32, schema: u32, column: u32, tier: u32,
            figure: &mut [u64; 5],
        ) -> u32;
        pub fn rondo_next(
            slab: *const u8, slab_len: usize, column: u32, start: u64, end: u64, place: &mut [u64; 2],
            point: &mut [u64; 2],
        ) -> u32;
        pub fn rondo_read(
            slab: *const u8, slab_len: usize, column: u32, start: u64, end: u64, place: &mut [u64; 2],
            words: *mut u64, words_len: usize,
        ) -> usize;
        pub fn rondo_consolidate(image: *mut u8, image_len: usize, flags: &mut u32, count: &mut u64) -> u32;
    }
}

use rondo::Answer;

/// A store in memory of its own: each call is safe, since a slice's pointer and length go together.
struct Store {
    image: Vec<u8>,
    flags: u32,
}

impl Store {
    fn create(plan: &[u8]) -> Result<Self, u32> {
        let mut size = 0;
        accepted(unsafe { rondo::rondo_image_size(plan.as_ptr(), plan.len(), &mut size) })?;
        let mut s = Store { image: vec![0; size as usize], flags: 0 };
        let (p, i) = (plan, &mut s.image);
        accepted(unsafe { rondo::rondo_create(p.as_ptr(), p.len(), i.as_mut_ptr(), i.len(), &mut s.flags) })?;
        Ok(s)
    }

    fn open(&self) -> Result<u32, u32> {
        let mut flags = 0;
        accepted(unsafe { rondo::rondo_open(self.image.as_ptr(), self.image.len(), &mut flags) })?;
        Ok(flags)
    }

    fn record(&mut self, column: u32, value: f64, stamp: u64) -> Result<(), u32> {
        let i = &mut self.image;
        let (p, len, bits) = (i.as_mut_ptr(), i.len(), value.to_bits());
        accepted(unsafe { rondo::rondo_record(p, len, &mut self.flags, 0, column, bits, stamp) })
    }

    fn batch(&mut self, values: &[f64], stamp: u64) -> Result<(), u32> {
        let mut e = Vec::new();
        for (column, value) in values.iter().enumerate() {
            e.extend(0u32.to_le_bytes());
            e.extend((column as u32).to_le_bytes());
            e.extend(value.to_bits().to_le_bytes());
        }
        let i = &mut self.image;
        let (p, len) = (i.as_mut_ptr(), i.len());
        accepted(unsafe { rondo::rondo_record_batch(p, len, &mut self.flags, e.as_ptr(), e.len(), stamp) })
    }

    fn consolidate(&mut self) -> Result<u64, u32> {
        let (i, mut count) = (&mut self.image, 0);
        accepted(unsafe { rondo::rondo_consolidate(i.as_mut_ptr(), i.len(), &mut self.flags, &mut count) })?;
        Ok(count)
    }

    fn query(&self, column: u32, tier: u32, start: u64, end: u64) -> Result<Answer, u32> {
        let (i, mut a) = (&self.image, Answer::default());
        accepted(unsafe {
            rondo::rondo_query(i.as_ptr(), i.len(), self.flags, 0, column, tier, start, end, &mut a)
        })?;
        Ok(a)
    }

    fn query_auto(&self, column: u32, start: u64, end: u64) -> Result<Answer, u32> {
        let (i, mut a) = (&self.image, Answer::default());
        accepted(unsafe {
            rondo::rondo_query_auto(i.as_ptr(), i.len(), self.flags, 0, column, start, end, &mut a)
        })?;
        Ok(a)
    }

    /// The panel's figure, and none where there is no point.
    fn panel(&self, column: u32, tier: u32) -> Result<Option<i64>, u32> {
        let (i, mut shown, mut figure) = (&self.image, 0, 0);
        accepted(unsafe {
            rondo::rondo_panel(i.as_ptr(), i.len(), self.flags, 0, column, tier, &mut shown, &mut figure)
        })?;
        Ok((shown != 0).then_some(figure))
    }

    /// The service figure: stamp, value's pattern, oldest, newest.
    fn service(&self, column: u32, tier: u32) -> Result<Option<[u64; 4]>, u32> {
        let (i, mut figure) = (&self.image, [0; 5]);
        accepted(unsafe {
            rondo::rondo_service(i.as_ptr(), i.len(), self.flags, 0, column, tier, &mut figure)
        })?;
        let [present, words @ ..] = figure;
        Ok((present != 0).then_some(words))
    }

    fn next(&self, a: &mut Answer) -> Option<(u64, f64)> {
        let slab = &self.image[a.from as usize..a.to as usize];
        let (p, len, mut point) = (slab.as_ptr(), slab.len(), [0; 2]);
        let more = unsafe { rondo::rondo_next(p, len, a.column as u32, a.start, a.end, &mut a.place, &mut point) };
        (more != 0).then(|| (point[0], f64::from_bits(point[1])))
    }

    /// The next points, as many as there is room for: stamp and value's pattern.
    fn read(&self, a: &mut Answer, points: &mut [[u64; 2]]) -> usize {
        let slab = &self.image[a.from as usize..a.to as usize];
        let (p, len, words) = (slab.as_ptr(), slab.len(), points.as_flattened_mut());
        let (w, n) = (words.as_mut_ptr(), words.len());
        unsafe { rondo::rondo_read(p, len, a.column as u32, a.start, a.end, &mut a.place, w, n) }
    }
}

fn accepted(answer: u32) -> Result<(), u32> {
    if answer == 0 { Ok(()) } else { Err(answer) }
}

const SECOND: u64 = 1_000_000_000;

/// A plan of one schema with two series: each tier's interval and retention in seconds, and its function.
fn plan(tiers: &[(u64, u64, u32)]) -> Vec<u8> {
    let mut out = b"RSTO".to_vec();
    for x in [1, 1, tiers.len() as u32] {
        out.extend(x.to_le_bytes());
    }
    out.extend([0; 16]);
    for (tier, &(interval, retention, function)) in tiers.iter().enumerate() {
        out.extend(0u32.to_le_bytes());
        out.extend((tier as u32).to_le_bytes());
        out.extend((interval * SECOND).to_le_bytes());
        out.extend((retention * SECOND).to_le_bytes());
        out.extend(function.to_le_bytes());
        out.extend(2u32.to_le_bytes());
        out.extend([0; 24]);
        out.extend(7u64.to_le_bytes());
    }
    out
}

fn show(store: &Store, mut answer: Answer) {
    let mut values = Vec::new();
    while let Some((_, value)) = store.next(&mut answer) {
        values.push(value);
    }
    let (n, sum) = (values.len(), values.iter().sum::<f64>());
    println!(
        "tier {} from {} to {}{}: {n} points, first {:.6}, last {:.6}, mean {:.6}",
        answer.tier,
        answer.oldest / SECOND,
        answer.newest / SECOND,
        if answer.incomplete != 0 { " (may be incomplete)" } else { "" },
        values.first().unwrap_or(&0.0),
        values.last().unwrap_or(&0.0),
        if n > 0 { sum / n as f64 } else { 0.0 },
    );
}

/// The same reader, sixteen points a call.
fn show_sixteen(store: &Store, mut answer: Answer) {
    let (mut points, mut calls, mut n, mut sum) = ([[0; 2]; 16], 0, 0, 0.0);
    loop {
        let got = store.read(&mut answer, &mut points);
        calls += 1;
        sum += points[..got].iter().map(|p| f64::from_bits(p[1])).sum::<f64>();
        n += got;
        if got < 16 {
            break;
        }
    }
    println!("sixteen at a time: {n} points in {calls} calls, mean {:.6}", if n > 0 { sum / n as f64 } else { 0.0 });
}

/// Second 7199 has the slot of 14399, which holds the later stamp: it is refused, alone and in a batch. On equal stamps the later call wins.
fn come_late(store: &mut Store) {
    println!(
        "a lap late: {}, in a batch {}; the same second again: {}",
        store.record(0, 1.0, 7199 * SECOND).err().unwrap_or(0),
        store.batch(&[1.0, 14399.0], 7199 * SECOND).err().unwrap_or(0),
        store.batch(&[1.0, 14399.0], 14399 * SECOND).err().unwrap_or(0),
    );
}

/// The last minute's mean: a whole number for the panel, in full for service tools. Then a value that no panel shows.
fn figures(store: &mut Store) -> Result<(), u32> {
    let (shown, full) = (store.panel(1, 1)?, store.service(1, 1)?);
    let [stamp, value, oldest, newest] = full.unwrap_or_default();
    println!(
        "panel: {}, {}; service: {}, {:.6} of second {}, ring from {} to {}",
        shown.is_some() as u32,
        shown.unwrap_or_default(),
        full.is_some() as u32,
        f64::from_bits(value),
        stamp / SECOND,
        oldest / SECOND,
        newest / SECOND,
    );
    store.record(0, 9007199254740994.0, 14399 * SECOND)?;
    println!(
        "beyond 2^53: panel {}, service {}",
        store.panel(0, 0).err().unwrap_or(0),
        store.service(0, 0).err().unwrap_or(0),
    );
    Ok(())
}

fn main() -> Result<(), u32> {
    let mut store = Store::create(&plan(&[(1, 7200, 0), (60, 86_400, 1), (3600, 2_592_000, 1)]))?;
    println!("image of {} bytes", store.image.len());
    // a run after each hour's last second, and one in the middle of a minute and an hour
    for s in 3600..4 * 3600 {
        store.batch(&[(s % 60) as f64, s as f64], s * SECOND)?;
        if s % 3600 == 3599 || s == 9029 {
            println!("second {s}: {} values written", store.consolidate()?);
        }
        // off and on again, in the middle of the ring: no second is lost, though the next slots are empty
        if s == 9029 {
            store.flags = store.open()?;
            show(&store, store.query(1, 0, 0, u64::MAX)?);
        }
    }
    for tier in 0..3 {
        show(&store, store.query(1, tier, 0, u64::MAX)?);
    }
    show(&store, store.query_auto(0, 3600 * SECOND, 7200 * SECOND)?);
    show_sixteen(&store, store.query_auto(1, 3600 * SECOND, 7200 * SECOND)?);
    println!(
        "refused: value {}, stamp {}, column {}, tier {}, range {}",
        store.record(0, f64::INFINITY, 1).unwrap_err(),
        store.record(0, 0.0, 0).unwrap_err(),
        store.record(2, 0.0, 1).unwrap_err(),
        store.query(0, 3, 5, 5).err().unwrap(),
        store.query(0, 0, 5, 5).err().unwrap(),
    );
    come_late(&mut store);
    figures(&mut store)?;
    // the cursor stands in the last slot: none is above it, and the same points are read from slot 0 on
    let again = store.open()?;
    println!("flags {}, opened again {again}", store.flags);
    store.flags = again;
    show(&store, store.query(1, 0, 0, u64::MAX)?);
    store.image[0] ^= 1;
    println!("damaged: {}", store.open().unwrap_err());
    Ok(())
}
