//! Damaged images: refused, with the place in words.

mod shared;

use std::fs;

use shared::{Folder, Random};

/// Two tiers of 60 slots: rows at 32 and 96, slabs at 160 and 1672.
fn image() -> (Folder, Vec<u8>) {
    let folder = Folder::new();
    folder.good("create a.img series 2 tier 1s 1min tier 10s 10min average");
    folder.good_with("record a.img", "0 0 10s 1\n0 1 11s 2\n0 0 19s 4\n");
    folder.good("consolidate a.img");
    let bytes = folder.bytes("a.img");
    (folder, bytes)
}

fn damaged(folder: &Folder, good: &[u8], at: usize, bytes: &[u8]) {
    let mut image = good.to_vec();
    image[at..at + bytes.len()].copy_from_slice(bytes);
    fs::write(folder.file("damaged.img"), image).unwrap();
}

#[test]
fn each_field_is_named() {
    let (folder, good) = image();
    let fields: [(&str, usize, &[u8]); 25] = [
        ("header, field magic", 0, b"X"),
        ("header, field version", 4, &[2]),
        ("header, field schema count", 8, &[9]),
        ("header, field row count", 12, &[33]),
        ("header, field total length", 16, &[1]),
        ("header, field zero bytes", 24, &[1]),
        ("row 0, field schema", 32, &[1]),
        ("row 0, field tier", 36, &[1]),
        ("row 0, field interval", 40, &[0; 8]),
        ("row 0, field retention", 48, &[0; 8]),
        ("row 1, field function", 120, &[7]),
        ("row 1, field max series", 124, &[3]),
        ("row 0, field slab offset", 64, &[1]),
        ("row 0, field slab length", 72, &[1]),
        ("row 0, field mark", 87, &[128]),
        ("row 1, field schema hash", 152, &[1, 2]),
        ("slab of row 0, field magic", 160, b"X"),
        ("slab of row 0, field version", 164, &[2]),
        ("slab of row 0, field hash", 168, &[1, 2]),
        ("slab of row 0, field slots", 176, &[1]),
        ("slab of row 0, field max series", 180, &[3]),
        ("slab of row 0, field interval", 184, &[1]),
        ("slab of row 0, field cursor", 192, &[255]),
        ("slab of row 1, field magic", 1672, b"X"),
        ("slab of row 1, field cursor", 1704, &[255]),
    ];
    for (words, at, bytes) in fields {
        damaged(&folder, &good, at, bytes);
        folder.bad(1, words, "check damaged.img");
    }
}

#[test]
fn every_byte_of_header_rows_and_slab_headers() {
    let (folder, good) = image();
    // not told: the low bytes of marks, and those of retentions that leave the slots as they are; a slab's free bytes
    let told = |at: usize| match at {
        48..=50 | 80..=86 | 112..=113 | 144..=150 => false,
        _ => at < 196 || (1672..1708).contains(&at),
    };
    let mut refused = 0;
    for at in (0..224).chain(1672..1736) {
        damaged(&folder, &good, at, &[!good[at]]);
        if told(at) {
            folder.bad(1, "damaged.img: refusal ", "check damaged.img");
            refused += 1;
        } else {
            assert_eq!(folder.good("check damaged.img"), "good\n", "byte {at}");
        }
    }
    assert_eq!(refused, 196 - 3 - 7 - 2 - 7 + 36);
}

#[test]
fn every_command_refuses_a_damaged_image() {
    let (folder, good) = image();
    for at in [0, 12, 16, 40, 64, 160, 1704] {
        damaged(&folder, &good, at, &[!good[at]]);
        for words in [
            "record damaged.img 0 0 20s 1",
            "consolidate damaged.img",
            "query damaged.img 0 0 0",
            "panel damaged.img 0 0 0",
            "service damaged.img 0 0 0",
            "plot damaged.img 0 0 0",
            "show damaged.img",
            "dump damaged.img",
            "import damaged.img",
        ] {
            folder.bad(1, "damaged.img: refusal ", words);
        }
    }
}

#[test]
fn a_stamp_that_is_too_late() {
    let (folder, good) = image();
    // slot 3's stamp in the finest ring: opening takes it, a run does not
    damaged(&folder, &good, 160 + 64 + 8 + 8 * 3 + 7, &[0x80]);
    assert_eq!(folder.good("check damaged.img"), "good\n");
    let why = "the stamp is 2^63 ns or more, which a run does not take, though opening does; nothing is later, so nothing replaces it";
    let advice = "take the slot's line out of a `rondo dump`, and `rondo restore` that; the file is as it was";
    let said = format!("refusal 10, CorruptedSlab: slab of row 0, slot 3: {why}: {advice}");
    folder.bad(1, &said, "consolidate damaged.img");
    let held = "1970-01-01T00:01:03Z is older than the one at 2262-04-11T23:47:16.854775808Z that its slot holds";
    folder.bad(1, &format!("damaged.img: refusal 18, OldSample: the sample at {held}"), "record damaged.img 0 0 63s 1");
    // what the words advise
    let dump = folder.good("dump damaged.img");
    let kept: Vec<&str> = dump.lines().filter(|line| !line.starts_with("3 9223372036854775808ns ")).collect();
    assert_eq!(kept.len() + 1, dump.lines().count());
    folder.good_with("restore mended.img", &(kept.join("\n") + "\n"));
    assert!(folder.bytes("mended.img") == good);
    folder.good("record mended.img 0 0 63s 1");
    folder.good("consolidate mended.img");
    // in a last tier, here row 1, a run does not read it
    let schema = "series 1 tier 1s 9s tier 3s 9s average";
    folder.good(&format!("create two.img {schema} schema {schema}"));
    let mut bytes = folder.bytes("two.img");
    for row in [1, 2] {
        let field = 32 + 64 * row + 32;
        let slab = u64::from_le_bytes(bytes[field..field + 8].try_into().unwrap()) as usize;
        bytes[slab + 64 + 4 + 7] = 0x80;
    }
    fs::write(folder.file("two.img"), bytes).unwrap();
    folder.bad(1, "refusal 10, CorruptedSlab: slab of row 2, slot 0", "consolidate two.img");
}

#[test]
fn whatever_stands_in_the_table_no_command_falls_over() {
    let (folder, good) = image();
    let mut random = Random(11);
    let mut taken = 0;
    for _ in 0..150 {
        let mut bytes = good.clone();
        for _ in 0..1 + random.below(3) {
            let at = [random.below(224), 1672 + random.below(64)][random.below(2) as usize];
            bytes[at as usize] = [0, 1, 2, 127, 128, 255, random.below(256)][random.below(7) as usize] as u8;
        }
        fs::write(folder.file("damaged.img"), bytes).unwrap();
        let check = folder.run("check damaged.img").status;
        taken += i32::from(check == 0);
        for words in [
            "show damaged.img",
            "query damaged.img 0 0 auto",
            "panel damaged.img 0 1 0",
            "service damaged.img 0 1 0",
            "plot damaged.img 0 1 0",
            "dump damaged.img",
        ] {
            let said = folder.run(words);
            assert_eq!(said.status, check, "{words}: {said:?}");
            assert!(said.err.lines().count() == check as usize, "{words}: {said:?}");
        }
        for words in ["record damaged.img 0 0 20s 1", "consolidate damaged.img"] {
            let said = folder.run(words);
            assert!([0, 1].contains(&said.status) && said.err.lines().count() <= 1, "{words}: {said:?}");
        }
    }
    println!("of 150 images {taken} are good ones");
}
