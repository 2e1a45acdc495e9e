//! panel and service: a series' last point, as a whole number and in full.

mod shared;

use std::fs;

use shared::{Folder, Random};

/// One series of 10 ns, four slots: its slab is at 96, its stamps at 164, its cells at 196.
fn four() -> Folder {
    let folder = Folder::new();
    folder.good("create a.img series 1 tier 10ns 40ns");
    folder
}

fn poke(folder: &Folder, at: usize, number: u64) {
    let mut bytes = folder.bytes("a.img");
    bytes[at..at + 8].copy_from_slice(&number.to_le_bytes());
    fs::write(folder.file("a.img"), bytes).unwrap();
}

#[test]
fn whole_nanoseconds() {
    let folder = four();
    for (value, shown) in [
        ("-0.5", "0 ns\n"),
        ("1.5", "2 ns\n"),
        ("-2.5", "-2 ns\n"),
        ("-12.4", "-12 ns\n"),
        ("-0.0", "0 ns\n"),
        ("9007199254740992", "9007199254740992 ns\n"),
        ("-9007199254740992", "-9007199254740992 ns\n"),
    ] {
        folder.good(&format!("record a.img 0 0 10ns {value}"));
        assert_eq!(folder.good("panel a.img 0 0 0"), shown, "{value}");
    }
}

/// Case E of docs/FORMAT.md, section 14: the slot written last has no value.
#[test]
fn the_last_in_reading_order() {
    let folder = four();
    folder.good_with("record a.img", "0 0 10ns 1\n0 0 20ns 2\n0 0 30ns 3\n0 0 40ns 4.25\n0 0 15ns nan\n");
    assert_eq!(folder.good("panel a.img 0 0 0"), "4 ns\n");
    let said = "\
last point  1970-01-01T00:00:00.000000040Z  40ns
value       4.25
oldest      1970-01-01T00:00:00.000000020Z  20ns
newest      1970-01-01T00:00:00.000000015Z  15ns
";
    assert_eq!(folder.good("service a.img 0 0 0"), said);
}

#[test]
fn csv_and_json() {
    let folder = Folder::new();
    folder.good("create a.img series 2 tier 1s 1min");
    folder.good_with("record a.img", "0 0 10s -12.4\n0 1 11s 1\n");
    assert_eq!(folder.good("panel a.img 0 0 0 --csv"), "figure_ns\n-12\n");
    assert_eq!(folder.good("panel a.img 0 0 0 --json"), "{\"figure_ns\":-12}\n");
    let names = "stamp_ns,time,value,oldest_ns,newest_ns";
    let csv = folder.good("service a.img 0 0 0 --csv");
    assert_eq!(csv, format!("{names}\n10000000000,1970-01-01T00:00:10Z,-12.4,10000000000,11000000000\n"));
    let json: serde_json::Value = serde_json::from_str(&folder.good("service a.img 0 0 0 --json")).unwrap();
    let one = serde_json::json!({
        "stamp_ns": 10_000_000_000u64, "time": "1970-01-01T00:00:10Z", "value": -12.4,
        "oldest_ns": 10_000_000_000u64, "newest_ns": 11_000_000_000u64,
    });
    assert_eq!(json, one);
}

#[test]
fn no_point() {
    let folder = Folder::new();
    folder.good("create a.img series 2 tier 1s 1min tier 10s 10min average");
    let none = |column: u32| {
        for command in ["panel", "service"] {
            let said = format!("no point: schema 0, column {column} has none in tier 0\n");
            assert_eq!(folder.good(&format!("{command} a.img 0 {column} 0")), said);
            assert_eq!(folder.good(&format!("{command} a.img 0 {column} 0 --json")), "null\n");
        }
        assert_eq!(folder.good(&format!("panel a.img 0 {column} 0 --csv")), "figure_ns\n");
        let csv = folder.good(&format!("service a.img 0 {column} 0 --csv"));
        assert_eq!(csv, "stamp_ns,time,value,oldest_ns,newest_ns\n");
    };
    none(0);
    folder.good_with("record a.img", "0 1 10s nan\n0 0 10s 3\n0 1 11s nan\n0 0 11s 4\n");
    none(1);
    let said = "no point: schema 0, column 0 has none in tier 1; `rondo consolidate` brings coarser tiers up to date\n";
    assert_eq!(folder.good("panel a.img 0 0 1"), said);
    folder.good("consolidate a.img");
    assert_eq!(folder.good("panel a.img 0 0 1"), "4 ns\n"); // of 3.5
    // Column 1 has NaN alone: no run brings it a point.
    assert_eq!(folder.good("service a.img 0 1 1"), "no point: schema 0, column 1 has none in tier 1\n");
}

#[test]
fn off_the_panel() {
    let folder = four();
    for value in ["9007199254740994.0", "-9007199254740994.0", "1e300"] {
        folder.good(&format!("record a.img 0 0 10ns {value}"));
        let said = "and a panel shows -2^53 to 2^53 ns; `rondo service` gives it in full";
        let said = format!("a.img: refusal 17, OffPanel: the value is {value}, {said}");
        for form in ["", "--csv", "--json"] {
            folder.bad(1, &said, &format!("panel a.img 0 0 0 {form}"));
        }
        assert!(folder.good("service a.img 0 0 0").contains(&format!("\nvalue       {value}\n")));
    }
    // no command records an infinite one
    poke(&folder, 196 + 8, f64::NEG_INFINITY.to_bits());
    folder.bad(1, "refusal 17, OffPanel: the value is -inf, ", "panel a.img 0 0 0");
    assert!(folder.good("service a.img 0 0 0 --csv").contains(",-inf,"));
    assert!(folder.good("service a.img 0 0 0 --json").contains("\"value\":\"-inf\""));
}

/// 10, then 11, then 14, then 17, each with what there is instead.
#[test]
fn order_of_refusals() {
    let folder = four();
    folder.good("record a.img 0 0 10ns 1e300");
    for command in ["panel", "service"] {
        let bad = |has: &str, words: &str| folder.bad(1, &format!("a.img: refusal {has}"), &format!("{command} a.img {words}"));
        bad("11, InvalidHandle: there is no schema 1; there are 0 to 0", "1 0 1");
        bad("11, InvalidHandle: schema 0 has no column 1; it has 0 to 0", "0 1 1");
        bad("14, InvalidTier: schema 0 has tiers 0 to 0", "0 0 1");
    }
    folder.bad(1, "refusal 17, OffPanel", "panel a.img 0 0 0");
    poke(&folder, 96 + 8, 1); // the slab's hash
    for command in ["panel", "service"] {
        for words in ["0 0 0", "0 0 1", "1 0 1"] {
            let said = "a.img: refusal 10, CorruptedSlab: slab of row 0, field hash: 1 where ";
            folder.bad(1, said, &format!("{command} a.img {words}"));
        }
    }
}

/// A sample in either column, half of them without a value; its second is up to 12 after this one.
fn any(random: &mut Random, second: u64) -> String {
    let (column, second) = (random.below(2), 1 + second + random.below(12));
    let value = if random.below(2) == 0 { "nan".to_string() } else { format!("{}.25", random.below(99)) };
    format!("0 {column} {second}s {value}\n")
}

/// The last point and the ends that a query over all time prints.
#[test]
fn as_a_query_prints() {
    let folder = Folder::new();
    folder.good("create a.img series 2 tier 1s 9s");
    let json = |words: String| serde_json::from_str::<serde_json::Value>(&folder.good(&words)).unwrap();
    let mut random = Random(7);
    let mut recorded = 0;
    for second in 0..60 {
        // in a ring of nine slots some are old
        let said = folder.good_with("record a.img --skip-old", &any(&mut random, second));
        recorded += u64::from(said == "recorded, samples: 1\n");
        for column in [0, 1] {
            let (all, figure) =
                (json(format!("query a.img 0 {column} 0 --json")), json(format!("service a.img 0 {column} 0 --json")));
            let Some(last) = all["points"].as_array().unwrap().last() else {
                assert_eq!(figure, serde_json::Value::Null);
                continue;
            };
            let point = |of: &serde_json::Value| ["stamp_ns", "time", "value"].map(|name| of[name].clone());
            let ends = |of: &serde_json::Value| ["oldest_ns", "newest_ns"].map(|name| of[name].clone());
            assert_eq!((point(&figure), ends(&figure)), (point(last), ends(&all)));
            let whole = last["value"].as_f64().unwrap().round_ties_even();
            assert_eq!(folder.good(&format!("panel a.img 0 {column} 0")), format!("{whole} ns\n"));
        }
    }
    assert!((30..60).contains(&recorded), "{recorded}");
}
