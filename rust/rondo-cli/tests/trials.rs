//! Bad input of every kind, in tables: words, numbers, plans, lines, files; and what a power cycle leaves.

mod shared;

use std::fs;

use shared::Folder;

/// Every command with a file and the words that it needs.
const ALL: [(&str, &str); 12] = [
    ("create", "series 1 tier 1s 9s"),
    ("record", "0 0 20s 1"),
    ("import", ""),
    ("consolidate", ""),
    ("query", "0 0 0"),
    ("panel", "0 0 0"),
    ("service", "0 0 0"),
    ("plot", "0 0 0"),
    ("show", ""),
    ("check", ""),
    ("dump", ""),
    ("restore", ""),
];

fn image() -> Folder {
    let folder = Folder::new();
    folder.good("create a.img series 2 tier 1s 1min tier 10s 10min average");
    folder.good_with("record a.img", "0 0 10s 1\n0 1 11s 2\n0 0 19s 4\n");
    folder
}

#[test]
fn words() {
    let folder = image();
    for (command, rest) in ALL {
        let mut all = vec![command, ""];
        all.extend(rest.split_whitespace());
        folder.bad_words(2, "", &all, b"");
        folder.bad(2, "--nothing", &format!("{command} a.img {rest} --nothing"));
        folder.bad(2, "--wait", &format!("{command} a.img {rest} --wait"));
        folder.bad(2, "one of ns us ms s min h d", &format!("{command} a.img {rest} --wait 5"));
    }
    for words in ["version more", "man more", "completions", "completions bash more", "completions csh", "help more"] {
        folder.bad(2, "", words);
    }
    for command in ["frobnicate", "Check", "check ", "-", "a-word-that-is-longer-than-any-command-is"] {
        folder.bad_words(2, "", &[command, "a.img"], b"");
    }
    folder.bad(2, "'chek' wasn't recognized; Did you mean 'check'?; see `rondo help`", "chek a.img");
    folder.bad(2, "'-1' which wasn't expected, or isn't valid in this context; see `rondo help`", "query a.img 0 0 -1");
    folder.bad(2, "SCHEMA cannot be read from '--nothing'", "record a.img --nothing");
    folder.bad(2, "START cannot be read from '--nothing'", "query a.img 0 0 0 --nothing");
    for words in ["query a.img 0 0 0 --out x.svg", "plot a.img 0 0 0 --csv", "check a.img --json", "plot a.img 0 0 0 --out"] {
        folder.bad(2, "", words);
    }
}

#[test]
fn numbers() {
    let folder = image();
    let long = "1".repeat(5000);
    // beyond every handle and tier: refused as such
    for word in ["4294967295", "4294967296", "18446744073709551616", &long] {
        folder.bad(1, "refusal 11, InvalidHandle", &format!("record a.img {word} 0 20s 1"));
        folder.bad(1, "refusal 11, InvalidHandle", &format!("record a.img 0 {word} 20s 1"));
        for command in ["query", "plot"] {
            folder.bad(1, "refusal 11, InvalidHandle", &format!("{command} a.img {word} 0 0"));
            folder.bad(1, "refusal 11, InvalidHandle", &format!("{command} a.img 0 {word} auto"));
            folder.bad(1, "refusal 14, InvalidTier", &format!("{command} a.img 0 0 {word}"));
        }
        for command in ["panel", "service"] {
            folder.bad(1, "refusal 11, InvalidHandle", &format!("{command} a.img {word} 0 9"));
            folder.bad(1, "refusal 11, InvalidHandle", &format!("{command} a.img 0 {word} 9"));
            folder.bad(1, "refusal 14, InvalidTier", &format!("{command} a.img 0 0 {word}"));
        }
    }
    for word in ["x", "-1", "1.0", "0x1", "+1", "1e0", "١", "Auto", "--1"] {
        folder.bad(2, &format!("SCHEMA cannot be read from '{word}'"), &format!("record a.img {word} 0 20s 1"));
        folder.bad(2, &format!("COLUMN cannot be read from '{word}'"), &format!("record a.img 0 {word} 20s 1"));
        for command in ["query", "plot", "panel", "service"] {
            for words in [format!("{word} 0 0"), format!("0 {word} 0"), format!("0 0 {word}")] {
                folder.bad(2, word, &format!("{command} a.img {words}"));
            }
        }
    }
}

#[test]
fn times_and_values() {
    let folder = image();
    let long = format!("{}s", "1".repeat(5000));
    for word in ["5", "0", "18446744073709551616", &long, "5 s", "5S", "1e9s", "0x5s", "now-5", "now 5s", "today", "2026-11-17"]
    {
        let why =
            if word.bytes().all(|b| b.is_ascii_digit()) { "a number needs its unit, one of ns us ms s min h d" } else { "" };
        for (words, name) in [
            (vec!["record", "a.img", "0", "0", word, "1"], "STAMP"),
            (vec!["query", "a.img", "0", "0", "0", word, "5s"], "START"),
            (vec!["plot", "a.img", "0", "0", "0", "5s", word], "END"),
        ] {
            folder.bad_words(2, &format!("{name} cannot be read from '{word}': {why}"), &words, b"");
        }
    }
    let long = "1".repeat(5000);
    for word in ["", "1 2", "1,5", "1e", "e5", "0x", "0x7ff8", "1_000", "½", "nothing", "1e309", "-1e309", &long] {
        folder.bad_words(2, &format!("VALUE cannot be read from '{word}'"), &["record", "a.img", "0", "0", "20s", word], b"");
    }
    // what is taken, exact; a line may be long
    let digits = "1".repeat(300);
    for word in
        ["1e5", "1234567890123456", "1.5", "-0.000000000123456789", "+7", ".5", "5.", &digits, "2e-310", "0xc000000000000001"]
    {
        let line = format!("0 0 20s {word}\n");
        assert_eq!(folder.good_with("record a.img", &line), "recorded, samples: 1\n");
        let exact = if let Some(hex) = word.strip_prefix("0x") {
            u64::from_str_radix(hex, 16).unwrap()
        } else {
            word.parse::<f64>().unwrap().to_bits()
        };
        assert_eq!(folder.points("a.img 0 0 0 20s 21s").iter().map(|p| p.1.to_bits()).collect::<Vec<_>>(), [exact], "{word}");
    }
}

#[test]
fn plans() {
    let folder = Folder::new();
    for (status, has, plan) in [
        (2, "'x': expected the word series", "x"),
        (2, "'tier': expected the word series", "tier 1s 1h"),
        (2, "'4294967296': expected a number of series", "series 4294967296 tier 1s 1h"),
        (2, "'1.0': expected a number of series", "series 1.0 tier 1s 1h"),
        (2, "'+1': expected a number of series", "series +1 tier 1s 1h"),
        (2, "'schema': expected the word tier", "series 1 schema"),
        (2, "'1s': expected the word tier", "series 1 1s 1h"),
        (2, "'1': expected an interval: a number needs its unit", "series 1 tier 1 1h"),
        (2, "'1': expected a retention: a number needs its unit", "series 1 tier 1s 1"),
        (2, "'213504d': expected a retention", "series 1 tier 1s 213504d"),
        (2, "'none': expected average", "series 1 tier 1s 1h tier 1min 1d none"),
        (2, "'average': expected the word tier", "series 1 tier 1s 1h tier 1min 1d average average"),
        (2, "the plan ends: expected the word series", "series 1 tier 1s 1h schema"),
        (2, "'tier': expected the word series", "series 1 tier 1s 1h schema tier 1s 1h"),
        (1, "refusal 4, InvalidTierConfig: row 0, field retention", "series 1 tier 1s 9223372036854775808ns"),
        (1, "refusal 4, InvalidTierConfig: row 1, field interval", "series 1 tier 1s 1h tier 9223372036854775808ns 1h"),
        (1, "refusal 6, TiersNotOrdered: row 1", "series 1 tier 1s 1h tier 1s 1h average"),
        (1, "refusal 3, InvalidMaxSeries: row 1", "series 1 tier 1s 9s schema series 0 tier 1s 9s"),
        // 32 + 64 + 64 + 4 m + 8 n + 8 n m
        (1, "refusal 8, LayoutTooLarge: the image would have 2968698574864540 bytes", "series 4294967295 tier 1s 1d"),
    ] {
        folder.bad(status, has, &format!("create b.img {plan}"));
    }
}

#[test]
fn lines() {
    let folder = image();
    let long = format!("0 0 20s 1\n0 0 21s {}\n", "1".repeat(5000));
    let late = "0 0 20s 1\n".repeat(10_000) + "0 0 20s\n";
    for (has, text) in [
        ("line 2: VALUE cannot be read", long.as_str()),
        ("line 10001: VALUE is missing", &late),
        ("line 1: SCHEMA cannot be read from 'x'", "x\t0 20s 1\n"),
        ("line 1: SCHEMA cannot be read from 'recorded'", "recorded\n"),
        ("line 2: STAMP cannot be read from '21': a number needs its unit", "0 0 20s 1\r\n0 0 21 1\r\n"),
        ("line 2: refusal 11, InvalidHandle: there is no schema 1; there are 0 to 0", "0 0 20s 1\n1 0 21s 1\n"),
        ("line 2: refusal 11, InvalidHandle: schema 0 has no column 2; it has 0 to 1", "0,0,20s,1\n0,2,21s,1\n"),
        ("line 3: refusal 13, InvalidTimestamp", "stamp,value\n20s,1\n0s,1\n"),
        ("line 1: a carriage return stands within it; end lines with a line feed", "0,0,20s,1\r0,0,21s,2\r0,0,22s,3\r"),
        ("line 1: a carriage return", "stamp,value\r20s,1\r21s,2\r"),
        ("line 2: a carriage return", "0,0,20s,1\r\n\"0\",0,21s,2\r0,0,22s,3\r\n"),
        ("line 1: a carriage return", "0 0 20s 1\r0 0 21s 2\r"),
        ("line 2: a carriage return", "0 0 20s 1\n# none\r0 0 21s 2\n"),
    ] {
        folder.bad_with(1, has, "record a.img", text);
        folder.bad_with(1, has, "import a.img", text);
    }
    // at a line's end carriage returns are no matter
    for text in ["0 0 20s 1\r\n0 0 21s 2\r", "0,0,20s,1\r\r\n\"0\",0,21s,2\r"] {
        assert_eq!(folder.good_with("record a.img", text), "recorded, samples: 2\n");
    }
    // every line is read before one is recorded
    folder.bad_with(1, "line 3: STAMP cannot be read from 'x'", "record a.img", "0 0 20s 1\n0 0 0s 1\n0 0 x 1\n");
    for text in ["", "\n\n", "# nothing\n", "\u{feff}"] {
        assert_eq!(folder.good_with("record a.img", text), "recorded, samples: 0\n");
        assert!(folder.good_with("import a.img", text).starts_with("imported, samples: 0, runs: 0\n"));
    }
}

#[test]
fn ranges() {
    let folder = image();
    for (range, count) in [
        ("", 2),
        ("0s 9223372036854775807ns", 2),
        ("10s 19s", 1),
        ("10s 19000000001ns", 2),
        ("10000000001ns 19s", 0),
        ("20s 30s", 0),
        ("1s 10s", 0),
        ("0ns 18446744073709551615ns", 2),
    ] {
        for tier in ["0", "auto"] {
            assert_eq!(folder.points(&format!("a.img 0 0 {tier} {range}")).len(), count, "{tier} {range}");
        }
    }
    for range in ["10s 10s", "11s 10s", "18446744073709551615ns 0s", "now now-1s"] {
        for command in ["query", "plot"] {
            folder.bad(1, "refusal 15, InvalidTimeRange: the range starts at ", &format!("{command} a.img 0 0 auto {range}"));
        }
    }
}

/// What a run is refused by, and where.
#[test]
fn runs() {
    let folder = Folder::new();
    let plan = "series 2 tier 1s 10min tier 10s 1h sum tier 1min 1h average";
    for (lines, has) in [
        (
            "0 1 5s 1\n0 1 10s 1\n",
            "refusal 13, InvalidTimestamp: slab of row 0, slot 5: the sample at 5s is in the window of 10s",
        ),
        ("0 0 3s 1\n0 1 5s 1\n0 0 9s 1\n", "slot 3: the sample at 3s (and 2 more) is in the window of 10s that starts at 0"),
        ("0 1 35s 1\n", "refusal 13, InvalidTimestamp: slab of row 1, slot 3: the sample at 30s is in the window of 1min"),
        (
            "0 1 60s 1e308\n0 1 70s 1e308\n0 1 71s 1e308\n",
            "refusal 12, InvalidValue: row 1, column 1, window 1970-01-01T00:01:10Z: the sum of its values",
        ),
        ("0 0 60s 1.5e308\n0 0 70s 1.5e308\n", "refusal 12, InvalidValue: row 2, column 0, window 1970-01-01T00:01:00Z"),
    ] {
        folder.good(&format!("create r.img {plan}"));
        folder.bad_with(1, has, "import r.img", lines);
        folder.good_with("record r.img", lines);
        folder.bad(1, has, "consolidate r.img");
        fs::remove_file(folder.file("r.img")).unwrap();
    }
    // it goes when its slot is written again
    folder.good("create s.img series 1 tier 1s 20s tier 10s 1h average");
    folder.good("record s.img 0 0 5s 1");
    folder.bad(1, "slot 5", "consolidate s.img");
    folder.good("record s.img 0 0 25s 1");
    assert_eq!(folder.good("consolidate s.img"), "consolidated, values written: 1\n");
}

/// What a run does not read, or not so, is not what it is refused by.
#[test]
fn runs_by_the_rules() {
    let folder = Folder::new();
    for (plan, lines, has) in [
        // min does not add
        ("1min tier 10s 1h min tier 1min 1h sum", "0 0 60s 1.5e308\n0 0 61s 1.5e308\n0 0 70s 1.5e308\n", "row 2, column 0"),
        // nan is no value
        (
            "1min tier 10s 1h average tier 1min 1h average",
            "0 0 5s nan\n0 0 35s 1\n",
            "slab of row 1, slot 3: the sample at 30s",
        ),
        // in slot order the window at 20s is beyond the greatest number, in reading order it is not
        (
            "30s tier 20s 1h sum",
            "0 0 28s 1.5e308\n0 0 29s -1.5e308\n0 0 30s 1.5e308\n0 0 41s 1.5e308\n0 0 42s 1.5e308\n",
            "row 1, column 0, window 1970-01-01T00:00:40Z",
        ),
    ] {
        folder.good(&format!("create r.img series 1 tier 1s {plan}"));
        folder.good_with("record r.img", lines);
        folder.bad(1, has, "consolidate r.img");
        fs::remove_file(folder.file("r.img")).unwrap();
    }
    // what lies before the mark's window is not read
    folder.good("create r.img series 1 tier 1s 10min tier 10s 1h sum");
    folder.good_with("import r.img", "0 0 90s 1\n");
    folder.good_with("record r.img", "0 0 60s 1.5e308\n0 0 61s 1.5e308\n0 0 100s 1.5e308\n0 0 101s 1.5e308\n");
    folder.bad(1, "row 1, column 0, window 1970-01-01T00:01:40Z", "consolidate r.img");
}

/// Files that are no images, and names that stand in the way of none.
#[test]
fn files() {
    let folder = image();
    fs::write(folder.file("zeros.img"), vec![0; (4 << 20) + 1]).unwrap();
    fs::write(folder.file("text.img"), "0 0 20s 1\n".repeat(100)).unwrap();
    for (command, rest) in &ALL[1..11] {
        folder.bad(1, "zeros.img: refusal 1, BadImage: header, field magic", &format!("{command} zeros.img {rest}"));
        folder.bad(1, "text.img: refusal 1, BadImage: header, field magic", &format!("{command} text.img {rest}"));
        folder.bad(3, "a.img/inner: Not a directory", &format!("{command} a.img/inner {rest}"));
    }
    fs::write(folder.file("a.img.new"), "mine").unwrap();
    folder.good("record a.img 0 0 20s 1");
    folder.good("consolidate a.img");
    assert_eq!(folder.bytes("a.img.new"), b"mine");
    assert!(shared::leftovers(&folder.path).is_empty());
}

/// A cut of every length, up to the first slab's end and just before the image's: refused, with its place.
#[test]
fn cut_short() {
    let folder = image();
    let good = folder.bytes("a.img");
    for length in (0..230).chain(good.len() - 3..good.len()) {
        fs::write(folder.file("cut.img"), &good[..length]).unwrap();
        let place = match length {
            0..32 => format!("header: the file has {length} bytes, and a header has 32"),
            32..160 => format!("rows: the file has {length} bytes, and header and rows have 160"),
            _ => format!("the file is cut short: it has {length} bytes, and the image has 3184"),
        };
        folder.bad(1, &format!("cut.img: refusal 1, BadImage: {place}"), "check cut.img");
    }
}

/// Each command opens the image anew: the ends that it names stand after each, from four places of a ring.
#[test]
fn ends_after_each_power_cycle() {
    for from in [1_763_280_000u64, 1_763_280_001, 1_763_281_800, 1_763_283_599] {
        let folder = Folder::new();
        folder.good("create hour.img series 1 tier 1s 1h");
        for at in (from..from + 7200).step_by(600) {
            let lines: String = (at..at + 600).map(|t| format!("0 0 {t}s {}\n", t % 3600)).collect();
            assert_eq!(folder.good_with("record hour.img", &lines), "recorded, samples: 600\n");
            let (oldest, newest) = (from.max((at + 600).saturating_sub(3600)), at + 599);
            let json: serde_json::Value = serde_json::from_str(&folder.good("query hour.img 0 0 0 --json")).unwrap();
            assert_eq!(
                (&json["oldest_ns"], &json["newest_ns"]),
                (&(oldest * 1_000_000_000).into(), &(newest * 1_000_000_000).into())
            );
            let points = json["points"].as_array().unwrap();
            assert!(points.iter().zip(oldest..=newest).all(|(p, t)| p["value"] == (t % 3600) as f64));
            assert_eq!(points.len() as u64, newest + 1 - oldest);
        }
    }
}
