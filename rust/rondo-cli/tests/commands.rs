//! Each command on good words, and on bad ones.

mod shared;

use shared::Folder;

const PLAN: &str = "series 2 tier 1s 1min tier 10s 10min average";

fn image() -> Folder {
    let folder = Folder::new();
    assert_eq!(folder.good(&format!("create a.img {PLAN}")), "created, bytes: 3184\n");
    folder
}

/// With samples, and consolidated.
fn filled() -> Folder {
    let folder = image();
    assert_eq!(folder.good("record a.img 0 0 10s -1.5"), "recorded, samples: 1\n");
    let lines = "# a comment\n\n0 0 11s 2\n0 1 11s 0x3ff0000000000000\n0 0 12s nan\n0 0 19s 4";
    assert_eq!(folder.good_with("record a.img", lines), "recorded, samples: 4\n");
    assert_eq!(folder.good("consolidate a.img"), "consolidated, values written: 2\n");
    folder
}

#[test]
fn records_and_reads() {
    let folder = filled();
    assert_eq!(folder.good("check a.img"), "good\n");
    let points = folder.points("a.img 0 0 0");
    assert_eq!(points, [(10_000_000_000, -1.5), (11_000_000_000, 2.0), (19_000_000_000, 4.0)]);
    assert_eq!(folder.points("a.img 0 0 0 10s 19s"), points[..2]);
    assert_eq!(folder.points("a.img 0 0 auto 11s 19s"), points[1..2]);
    assert_eq!(folder.points("a.img 0 0 1"), [(10_000_000_000, 1.5)]);
    assert_eq!(folder.points("a.img 0 1 1"), [(10_000_000_000, 1.0)]);
    // nothing new: the window that the last run ended in is written again
    assert_eq!(folder.good("consolidate a.img"), "consolidated, values written: 2\n");
}

#[test]
fn a_run_in_the_middle_of_a_window_and_one_at_its_end() {
    let folder = image();
    for (stamp, value) in [("10s", "1"), ("19s", "4")] {
        folder.good(&format!("record a.img 0 0 {stamp} {value}"));
        assert_eq!(folder.good("consolidate a.img"), "consolidated, values written: 1\n");
    }
    assert_eq!(folder.points("a.img 0 0 1"), [(10_000_000_000, 2.5)]);
}

#[test]
fn query_as_table_csv_and_json() {
    let folder = filled();
    let table = folder.good("query a.img 0 0 0 10s 12s");
    let lines: Vec<&str> = table.lines().collect();
    assert_eq!(lines[0], "# tier 0, oldest 1970-01-01T00:00:10Z, newest 1970-01-01T00:00:19Z");
    assert_eq!(lines[2].split_whitespace().collect::<Vec<_>>(), ["1970-01-01T00:00:10Z", "10000000000ns", "-1.5"]);
    assert_eq!(lines.len(), 4);
    let csv = folder.good("query a.img 0 0 0 10s 12s --csv");
    assert_eq!(csv, "stamp_ns,time,value\n10000000000,1970-01-01T00:00:10Z,-1.5\n11000000000,1970-01-01T00:00:11Z,2.0\n");
    let json: serde_json::Value = serde_json::from_str(&folder.good("query a.img 0 0 0 9s 12s --json")).unwrap();
    assert_eq!((&json["tier"], &json["may_be_incomplete"]), (&0.into(), &true.into()));
    assert_eq!((&json["oldest_ns"], &json["newest_ns"]), (&10_000_000_000u64.into(), &19_000_000_000u64.into()));
    assert_eq!(json["points"][1]["value"], 2.0);
    assert_eq!(json["points"].as_array().unwrap().len(), 2);
    folder.bad(2, "cannot be used with", "query a.img 0 0 0 --csv --json");
    let empty = image();
    let table = empty.good("query a.img 0 0 1");
    assert!(table.starts_with("# tier 1, oldest none, newest none, may be incomplete\n"));
    assert_eq!(empty.good("query a.img 0 0 1 --csv"), "stamp_ns,time,value\n");
}

#[test]
fn times() {
    let folder = image();
    folder.good("record a.img 0 0 2026-11-17T08:30:00.5Z 1");
    folder.good("record a.img 0 0 2026-11-17T09:30:01+01:00 2");
    folder.good("record a.img 0 0 1794904202000ms 3");
    let points = folder.points("a.img 0 0 0 2026-11-17T08:30:00Z 2026-11-17T08:31:00Z");
    assert_eq!(points.iter().map(|p| p.0).collect::<Vec<_>>(), [1794904200500000000, 1794904201000000000, 1794904202000000000]);
    let folder = image();
    folder.good("record a.img 0 0 now-5s 1");
    folder.good("record a.img 0 0 now 2");
    assert_eq!(folder.points("a.img 0 0 0 now-30s now+1s").len(), 2);
    assert_eq!(folder.points("a.img 0 0 0 now-3s now+1s").len(), 1);
    folder.bad(2, "one of ns us ms s min h d", "record a.img 0 0 5 1");
    folder.bad(2, "one of ns us ms s min h d", "query a.img 0 0 0 5 6s");
    folder.bad(2, "one of ns us ms s min h d", "create b.img series 1 tier 1 1h");
    folder.bad_with(
        1,
        "line 1: STAMP cannot be read from '5': a number needs its unit, one of ns us ms s min h d",
        "record a.img",
        "0 0 5 1",
    );
}

#[test]
fn values_are_exact() {
    let folder = image();
    let values = ["0.1", "-0.0", "5e-324", "1.7976931348623157e308", "1e-7", "123456789.12345679", "-2.5E3", "1e22"];
    for (second, value) in (10..).zip(values) {
        folder.good(&format!("record a.img 0 0 {second}s {value}"));
    }
    folder.good("record a.img 0 0 30s NaN");
    let points = folder.points("a.img 0 0 0");
    let exact: Vec<u64> = values.iter().map(|v| v.parse::<f64>().unwrap().to_bits()).collect();
    assert_eq!(points.iter().map(|p| p.1.to_bits()).collect::<Vec<_>>(), exact);
    // by the text: serde_json's own reading of numbers is not exact as Debian builds it
    let json = folder.good("query a.img 0 0 0 --json");
    let printed = json.split("\"value\":").skip(1).map(|rest| rest.split('}').next().unwrap());
    assert_eq!(printed.map(|v| v.parse::<f64>().unwrap().to_bits()).collect::<Vec<_>>(), exact);
}

#[test]
fn csv_in() {
    let folder = image();
    folder.good_with("record a.img", "0,0,10s,1\n# note\n\n\"0\", 1, 1970-01-01T00:00:10Z, 2e0\n");
    folder.good_with("record a.img", "value,time,column\n3,11s,1\n");
    assert_eq!(folder.points("a.img 0 1 0"), [(10_000_000_000, 2.0), (11_000_000_000, 3.0)]);
    // what a query prints can be recorded again
    let printed = folder.good("query a.img 0 1 0 --csv");
    folder.good(&format!("create b.img {PLAN}"));
    assert_eq!(folder.good_with("record b.img", &printed), "recorded, samples: 2\n");
    assert_eq!(folder.points("b.img 0 0 0"), folder.points("a.img 0 1 0"));
    folder.good_with("record a.img", "\u{feff}Column,Time,Value\r\n1,12s,4\r\n");
    assert_eq!(folder.points("a.img 0 1 0 12s 13s"), [(12_000_000_000, 4.0)]);
    folder.bad_with(1, "line 1: VALUE cannot be read from '1,5'", "record a.img", "0 0 20s 1,5\n");
    folder.bad_with(1, "line 4: VALUE cannot be read from 'x'", "record a.img", "0,0,20s,1\n#\n\n0,0,21s,x\n");
    folder.bad_with(1, "line 2: VALUE is missing", "record a.img", "0,0,20s,1\n0,0,21s\n");
    folder.bad_with(1, "line 2: one field too many", "record a.img", "0,0,20s,1\n0,0,21s,1,1\n");
    folder.bad_with(1, "line 1: no field is named stamp", "record a.img", "value,schema\n1,0\n");
    folder.bad_with(1, "line 2: STAMP cannot be read", "record a.img", "stamp,value\n5,1\n");
}

#[test]
fn show_and_version() {
    let folder = filled();
    let shown = folder.good("show a.img");
    assert_eq!((shown.lines().count(), shown.matches('#').count()), (4, 2));
    let row: Vec<&str> = shown.lines().nth(3).unwrap().split_whitespace().collect();
    assert_eq!(row[..9], ["0", "1", "2", "10s", "10min", "average", "60", "1", "no"]);
    let csv = folder.good("show a.img --csv");
    assert_eq!(csv.lines().nth(2), Some("0,1,2,10000000000,600000000000,average,60,1,false,10000000000,10000000000,"));
    let json: serde_json::Value = serde_json::from_str(&folder.good("show a.img --json")).unwrap();
    assert_eq!(
        (&json[0]["used"], &json[0]["mark_ns"], &json[1]["mark_ns"]),
        (&4.into(), &19_000_000_000u64.into(), &().into())
    );
    assert!(folder.good("version").starts_with("rondo "));
    assert!(folder.good("--version").starts_with("rondo "));
    assert!(folder.good("help").contains("Exit status"));
    assert!(folder.good("query --help").contains("TIER"));
    assert!(!folder.good("query a.img 0 0 0").contains('\x1b'));
}

#[test]
fn plot_in_the_terminal() {
    let folder = filled();
    let drawn = folder.good("plot a.img 0 0 0");
    assert_eq!((drawn.lines().count(), drawn.matches('*').count()), (20, 3));
    for label in ["4.0 +", "-1.5 +", "1970-01-01T00:00:10Z", "1970-01-01T00:00:19Z", "3 points"] {
        assert!(drawn.contains(label), "{drawn}");
    }
    assert!(folder.good("plot a.img 0 0 0 50s 60s").contains("no points"));
    folder.good("record a.img 0 1 20s 1.7e308");
    folder.good("record a.img 0 1 21s -1.7e308");
    folder.good("plot a.img 0 1 0");
}

#[test]
fn plot_into_a_picture() {
    let folder = filled();
    for _ in 0..2 {
        assert_eq!(folder.good("plot a.img 0 0 0 --out p.svg"), "drawn, points: 3\n");
        assert_eq!(folder.good("plot a.img 0 0 0 --out p.png"), "drawn, points: 3\n");
    }
    let svg = String::from_utf8(folder.bytes("p.svg")).unwrap();
    assert_eq!((svg.matches("<circle").count(), svg.matches("</svg>").count()), (3, 1));
    for label in ["-1.0", "4.0", "1970-01-01T00:00:10Z", "1970-01-01T00:00:15Z"] {
        assert!(svg.contains(&format!(">{label}<")), "{svg}");
    }
    let png = folder.bytes("p.png");
    assert!(png.starts_with(b"\x89PNG") && png.ends_with(b"IEND\xaeB`\x82"));
    folder.good("plot a.img 0 0 0 50s 60s --out empty.png");
    folder.bad(2, "ends with .svg or .png", "plot a.img 0 0 0 --out a.img");
    folder.bad(3, "No such file or directory", "plot a.img 0 0 0 --out nowhere/p.svg");
    folder.bad(1, "refusal 14", "plot a.img 0 0 9 --out q.svg");
}

#[test]
fn man_page_and_completions() {
    let folder = Folder::new();
    let page = folder.good("man");
    for command in [
        "create",
        "record",
        "import",
        "consolidate",
        "query",
        "panel",
        "service",
        "plot",
        "show",
        "check",
        "dump",
        "restore",
        "version",
    ] {
        assert!(page.contains(&format!(".SS {command}\n")), "{command}");
        for shell in ["bash", "zsh", "fish"] {
            assert!(folder.good(&format!("completions {shell}")).contains(command));
        }
    }
    folder.bad(2, "'sh' isn't a valid value", "completions sh");
    std::fs::write(folder.file("page"), &page).unwrap();
    let groff = std::process::Command::new("groff").args(["-man", "-ww", "-Tascii"]).arg(folder.file("page")).output();
    if let Ok(read) = groff {
        assert!(read.status.success() && read.stderr.is_empty(), "{}", String::from_utf8_lossy(&read.stderr));
    }
    std::fs::write(folder.file("bash"), folder.good("completions bash")).unwrap();
    if let Ok(read) = std::process::Command::new("bash").arg("-n").arg(folder.file("bash")).status() {
        assert!(read.success());
    }
}

#[test]
fn wrong_usage() {
    let folder = filled();
    folder.bad(2, "no command", "");
    folder.bad_words(2, "", &[""], b"");
    folder.bad(2, "frobnicate", "frobnicate a.img");
    for command in
        ["create", "record", "import", "consolidate", "query", "panel", "service", "plot", "show", "check", "dump", "restore"]
    {
        folder.bad(2, "<FILE>", command);
    }
    for command in ["consolidate", "show", "check", "import", "dump", "restore"] {
        folder.bad(2, "'more'", &format!("{command} a.img more"));
    }
    folder.bad(2, "'5'", "record a.img 0 0 20s 1 5");
    folder.bad(2, "COLUMN is missing", "record a.img 0");
    folder.bad(2, "STAMP is missing", "record a.img 0 0");
    folder.bad(2, "VALUE is missing", "record a.img 0 0 20s");
    for command in ["query", "plot"] {
        folder.bad(2, "'5'", &format!("{command} a.img 0 0 0 1s 2s 5"));
        folder.bad(2, "<SCHEMA>", &format!("{command} a.img"));
        folder.bad(2, "<COLUMN>", &format!("{command} a.img 0"));
        folder.bad(2, "<TIER>", &format!("{command} a.img 0 0"));
        folder.bad(2, "<END>", &format!("{command} a.img 0 0 0 5s"));
    }
    for command in ["panel", "service"] {
        folder.bad(2, "'5s'", &format!("{command} a.img 0 0 0 5s"));
        folder.bad(2, "<SCHEMA>", &format!("{command} a.img"));
        folder.bad(2, "<COLUMN>", &format!("{command} a.img 0"));
        folder.bad(2, "<TIER>", &format!("{command} a.img 0 0"));
        folder.bad(2, "auto goes by a range of time; give a tier's number, 0 the finest", &format!("{command} a.img 0 0 auto"));
        folder.bad(2, "cannot be used with", &format!("{command} a.img 0 0 0 --csv --json"));
    }
}

#[test]
fn text_for_a_number() {
    let folder = filled();
    for word in ["x", "-1", "1.0", "0x1"] {
        folder.bad(2, &format!("SCHEMA cannot be read from '{word}'"), &format!("record a.img {word} 0 20s 1"));
        folder.bad(2, &format!("COLUMN cannot be read from '{word}'"), &format!("record a.img 0 {word} 20s 1"));
        folder.bad(2, "", &format!("query a.img 0 0 {word}"));
    }
    for word in ["soon", "5x", "5m", "-5s", "1.5ns", "s", "18446744073709551616ns", "213504d", "2026-02-30T00:00:00Z"] {
        folder.bad(2, &format!("STAMP cannot be read from '{word}'"), &format!("record a.img 0 0 {word} 1"));
        folder.bad(2, &format!("START cannot be read from '{word}'"), &format!("query a.img 0 0 0 {word} 5s"));
        folder.bad(2, &format!("END cannot be read from '{word}'"), &format!("plot a.img 0 0 0 5s {word}"));
    }
    for word in ["much", "--1", "1.2.3", "0x12", "0x3ff000000000000g", "1,5", "1e999"] {
        folder.bad(2, &format!("VALUE cannot be read from '{word}'"), &format!("record a.img 0 0 20s {word}"));
    }
}

#[test]
fn refusals_of_calls() {
    let folder = filled();
    for words in
        ["record a.img 1 0 20s 1", "record a.img 0 2 20s 1", "record a.img 4294967296 0 20s 1", "query a.img 0 4294967296 0"]
    {
        folder.bad(1, "a.img: refusal 11, InvalidHandle: ", words);
    }
    for value in ["0x7ff0000000000000", "0xfff0000000000000", "inf", "-inf"] {
        folder.bad(1, "refusal 12, InvalidValue", &format!("record a.img 0 0 20s {value}"));
    }
    for stamp in ["0s", "9223372036854775808ns"] {
        folder.bad(1, "refusal 13, InvalidTimestamp", &format!("record a.img 0 0 {stamp} 1"));
    }
    for command in ["query", "plot"] {
        folder.bad(1, "refusal 14, InvalidTier: schema 0 has tiers 0 to 1", &format!("{command} a.img 0 0 2"));
        folder.bad(1, "refusal 14, InvalidTier", &format!("{command} a.img 0 0 4294967296"));
        folder.bad(1, "refusal 15, InvalidTimeRange", &format!("{command} a.img 0 0 0 20s 10s"));
        folder.bad(1, "refusal 15, InvalidTimeRange", &format!("{command} a.img 0 0 auto 10s 10s"));
    }
    folder.good("create early.img series 1 tier 1s 1min tier 10s 10min average");
    folder.good("record early.img 0 0 1s 1");
    folder.bad(1, "refusal 13, InvalidTimestamp", "consolidate early.img");
    folder.good("create plain.img series 1 tier 1s 1min tier 10s 10min");
    folder.bad(1, "refusal 16, NoConsolidationFunction: row 1, field function", "consolidate plain.img");
    // a run that is refused in its second pair leaves the file as it was
    folder.good("create late.img series 1 tier 1s 2min tier 10s 10min sum tier 1min 1h");
    folder.good("record late.img 0 0 60s 1");
    folder.bad(1, "refusal 16, NoConsolidationFunction: row 2", "consolidate late.img");
}

#[test]
fn lines_all_or_none() {
    let folder = filled();
    let bad = |has: &str, text: &str| {
        folder.bad_with(1, has, "record a.img", text);
        folder.bad_with(1, has, "import a.img", text);
    };
    bad("line 3: VALUE cannot be read from 'x'", "0 0 20s 1\n0 0 21s 2\n0 0 22s x\n0 0 23s 3\n");
    bad("line 2: STAMP cannot be read from 'x'", "0 0 20s 1\n0 0 x 2");
    bad("line 4: COLUMN is missing", "0 0 20s 1\n\n# note\n0\n");
    bad("line 1: one word too many: '7'", "0 0 20s 1 7\n");
    bad("line 2: refusal 13", "0 0 20s 1\n0 0 0s 1\n");
    bad("line 2: refusal 11", "0 0 20s 1\n0 9 21s 1\n");
    bad("line 2: refusal 12", "0 0 20s 1\n0 0 21s inf\n");
    folder.bad_words(1, "line 2: it is not text", &["record", "a.img"], b"0 0 20s 1\n0 0 \xff 2\n");
    assert_eq!(folder.good_with("record a.img", ""), "recorded, samples: 0\n");
}

#[test]
fn plans() {
    let folder = Folder::new();
    let bad = |status: i32, has: &str, plan: &str| folder.bad(status, has, &format!("create b.img {plan}"));
    bad(2, "<PLAN>", "");
    bad(2, "expected a number of series", "series");
    bad(2, "'x': expected a number of series", "series x tier 1s 1h");
    bad(2, "expected the word tier", "series 1");
    bad(2, "expected an interval", "series 1 tier");
    bad(2, "'x': expected an interval", "series 1 tier x 1h");
    bad(2, "expected a retention", "series 1 tier 1s");
    bad(2, "'median'", "series 1 tier 1s 1h tier 1min 1d median");
    bad(1, "refusal 3, InvalidMaxSeries: row 0", "series 0 tier 1s 1h");
    bad(1, "refusal 4, InvalidTierConfig: row 0, field retention", "series 1 tier 1h 1s");
    bad(1, "refusal 4, InvalidTierConfig: row 0, field interval", "series 1 tier 0s 1h");
    bad(1, "refusal 4, InvalidTierConfig: row 0, field retention", "series 1 tier 1s 0s");
    bad(1, "refusal 5, TooManySlots: row 0", "series 1 tier 1ns 1000000001ns");
    bad(1, "refusal 6, TiersNotOrdered: row 1", "series 1 tier 1min 1h tier 1s 1h average");
    bad(1, "refusal 7, ConsolidationOnHighestTier: row 1", "series 1 tier 1s 9s schema series 1 tier 1s 1h average");
    bad(1, "refusal 8, LayoutTooLarge", "series 1000 tier 1ns 1000000000ns");
    bad(3, "do not fit in memory", "series 130 tier 1ns 1000000000ns");
    let tiers: String = (1..=33).map(|i| format!("tier {i}s 100s ")).collect();
    bad(2, "at most 32 tiers", &format!("series 1 {tiers}"));
    bad(2, "at most 8 schemas", &format!("series 1 tier 1s 9s {}", "schema series 1 tier 1s 9s ".repeat(8)));
}

#[test]
fn create_says_where_a_plan_is_not_covered() {
    let folder = Folder::new();
    assert_eq!(folder.good("create good.img series 2 tier 1s 2h tier 1min 1d average tier 1h 30d average").lines().count(), 1);
    let said = folder.good("create short.img series 1 tier 1s 1h tier 1min 1d average tier 1h 30d average");
    assert!(said.contains("tier 0: its ring spans 1h, below two coarsest intervals, 2h"), "{said}");
    assert_eq!(said.lines().count(), 3);
    let said = folder.good("create max.img series 1 tier 2s 10min tier 5s 10min max");
    assert!(
        said.contains("5s, is not a whole 2 to 4096 times the finer tier's, 2s") && said.contains("max, not average"),
        "{said}"
    );
    let said = folder.good("create two.img series 1 tier 1s 1min schema series 1 tier 1s 1min tier 10s 1min average");
    assert!(
        said.contains("one schema, and there are 2") && said.contains("schema 0: the number of its tiers is 1, not 2 to 4"),
        "{said}"
    );
}
