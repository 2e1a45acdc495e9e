//! import on the schedule of the third demand; power cycles; dump and restore.

mod shared;

use shared::Folder;

const DAYS: &str = "series 2 tier 1s 2h tier 60s 24h average tier 1h 30d average";

fn feed(from: u64, to: u64) -> String {
    (from..to).map(|t| format!("0 0 {t}s {}\n", t % 3600)).collect()
}

/// The mean of each window of so many seconds, from points in time order.
fn means(points: &[(u64, f64)], window: u64) -> Vec<(u64, f64)> {
    let mut all: Vec<(u64, f64, u64)> = Vec::new();
    for (stamp, value) in points {
        let start = stamp - stamp % (window * 1_000_000_000);
        match all.last_mut() {
            Some((last, sum, count)) if *last == start => (*sum, *count) = (*sum + value, *count + 1),
            _ => all.push((start, *value, 1)),
        }
    }
    all.into_iter().map(|(start, sum, count)| (start, sum / count as f64)).collect()
}

fn newest<T: Clone>(all: &[T], count: usize) -> Vec<T> {
    all[all.len().saturating_sub(count)..].to_vec()
}

/// All three tiers hold what the samples from `from` to `to` make.
fn holds(folder: &Folder, name: &str, from: u64, to: u64) {
    let seconds: Vec<(u64, f64)> = (from..to).map(|t| (t * 1_000_000_000, (t % 3600) as f64)).collect();
    let minutes = means(&seconds, 60);
    assert_eq!(folder.points(&format!("{name} 0 0 0")), newest(&seconds, 7200));
    assert_eq!(folder.points(&format!("{name} 0 0 1")), newest(&minutes, 1440));
    assert_eq!(folder.points(&format!("{name} 0 0 2")), means(&minutes, 3600));
}

#[test]
fn import_leaves_what_the_theorem_promises() {
    let folder = Folder::new();
    folder.good(&format!("create a.img {DAYS}"));
    let from = 1_765_116_000;
    let mut lines: Vec<String> = feed(from, from + 50 * 3600).lines().map(String::from).collect();
    lines.reverse();
    assert_eq!(folder.good_with("import a.img", &lines.join("\n")), "imported, samples: 180000, runs: 50\n");
    holds(&folder, "a.img", from, from + 50 * 3600);
    // and goes on where it ended
    let more = folder.good_with("import a.img", &feed(from + 50 * 3600, from + 52 * 3600 + 90));
    assert_eq!(more, "imported, samples: 7290, runs: 4\n");
    holds(&folder, "a.img", from, from + 52 * 3600 + 90);
}

#[test]
fn import_says_where_the_supposition_is_not_met() {
    let folder = Folder::new();
    folder.good("create a.img series 2 tier 1s 10min tier 10s 1h average");
    let said = |input: &str| folder.good_with("import a.img", input);
    let first = said("0 0 15s 1\n0 0 16s 1.5\n0 0 18s 2000000000\n0 0 18.5s 1\n0 0 20s nan\n");
    for (what, count) in [
        ("first samples that are not at a multiple of the coarsest interval", 1),
        ("missing ticks", 2),
        ("samples more than one a tick", 1),
        ("samples between ticks", 1),
        ("values that are not whole numbers", 2),
        ("values beyond 2^30", 1),
    ] {
        assert!(first.contains(&format!("{what}: {count}, the first at ")), "{what}: {first}");
    }
    assert!(first.contains("values beyond 2^30: 1, the first at line 3 "), "{first}");
    assert!(said("0 0 19s 1\n").contains("stamps that fall below what the image held: 1"));
    folder.good("create short.img series 1 tier 1s 15s tier 10s 1h average");
    let short = folder.good_with("import short.img", "0 0 10s 1\n");
    assert!(short.contains("tier 0: its ring spans 15s, below two coarsest intervals, 20s"), "{short}");
    // two columns, one of them with a gap at its end
    folder.good("create two.img series 2 tier 1s 10min tier 10s 1h average");
    let two = folder.good_with("import two.img", "0 0 10s 1\n0 1 10s 1\n0 0 11s 1\n");
    assert!(two.contains("missing ticks: 1, the first at schema 0, column 1, 1970-01-01T00:00:11Z"), "{two}");
}

#[test]
fn a_refused_import_changes_nothing() {
    let folder = Folder::new();
    folder.good("create a.img series 1 tier 1s 1min tier 10s 10min average");
    folder.bad_with(1, "refusal 13, InvalidTimestamp", "import a.img", "0 0 5s 1\n0 0 15s 1\n");
    folder.good("create plain.img series 1 tier 1s 1min tier 10s 10min");
    folder.bad_with(1, "refusal 16, NoConsolidationFunction", "import plain.img", "0 0 10s 1\n");
    assert_eq!(folder.good_with("import a.img", "# none\n"), "imported, samples: 0, runs: 0\n");
}

#[test]
fn an_hour_less_ten_minutes_is_found_after_each_power_cycle() {
    for from in [1_763_280_000, 1_763_280_001, 1_763_281_800, 1_763_283_599] {
        let folder = Folder::new();
        folder.good("create hour.img series 1 tier 1s 1h");
        for at in (from..from + 3000).step_by(500) {
            folder.good_with("record hour.img", &feed(at, at + 500));
            let expected: Vec<(u64, f64)> = (from..at + 500).map(|t| (t * 1_000_000_000, (t % 3600) as f64)).collect();
            assert_eq!(folder.points("hour.img 0 0 0"), expected);
        }
    }
}

#[test]
fn two_days_with_a_run_each_half_hour() {
    for from in [1_765_116_000, 1_765_117_800, 1_765_119_599] {
        let folder = Folder::new();
        folder.good(&format!("create days.img {DAYS}"));
        for at in (from..from + 172_800).step_by(1800) {
            folder.good_with("record days.img", &feed(at, at + 1800));
            folder.good("consolidate days.img");
            let found = folder.points(&format!("days.img 0 0 0 {at}s {}s", at + 1800));
            assert!(found.into_iter().eq((at..at + 1800).map(|t| (t * 1_000_000_000, (t % 3600) as f64))));
        }
        holds(&folder, "days.img", from, from + 172_800);
    }
}

#[test]
fn restore_makes_the_same_bytes() {
    let folder = Folder::new();
    folder.good(&format!("create a.img {DAYS} schema series 3 tier 7ms 1s tier 1s 1min max tier 1min 1h count"));
    folder.good_with("record a.img", &feed(1_765_116_000, 1_765_125_000));
    folder.good_with("record a.img", "1 2 70007ms 0x7ff0000000000001\n1 0 70014ms -0.0\n1 1 70014ms 5e-324\n");
    folder.good("consolidate a.img");
    // bytes that are never read, too
    let mut bytes = folder.bytes("a.img");
    let slab = u64::from_le_bytes(bytes[64..72].try_into().unwrap()) as usize;
    (bytes[slab + 36], bytes[slab + 60], bytes[slab + 64]) = (9, 8, 7);
    std::fs::write(folder.file("a.img"), &bytes).unwrap();
    let dump = folder.good("dump a.img");
    assert!(dump.contains("byte "));
    let said = folder.good_with("restore b.img", &dump);
    assert_eq!(said, format!("restored, bytes: {}\n", bytes.len()));
    assert!(folder.bytes("b.img") == bytes);
    assert_eq!(folder.good("dump b.img"), dump);
    folder.bad_with(3, "b.img: exists already", "restore b.img", &dump);
}

#[test]
fn a_bad_dump_is_refused_by_its_line() {
    let folder = Folder::new();
    folder.good("create a.img series 1 tier 1s 1min tier 10s 10min average");
    folder.good("record a.img 0 0 10s 1");
    let dump = folder.good("dump a.img");
    let bad = |has: &str, text: &str| folder.bad_with(1, has, "restore b.img", text);
    bad("cut short", "");
    bad("cut short", dump.trim_end_matches("end\n"));
    bad("line 1: a dump begins with", "x\nend\n");
    bad("line 4: VALUE cannot be read from 'x'", &dump.replace("10000000000ns 1.0", "10000000000ns x"));
    bad("line 4: slot 60 is not below 60", &dump.replace("\n10 ", "\n60 "));
    bad("line 4: a slot has a stamp and 1 values", &dump.replace(" 1.0", " 1.0 2.0"));
    bad("line 2: SERIES or HASH", &dump.replace("schema 1", "schema x"));
    bad("line 3: a tier's words", &dump.replace("none", "some"));
    bad("refusal 10, CorruptedSlab: slab of row 0, field cursor", &dump.replace("0ns 10\n", "0ns 60\n"));
    bad("refusal 4, InvalidTierConfig", &dump.replace("tier 1000000000ns", "tier 0ns"));
    bad("line 6: OFFSET or VALUE", &dump.replace("end", "byte 18446744073709551615 1\nend"));
    for (line, end) in [(2, "0x"), (3, "none 0ns 10"), (6, "byte 70 1")] {
        let text = dump.replace("end", "byte 70 1\nend");
        let at = text.find(end).unwrap();
        let (before, rest) = text.split_at(at + text[at..].find('\n').unwrap());
        bad(&format!("line {line}: one word too many: 'x'"), &format!("{before} x{rest}"));
    }
    bad(
        "line 5: OFFSET",
        &dump.replace("end", "byte x 1\nend").replace("tier 10000000000ns 600000000000ns average 0ns 0\n", ""),
    );
}

#[test]
fn import_says_where_runs_were_missed_before() {
    let folder = Folder::new();
    folder.good("create a.img series 1 tier 1s 10min tier 10s 1h average");
    let lines: String = (10..50).map(|t| format!("0 0 {t}s 1\n")).collect();
    folder.good_with("record a.img", &lines);
    let said = folder.good_with("import a.img", "0 0 50s 1\n");
    assert!(said.contains("had no run (last run: none)"), "{said}");
    assert_eq!(folder.good_with("import a.img", "0 0 51s 1\n").lines().count(), 1);
}

/// A clock offset at a second: up and down within half an hour, and a slow drift.
fn offset_at(t: u64) -> u64 {
    let phase = t % 1800;
    if phase < 900 { phase + t / 8 } else { 1800 - phase + t / 8 }
}

#[test]
fn two_hours_of_a_clock() {
    let folder = Folder::new();
    assert_eq!(folder.good(&format!("create clock.img {DAYS}")), "created, bytes: 225080\n");
    for (from, count) in [(3600, 61), (7200, 63)] {
        let lines: String = (from..from + 3600).map(|t| format!("0 0 {t}s {}\n", offset_at(t))).collect();
        assert_eq!(folder.good_with("record clock.img", &lines), "recorded, samples: 3600\n");
        assert_eq!(folder.good("consolidate clock.img"), format!("consolidated, values written: {count}\n"));
    }
    assert_eq!(folder.points("clock.img 0 0 2"), [(3_600_000_000_000, 1124.5), (7_200_000_000_000, 1574.5)]);
    let seconds = folder.points("clock.img 0 0 auto 10700s 10705s");
    assert_eq!(seconds.iter().map(|p| p.1).collect::<Vec<_>>(), [1437.0, 1436.0, 1435.0, 1434.0, 1434.0]);
    assert!(folder.good("plot clock.img 0 0 1").contains("120 points"));
    let shown = folder.good("show clock.img");
    let used: Vec<&str> = shown.lines().skip(2).map(|line| line.split_whitespace().nth(7).unwrap()).collect();
    assert_eq!(used, ["7200", "120", "2"]);
    assert_eq!(folder.good("check clock.img"), "good\n");
}

#[test]
fn a_schema_of_one_tier_sets_no_schedule() {
    let folder = Folder::new();
    folder.good("create a.img series 1 tier 1s 1h");
    assert!(folder.good_with("import a.img", &feed(1, 101)).starts_with("imported, samples: 100, runs: 1\n"));
    folder.good("create b.img series 1 tier 1s 1h schema series 1 tier 1s 2h tier 1h 1d average");
    let lines: String = (3600..7300).map(|t| format!("0 0 {t}s 1\n1 0 {t}s 1\n")).collect();
    assert!(folder.good_with("import b.img", &lines).starts_with("imported, samples: 7400, runs: 2\n"));
}

#[test]
fn two_schemas_are_imported_by_ticks() {
    let folder = Folder::new();
    let plan = "series 1 tier 1s 1min tier 10s 10min average schema series 2 tier 1s 2min tier 20s 10min average";
    folder.good(&format!("create a.img {plan}"));
    let lines: String = (20..80).map(|t| format!("1 0 {t}s 1\n0 0 {t}s {t}\n1 1 {t}s {t}\n")).collect();
    let said = folder.good_with("import a.img", &lines);
    assert!(said.starts_with("imported, samples: 180, runs: 6\n") && said.contains("one schema, and there are 2"), "{said}");
    let means = |first: u64, length: u64| {
        (first..80).step_by(length as usize).map(move |t| (t * 1_000_000_000, (2 * t + length - 1) as f64 / 2.0))
    };
    assert_eq!(folder.points("a.img 0 0 1"), means(20, 10).collect::<Vec<_>>());
    assert_eq!(folder.points("a.img 1 1 1"), means(20, 20).collect::<Vec<_>>());
}
