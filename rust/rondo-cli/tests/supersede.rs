//! Which sample supersedes which: what `record` and `import` say of old samples, and what they do with a backlog.

mod shared;

use std::fs;

use rondo::{Refusal, SeriesHandle, Store};
use shared::Folder;

/// Two series of four seconds, made into means of two; 9s and 5s and 1s have slot 1.
fn four() -> Folder {
    let folder = Folder::new();
    folder.good("create a.img series 2 tier 1s 4s tier 2s 20s average");
    folder.good("record a.img 0 0 9s 9");
    folder
}

fn date(second: u64) -> String {
    format!("1970-01-01T00:{:02}:{:02}Z", second / 60, second % 60)
}

/// What is said of a sample at a second whose slot holds another one.
fn older(this: u64, that: u64) -> String {
    let (this, that) = (date(this), date(that));
    format!(
        "refusal 18, OldSample: the sample at {this} is older than the one at {that} that its slot holds, and the later one stays"
    )
}

#[test]
fn one_sample() {
    let folder = four();
    for column in [0, 1] {
        for (second, value) in [(5, "1"), (1, "nan"), (5, "1e300")] {
            folder.bad(1, &format!("a.img: {}\n", older(second, 9)), &format!("record a.img 0 {column} {second}s {value}"));
        }
    }
    // within one interval too; on equal stamps the later command wins
    folder.good("record a.img 0 0 9.5s 1");
    folder.bad(1, "at 1970-01-01T00:00:09Z is older than the one at 1970-01-01T00:00:09.500Z", "record a.img 0 0 9s 2");
    folder.good("record a.img 0 0 9.5s 3");
    assert_eq!(folder.points("a.img 0 0 0"), [(9_500_000_000, 3.0)]);
    // the slot's stamp decides, not the newest
    folder.good("record a.img 0 0 6s 6");
    folder.good("record a.img 0 0 8s 8");
    // 12 and 13 come first; 0s has the slot of 8s
    folder.bad(1, "refusal 12, InvalidValue", "record a.img 0 0 5s inf");
    folder.bad(1, "refusal 13, InvalidTimestamp", "record a.img 0 0 0s 1");
    folder.bad(1, "refusal 18, OldSample", "record a.img 0 0 4s 1");
}

#[test]
fn lines_all_or_none() {
    let folder = four();
    let said = |line: u64, this, that| {
        let advice = "--skip-old leaves such lines out; nothing is stored";
        format!("rondo: line {line}: {}; {advice}\n", older(this, that))
    };
    folder.bad_with(1, &said(2, 5, 9), "record a.img", "0 0 10s 1\n0 1 5s 1\n0 0 11s 1\n0 1 1s 1\n");
    folder.bad_with(1, &said(3, 5, 9), "import a.img", "value,column,time\n1,0,10s\n1,1,5s\n");
    // record goes by lines, so one of them may make another one old; import goes by time
    let turned = "0 0 14s 14\n0 0 10s 10\n";
    folder.bad_with(1, &said(2, 10, 14), "record a.img", turned);
    assert!(folder.good_with("import a.img", turned).starts_with("imported, samples: 2, runs: 3\n"));
    assert_eq!(folder.points("a.img 0 0 0").last(), Some(&(14_000_000_000, 14.0)));
}

#[test]
fn old_ones_are_left_out_and_counted() {
    let folder = four();
    let lines = "0 0 10s 10\n0 1 5s 1\n0 0 11s 11\n0 1 1s 1\n0 0 7s 1\n";
    let left = "left out, older than what their slot holds";
    let first = format!("the first at line 2 (schema 0, column 1, {}), whose slot holds {}", date(5), date(9));
    let recorded = format!("recorded, samples: 2\n{left}: 3, {first}\n");
    assert_eq!(folder.good_with("record a.img --skip-old", lines), recorded);
    assert_eq!(folder.points("a.img 0 0 0").iter().map(|p| p.1).collect::<Vec<_>>(), [9.0, 10.0, 11.0]);
    assert_eq!(folder.points("a.img 0 1 0"), []);
    // the same again: equal stamps are taken
    let again = folder.good_with("record --skip-old a.img", lines);
    assert_eq!(again, recorded);
    // a sample in words
    let before = folder.bytes("a.img");
    let one = format!(
        "recorded, samples: 0\n{left}: 1, the first at schema 0, column 0, {}, whose slot holds {}\n",
        date(5),
        date(9)
    );
    assert_eq!(folder.good("record a.img 0 0 5s 1 --skip-old"), one);
    assert!(folder.bytes("a.img") == before);
    // where none is old nothing is said of it
    assert_eq!(folder.good_with("record a.img --skip-old", "0 0 12s 1\n"), "recorded, samples: 1\n");
    // every other refusal refuses all, that of an old sample too
    for (has, line) in
        [("12, InvalidValue", "0 0 5s inf"), ("11, InvalidHandle", "0 2 5s 1"), ("13, InvalidTimestamp", "0 0 0s 1")]
    {
        for command in ["record", "import"] {
            let has = format!("line 2: refusal {has}");
            folder.bad_with(1, &has, &format!("{command} a.img --skip-old"), &format!("0 0 13s 1\n{line}\n"));
        }
    }
    for command in ["query a.img 0 0 0", "consolidate a.img", "check a.img"] {
        folder.bad(2, "--skip-old", &format!("{command} --skip-old"));
    }
}

/// A port was away while another column went on: 90 seconds into a ring of 60.
#[test]
fn a_backlog() {
    let folder = Folder::new();
    folder.good("create a.img series 2 tier 1s 1min tier 10s 10min average");
    let lines = |column| (100..190).map(|t| format!("0 {column} {t}s {t}\n")).collect::<String>();
    assert_eq!(folder.good_with("record a.img", &lines(0)), "recorded, samples: 90\n");
    folder.bad_with(1, &format!("line 1: {}", older(100, 160)), "record a.img", &lines(1));
    let said = folder.good_with("record a.img --skip-old", &lines(1));
    let first = format!("the first at line 1 (schema 0, column 1, {}), whose slot holds {}", date(100), date(160));
    assert_eq!(said, format!("recorded, samples: 60\nleft out, older than what their slot holds: 30, {first}\n"));
    assert_eq!(folder.points("a.img 0 1 0"), (130..190).map(|t| (t * 1_000_000_000, t as f64)).collect::<Vec<_>>());
    assert_eq!(folder.points("a.img 0 0 0"), folder.points("a.img 0 1 0"));
}

/// Old samples make no run, and the notes are of the samples that were taken.
#[test]
fn import_leaves_out() {
    let folder = Folder::new();
    folder.good("create a.img series 1 tier 1s 40s tier 10s 10min average");
    let lines = |from: u64, to: u64| (from..to).map(|t| format!("0 0 {t}s {t}\n")).collect::<String>();
    assert_eq!(folder.good_with("import a.img", &lines(10, 100)), "imported, samples: 90, runs: 9\n");
    let before = folder.bytes("a.img");
    folder.bad_with(1, &format!("line 1: {}", older(20, 60)), "import a.img", &lines(20, 110));
    // 20s to 59s are a lap behind; 60s to 99s are there already
    let said = folder.good_with("import a.img --skip-old", &lines(20, 60));
    let left = "left out, older than what their slot holds: 40, the first at line 1";
    assert_eq!(
        said,
        format!("imported, samples: 0, runs: 1\n{left} (schema 0, column 0, {}), whose slot holds {}\n", date(20), date(60))
    );
    assert!(folder.bytes("a.img") == before);
    // 99s is in the coarsest interval of the newest sample, whatever old ones stand before it
    assert!(
        folder
            .good_with("import a.img --skip-old", &(lines(55, 60) + "0 0 99s 99\n"))
            .starts_with("imported, samples: 1, runs: 1\n")
    );
    for words in ["import a.img", "import a.img --skip-old"] {
        let said = folder.good_with(words, &lines(60, 100));
        assert!(
            said.starts_with("imported, samples: 40, runs: 5\n")
                && said.contains("stamps that fall below what the image held: 1"),
            "{said}"
        );
        assert!(folder.bytes("a.img") == before);
    }
    let said = folder.good_with("import a.img --skip-old", &(lines(20, 60) + &lines(100, 110)));
    assert!(said.starts_with(&format!("imported, samples: 10, runs: 2\n{left}")) && said.lines().count() == 2, "{said}");
    let means: Vec<(u64, f64)> = (10..110).step_by(10).map(|t| (t * 1_000_000_000, t as f64 + 4.5)).collect();
    assert_eq!(folder.points("a.img 0 0 1"), means);
}

/// A dump holds a state, not samples: stamps that fall along the ring, which no recording in this order would be taken with.
#[test]
fn restore_refuses_no_order() {
    let folder = four();
    folder.good_with("record a.img", "0 0 2s 2\n0 1 7s 7\n0 0 4s 4\n");
    let dump = folder.good("dump a.img");
    let stamps: Vec<&str> = dump.lines().filter(|line| line.contains("000000000ns ") && !line.starts_with("tier")).collect();
    assert_eq!(
        stamps,
        ["0 4000000000ns 4.0 NaN", "1 9000000000ns 9.0 NaN", "2 2000000000ns 2.0 NaN", "3 7000000000ns NaN 7.0"]
    );
    folder.good_with("restore b.img", &dump);
    assert!(folder.bytes("b.img") == folder.bytes("a.img"));
    // the lines of a dump in another order make the same image
    let mut lines: Vec<&str> = dump.lines().collect();
    let at = lines.iter().position(|line| *line == stamps[0]).unwrap();
    lines[at..at + 4].reverse();
    folder.good_with("restore c.img", &(lines.join("\n") + "\n"));
    assert!(folder.bytes("c.img") == folder.bytes("a.img"));
}

/// A device's image with what a refused run left: the next run passes a window over, and the count says so.
#[test]
fn a_run_passes_over() {
    let folder = Folder::new();
    folder.good("create a.img series 1 tier 1s 20s tier 3s 9s average");
    folder.good_with("record a.img", "0 0 3s 1\n0 0 12s 4\n0 0 15s 5\n0 0 18s 1.7e308\n0 0 19s 1.7e308\n");
    let refused = "refusal 12, InvalidValue: row 1, column 0, window 1970-01-01T00:00:18Z";
    folder.bad(1, refused, "consolidate a.img");
    // the command leaves the file as it was; a device keeps what the run did: windows 3s, then 12s in its slot, and 15s
    let mut bytes = folder.bytes("a.img");
    let mut store = Store::open(&mut bytes).unwrap();
    assert_eq!(store.consolidate(), Err(Refusal::InvalidValue));
    let made = store.query(SeriesHandle::new(0, 0), 1, 0, u64::MAX).unwrap();
    assert!(made.points().eq([(12_000_000_000, 4.0), (15_000_000_000, 5.0)]));
    fs::write(folder.file("a.img"), &bytes).unwrap();
    folder.bad(1, refused, "consolidate a.img");
    folder.good_with("record a.img", "0 0 18s 6\n0 0 19s 8\n");
    assert_eq!(folder.good("consolidate a.img"), "consolidated, values written: 3\n");
    assert_eq!(folder.points("a.img 0 0 1"), [(12_000_000_000, 4.0), (15_000_000_000, 5.0), (18_000_000_000, 7.0)]);
}
