//! Files: locked while written, replaced whole, whatever happens meanwhile.

mod shared;

use std::fs::{self, File};
use std::os::unix::fs::{MetadataExt, PermissionsExt, symlink};
use std::process::{Command, Stdio};
use std::thread;
use std::time::{Duration, Instant};

use shared::{Folder, RONDO, Random, Said, check_bad, finish, leftovers, skip, start};

const PLAN: &str = "series 8 tier 1s 1h tier 1min 1d average";

fn image() -> Folder {
    let folder = Folder::new();
    folder.good(&format!("create a.img {PLAN}"));
    folder
}

fn writers(count: u64, each: u64) {
    let folder = image();
    thread::scope(|scope| {
        for column in 0..count {
            let folder = &folder;
            scope.spawn(move || {
                for i in 0..each {
                    let said = folder.run(&format!("record a.img 0 {column} {}s {i} --wait 60s", 3600 + i));
                    assert!(said.status == 0, "{said:?}");
                }
            });
        }
    });
    for column in 0..count {
        let expected: Vec<(u64, f64)> = (0..each).map(|i| ((3600 + i) * 1_000_000_000, i as f64)).collect();
        assert_eq!(folder.points(&format!("a.img 0 {column} 0")), expected);
    }
    assert!(leftovers(&folder.path).is_empty());
}

#[test]
fn two_writers_lose_nothing() {
    writers(2, 50);
}

#[test]
fn eight_writers_lose_nothing() {
    writers(8, 20);
}

#[test]
fn a_second_writer_waits_and_then_is_told() {
    let folder = image();
    let held = File::open(folder.file("a.img")).unwrap();
    held.lock().unwrap();
    let began = Instant::now();
    for words in ["record a.img 0 0 10s 1 --wait 200ms", "consolidate a.img --wait 0s", "import a.img --wait 0s"] {
        folder.bad(3, "another command has it locked", words);
    }
    assert!(began.elapsed() >= Duration::from_millis(200));
    // reading needs no lock
    assert_eq!(folder.good("check a.img"), "good\n");
    let mut command = folder.command();
    command.args(["record", "a.img", "0", "0", "10s", "1"]);
    let waiting = start(command);
    thread::sleep(Duration::from_millis(100));
    drop(held);
    assert_eq!(finish(waiting, b"").status, 0);
    folder.bad(2, "--wait", "check a.img --wait 5");
}

#[test]
fn killed_at_200_random_moments() {
    let folder = image();
    let lines: String = (3600..5400).map(|t| format!("0 0 {t}s 0\n")).collect();
    folder.good_with("record a.img", &lines);
    let record = |value: u64| {
        let mut command = folder.command();
        command.args(["record", "a.img", "0", "1", "3600s", &value.to_string()]).stdin(Stdio::null());
        command.stdout(Stdio::null()).stderr(Stdio::null()).spawn().unwrap()
    };
    let began = Instant::now();
    (1..=5).for_each(|value| assert!(record(value).wait().unwrap().success()));
    let mut span = began.elapsed().as_micros() as u64 / 5 + 100;
    let mut random = Random(7);
    let (mut last, mut done, mut left) = (5.0, 0, 0);
    for value in 6..206 {
        let mut child = record(value);
        thread::sleep(Duration::from_micros(random.below(span)));
        let _ = child.kill();
        child.wait().unwrap();
        assert_eq!(folder.good("check a.img"), "good\n");
        let points = folder.points("a.img 0 1 0");
        let found = points[0].1;
        assert!(found == last || found == value as f64, "{found} after {last}, {value}");
        // as many after the replacement as before it, however fast the machine is
        span = if found == last { span * 21 / 20 } else { span * 20 / 21 };
        done += u32::from(found != last);
        left += u32::from(!leftovers(&folder.path).is_empty());
        last = found;
    }
    println!("of 200 killed commands {done} had replaced the file, {left} left a temporary one");
    assert!((20..=180).contains(&done), "{done}");
    folder.good("record a.img 0 1 3600s 1000");
    assert!(leftovers(&folder.path).is_empty(), "{:?}", leftovers(&folder.path));
    assert_eq!(folder.points("a.img 0 0 0").len(), 1800);
}

#[test]
fn leftovers_are_not_in_the_way_and_go() {
    let folder = image();
    let began = Instant::now();
    folder.good("record a.img 0 0 10s 1");
    let span = began.elapsed().as_micros() as u64;
    // writers, killed later and later, until one leaves its temporary file
    let left = (0..2000).find(|round| {
        let mut command = folder.command();
        let mut child = command.args(["record", "a.img", "0", "0", "11s", "2"]).stdout(Stdio::null()).spawn().unwrap();
        thread::sleep(Duration::from_micros(span * (round % 200) / 100));
        let _ = child.kill();
        child.wait().unwrap();
        !leftovers(&folder.path).is_empty()
    });
    println!("killed commands before one left a temporary file: {left:?}");
    let name = leftovers(&folder.path).pop().unwrap();
    // of an image with another name it stays
    folder.good(&format!("create b.img {PLAN}"));
    folder.good("record b.img 0 0 12s 3");
    assert_eq!(leftovers(&folder.path), [name]);
    folder.good("record a.img 0 0 12s 3");
    assert!(leftovers(&folder.path).is_empty());
}

#[test]
fn mode_and_owner_are_kept() {
    let folder = image();
    let root = fs::metadata(&folder.path).unwrap().uid() == 0;
    if !root {
        skip("another owner can be set by root alone");
    }
    for mode in [0o600, 0o640, 0o666, 0o200 | 0o444] {
        fs::set_permissions(folder.file("a.img"), fs::Permissions::from_mode(mode)).unwrap();
        if root {
            std::os::unix::fs::chown(folder.file("a.img"), Some(1234), Some(2345)).unwrap();
        }
        folder.good("record a.img 0 0 60s 1");
        folder.good("consolidate a.img --wait 1s");
        let kept = fs::metadata(folder.file("a.img")).unwrap();
        assert_eq!(kept.mode() & 0o7777, mode);
        assert!(!root || (kept.uid(), kept.gid()) == (1234, 2345));
    }
}

#[test]
fn links_are_followed() {
    let folder = image();
    fs::create_dir(folder.file("inner")).unwrap();
    symlink("../a.img", folder.file("inner/link.img")).unwrap();
    symlink("inner/link.img", folder.file("b.img")).unwrap();
    folder.good("record b.img 0 0 10s 1");
    assert!(fs::symlink_metadata(folder.file("b.img")).unwrap().is_symlink());
    assert!(fs::symlink_metadata(folder.file("inner/link.img")).unwrap().is_symlink());
    assert_eq!(folder.points("a.img 0 0 0"), [(10_000_000_000, 1.0)]);
    // a new file through a link
    symlink("inner/new.img", folder.file("new.img")).unwrap();
    folder.good(&format!("create new.img {PLAN}"));
    assert!(folder.file("inner/new.img").is_file());
    folder.bad(3, "exists already", &format!("create new.img {PLAN}"));
}

#[test]
fn read_only_is_refused() {
    let folder = image();
    fs::set_permissions(folder.file("a.img"), fs::Permissions::from_mode(0o444)).unwrap();
    folder.bad(3, "", "record a.img 0 0 10s 1");
    folder.bad(3, "", "consolidate a.img");
    assert_eq!(folder.good("check a.img"), "good\n");
}

#[test]
fn files_that_are_no_images() {
    let folder = image();
    let good = folder.bytes("a.img");
    fs::create_dir(folder.file("folder")).unwrap();
    fs::write(folder.file("empty.img"), "").unwrap();
    for (name, length) in [("short.img", 31), ("rows.img", 100), ("cut.img", good.len() - 1)] {
        fs::write(folder.file(name), &good[..length]).unwrap();
    }
    for command in [
        "consolidate",
        "show",
        "check",
        "dump",
        "import",
        "record 0 0 20s 1",
        "query 0 0 0",
        "panel 0 0 0",
        "service 0 0 0",
        "plot 0 0 0",
    ] {
        let (first, rest) = command.split_once(' ').unwrap_or((command, ""));
        folder.bad(3, "nothing.img: No such file or directory", &format!("{first} nothing.img {rest}"));
        folder.bad(3, "folder: Is a directory", &format!("{first} folder {rest}"));
        folder.bad(3, "/dev/null: is not a file", &format!("{first} /dev/null {rest}"));
        for name in ["empty.img", "short.img", "rows.img", "cut.img"] {
            folder.bad(1, &format!("{name}: refusal 1, BadImage"), &format!("{first} {name} {rest}"));
        }
    }
    folder.bad(3, "a.img: exists already", &format!("create a.img {PLAN}"));
    folder.bad(3, "exists already", &format!("create folder {PLAN}"));
    folder.bad(3, "No such file or directory", &format!("create nowhere/b.img {PLAN}"));
    // bytes past the image stay
    fs::write(folder.file("long.img"), [&good[..], b"surplus"].concat()).unwrap();
    folder.good("record long.img 0 0 10s 1");
    assert!(folder.bytes("long.img").ends_with(b"surplus"));
}

#[test]
fn names_of_every_kind() {
    let folder = Folder::new();
    let long = "n".repeat(255);
    for name in ["with space.img", "-dash.img", "ünï.img", &long] {
        let plan = ["series", "1", "tier", "1s", "9s"];
        let words: Vec<&str> = ["create", "--", name].into_iter().chain(plan).collect();
        assert_eq!(folder.run_words(&words, b"").status, 0, "{name}");
        assert_eq!(folder.run_words(&["record", "--", name, "0", "0", "5s", "-1"], b"").status, 0, "{name}");
        assert_eq!(folder.run_words(&["check", "--", name], b"").out, "good\n");
    }
}

#[test]
fn rights_of_another_user() {
    let folder = image();
    fs::copy(RONDO, folder.file("rondo")).unwrap();
    fs::set_permissions(folder.file("a.img"), fs::Permissions::from_mode(0o000)).unwrap();
    fs::copy(RONDO, folder.file("b.img")).unwrap();
    let as_other = |words: &[&str]| -> Said {
        let mut command = Command::new("setpriv");
        command.args(["--reuid=65534", "--regid=65534", "--clear-groups", "./rondo"]).args(words).current_dir(&folder.path);
        finish(start(command), b"")
    };
    if Command::new("setpriv").arg("--version").output().is_err() || as_other(&["version"]).status != 0 {
        return skip("the command cannot be run as another user by setpriv");
    }
    for words in [&["check", "a.img"][..], &["record", "a.img", "0", "0", "10s", "1"]] {
        check_bad(&as_other(words), 3, "a.img: Permission denied", words);
    }
    // the file may be written, its folder not
    fs::set_permissions(folder.file("a.img"), fs::Permissions::from_mode(0o666)).unwrap();
    let words = ["record", "a.img", "0", "0", "10s", "1"];
    check_bad(&as_other(&words), 3, "Permission denied", &words);
    let words = ["create", "c.img", "series", "1", "tier", "1s", "9s"];
    check_bad(&as_other(&words), 3, "Permission denied", &words);
    // its folder too, but its owner could not be kept
    fs::set_permissions(&folder.path, fs::Permissions::from_mode(0o777)).unwrap();
    let words = ["record", "a.img", "0", "0", "10s", "1"];
    check_bad(&as_other(&words), 3, "its owner, group or mode could not be kept", &words);
    assert!(leftovers(&folder.path).is_empty());
}

#[test]
fn output_that_fails() {
    let folder = image();
    for words in [&["check", "a.img"][..], &["record", "a.img", "0", "0", "10s", "1"], &["help"], &["man"]] {
        let mut command = folder.command();
        let full = fs::OpenOptions::new().write(true).open("/dev/full").unwrap();
        let done = command.args(words).stdin(Stdio::null()).stdout(full).output().unwrap();
        let err = String::from_utf8(done.stderr).unwrap();
        assert_eq!(done.status.code(), Some(3), "{words:?}: {err}");
        assert!(err.contains("standard output: No space left on device") && err.lines().count() == 1, "{err}");
    }
}

#[test]
fn a_reader_that_goes_away() {
    let folder = image();
    let lines: String = (3600..7200).map(|t| format!("0 0 {t}s 1\n")).collect();
    folder.good_with("record a.img", &lines);
    let words = ["query", "a.img", "0", "0", "0"];
    // more than a pipe holds, so that the command is still writing
    assert!(folder.good(&words.join(" ")).len() > 2 * 65536);
    let mut command = folder.command();
    command.args(words);
    let mut child = start(command);
    drop(child.stdout.take());
    let said = finish(child, b"");
    assert!(said.status == 3 && said.err.is_empty(), "{said:?}");
}

#[test]
fn a_full_disk() {
    let folder = Folder::new();
    fs::create_dir(folder.file("disk")).unwrap();
    let mount = Command::new("mount").args(["-t", "tmpfs", "-o", "size=1m", "none"]).arg(folder.file("disk")).output();
    if !mount.is_ok_and(|m| m.status.success()) {
        return skip("no disk can be mounted");
    }
    let tried = std::panic::catch_unwind(|| {
        folder.good("create disk/a.img series 8 tier 1s 9000s");
        let before = folder.bytes("disk/a.img");
        for words in ["record disk/a.img 0 0 10s 1", "consolidate disk/a.img", "create disk/b.img series 8 tier 1s 9000s"] {
            folder.bad(3, "No space left on device", words);
            assert!(leftovers(&folder.file("disk")).is_empty());
            assert!(!folder.file("disk/b.img").exists());
            assert!(folder.bytes("disk/a.img") == before);
        }
        let dump = folder.good("dump disk/a.img");
        folder.bad_with(3, "No space left on device", "restore disk/b.img", &dump);
    });
    let _ = Command::new("umount").arg(folder.file("disk")).status();
    tried.unwrap();
}

/// The calls of a command that sync and name files, in order, as `strace` shows them.
fn traced(folder: &Folder, words: &str) -> Option<Vec<String>> {
    let mut command = Command::new("strace");
    command.args(["-f", "-qq", "-y", "-e", "trace=fsync,rename,linkat", RONDO]).args(words.split(' '));
    let done = command.current_dir(&folder.path).stdin(Stdio::null()).output().ok().filter(|done| done.status.success())?;
    let text = String::from_utf8(done.stderr).unwrap();
    let folder = format!("{}>", folder.path.canonicalize().unwrap().display());
    let short = |line: &str| {
        let call = line.split('(').next().unwrap_or_default().rsplit(' ').next().unwrap_or_default().to_string();
        if call != "fsync" {
            return call;
        }
        if line.contains(&folder) { "fsync folder".to_string() } else { "fsync file".to_string() }
    };
    Some(text.lines().map(short).collect())
}

#[test]
fn file_and_folder_are_synced() {
    let folder = Folder::new();
    let create = format!("create a.img {PLAN}");
    let Some(created) = traced(&folder, &create) else {
        return skip("there is no strace that works");
    };
    assert_eq!(created, ["fsync file", "linkat", "fsync folder"]);
    for words in ["record a.img 0 0 60s 1", "consolidate a.img"] {
        assert_eq!(traced(&folder, words).unwrap(), ["fsync file", "rename", "fsync folder"], "{words}");
    }
    for command in ["query", "panel", "service"] {
        assert_eq!(traced(&folder, &format!("{command} a.img 0 0 0")).unwrap(), [""; 0]);
    }
}

#[test]
fn a_disk_without_hard_links() {
    let folder = Folder::new();
    if traced(&folder, "version").is_none() {
        return skip("there is no strace that works");
    }
    // each link fails, half a second late
    let create = |name: &str| {
        let mut command = Command::new("strace");
        command.args(["-f", "-qq", "-o", "/dev/null", "-e", "inject=linkat:error=EPERM:delay_enter=500000", RONDO]);
        command.args(["create", name]).args(PLAN.split(' ')).current_dir(&folder.path);
        start(command)
    };
    assert_eq!(finish(create("a.img"), b"").status, 0);
    assert_eq!(folder.good("check a.img"), "good\n");
    // a file of that name, made meanwhile, stays
    let child = create("b.img");
    let waiting = |_: &u32| {
        thread::sleep(Duration::from_millis(1));
        !leftovers(&folder.path).is_empty()
    };
    assert!((0..10_000).find(waiting).is_some());
    fs::write(folder.file("b.img"), "mine").unwrap();
    check_bad(&finish(child, b""), 3, "b.img: exists already", &["create"]);
    assert_eq!(folder.bytes("b.img"), b"mine");
    assert!(leftovers(&folder.path).is_empty());
}

#[test]
fn of_eight_creations_one_is_done() {
    let folder = Folder::new();
    for round in 0..10 {
        let words = format!("create new{round}.img {PLAN}");
        let made: Vec<Said> = thread::scope(|scope| {
            let running: Vec<_> = (0..8).map(|_| scope.spawn(|| folder.run(&words))).collect();
            running.into_iter().map(|r| r.join().unwrap()).collect()
        });
        assert_eq!(made.iter().filter(|said| said.status == 0).count(), 1, "{made:?}");
        assert!(
            made.iter().all(|said| said.status == 0 || said.status == 3 && said.err.contains("exists already")),
            "{made:?}"
        );
        assert_eq!(folder.good(&format!("check new{round}.img")), "good\n");
    }
    assert!(leftovers(&folder.path).is_empty());
}

#[test]
fn readers_beside_a_writer_see_whole_images() {
    let folder = image();
    let lines: String = (3600..5400).flat_map(|t| (0..8).map(move |c| format!("0 {c} {t}s 0\n"))).collect();
    folder.good_with("record a.img", &lines);
    thread::scope(|scope| {
        let writer = scope.spawn(|| (0..40).for_each(|i| drop(folder.good(&format!("record a.img 0 0 3600s {i}")))));
        while !writer.is_finished() {
            assert_eq!(folder.points("a.img 0 7 0").len(), 1800);
        }
    });
}

#[test]
fn images_larger_than_four_mebibytes() {
    let folder = Folder::new();
    assert!(folder.good("create large.img series 3 tier 1s 20d").starts_with("created, bytes: 55296172\n"));
    folder.good("record large.img 0 2 20d 7");
    assert_eq!(folder.points("large.img 0 2 0"), [(20 * 86_400_000_000_000, 7.0)]);
}

#[test]
fn creations_killed_at_50_random_moments() {
    let folder = Folder::new();
    let create = |name: &str| {
        let mut command = folder.command();
        command.args(["create", name]).args(PLAN.split(' ')).stdin(Stdio::null());
        command.stdout(Stdio::null()).stderr(Stdio::null()).spawn().unwrap()
    };
    let began = Instant::now();
    assert!(create("first.img").wait().unwrap().success());
    let span = began.elapsed().as_micros() as u64 * 5 / 4 + 1;
    let mut random = Random(3);
    let mut there = 0;
    for round in 0..50 {
        let name = format!("k{round}.img");
        let mut child = create(&name);
        thread::sleep(Duration::from_micros(random.below(span)));
        let _ = child.kill();
        child.wait().unwrap();
        if folder.file(&name).exists() {
            there += 1;
        } else {
            folder.good(&format!("create {name} {PLAN}"));
        }
        assert!(folder.bytes(&name) == folder.bytes("first.img"));
        // the second write finds no name of the first image left
        folder.good(&format!("record {name} 0 0 60s 1"));
        folder.good(&format!("record {name} 0 0 61s 1"));
    }
    println!("of 50 killed creations {there} had made the file");
    assert!(leftovers(&folder.path).is_empty(), "{:?}", leftovers(&folder.path));
}

#[test]
fn an_import_killed_leaves_the_image_as_it_was_or_done() {
    let folder = image();
    let lines: String = (3600..9000).map(|t| format!("0 0 {t}s 1\n")).collect();
    let before = folder.bytes("a.img");
    fs::copy(folder.file("a.img"), folder.file("whole.img")).unwrap();
    let began = Instant::now();
    folder.good_with("import whole.img", &lines);
    let span = began.elapsed().as_micros() as u64 * 5 / 4 + 1;
    fs::write(folder.file("lines"), &lines).unwrap();
    let mut random = Random(5);
    for _ in 0..30 {
        fs::write(folder.file("a.img"), &before).unwrap();
        let input = File::open(folder.file("lines")).unwrap();
        let mut child = folder.command().args(["import", "a.img"]).stdin(input).stdout(Stdio::null()).spawn().unwrap();
        thread::sleep(Duration::from_micros(random.below(span)));
        let _ = child.kill();
        child.wait().unwrap();
        let after = folder.bytes("a.img");
        assert!(after == before || after == folder.bytes("whole.img"));
    }
}
