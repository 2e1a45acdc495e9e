//! Colours and progress on a terminal alone.

mod shared;

use std::process::{Command, Stdio};

use shared::{Folder, RONDO, skip};

/// What the command writes on a terminal, made by `script`.
fn on_a_terminal(folder: &Folder, words: &str) -> Option<String> {
    let mut command = Command::new("script");
    command.args(["-qec", &format!("{RONDO} {words}"), "/dev/null"]).current_dir(&folder.path).stdin(Stdio::null());
    let done = command.output().ok()?;
    Some(String::from_utf8_lossy(&done.stdout).into_owned())
}

#[test]
fn colours_and_progress() {
    let folder = Folder::new();
    folder.good("create a.img series 1 tier 1s 2h tier 1min 1d average");
    let lines: String = (3600..23_600).map(|t| format!("0 0 {t}s 1\n")).collect();
    std::fs::write(folder.file("lines"), &lines).unwrap();
    assert!(!folder.good_with("import a.img", &lines).contains('\x1b'));
    for words in ["query a.img 0 0 0 23000s 23010s", "show a.img", "service a.img 0 0 0", "plot a.img 0 0 0", "help"] {
        assert!(!folder.good(words).contains('\x1b'), "{words}");
    }
    let Some(shown) = on_a_terminal(&folder, "show a.img") else {
        return skip("there is no script");
    };
    assert!(shown.contains("\x1b[1m#"), "{shown}");
    folder.good("create b.img series 1 tier 1s 2h tier 1min 1d average");
    let told = on_a_terminal(&folder, "import b.img < lines").unwrap();
    assert!(told.contains("importing: ") && told.contains("imported, samples: 20000"), "{told}");
}
