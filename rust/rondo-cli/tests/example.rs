//! README's example is what the tour prints.

mod shared;

use std::fs;
use std::path::Path;
use std::process::Command;

use shared::RONDO;

/// The indented lines of README's section on the command.
fn printed(root: &Path) -> String {
    let readme = fs::read_to_string(root.join("README.md")).unwrap();
    let section = readme.split("\n## ").find(|s| s.starts_with("The command\n")).expect("README has a section The command");
    section.lines().filter_map(|line| line.strip_prefix("    ")).map(|line| format!("{line}\n")).collect()
}

/// What `tour --example` prints with the command that is tested.
fn done(root: &Path) -> String {
    let folder = Path::new(RONDO).parent().unwrap().to_str().unwrap();
    let path = format!("{folder}:{}", std::env::var("PATH").unwrap());
    let said = Command::new(root.join("tour")).arg("--example").env("PATH", path).output().unwrap();
    assert!(said.status.success() && said.stderr.is_empty(), "{said:?}");
    String::from_utf8(said.stdout).unwrap()
}

#[test]
fn readme_has_what_the_tour_prints() {
    let root = Path::new(env!("CARGO_MANIFEST_DIR")).join("../..");
    let (printed, done) = (printed(&root), done(&root));
    for (line, (page, tour)) in (1..).zip(printed.lines().zip(done.lines())) {
        assert_eq!(page, tour, "line {line} of the example");
    }
    assert!(printed == done, "README's example and the tour's differ in length or in their last line");
}
