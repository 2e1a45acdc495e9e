//! The build script: where it looks for librondo.a, and what it says when it finds none.

use std::env;
use std::fs;
use std::os::unix::fs::{PermissionsExt, symlink};
use std::path::{Path, PathBuf};
use std::process::Command;
use std::time::{Duration, SystemTime};

/// The script that built this crate, the newest there is.
fn script() -> PathBuf {
    let builds = Path::new(env!("OUT_DIR")).ancestors().nth(2).unwrap();
    let folders = fs::read_dir(builds).unwrap().flatten().map(|folder| folder.path());
    let mine = folders.filter(|path| path.file_name().unwrap().to_string_lossy().starts_with("rondo-"));
    let scripts = mine.map(|path| path.join("build-script-build")).filter(|path| path.is_file());
    scripts.max_by_key(|path| fs::metadata(path).unwrap().modified().unwrap()).unwrap()
}

/// A repository with one source, tools/archive and nothing built, and a folder for commands.
struct Repository(PathBuf);

impl Repository {
    fn new(name: &str) -> Self {
        let root = env::temp_dir().join(format!("rondo-build-{}-{name}", std::process::id()));
        for folder in ["crates/model/src", "crates/rondo/out", "rust/rondo", "target/staticlib", "tools", "bin", "lent"] {
            fs::create_dir_all(root.join(folder)).unwrap();
        }
        fs::write(root.join("crates/model/src/lib.rt"), "").unwrap();
        fs::copy(Path::new(env!("CARGO_MANIFEST_DIR")).join("../../tools/archive"), root.join("tools/archive")).unwrap();
        let path = env::var_os("PATH").unwrap();
        for tool in ["mkdir", "cp", "mv"] {
            let real = env::split_paths(&path).map(|folder| folder.join(tool)).find(|path| path.is_file()).unwrap();
            symlink(real, root.join("bin").join(tool)).unwrap();
        }
        Repository(root.canonicalize().unwrap())
    }

    /// Makes an empty archive, so many seconds older than now.
    fn archive(&self, folder: &str, age: u64) {
        let file = fs::File::create(self.0.join(folder).join("librondo.a")).unwrap();
        file.set_modified(SystemTime::now() - Duration::from_secs(age)).unwrap();
    }

    /// An `rt` that does this.
    fn rt(&self, lines: &str) {
        let path = self.0.join("bin/rt");
        fs::write(&path, format!("#!/bin/sh\n{lines}\n")).unwrap();
        fs::set_permissions(path, fs::Permissions::from_mode(0o755)).unwrap();
    }

    /// What the script tells cargo.
    fn told(&self, lent: Option<&str>) -> String {
        let mut command = Command::new(script());
        command
            .env("CARGO_MANIFEST_DIR", self.0.join("rust/rondo"))
            .env("PATH", self.0.join("bin"))
            .env_remove("RONDO_LIB_DIR");
        if let Some(folder) = lent {
            command.env("RONDO_LIB_DIR", self.0.join(folder));
        }
        String::from_utf8(command.output().unwrap().stdout).unwrap()
    }

    fn found(&self, lent: Option<&str>, folder: &str) {
        let told = self.told(lent);
        let line = format!("cargo::rustc-link-search=native={}\n", self.0.join(folder).display());
        assert!(told.contains(&line) && !told.contains("cargo::error"), "{told}");
    }

    fn refused(&self, lent: Option<&str>, words: &[&str]) {
        let told = self.told(lent);
        assert!(!told.contains("rustc-link"), "{told}");
        for part in words {
            assert!(told.lines().any(|line| line.starts_with("cargo::error=") && line.contains(part)), "{part}: {told}");
        }
    }
}

impl Drop for Repository {
    fn drop(&mut self) {
        let _ = fs::remove_dir_all(&self.0);
    }
}

const ADVICE: &str = "or set RONDO_LIB_DIR to a folder that holds librondo.a.";

fn the_folder_that_is_named() {
    let repository = Repository::new("named");
    repository.archive("target/staticlib", 0);
    for folder in ["lent", "nowhere"] {
        repository.refused(Some(folder), &["and there is no librondo.a in it. Name the folder that holds it."]);
    }
    repository.archive("lent", 9);
    repository.found(Some("lent"), "lent");
}

fn the_archive_of_the_repository() {
    let repository = Repository::new("own");
    let source = fs::File::options().write(true).open(repository.0.join("crates/model/src/lib.rt")).unwrap();
    source.set_modified(SystemTime::now() - Duration::from_secs(60)).unwrap();
    repository.archive("target/staticlib", 0);
    repository.found(None, "target/staticlib");
    // older than a source, and no rt
    repository.archive("target/staticlib", 120);
    repository.refused(None, &["there is no command rt on PATH", "run `tools/archive`", ADVICE]);
}

fn an_archive_is_built() {
    let repository = Repository::new("built");
    repository.rt("echo 'rt: not proved: a lemma'; exit 1");
    repository.refused(None, &["rt: not proved: a lemma", ADVICE]);
    repository.rt("exit 0");
    repository.refused(None, &["ended well, and", ADVICE]);
    repository.rt("[ \"$PWD $*\" = \"${0%/bin/rt}/crates/rondo lib --cpu x86-64\" ] && : > out/librondo.a");
    repository.found(None, "target/staticlib");
}

/// One after the other: while one test starts a command, a script that another has just written may not be run.
#[test]
fn wherever_the_archive_is() {
    the_folder_that_is_named();
    the_archive_of_the_repository();
    an_archive_is_built();
}
