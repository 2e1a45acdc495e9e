//! A folder of its own for each test, and the real command in it.
#![allow(dead_code)]

use std::fs;
use std::io::Write;
use std::path::{Path, PathBuf};
use std::process::{Child, Command, Stdio};
use std::sync::atomic::{AtomicU32, Ordering};

static COUNT: AtomicU32 = AtomicU32::new(0);

pub const RONDO: &str = env!("CARGO_BIN_EXE_rondo");

pub struct Folder {
    pub path: PathBuf,
}

/// What a command said.
#[derive(Debug)]
pub struct Said {
    pub status: i32,
    pub out: String,
    pub err: String,
}

impl Folder {
    pub fn new() -> Self {
        let number = COUNT.fetch_add(1, Ordering::Relaxed);
        let path = std::env::temp_dir().join(format!("rondo-trial-{}-{number}", std::process::id()));
        fs::create_dir(&path).unwrap();
        Folder { path }
    }

    pub fn file(&self, name: &str) -> PathBuf {
        self.path.join(name)
    }

    pub fn bytes(&self, name: &str) -> Vec<u8> {
        fs::read(self.file(name)).unwrap()
    }

    pub fn command(&self) -> Command {
        let mut command = Command::new(RONDO);
        command.current_dir(&self.path);
        command
    }

    /// Runs the command with these words, a blank between them.
    pub fn run(&self, words: &str) -> Said {
        self.run_with(words, "")
    }

    pub fn run_with(&self, words: &str, input: &str) -> Said {
        self.run_words(&words.split_whitespace().collect::<Vec<_>>(), input.as_bytes())
    }

    pub fn run_words(&self, words: &[&str], input: &[u8]) -> Said {
        let mut command = self.command();
        command.args(words);
        finish(start(command), input)
    }

    /// The command does it: status 0, nothing on standard error. Answers standard output.
    pub fn good(&self, words: &str) -> String {
        self.good_with(words, "")
    }

    pub fn good_with(&self, words: &str, input: &str) -> String {
        let said = self.run_with(words, input);
        assert!(said.status == 0 && said.err.is_empty(), "rondo {words}: {said:?}");
        said.out
    }

    /// The command fails with this status and these words in one line, prints nothing, and changes no file.
    pub fn bad(&self, status: i32, has: &str, words: &str) {
        self.bad_with(status, has, words, "");
    }

    pub fn bad_with(&self, status: i32, has: &str, words: &str, input: &str) {
        self.bad_words(status, has, &words.split_whitespace().collect::<Vec<_>>(), input.as_bytes());
    }

    pub fn bad_words(&self, status: i32, has: &str, words: &[&str], input: &[u8]) {
        let before = self.state();
        let said = self.run_words(words, input);
        check_bad(&said, status, has, words);
        assert!(before == self.state(), "rondo {words:?} changed a file");
    }

    /// Every file with its bytes.
    pub fn state(&self) -> Vec<(PathBuf, Vec<u8>)> {
        let files = fs::read_dir(&self.path).unwrap().flatten().map(|f| f.path()).filter(|p| p.is_file());
        let mut all: Vec<_> = files.map(|p| (p.clone(), fs::read(p).unwrap_or_default())).collect();
        all.sort();
        all
    }

    /// The points of a query over all time.
    pub fn points(&self, words: &str) -> Vec<(u64, f64)> {
        csv(&self.good(&format!("query {words} --csv")))
    }
}

pub fn check_bad(said: &Said, status: i32, has: &str, words: &[&str]) {
    assert_eq!(said.status, status, "rondo {words:?}: {said:?}");
    assert!(said.out.is_empty(), "rondo {words:?}: {said:?}");
    assert_eq!(said.err.lines().count(), 1, "rondo {words:?}: {said:?}");
    assert!(said.err.starts_with("rondo: ") && said.err.contains(has), "rondo {words:?} does not say '{has}': {said:?}");
}

/// Stamps and values of a query's CSV.
pub fn csv(text: &str) -> Vec<(u64, f64)> {
    let fields = |line: &str| {
        let mut fields = line.split(',');
        (fields.next().unwrap().parse().unwrap(), fields.nth(1).unwrap().parse().unwrap())
    };
    text.lines().skip(1).map(fields).collect()
}

pub fn start(mut command: Command) -> Child {
    command.stdin(Stdio::piped()).stdout(Stdio::piped()).stderr(Stdio::piped()).spawn().unwrap()
}

pub fn finish(mut child: Child, input: &[u8]) -> Said {
    let _ = child.stdin.take().unwrap().write_all(input);
    let done = child.wait_with_output().unwrap();
    Said {
        status: done.status.code().unwrap_or(-1),
        out: String::from_utf8(done.stdout).unwrap(),
        err: String::from_utf8(done.stderr).unwrap(),
    }
}

impl Drop for Folder {
    fn drop(&mut self) {
        let _ = fs::remove_dir_all(&self.path);
    }
}

/// The names of temporary files in a folder.
pub fn leftovers(folder: &Path) -> Vec<String> {
    let names = fs::read_dir(folder).unwrap().flatten().map(|f| f.file_name().to_string_lossy().into_owned());
    names.filter(|name| name.starts_with(".rondo-")).collect()
}

/// What cannot be tried here fails, unless RONDO_SKIP is set; then the run says it, whatever output it keeps.
pub fn skip(why: &str) {
    assert!(std::env::var_os("RONDO_SKIP").is_some(), "{why}; RONDO_SKIP=1 lets this be skipped");
    let _ = writeln!(std::io::stderr(), "skipped: {why}");
}

/// Numbers that look random, from a seed.
pub struct Random(pub u64);

impl Random {
    pub fn below(&mut self, limit: u64) -> u64 {
        self.0 = self.0.wrapping_mul(6_364_136_223_846_793_005).wrapping_add(1_442_695_040_888_963_407);
        (self.0 >> 33) % limit
    }
}
