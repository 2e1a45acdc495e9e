//! Why a command did not do what was asked: an exit status and one line of words.

use std::fmt::Display;
use std::io;
use std::path::Path;

use rondo::Refusal;

pub const REFUSED: u8 = 1;
pub const USAGE: u8 = 2;
pub const FILE: u8 = 3;

#[derive(Debug)]
pub struct Failure {
    pub status: u8,
    pub words: String,
}

pub type Done<T = ()> = Result<T, Failure>;

impl Failure {
    pub fn usage(words: impl Into<String>) -> Self {
        Failure { status: USAGE, words: words.into() }
    }

    pub fn refused(words: impl Into<String>) -> Self {
        Failure { status: REFUSED, words: words.into() }
    }

    pub fn file(path: &Path, why: impl Display) -> Self {
        Failure { status: FILE, words: format!("{}: {why}", path.display()) }
    }

    /// An error of the system at a file, without its number.
    pub fn system(path: &Path, error: &io::Error) -> Self {
        Self::file(path, plain(error))
    }

    /// The same with words before it, such as the line of the input.
    pub fn after(mut self, place: impl Display) -> Self {
        self.words = format!("{place}: {}", self.words);
        self
    }

    /// The same with words behind it.
    pub fn and(mut self, words: &str) -> Self {
        self.words = format!("{}; {words}", self.words);
        self
    }
}

/// A system's error as people know it: "No such file or directory".
pub fn plain(error: &io::Error) -> String {
    let text = error.to_string();
    match text.find(" (os error") {
        Some(end) => text[..end].to_string(),
        None => text,
    }
}

/// A refusal by number and name, then where and what to do.
pub fn refusal(refusal: Refusal, place: &str) -> Failure {
    Failure::refused(format!("refusal {}, {}: {place}", refusal.number(), refusal.name()))
}
