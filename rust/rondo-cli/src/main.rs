//! The command `rondo`: keeps image files of time series, over the crate rondo.

#![forbid(unsafe_code)]

mod cli;
mod dump;
mod failure;
mod figures;
mod file;
mod font;
mod import;
mod input;
mod locate;
mod manual;
mod picture;
mod planning;
mod plot;
mod png;
mod reading;
mod refused_run;
mod show;
mod supposition;
mod svg;
mod table;
mod ticks;
mod time;
mod value;
mod writing;

use std::io::{self, ErrorKind, Write};
use std::process::ExitCode;

use clap::{CommandFactory, Parser};

use cli::{Cli, Command};
use failure::{Done, FILE, Failure, plain};
use reading::Form;

fn main() -> ExitCode {
    match parsed().and_then(|cli| carry_out(&cli)).and_then(|text| print(&text)) {
        Ok(()) => ExitCode::SUCCESS,
        Err(failure) => {
            if !failure.words.is_empty() {
                let line = failure.words.replace('\n', " ");
                let _ = writeln!(io::stderr(), "rondo: {line}");
            }
            ExitCode::from(failure.status)
        }
    }
}

/// The command's words as the definition has them; help and version are printed here.
fn parsed() -> Done<Cli> {
    Cli::try_parse().map_err(|error| {
        if !error.use_stderr() {
            return match print(&error.render().to_string()) {
                Ok(()) => Failure { status: 0, words: String::new() },
                Err(failure) => failure,
            };
        }
        Failure::usage(one_line(&error.to_string()))
    })
}

/// A usage error in one line, without the usage and the advice to escape a word.
fn one_line(text: &str) -> String {
    let text = text.strip_prefix("error: ").unwrap_or(text);
    let kept = text.split("\n\nUsage:").next().unwrap_or(text);
    let kept = kept.split("\n\nFor more information").next().unwrap_or(kept);
    if text.is_empty() || text.starts_with(ABOUT_START) {
        return "no command; `rondo help` lists them".to_string();
    }
    let parts = kept.split("\n\n").map(|part| part.split_whitespace().collect::<Vec<_>>().join(" "));
    let parts: Vec<String> = parts.filter(|part| !part.is_empty() && !part.starts_with("If you ")).collect();
    format!("{}; see `rondo help`", parts.join("; "))
}

const ABOUT_START: &str = "Keeps image files";

/// Does what was asked, and answers what is to be printed.
fn carry_out(cli: &Cli) -> Done<String> {
    match &cli.command {
        Command::Create { file, plan } => writing::create(file, plan),
        Command::Record { file, skip_old, sample } => writing::record(file, &sample.words(), *skip_old, cli.wait),
        Command::Import { file, skip_old } => import::import(file, *skip_old, cli.wait),
        Command::Consolidate { file } => writing::consolidate(file, cli.wait),
        Command::Query { asked, csv, json } => reading::query(asked, Form::of(*csv, *json)),
        Command::Panel { series, csv, json } => figures::panel(series, Form::of(*csv, *json)),
        Command::Service { series, csv, json } => figures::service(series, Form::of(*csv, *json)),
        Command::Plot { asked, out } => plot::plot(asked, out.as_deref(), cli.wait),
        Command::Show { file, csv, json } => show::show(file, Form::of(*csv, *json)),
        Command::Check { file } => reading::check(file),
        Command::Dump { file } => dump::dump(file),
        Command::Restore { file } => dump::restore(file),
        Command::Version => Ok(format!("rondo {}, images of version 1\n", env!("CARGO_PKG_VERSION"))),
        Command::Completions { shell } => {
            let mut text = Vec::new();
            clap_complete::generate(*shell, &mut Cli::command(), "rondo", &mut text);
            Ok(String::from_utf8_lossy(&text).into_owned())
        }
        Command::Man => Ok(manual::page(Cli::command())),
    }
}

/// Prints to standard output. A reader that has gone away is told by the status alone.
fn print(text: &str) -> Done {
    let mut out = io::stdout().lock();
    out.write_all(text.as_bytes()).and_then(|()| out.flush()).map_err(|e| match e.kind() {
        ErrorKind::BrokenPipe => Failure { status: FILE, words: String::new() },
        _ => Failure { status: FILE, words: format!("standard output: {}; the command itself was carried out", plain(&e)) },
    })
}
