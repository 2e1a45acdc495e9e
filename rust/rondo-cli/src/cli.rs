//! The commands and their words. Help, completions and the man page come from this definition.

use std::path::PathBuf;

use clap::{Args, Parser, Subcommand};
use clap_complete::Shell;

use crate::{input, time};

const ABOUT: &str = "Keeps image files: time series in ring slabs, by the proved library rondo";

const AFTER: &str = "\
Times are dates (2026-11-17T08:30:00Z), now, now-2h, or a number with its unit: ns us ms s min h d.
Values are decimal numbers (1.5, -2e-9), nan, or 0x and 16 hex digits.
Exit status: 0 done; 1 refused; 2 wrong usage; 3 the file or the output. Standard error then has one line,
or none where the reader of the output went away.";

#[derive(Parser)]
#[command(name = "rondo", version, about = ABOUT, after_help = AFTER)]
pub struct Cli {
    /// How long to wait for another command that writes the same file
    #[arg(long, global = true, value_name = "TIME", default_value = "10s", value_parser = time::span)]
    pub wait: u64,
    #[command(subcommand)]
    pub command: Command,
}

#[derive(Subcommand)]
pub enum Command {
    /// Makes a new image from a plan, and says where the promise on coarser tiers (the third demand) does not cover the plan
    Create {
        /// The image file
        #[arg(value_name = "FILE")]
        file: PathBuf,
        /// series M tier INTERVAL RETENTION [FUNCTION] tier .. [schema series M tier ..], the finest tier first;
        /// FUNCTION: average min max last sum count
        #[arg(value_name = "PLAN", required = true, num_args = 1..)]
        plan: Vec<String>,
    },
    /// Records one sample, or those of standard input in the order of their lines: all of them or none
    Record {
        /// The image file
        #[arg(value_name = "FILE")]
        file: PathBuf,
        /// Leaves out samples that are older than what their slot holds (refusal 18), as in a backlog, and says how many;
        /// without it one such sample refuses all
        #[arg(long)]
        skip_old: bool,
        #[command(flatten)]
        sample: Sample,
    },
    /// Records the samples of standard input in time order, with a run after each coarsest interval and at the end
    Import {
        /// The image file
        #[arg(value_name = "FILE")]
        file: PathBuf,
        /// Leaves out samples that are older than what their slot holds (refusal 18), and says how many; without it one such
        /// sample refuses all
        #[arg(long)]
        skip_old: bool,
    },
    /// Brings the coarser tiers up to date
    Consolidate {
        /// The image file
        #[arg(value_name = "FILE")]
        file: PathBuf,
    },
    /// Prints the points of a series
    Query {
        #[command(flatten)]
        asked: Asked,
        /// As CSV: stamp_ns,time,value
        #[arg(long, conflicts_with = "json")]
        csv: bool,
        /// As JSON
        #[arg(long)]
        json: bool,
    },
    /// Prints the last point of a series as a panel shows it: rounded to whole nanoseconds, ties to even; refused beyond 2^53, either way
    Panel {
        #[command(flatten)]
        series: AtTier,
        /// As CSV: figure_ns
        #[arg(long, conflicts_with = "json")]
        csv: bool,
        /// As JSON; null where there is no point
        #[arg(long)]
        json: bool,
    },
    /// Prints the last point of a series in full, with the oldest and the newest stamp of its ring
    Service {
        #[command(flatten)]
        series: AtTier,
        /// As CSV: stamp_ns,time,value,oldest_ns,newest_ns
        #[arg(long, conflicts_with = "json")]
        csv: bool,
        /// As JSON; null where there is no point
        #[arg(long)]
        json: bool,
    },
    /// Draws the points of a series
    Plot {
        #[command(flatten)]
        asked: Asked,
        /// Draws into a picture, by its ending: .svg or .png
        #[arg(long, value_name = "PICTURE")]
        out: Option<PathBuf>,
    },
    /// Prints rows, slots used, ends and marks
    Show {
        /// The image file
        #[arg(value_name = "FILE")]
        file: PathBuf,
        /// As CSV, times in ns
        #[arg(long, conflicts_with = "json")]
        csv: bool,
        /// As JSON, times in ns
        #[arg(long)]
        json: bool,
    },
    /// Prints good, or says what the image is refused by, and where
    Check {
        /// The image file
        #[arg(value_name = "FILE")]
        file: PathBuf,
    },
    /// Prints the whole image as text, for restore
    Dump {
        /// The image file
        #[arg(value_name = "FILE")]
        file: PathBuf,
    },
    /// Makes a new image from a dump on standard input, the same to the byte
    Restore {
        /// The image file
        #[arg(value_name = "FILE")]
        file: PathBuf,
    },
    /// Prints the versions
    Version,
    /// Prints a shell's completions
    Completions { shell: Shell },
    /// Prints the man page
    Man,
}

/// One sample, word by word.
#[derive(Args)]
pub struct Sample {
    /// The schema's number; without it standard input is read: lines of these four words, or CSV of these four fields, or CSV
    /// with a first line of names (schema, column, stamp or time or stamp_ns, value)
    #[arg(value_name = "SCHEMA", allow_hyphen_values = true)]
    schema: Option<String>,
    /// The column's number
    #[arg(value_name = "COLUMN", allow_hyphen_values = true)]
    column: Option<String>,
    /// Its time
    #[arg(value_name = "STAMP", allow_hyphen_values = true)]
    stamp: Option<String>,
    /// Its value
    #[arg(value_name = "VALUE", allow_hyphen_values = true)]
    value: Option<String>,
}

impl Sample {
    /// The words that were given.
    pub fn words(&self) -> Vec<&str> {
        [&self.schema, &self.column, &self.stamp, &self.value].into_iter().flatten().map(String::as_str).collect()
    }
}

/// A series, a tier and a range of time.
#[derive(Args)]
pub struct Asked {
    /// The image file
    #[arg(value_name = "FILE")]
    pub file: PathBuf,
    /// The schema's number
    #[arg(value_name = "SCHEMA", value_parser = input::number)]
    pub schema: u32,
    /// The column's number
    #[arg(value_name = "COLUMN", value_parser = input::number)]
    pub column: u32,
    /// A tier's number, 0 the finest, or auto: the first that covers the range
    #[arg(value_name = "TIER", value_parser = tier)]
    pub tier: Tier,
    /// Points from this time on
    #[arg(value_name = "START", allow_hyphen_values = true)]
    pub start: Option<String>,
    /// and before this time; without both: all time
    #[arg(value_name = "END", allow_hyphen_values = true)]
    pub end: Option<String>,
}

/// A series and a tier.
#[derive(Args)]
pub struct AtTier {
    /// The image file
    #[arg(value_name = "FILE")]
    pub file: PathBuf,
    /// The schema's number
    #[arg(value_name = "SCHEMA", value_parser = input::number)]
    pub schema: u32,
    /// The column's number
    #[arg(value_name = "COLUMN", value_parser = input::number)]
    pub column: u32,
    /// A tier's number, 0 the finest
    #[arg(value_name = "TIER", value_parser = tier_number)]
    pub tier: u32,
}

#[derive(Clone, Copy)]
pub enum Tier {
    Auto,
    Number(u32),
}

fn tier(text: &str) -> Result<Tier, String> {
    if text == "auto" {
        return Ok(Tier::Auto);
    }
    input::number(text).map(Tier::Number).map_err(|why| format!("{why}, and not auto"))
}

fn tier_number(text: &str) -> Result<u32, String> {
    if text == "auto" {
        return Err("auto goes by a range of time; give a tier's number, 0 the finest".to_string());
    }
    input::number(text)
}
