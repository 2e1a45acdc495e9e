//! Finds librondo.a, or has it built: RONDO_LIB_DIR first, then the repository's target/staticlib, then tools/archive.

use std::env;
use std::fs;
use std::path::{Path, PathBuf};
use std::process::Command;
use std::time::SystemTime;

const ARCHIVE: &str = "librondo.a";

fn main() {
    let mut watched = Vec::new();
    match find(&mut watched) {
        Ok(folder) => {
            println!("cargo::rustc-link-search=native={}", folder.display());
            println!("cargo::rustc-link-lib=static=rondo");
            watched.extend([PathBuf::from("build.rs"), folder.join(ARCHIVE)]);
        }
        Err(why) => why.lines().for_each(|line| println!("cargo::error={line}")),
    }
    println!("cargo::rerun-if-env-changed=RONDO_LIB_DIR");
    for path in watched {
        println!("cargo::rerun-if-changed={}", path.display());
    }
}

/// The folder that librondo.a stands in, or words that say what to do. `watched` takes the folders of source that were looked at.
fn find(watched: &mut Vec<PathBuf>) -> Result<PathBuf, String> {
    if let Some(named) = env::var_os("RONDO_LIB_DIR") {
        return lent(PathBuf::from(named));
    }
    let here = PathBuf::from(env::var_os("CARGO_MANIFEST_DIR").ok_or("cargo names no folder of this crate")?);
    let root = here.join("../..").canonicalize().map_err(|e| advice(&format!("{}: {e}", here.display())))?;
    let folder = root.join("target/staticlib");
    let newest = newest_source(&root.join("crates"), watched);
    if fresh(&folder.join(ARCHIVE), newest) {
        return Ok(folder);
    }
    build(&root)?;
    if folder.join(ARCHIVE).is_file() {
        Ok(folder)
    } else {
        Err(advice(&format!("tools/archive ended well, and {} is not there", folder.join(ARCHIVE).display())))
    }
}

/// The folder that RONDO_LIB_DIR names, if the archive is in it.
fn lent(folder: PathBuf) -> Result<PathBuf, String> {
    let full = folder.canonicalize().unwrap_or(folder);
    if full.join(ARCHIVE).is_file() {
        Ok(full)
    } else {
        Err(format!("RONDO_LIB_DIR is {}, and there is no {ARCHIVE} in it. Name the folder that holds it.", full.display()))
    }
}

/// The time of the newest file in crates/*/src; none where there is no such file.
fn newest_source(crates: &Path, watched: &mut Vec<PathBuf>) -> Option<SystemTime> {
    let folders = fs::read_dir(crates).ok()?;
    folders.flatten().filter_map(|c| newest_in(&c.path().join("src"), watched)).max()
}

/// The time of the newest file in a folder and those below it.
fn newest_in(folder: &Path, watched: &mut Vec<PathBuf>) -> Option<SystemTime> {
    let files = fs::read_dir(folder).ok()?;
    watched.push(folder.to_path_buf());
    let paths = files.flatten().map(|f| f.path());
    paths.filter_map(|p| if p.is_dir() { newest_in(&p, watched) } else { changed(&p) }).max()
}

fn changed(file: &Path) -> Option<SystemTime> {
    fs::metadata(file).ok()?.modified().ok()
}

/// Whether the archive is there and newer than the newest source.
fn fresh(archive: &Path, newest: Option<SystemTime>) -> bool {
    matches!((changed(archive), newest), (Some(made), Some(source)) if made > source)
}

/// Has the archive built in the repository's root.
fn build(root: &Path) -> Result<(), String> {
    let done = Command::new(root.join("tools/archive")).output();
    match done {
        Ok(out) if out.status.success() => Ok(()),
        Ok(out) => Err(advice(&format!(
            "tools/archive in {} failed:\n{}\n{}",
            root.display(),
            String::from_utf8_lossy(&out.stdout).trim_end(),
            String::from_utf8_lossy(&out.stderr).trim_end(),
        ))),
        Err(e) => Err(advice(&format!("tools/archive in {} could not be started: {e}", root.display()))),
    }
}

fn advice(why: &str) -> String {
    format!(
        "The crate rondo links the proved library {ARCHIVE}, and has none that is up to date.\n{why}\n\
         Either install the Rattle kit (`rt`) and run `tools/archive` in the repository's root,\n\
         or set RONDO_LIB_DIR to a folder that holds {ARCHIVE}."
    )
}
