//! Image files: read whole, locked while written, replaced whole.
//!
//! A writer holds a lock (flock) on the image file itself from before it reads until it has renamed the new file over it; one
//! that waited finds another file under the name, and begins again with that. The new bytes go to a temporary file in the same
//! folder, which its writer holds locked: one that is not locked was left by a killed command, and the next writer removes it.

use std::fs::{self, File, OpenOptions, TryLockError};
use std::io::{self, ErrorKind, Read, Write};
use std::os::unix::ffi::OsStrExt;
use std::os::unix::fs::{MetadataExt, OpenOptionsExt, PermissionsExt, fchown};
use std::path::{Path, PathBuf};
use std::process;
use std::thread;
use std::time::{Duration, Instant};

use crate::failure::{Done, Failure};
use crate::time;

/// An image file that this command alone may write.
pub struct Locked {
    name: PathBuf,
    real: PathBuf,
    file: File,
}

/// The bytes of an image file.
pub fn read(name: &Path) -> Done<Vec<u8>> {
    regular(name)?;
    let mut file = File::open(name).map_err(|e| Failure::system(name, &e))?;
    bytes_of(name, &mut file)
}

/// Whether there is a file that could be read.
pub fn regular(name: &Path) -> Done {
    let kind = fs::metadata(name).map_err(|e| Failure::system(name, &e))?;
    if kind.is_dir() {
        return Err(Failure::file(name, "Is a directory"));
    }
    if !kind.is_file() {
        return Err(Failure::file(name, "is not a file on a disk"));
    }
    Ok(())
}

fn bytes_of(name: &Path, file: &mut File) -> Done<Vec<u8>> {
    let size = file.metadata().map_err(|e| Failure::system(name, &e))?.len();
    let mut bytes = room(name, size)?;
    file.read_to_end(&mut bytes).map_err(|e| Failure::system(name, &e))?;
    Ok(bytes)
}

/// An empty vector with room for so many bytes, if memory has it.
pub fn room(name: &Path, size: u64) -> Done<Vec<u8>> {
    let full = || Failure::file(name, format!("{size} bytes do not fit in memory"));
    if memory().is_some_and(|free| size > free) {
        return Err(full());
    }
    let mut bytes = Vec::new();
    bytes.try_reserve_exact(size as usize).map_err(|_| full())?;
    Ok(bytes)
}

/// The bytes of memory that the system says are available.
fn memory() -> Option<u64> {
    let text = fs::read_to_string("/proc/meminfo").ok()?;
    let line = text.lines().find(|l| l.starts_with("MemAvailable:"))?;
    line.split_whitespace().nth(1)?.parse::<u64>().ok()?.checked_mul(1024)
}

/// Locks an image file, waiting for another writer so long.
pub fn lock(name: &Path, wait: u64) -> Done<Locked> {
    let limit = Instant::now() + Duration::from_nanos(wait);
    loop {
        regular(name)?;
        let real = name.canonicalize().map_err(|e| Failure::system(name, &e))?;
        let file = writable(name, &real)?;
        match file.try_lock() {
            Ok(()) if same(&real, &file) => return Ok(Locked { name: name.to_path_buf(), real, file }),
            Ok(()) => continue,
            Err(TryLockError::WouldBlock) if Instant::now() < limit => thread::sleep(Duration::from_millis(5)),
            Err(TryLockError::WouldBlock) => {
                let waited = time::spoken(wait);
                return Err(Failure::file(name, format!("another command has it locked, waited {waited}; try again later")));
            }
            Err(TryLockError::Error(e)) => return Err(Failure::system(name, &e)),
        }
    }
}

/// Opens a file for writing; one without any right to be written is refused, whoever asks.
fn writable(name: &Path, real: &Path) -> Done<File> {
    let file = OpenOptions::new().read(true).write(true).open(real).map_err(|e| Failure::system(name, &e))?;
    let mode = file.metadata().map_err(|e| Failure::system(name, &e))?.mode();
    if mode & 0o222 == 0 {
        return Err(Failure::file(name, "is read-only; chmod u+w it first"));
    }
    Ok(file)
}

/// Whether a path still names an open file.
fn same(path: &Path, file: &File) -> bool {
    match (fs::metadata(path), file.metadata()) {
        (Ok(named), Ok(held)) => named.ino() == held.ino() && named.dev() == held.dev(),
        _ => false,
    }
}

impl Locked {
    pub fn read(&mut self) -> Done<Vec<u8>> {
        bytes_of(&self.name, &mut self.file)
    }

    /// Puts a new file with these bytes in the place of the image: whole, or not at all.
    pub fn replace(self, bytes: &[u8]) -> Done {
        let fail = |e: io::Error| Failure::system(&self.name, &e).and("the file is as it was");
        let folder = folder_of(&self.real);
        remove_leftovers(folder, &self.real);
        let old = self.file.metadata().map_err(fail)?;
        let fresh = Temporary::new(folder, &self.real, 0o600).map_err(fail)?;
        fresh.keep_owner(&old).map_err(|e| fail(e).and("its owner, group or mode could not be kept"))?;
        fresh.fill(bytes).map_err(fail)?;
        fs::rename(&fresh.path, &self.real).map_err(fail)?;
        fresh.done();
        sync_folder(&self.name, folder)
    }
}

/// Makes a new image file; there must be none of that name.
pub fn create(name: &Path, bytes: &[u8]) -> Done {
    let fail = |e: io::Error| match e.kind() {
        ErrorKind::AlreadyExists => exists(name),
        _ => Failure::system(name, &e),
    };
    let real = absent(name)?;
    let folder = folder_of(&real);
    remove_leftovers(folder, &real);
    let fresh = Temporary::new(folder, &real, 0o666).map_err(fail)?;
    fresh.fill(bytes).map_err(fail)?;
    match fs::hard_link(&fresh.path, &real) {
        Ok(()) => drop(fresh),
        Err(e) if e.kind() == ErrorKind::AlreadyExists => return Err(exists(name)),
        // a disk without hard links: the name is taken by an empty file first
        Err(_) => {
            OpenOptions::new().write(true).create_new(true).open(&real).map_err(fail)?;
            if let Err(e) = fs::rename(&fresh.path, &real) {
                let _ = fs::remove_file(&real);
                return Err(fail(e));
            }
            fresh.done();
        }
    }
    sync_folder(name, folder)
}

/// Makes a file, or replaces the one of that name.
pub fn put(name: &Path, bytes: &[u8], wait: u64) -> Done {
    match fs::metadata(name) {
        Ok(_) => lock(name, wait)?.replace(bytes),
        Err(_) => create(name, bytes),
    }
}

fn exists(name: &Path) -> Failure {
    Failure::file(name, "exists already; remove it first, or choose another name")
}

/// The path that a new file is to have: links are followed, and nothing may stand there.
pub fn absent(name: &Path) -> Done<PathBuf> {
    let mut real = name.to_path_buf();
    for _ in 0..40 {
        match fs::read_link(&real) {
            Ok(target) => real = folder_of(&real).join(target),
            Err(_) => break,
        }
    }
    match fs::symlink_metadata(&real) {
        Ok(_) => Err(exists(name)),
        Err(e) if e.kind() == ErrorKind::NotFound && folder_of(&real).is_dir() => Ok(real),
        Err(e) => Err(Failure::system(name, &e)),
    }
}

fn folder_of(path: &Path) -> &Path {
    match path.parent() {
        Some(folder) if folder != Path::new("") => folder,
        _ => Path::new("."),
    }
}

fn sync_folder(name: &Path, folder: &Path) -> Done {
    let synced = File::open(folder).and_then(|f| f.sync_all());
    synced.map_err(|e| Failure::system(name, &e).and("the file is written, and its folder could not be synced"))
}

/// How the names of an image's temporary files begin: short, whatever the image's name.
fn prefix(real: &Path) -> String {
    let name = real.file_name().map(|n| n.as_bytes()).unwrap_or_default();
    let hash = name.iter().fold(0xcbf2_9ce4_8422_2325u64, |h, b| (h ^ u64::from(*b)).wrapping_mul(0x100_0000_01b3));
    format!(".rondo-{hash:016x}-")
}

/// Removes the temporary files of this image that no command holds.
fn remove_leftovers(folder: &Path, real: &Path) {
    let prefix = prefix(real);
    let Ok(files) = fs::read_dir(folder) else { return };
    for entry in files.flatten() {
        let plain = entry.file_type().is_ok_and(|kind| kind.is_file());
        if !plain || !entry.file_name().as_bytes().starts_with(prefix.as_bytes()) {
            continue;
        }
        let path = entry.path();
        if let Ok(file) = OpenOptions::new().read(true).open(&path)
            && file.try_lock().is_ok()
        {
            let _ = fs::remove_file(&path);
        }
    }
}

/// A temporary file, locked; removed again unless it was put in its place.
struct Temporary {
    path: PathBuf,
    file: File,
    placed: std::cell::Cell<bool>,
}

impl Temporary {
    fn new(folder: &Path, real: &Path, mode: u32) -> io::Result<Self> {
        for count in 0.. {
            let path = folder.join(format!("{}{}-{count}", prefix(real), process::id()));
            let made = OpenOptions::new().write(true).create_new(true).mode(mode).open(&path);
            match made {
                Err(e) if e.kind() == ErrorKind::AlreadyExists && count < 1000 => continue,
                Err(e) => return Err(e),
                Ok(file) => {
                    file.lock()?;
                    // another command may have taken it for a leftover before it was locked
                    if same(&path, &file) {
                        return Ok(Temporary { path, file, placed: false.into() });
                    }
                }
            }
        }
        Err(io::Error::from(ErrorKind::AlreadyExists))
    }

    /// Gives it the owner, the group and the mode of the file before.
    fn keep_owner(&self, old: &fs::Metadata) -> io::Result<()> {
        let new = self.file.metadata()?;
        if (new.uid(), new.gid()) != (old.uid(), old.gid()) {
            fchown(&self.file, Some(old.uid()), Some(old.gid()))?;
        }
        self.file.set_permissions(fs::Permissions::from_mode(old.mode() & 0o7777))
    }

    fn fill(&self, bytes: &[u8]) -> io::Result<()> {
        (&self.file).write_all(bytes)?;
        self.file.sync_all()
    }

    fn done(&self) {
        self.placed.set(true);
    }
}

impl Drop for Temporary {
    fn drop(&mut self) {
        if !self.placed.get() {
            let _ = fs::remove_file(&self.path);
        }
    }
}
