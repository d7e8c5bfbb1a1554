//! A lock file beside outputs that belong together: of two runs at once, one gives all its files their names, then the other.
//! It tells which files they are, so one that is left tells that a run was killed between the first name and the last.

use crate::cleanup::{uncut, Temporary};
use crate::failure::Failure;
use crate::files::{self, shown_name, Identity};
use crate::outputs::folder_of;
use sirgholyn::limits::{LOCK_WAIT, MOST_NAME_SHOWN};
use sirgholyn::shown::shown;
use std::fs::{self, File, OpenOptions, TryLockError};
use std::io::{self, Read, Seek, Write};
use std::os::unix::fs::{MetadataExt, OpenOptionsExt};
use std::path::Path;
use std::thread::sleep;
use std::time::{Duration, Instant};

/// The name of every lock file.
pub const NAME: &str = ".sirgholyn.lock";

/// How each begins; another file of that name is not touched.
const START: &[u8] = b"sirgholyn gives these files their names: ";

/// Of the names no more is told.
const MOST_TOLD: u64 = 4 * MOST_NAME_SHOWN as u64;

/// Linux's flag: a link is not followed.
const O_NOFOLLOW: i32 = 0o400_000;

/// A lock that is held; the file is removed when it is dropped.
pub struct Lock {
    _temporary: Temporary,
    /// Locked as long as it is open.
    _file: File,
}

impl Lock {
    /// Locks the folders of some files, in one order for all runs, so that no two wait for each other.
    pub fn of_folders(files: &[&Path]) -> Result<Vec<Lock>, Failure> {
        let mut folders = Vec::new();
        for folder in files.iter().map(|file| folder_of(file)) {
            let known = fs::metadata(folder).map_err(|error| failed(folder, error))?;
            folders.push((Identity::of(&known), folder));
        }
        folders.sort_unstable();
        folders.dedup_by_key(|(identity, _)| *identity);
        let locks = folders.into_iter().map(|(_, folder)| {
            let path = folder.join(NAME);
            Lock::new(&path, files).map_err(|error| failed(&path, error))
        });
        locks.collect()
    }

    /// Locks the file of that name, waiting for whoever has it.
    fn new(path: &Path, files: &[&Path]) -> io::Result<Lock> {
        let until = Instant::now() + LOCK_WAIT;
        loop {
            if let Some(lock) = uncut(|| Lock::try_new(path, files))? {
                return Ok(lock);
            }
            if Instant::now() > until {
                return Err(io::Error::other("another run has it"));
            }
            sleep(Duration::from_millis(10));
        }
    }

    /// None where another run has it, or has just removed it.
    fn try_new(path: &Path, files: &[&Path]) -> io::Result<Option<Lock>> {
        let mut file = open(path)?;
        match file.try_lock() {
            Err(TryLockError::WouldBlock) => return Ok(None),
            Err(TryLockError::Error(error)) => return Err(error),
            Ok(()) if !has_name(&file, path) => return Ok(None),
            Ok(()) => {}
        }
        tell_what_is_left(&file)?;
        let lock = Lock {
            _temporary: Temporary::named(path.to_path_buf())?,
            _file: file.try_clone()?,
        };
        let names = files.iter().map(|file| shown_name(file.as_os_str()));
        let names: Vec<String> = names.collect();
        file.set_len(0)?;
        file.rewind()?;
        file.write_all(&[START, names.join(", ").as_bytes()].concat())?;
        file.sync_all()?;
        Ok(Some(lock))
    }
}

fn failed(path: &Path, error: io::Error) -> Failure {
    let name = shown_name(path.as_os_str());
    Failure::output(format!("{name} cannot be locked: {error}"))
}

/// Tells of a run that was killed. Fails where the file is no lock.
fn tell_what_is_left(file: &File) -> io::Result<()> {
    let known = file.metadata()?;
    let mut left = Vec::new();
    if known.is_file() {
        file.take(MOST_TOLD).read_to_end(&mut left)?;
    }
    if known.len() == 0 && known.is_file() {
        return Ok(());
    }
    match left.strip_prefix(START) {
        Some(names) if known.nlink() == 1 => {
            files::say(format!(
                "sirgholyn: an earlier run was killed while it gave its files their names, and these may not belong together: {}",
                shown(names, MOST_TOLD as usize)
            ));
            Ok(())
        }
        _ => Err(io::Error::other("it is another file")),
    }
}

fn open(path: &Path) -> io::Result<File> {
    let mut options = OpenOptions::new();
    options.read(true).write(true).create(true).truncate(false);
    options.custom_flags(O_NOFOLLOW).open(path)
}

fn has_name(file: &File, path: &Path) -> bool {
    match (file.metadata(), fs::symlink_metadata(path)) {
        (Ok(one), Ok(other)) => Identity::of(&one) == Identity::of(&other),
        _ => false,
    }
}
