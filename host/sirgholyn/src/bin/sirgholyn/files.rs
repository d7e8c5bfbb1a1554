//! Whole texts read; lines printed and said; files told apart, whatever their names.

use crate::failure::Failure;
use sirgholyn::limits::{MOST_NAME_SHOWN, MOST_TEXT_BYTES};
use sirgholyn::shown::shown;
use std::ffi::OsStr;
use std::fmt::Display;
use std::fs::{File, Metadata};
use std::io::{self, Read, Write};
use std::mem::ManuallyDrop;
use std::os::fd::{AsFd, AsRawFd, FromRawFd};
use std::os::unix::ffi::OsStrExt;
use std::os::unix::fs::MetadataExt;

/// A file's name for a message.
pub fn shown_name(name: &OsStr) -> String {
    shown(name.as_bytes(), MOST_NAME_SHOWN)
}

/// A file, whatever its names: its device and its number there.
#[derive(Debug, Clone, Copy, PartialEq, Eq, PartialOrd, Ord)]
pub struct Identity(u64, u64);

impl Identity {
    pub fn of(known: &Metadata) -> Identity {
        Identity(known.dev(), known.ino())
    }
}

/// What is known of the regular file that a descriptor stands for, if it is one.
pub fn regular(descriptor: impl AsFd) -> Option<Metadata> {
    // SAFETY: the descriptor is open while it is lent, and is not closed here.
    let file = unsafe { File::from_raw_fd(descriptor.as_fd().as_raw_fd()) };
    let known = ManuallyDrop::new(file).metadata();
    known.ok().filter(Metadata::is_file)
}

/// A text that was read, and the regular file that it came from.
pub struct Input {
    pub text: Vec<u8>,
    pub identity: Option<Identity>,
}

/// Reads a file; `-` is standard input.
pub fn read(name: &OsStr) -> Result<Input, Failure> {
    let read = match name.as_bytes() {
        b"-" => read_all(io::stdin()),
        _ => File::open(name).and_then(read_all),
    };
    read.map_err(|error| Failure::input(format!("{} cannot be read: {error}", shown_name(name))))
}

fn read_all(from: impl Read + AsFd) -> io::Result<Input> {
    let too_long = || io::Error::other(format!("it is longer than {MOST_TEXT_BYTES} bytes"));
    let known = regular(&from);
    if known
        .as_ref()
        .is_some_and(|known| known.len() > MOST_TEXT_BYTES)
    {
        return Err(too_long());
    }
    let mut text = Vec::new();
    from.take(MOST_TEXT_BYTES + 1).read_to_end(&mut text)?;
    if text.len() as u64 > MOST_TEXT_BYTES {
        return Err(too_long());
    }
    let identity = known.as_ref().map(Identity::of);
    Ok(Input { text, identity })
}

/// Writes to standard output.
pub fn print(bytes: &[u8]) -> Result<(), Failure> {
    let mut out = io::stdout().lock();
    out.write_all(bytes)
        .and_then(|()| out.flush())
        .map_err(|error| Failure::output(format!("standard output cannot be written: {error}")))
}

/// Says a line on standard error, if it can be said.
pub fn say(line: impl Display) {
    let _ = writeln!(io::stderr(), "{line}");
}
