//! Outputs that appear whole or not at all, and together: each file is written under another name, and all get their names when
//! nothing can fail any more for want of room.

use crate::cleanup::{uncut, Temporary};
use crate::failure::Failure;
use crate::files::{self, shown_name, Identity, Input};
use crate::lock::{self, Lock};
use crate::system;
use std::ffi::{OsStr, OsString};
use std::fs::{self, File, OpenOptions};
use std::io::{self, Read, Write};
use std::os::fd::BorrowedFd;
use std::os::unix::ffi::OsStrExt;
use std::os::unix::fs::{fchown, FileTypeExt, MetadataExt};
use std::path::{Path, PathBuf};

/// What an output may not be, with the words for it: an input, standard output or error, an output before it.
pub struct Taken(Vec<(Place, &'static str)>);

/// Where an output goes, whatever its names.
#[derive(PartialEq, Eq)]
enum Place {
    Existing(Identity),
    /// A file that is not there yet, by its folder and its name.
    New(Identity, OsString),
}

const IS_INPUT: &str = "is the input; it would be lost";
const IS_STANDARD: &str = "is standard output or error already";
const IS_TWICE: &str = "is given twice; two outputs want two files";

impl Taken {
    /// The inputs, and the files behind standard output and error, which may be no input.
    pub fn new(inputs: &[&Input]) -> Result<Taken, Failure> {
        let inputs: Vec<Identity> = inputs.iter().filter_map(|input| input.identity).collect();
        let standard = [files::regular(io::stdout()), files::regular(io::stderr())];
        let standard: Vec<Identity> = standard.iter().flatten().map(Identity::of).collect();
        if standard.iter().any(|one| inputs.contains(one)) {
            return Err(Failure::usage(format!("standard output {IS_INPUT}")));
        }
        let taken = |identity, why| (Place::Existing(identity), why);
        let inputs = inputs.into_iter().map(|one| taken(one, IS_INPUT));
        let standard = standard.into_iter();
        Ok(Taken(
            inputs
                .chain(standard.map(|one| taken(one, IS_STANDARD)))
                .collect(),
        ))
    }

    /// Takes a place, if it is free. Standard output itself may be an output.
    fn take(&mut self, place: Place, target: &Target) -> Result<(), &'static str> {
        let direct = matches!(target, Target::Standard | Target::Direct(_));
        let mut others = self
            .0
            .iter()
            .filter(|(_, why)| !direct || *why != IS_STANDARD);
        match others.find(|(other, _)| *other == place) {
            Some((_, why)) => Err(why),
            None => {
                self.0.push((place, IS_TWICE));
                Ok(())
            }
        }
    }
}

/// An output that has been opened, so that it is known to be writable before the work begins.
pub struct Output {
    name: OsString,
    target: Target,
    /// What is not written yet.
    waiting: Vec<Box<dyn Read>>,
}

enum Target {
    Standard,
    /// A device, a pipe or a descriptor: written as it is.
    Direct(File),
    /// A file: written under another name in its folder.
    Staged(Staged),
}

struct Staged {
    file: File,
    beside: Temporary,
    last: PathBuf,
    existed: bool,
}

impl Output {
    /// Opens an output; `-` is standard output. What is taken is not accepted.
    pub fn open(name: &OsStr, taken: &mut Taken) -> Result<Output, Failure> {
        if Path::new(name).file_name() == Some(OsStr::new(lock::NAME)) {
            let name = shown_name(name);
            return Err(Failure::usage(format!("{name} is the name of a lock")));
        }
        let (target, place) = open_target(name).map_err(|error| failed(name, error))?;
        if let Some(place) = place {
            taken
                .take(place, &target)
                .map_err(|why| Failure::usage(format!("{} {why}", shown_name(name))))?;
        }
        Ok(Output {
            name: name.into(),
            target,
            waiting: Vec::new(),
        })
    }

    pub fn is_standard(&self) -> bool {
        matches!(self.target, Target::Standard)
    }

    /// Writes a file's bytes under its other name; all else waits until the end.
    pub fn write(&mut self, mut from: impl Read + 'static) -> Result<(), Failure> {
        match &mut self.target {
            Target::Staged(staged) => io::copy(&mut from, &mut staged.file)
                .map(|_| ())
                .map_err(|error| failed(&self.name, error)),
            _ => {
                self.waiting.push(Box::new(from));
                Ok(())
            }
        }
    }

    /// Writes all that can still fail for want of room.
    fn settle(&mut self) -> Result<(), Failure> {
        let done = match &mut self.target {
            Target::Standard => write_all(&mut self.waiting, &mut io::stdout().lock()),
            Target::Direct(file) => write_all(&mut self.waiting, file),
            Target::Staged(staged) => staged.file.sync_all(),
        };
        done.map_err(|error| failed(&self.name, error))
    }

    /// Removes the older file of this name, which is not true any more.
    pub fn remove_older(self) -> Result<(), Failure> {
        match &self.target {
            Target::Staged(staged) if staged.existed => {
                fs::remove_file(&self.name).map_err(|error| failed(&self.name, error))
            }
            _ => Ok(()),
        }
    }
}

fn failed(name: &OsStr, error: io::Error) -> Failure {
    Failure::output(format!("{} cannot be written: {error}", shown_name(name)))
}

fn write_all(from: &mut Vec<Box<dyn Read>>, to: &mut impl Write) -> io::Result<()> {
    for part in from {
        io::copy(part, to)?;
    }
    to.flush()
}

/// Lets the outputs appear. Files are complete before anything else is written, and get their names when all else has gone well.
pub fn finish(outputs: Vec<Output>) -> Result<(), Failure> {
    let (mut files, mut others): (Vec<Output>, Vec<Output>) = outputs
        .into_iter()
        .partition(|output| matches!(output.target, Target::Staged(_)));
    for output in files.iter_mut().chain(&mut others) {
        output.settle()?;
    }
    let staged = files.into_iter().filter_map(|output| match output.target {
        Target::Staged(staged) => Some(staged),
        _ => None,
    });
    let staged: Vec<Staged> = staged.collect();
    let lasts: Vec<&Path> = staged.iter().map(|staged| staged.last.as_path()).collect();
    let locks = match lasts.len() {
        0 | 1 => Vec::new(),
        _ => Lock::of_folders(&lasts)?,
    };
    uncut(|| {
        let done = place(staged);
        drop(locks);
        done
    })
}

/// Gives files their names, all or none.
fn place(all: Vec<Staged>) -> Result<(), Failure> {
    let mut placed = Vec::new();
    for staged in all {
        let name = staged.last.clone();
        match staged.place() {
            Ok(done) => placed.push(done),
            Err(error) => {
                placed.into_iter().rev().for_each(Placed::put_back);
                return Err(failed(name.as_os_str(), error));
            }
        }
    }
    for done in placed {
        let _ = File::open(folder_of(&done.name)).and_then(|folder| folder.sync_all());
    }
    Ok(())
}

/// A file that has its name, and the older one, under the temporary name until all files have theirs.
struct Placed {
    name: PathBuf,
    older: Option<Temporary>,
    is_lost: bool,
}

impl Staged {
    fn place(self) -> io::Result<Placed> {
        if self.last.is_dir() {
            return Err(io::ErrorKind::IsADirectory.into());
        }
        let exchanged = match self.existed {
            true => system::exchange(&self.beside.path, &self.last),
            false => Err(io::ErrorKind::Unsupported.into()),
        };
        let older = match exchanged {
            Ok(()) => Some(self.beside),
            // a file system that does not know how to exchange names
            Err(error) if is_unsupported(&error) => {
                fs::rename(&self.beside.path, &self.last)?;
                self.beside.forget();
                None
            }
            Err(error) => return Err(error),
        };
        Ok(Placed {
            is_lost: self.existed && older.is_none(),
            name: self.last,
            older,
        })
    }
}

fn is_unsupported(error: &io::Error) -> bool {
    use io::ErrorKind::{InvalidInput, NotFound, Unsupported};
    matches!(error.kind(), Unsupported | InvalidInput | NotFound)
}

impl Placed {
    /// Lets the older file have its name again; where there was none, there is none again.
    fn put_back(self) {
        let done = match &self.older {
            Some(older) => system::exchange(&older.path, &self.name),
            None if self.is_lost => Err(io::Error::other("the older file is lost")),
            None => fs::remove_file(&self.name),
        };
        if let Err(error) = done {
            let name = shown_name(self.name.as_os_str());
            files::say(format!(
                "sirgholyn: {name} is new already, and stays: {error}"
            ));
        }
    }
}

/// Opens what a name leads to, and tells where that is. Devices may be given more than once.
fn open_target(name: &OsStr) -> io::Result<(Target, Option<Place>)> {
    if name == "-" {
        return open_descriptor(1);
    }
    if let Some(number) = descriptor(Path::new(name)) {
        return open_descriptor(number);
    }
    let known = match fs::symlink_metadata(name) {
        Err(error) if error.kind() == io::ErrorKind::NotFound => {
            let (staged, place) = stage_new(Path::new(name))?;
            return Ok((Target::Staged(staged), Some(place)));
        }
        Err(error) => return Err(error),
        Ok(_) => fs::metadata(name).map_err(|error| match error.kind() {
            io::ErrorKind::NotFound => io::Error::other("it is a link to nothing"),
            _ => error,
        })?,
    };
    let place = Place::Existing(Identity::of(&known));
    let file = OpenOptions::new().write(true).open(name)?;
    let kind = known.file_type();
    if kind.is_file() {
        let staged = stage(fs::canonicalize(name)?, true)?;
        // who may not give files away keeps them
        let _ = fchown(&staged.file, Some(known.uid()), Some(known.gid()));
        staged.file.set_permissions(known.permissions())?;
        Ok((Target::Staged(staged), Some(place)))
    } else {
        let device = kind.is_char_device() || kind.is_block_device();
        Ok((Target::Direct(file), Some(place).filter(|_| !device)))
    }
}

/// Opens a descriptor that the caller has opened: what is written goes where that stands.
fn open_descriptor(number: i32) -> io::Result<(Target, Option<Place>)> {
    if !system::is_from_caller(number) {
        return Err(io::Error::other("there is no such descriptor"));
    }
    // SAFETY: the descriptor is open.
    let file = File::from(unsafe { BorrowedFd::borrow_raw(number) }.try_clone_to_owned()?);
    let place = Place::Existing(Identity::of(&file.metadata()?));
    let target = match number {
        1 => Target::Standard,
        _ => Target::Direct(file),
    };
    Ok((target, Some(place)))
}

/// The descriptor that a name stands for, as `/dev/stdout` and `/dev/fd/1` do for 1.
fn descriptor(name: &Path) -> Option<i32> {
    /// As many links as the system follows.
    const MOST_LINKS: usize = 40;
    let own = format!("/proc/{}", std::process::id());
    let mut path = name.to_path_buf();
    for _ in 0..MOST_LINKS {
        let folder = fs::canonicalize(folder_of(&path)).ok()?;
        if folder.starts_with(&own) && folder.ends_with("fd") {
            let number: u16 = path.file_name()?.to_str()?.parse().ok()?;
            return Some(number.into());
        }
        path = folder.join(fs::read_link(&path).ok()?);
    }
    None
}

/// A file that is not there yet, and where that is.
fn stage_new(name: &Path) -> io::Result<(Staged, Place)> {
    let own = name.file_name();
    let own = own.filter(|_| !name.as_os_str().as_bytes().ends_with(b"/"));
    let own = own.ok_or_else(|| io::Error::other("that is no file's name"))?;
    let folder = fs::canonicalize(folder_of(name))?;
    let place = Place::New(Identity::of(&fs::metadata(&folder)?), own.into());
    Ok((stage(folder.join(own), false)?, place))
}

fn stage(last: PathBuf, existed: bool) -> io::Result<Staged> {
    let create = |path: &Path| OpenOptions::new().write(true).create_new(true).open(path);
    let (beside, file) = Temporary::make(folder_of(&last), create)?;
    Ok(Staged {
        file,
        beside,
        last,
        existed,
    })
}

/// The folder that a name is in.
pub fn folder_of(name: &Path) -> &Path {
    match name.parent() {
        Some(folder) if folder != Path::new("") => folder,
        _ => Path::new("."),
    }
}

#[cfg(test)]
mod tests {
    use super::*;

    /// Where a file cannot get its name, those before it have theirs no more, and the older ones have theirs again.
    #[test]
    fn files_get_their_names_all_or_none() {
        let within = std::env::temp_dir();
        let make = |path: &Path| fs::create_dir(path);
        let (folder, ()) = Temporary::make(&within, make).unwrap();
        let named = |name: &str| folder.path.join(name);
        fs::write(named("older"), "older").unwrap();
        fs::create_dir(named("folder")).unwrap();
        let staged = |name: &str, existed| {
            let mut staged = stage(named(name), existed).unwrap();
            staged.file.write_all(b"new").unwrap();
            staged
        };
        let all = vec![
            staged("older", true),
            staged("new", false),
            staged("folder", true),
        ];
        assert!(place(all).is_err());
        let names = |folder: &Path| {
            let entries = fs::read_dir(folder).unwrap();
            let mut names: Vec<_> = entries.map(|entry| entry.unwrap().file_name()).collect();
            names.sort();
            names
        };
        assert_eq!(names(&folder.path), ["folder", "older"]);
        assert_eq!(fs::read(named("older")).unwrap(), b"older");

        assert!(place(vec![staged("older", true), staged("new", false)]).is_ok());
        assert_eq!(names(&folder.path), ["folder", "new", "older"]);
        assert_eq!(fs::read(named("older")).unwrap(), b"new");
    }
}
