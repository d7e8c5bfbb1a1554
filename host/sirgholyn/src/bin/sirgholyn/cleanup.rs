//! What is undone however the command ends: temporary files are removed, and the solver's processes are ended. Names stand in
//! a table of their own, so that this can be done at any moment.

use crate::failure::{INTERNAL, NO_MEMORY};
use crate::keeper;
use crate::system;
use std::cell::Cell;
use std::ffi::{c_char, c_int, CStr, CString, OsStr};
use std::os::unix::ffi::OsStrExt;
use std::path::{Path, PathBuf};
use std::ptr::null_mut;
use std::sync::atomic::{AtomicBool, AtomicI32, AtomicPtr, Ordering::SeqCst};
use std::sync::{Mutex, MutexGuard, PoisonError};
use std::{fs, io, thread};

/// More temporary files and folders than a command ever has.
const MOST_NAMES: usize = 16;

/// The stack of the thread that waits for signals.
const WATCH_STACK_BYTES: usize = 256 << 10;

static NAMES: [AtomicPtr<c_char>; MOST_NAMES] = [const { AtomicPtr::new(null_mut()) }; MOST_NAMES];

/// The solver's process group, or 0.
static SOLVER: AtomicI32 = AtomicI32::new(0);

/// Whether the command has begun its work; before that, what fails is the start of a thread.
static BEGUN: AtomicBool = AtomicBool::new(false);

/// Held while something is done that no signal may cut off.
static UNCUT: Mutex<()> = Mutex::new(());

thread_local! {
    static IS_UNCUT: Cell<bool> = const { Cell::new(false) };
}

// ---- temporary files

/// A temporary file or folder, removed when it is dropped.
pub struct Temporary {
    pub path: PathBuf,
    place: usize,
}

impl Temporary {
    /// Makes something under a random name in a folder; where the name is taken, under another.
    pub fn make<R>(
        folder: &Path,
        make: impl Fn(&Path) -> io::Result<R>,
    ) -> io::Result<(Temporary, R)> {
        uncut(|| loop {
            let path = folder.join(format!(".sirgholyn-{:016x}", system::random()));
            let temporary = Temporary::named(path)?;
            match make(&temporary.path) {
                Ok(made) => return Ok((temporary, made)),
                Err(error) => {
                    temporary.forget();
                    if error.kind() != io::ErrorKind::AlreadyExists {
                        return Err(error);
                    }
                }
            }
        })
    }

    /// What is under a name, or will be, is temporary.
    pub fn named(path: PathBuf) -> io::Result<Temporary> {
        // never freed, as it may be read at any moment
        let name = CString::new(path.as_os_str().as_bytes())?.into_raw();
        let taken =
            |place: &AtomicPtr<c_char>| place.compare_exchange(null_mut(), name, SeqCst, SeqCst);
        match NAMES.iter().position(|place| taken(place).is_ok()) {
            Some(place) => Ok(Temporary { path, place }),
            None => Err(io::Error::other("too many temporary files")),
        }
    }

    /// What is under the name stays.
    pub fn forget(self) {
        NAMES[self.place].store(null_mut(), SeqCst);
        std::mem::forget(self);
    }
}

impl Drop for Temporary {
    fn drop(&mut self) {
        remove(&self.path);
        NAMES[self.place].store(null_mut(), SeqCst);
    }
}

fn remove(path: &Path) {
    let _ = fs::remove_file(path)
        .or_else(|_| fs::remove_dir(path))
        .or_else(|_| fs::remove_dir_all(path));
}

fn names() -> impl Iterator<Item = &'static CStr> {
    let names = NAMES.iter().map(|place| place.load(SeqCst));
    // SAFETY: names in the table end in NUL and are never freed.
    names
        .filter(|name| !name.is_null())
        .map(|name| unsafe { CStr::from_ptr(name) })
}

// ---- signals

/// Names the solver's process group, 0 where there is none any more.
pub fn solver_is(group: c_int) {
    SOLVER.store(group, SeqCst);
}

/// From now on signals end the command as they would, once everything is undone; a write past a limit on the size of files is
/// an error of that write; and a panic is told in one line. Fails where no thread can be started.
pub fn prepare() -> io::Result<()> {
    std::panic::set_hook(Box::new(|_| fault()));
    system::handle(system::SIGABRT, on_abort);
    system::ignore(system::SIGXFSZ);
    let held = system::hold_ending_signals();
    let watch = move || {
        let signal = held.wait();
        let _from_now_on = hold_signals();
        if SOLVER.load(SeqCst) != 0 {
            system::kill_group(SOLVER.load(SeqCst));
            keeper::kill_marked();
        }
        for name in names() {
            remove(Path::new(OsStr::from_bytes(name.to_bytes())));
        }
        held.die_by(signal)
    };
    let builder = thread::Builder::new().stack_size(WATCH_STACK_BYTES);
    builder.spawn(watch).map(|_| ())
}

/// Signals have no effect as long as the answer is kept.
pub fn hold_signals() -> MutexGuard<'static, ()> {
    UNCUT.lock().unwrap_or_else(PoisonError::into_inner)
}

/// Does what no signal may cut off; one that comes meanwhile takes effect afterwards.
pub fn uncut<R>(work: impl FnOnce() -> R) -> R {
    if IS_UNCUT.get() {
        return work();
    }
    let _until_done = hold_signals();
    IS_UNCUT.set(true);
    let result = work();
    IS_UNCUT.set(false);
    result
}

// ---- ends without warning

/// The command begins its work.
pub fn begin() {
    BEGUN.store(true, SeqCst);
}

/// Undoes what can be undone where nothing may be allocated, says a line and ends the command.
pub fn end_at_once(line: &[u8], status: u8) -> ! {
    system::kill_group(SOLVER.load(SeqCst));
    for remove in [system::remove_file, system::remove_folder] {
        names().for_each(remove);
    }
    system::end_with(line, c_int::from(status))
}

fn fault() -> ! {
    match BEGUN.load(SeqCst) {
        true => end_at_once(b"sirgholyn: a fault of the command itself\n", INTERNAL),
        false => end_at_once(b"sirgholyn: no thread can be started\n", NO_MEMORY),
    }
}

extern "C" fn on_abort(_: c_int) {
    fault()
}
