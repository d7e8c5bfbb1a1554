//! The system's functions that the standard library does not have, and memory that is there or ends the command.

use std::alloc::{GlobalAlloc, Layout, System};
use std::ffi::{c_int, CStr, CString};
use std::hash::{BuildHasher, Hasher, RandomState};
use std::io;
use std::os::fd::{AsFd, AsRawFd};
use std::os::unix::ffi::OsStrExt;
use std::path::Path;

// The numbers of signals, flags and options, and the types below, hold on Linux.
const SIGHUP: c_int = 1;
const SIGINT: c_int = 2;
const SIGQUIT: c_int = 3;
pub const SIGABRT: c_int = 6;
pub const SIGKILL: c_int = 9;
const SIGTERM: c_int = 15;
const SIGTTOU: c_int = 22;
const SIGXCPU: c_int = 24;
pub const SIGXFSZ: c_int = 25;

/// Signals that end a process, and can be waited for.
const ENDING: [c_int; 5] = [SIGHUP, SIGINT, SIGQUIT, SIGTERM, SIGXCPU];

pub mod c {
    use std::ffi::{c_char, c_int, c_short, c_uint, c_ulong};

    pub const SIG_DFL: usize = 0;
    pub const SIG_IGN: usize = 1;
    pub const SIG_BLOCK: c_int = 0;
    pub const SIG_UNBLOCK: c_int = 1;
    pub const POLLIN: c_short = 1;
    pub const F_GETFD: c_int = 1;
    pub const FD_CLOEXEC: c_int = 1;
    pub const AT_FDCWD: c_int = -100;
    pub const RENAME_EXCHANGE: c_uint = 2;

    #[repr(C)]
    pub struct PollFd {
        pub fd: c_int,
        pub events: c_short,
        pub revents: c_short,
    }

    pub type Signals = [u64; 16];

    extern "C" {
        pub fn signal(signal: c_int, handler: usize) -> usize;
        pub fn sigaddset(set: *mut Signals, signal: c_int) -> c_int;
        pub fn pthread_sigmask(how: c_int, set: *const Signals, old: *mut Signals) -> c_int;
        pub fn sigwait(set: *const Signals, signal: *mut c_int) -> c_int;
        pub fn raise(signal: c_int) -> c_int;
        pub fn kill(process: c_int, signal: c_int) -> c_int;
        pub fn unlink(name: *const c_char) -> c_int;
        pub fn rmdir(name: *const c_char) -> c_int;
        pub fn write(fd: c_int, bytes: *const u8, count: usize) -> isize;
        pub fn read(fd: c_int, bytes: *mut u8, count: usize) -> isize;
        pub fn close(fd: c_int) -> c_int;
        pub fn fcntl(fd: c_int, command: c_int, ...) -> c_int;
        pub fn fork() -> c_int;
        pub fn setpgid(process: c_int, group: c_int) -> c_int;
        pub fn waitpid(process: c_int, status: *mut c_int, options: c_int) -> c_int;
        pub fn poll(fds: *mut PollFd, count: c_ulong, milliseconds: c_int) -> c_int;
        pub fn renameat2(
            from_folder: c_int,
            from: *const c_char,
            to_folder: c_int,
            to: *const c_char,
            flags: c_uint,
        ) -> c_int;
        pub fn _exit(status: c_int) -> !;
    }
}

// ---- signals

/// Holds the signals back that end a process, but those that the caller had ignored (as `nohup` does).
pub fn hold_ending_signals() -> HeldSignals {
    let mut set = [0; 16];
    for signal in ENDING {
        // SAFETY: no handler is set, and the set is lent.
        unsafe {
            match c::signal(signal, c::SIG_DFL) {
                c::SIG_IGN => c::signal(signal, c::SIG_IGN),
                _ => c::sigaddset(&mut set, signal) as usize,
            };
        }
    }
    // SAFETY: the set is lent.
    unsafe { c::pthread_sigmask(c::SIG_BLOCK, &set, std::ptr::null_mut()) };
    HeldSignals(set)
}

pub struct HeldSignals(c::Signals);

impl HeldSignals {
    /// Waits for one of them.
    pub fn wait(&self) -> c_int {
        let mut signal = 0;
        // SAFETY: set and signal are lent.
        while unsafe { c::sigwait(&self.0, &mut signal) } != 0 {}
        signal
    }

    /// Lets them through again, in this thread.
    fn release(&self) {
        // SAFETY: the set is lent.
        unsafe { c::pthread_sigmask(c::SIG_UNBLOCK, &self.0, std::ptr::null_mut()) };
    }

    /// Ends this process by one of them, so that its caller sees which.
    pub fn die_by(&self, signal: c_int) -> ! {
        by_default(signal);
        self.release();
        // SAFETY: plain calls.
        unsafe {
            c::raise(signal);
            c::_exit(128 + signal)
        }
    }
}

/// Lets a new process have signals as the caller of this one had them, but that it may write to a terminal from its own group.
pub fn hand_signals_on() {
    let mut set = [0; 16];
    for signal in ENDING {
        // SAFETY: the set is lent.
        unsafe { c::sigaddset(&mut set, signal) };
    }
    HeldSignals(set).release();
    by_default(SIGXFSZ);
    ignore(SIGTTOU);
}

pub fn ignore(signal: c_int) {
    // SAFETY: no handler is set.
    unsafe { c::signal(signal, c::SIG_IGN) };
}

pub fn by_default(signal: c_int) {
    // SAFETY: no handler is set.
    unsafe { c::signal(signal, c::SIG_DFL) };
}

/// Lets a function handle a signal. It may make only calls that a handler may make.
pub fn handle(signal: c_int, handler: extern "C" fn(c_int)) {
    // SAFETY: the handler is a function for signals.
    unsafe { c::signal(signal, handler as *const () as usize) };
}

// ---- what a handler may call

pub fn remove_file(name: &CStr) {
    // SAFETY: the name ends in NUL.
    unsafe { c::unlink(name.as_ptr()) };
}

pub fn remove_folder(name: &CStr) {
    // SAFETY: the name ends in NUL.
    unsafe { c::rmdir(name.as_ptr()) };
}

/// Ends all processes of a group; 0 is none.
pub fn kill_group(group: c_int) {
    if group > 0 {
        // SAFETY: a plain call.
        unsafe { c::kill(-group, SIGKILL) };
    }
}

/// Says a line on standard error, if it can be said, and ends the process.
pub fn end_with(line: &[u8], status: c_int) -> ! {
    const STDERR: c_int = 2;
    // SAFETY: pointer and length are those of one slice.
    unsafe {
        c::write(STDERR, line.as_ptr(), line.len());
        c::_exit(status)
    }
}

// ---- files

/// Whether something can be read, or the end has come, within so many milliseconds.
pub fn readable(file: impl AsFd, milliseconds: c_int) -> io::Result<bool> {
    let mut poll = c::PollFd {
        fd: file.as_fd().as_raw_fd(),
        events: c::POLLIN,
        revents: 0,
    };
    // SAFETY: one entry is lent.
    let ready = unsafe { c::poll(&mut poll, 1, milliseconds) };
    match io::Error::last_os_error() {
        _ if ready >= 0 => Ok(ready > 0),
        error if error.kind() == io::ErrorKind::Interrupted => Ok(false),
        error => Err(error),
    }
}

/// Whether the caller has opened a descriptor: those of this process are not handed on.
pub fn is_from_caller(descriptor: c_int) -> bool {
    // SAFETY: a plain call.
    let flags = unsafe { c::fcntl(descriptor, c::F_GETFD) };
    flags >= 0 && flags & c::FD_CLOEXEC == 0
}

/// Lets two files have each other's names.
pub fn exchange(one: &Path, other: &Path) -> io::Result<()> {
    let name = |path: &Path| CString::new(path.as_os_str().as_bytes());
    let (one, other) = (name(one)?, name(other)?);
    let here = c::AT_FDCWD;
    // SAFETY: the names end in NUL.
    match unsafe { c::renameat2(here, one.as_ptr(), here, other.as_ptr(), c::RENAME_EXCHANGE) } {
        0 => Ok(()),
        _ => Err(io::Error::last_os_error()),
    }
}

/// Random bits, for names.
pub fn random() -> u64 {
    RandomState::new().build_hasher().finish()
}

// ---- memory

/// Memory that is there, or the end of the command. Zeroed memory may be refused: whoever asks for it, asks whether it is there.
struct OrEnd;

#[global_allocator]
static MEMORY: OrEnd = OrEnd;

// SAFETY: the system's allocator does the work.
unsafe impl GlobalAlloc for OrEnd {
    unsafe fn alloc(&self, layout: Layout) -> *mut u8 {
        there(System.alloc(layout))
    }

    unsafe fn alloc_zeroed(&self, layout: Layout) -> *mut u8 {
        System.alloc_zeroed(layout)
    }

    unsafe fn dealloc(&self, start: *mut u8, layout: Layout) {
        System.dealloc(start, layout)
    }

    unsafe fn realloc(&self, start: *mut u8, layout: Layout, bytes: usize) -> *mut u8 {
        there(System.realloc(start, layout, bytes))
    }
}

fn there(start: *mut u8) -> *mut u8 {
    if start.is_null() {
        crate::cleanup::end_at_once(b"sirgholyn: no memory\n", crate::failure::NO_MEMORY);
    }
    start
}
