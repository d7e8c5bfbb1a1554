//! The solver's processes. A keeper is a process whose group the solver joins, and all that the solver starts has a mark in its
//! environment. What is left of group and mark is ended when the solver has ended, when its time is over, and as soon as the
//! command is gone, however that ended: then nobody holds the other end of the keeper's pipe.

use crate::cleanup;
use crate::system::{self, c};
use std::ffi::c_int;
use std::os::fd::AsRawFd;
use std::process::Command;
use std::sync::OnceLock;
use std::thread::sleep;
use std::time::Duration;
use std::{fs, io};

const MARK: &str = "SIRGHOLYN_SOLVER";

/// How often processes that may just be starting others are looked for.
const ROUNDS: usize = 100;

pub struct Keeper {
    group: c_int,
    _alive: io::PipeWriter,
}

impl Keeper {
    pub fn new() -> io::Result<Keeper> {
        mark();
        let (reader, writer) = io::pipe()?;
        // SAFETY: no other thread is at work, so the new process may go on as this one would.
        match unsafe { c::fork() } {
            -1 => Err(io::Error::last_os_error()),
            0 => keep(reader.as_raw_fd(), writer.as_raw_fd()),
            group => {
                // both sides ask for the group, as either may be first
                // SAFETY: a plain call.
                unsafe { c::setpgid(group, group) };
                cleanup::solver_is(group);
                Ok(Keeper {
                    group,
                    _alive: writer,
                })
            }
        }
    }

    pub fn group(&self) -> c_int {
        self.group
    }

    /// Ends the solver and what it has started.
    pub fn end_solver(&self) {
        system::kill_group(self.group);
        kill_marked();
    }
}

impl Drop for Keeper {
    fn drop(&mut self) {
        self.end_solver();
        cleanup::solver_is(0);
        let mut status = 0;
        // SAFETY: the status is lent.
        unsafe { c::waitpid(self.group, &mut status, 0) };
    }
}

/// Marks what a command starts.
pub fn mark_command(command: &mut Command) {
    command.env(MARK, mark());
}

/// The mark of this process's solver.
fn mark() -> &'static str {
    static OWN: OnceLock<String> = OnceLock::new();
    OWN.get_or_init(|| format!("{:016x}", system::random()))
}

/// Waits until the pipe has no writer any more, then ends the marked processes and the group, itself included.
fn keep(reader: c_int, writer: c_int) -> ! {
    // SAFETY: plain calls.
    unsafe {
        c::setpgid(0, 0);
        c::close(writer);
        let mut byte = 0;
        while c::read(reader, &mut byte, 1) != 0 {}
        kill_marked();
        c::kill(0, system::SIGKILL);
        c::_exit(0)
    }
}

/// Ends all processes that have the mark in their environment.
pub fn kill_marked() {
    let wanted = format!("{MARK}={}", mark());
    for _ in 0..ROUNDS {
        let marked = marked(wanted.as_bytes());
        if marked.is_empty() {
            return;
        }
        for process in marked {
            // SAFETY: a plain call.
            unsafe { c::kill(process, system::SIGKILL) };
        }
        sleep(Duration::from_millis(1));
    }
}

/// One that has ended has no environment any more.
fn marked(wanted: &[u8]) -> Vec<c_int> {
    let Ok(processes) = fs::read_dir("/proc") else {
        return Vec::new();
    };
    let own = std::process::id() as c_int;
    let has_mark = |process: &c_int| {
        let environment = fs::read(format!("/proc/{process}/environ")).unwrap_or_default();
        let mut variables = environment.split(|&byte| byte == 0);
        *process != own && variables.any(|variable| variable == wanted)
    };
    processes
        .filter_map(|process| process.ok()?.file_name().to_str()?.parse().ok())
        .filter(has_mark)
        .collect()
}
