//! A solver run as a process: what it prints, if it ends as a solver does.

use crate::failure::Failure;
use crate::keeper::{mark_command, Keeper};
use crate::system;
use sirgholyn::limits::{MOST_NAME_SHOWN, MOST_PRINTED_BYTES};
use sirgholyn::shown::shown;
use std::ffi::{OsStr, OsString};
use std::io::{self, Read};
use std::os::unix::ffi::{OsStrExt, OsStringExt};
use std::os::unix::process::{CommandExt, ExitStatusExt};
use std::path::Path;
use std::process::{Child, Command, ExitStatus, Stdio};
use std::thread::sleep;
use std::time::{Duration, Instant};

/// The solver where none is named, with text proofs.
const CADICAL: &str = "cadical -q --no-binary";

/// How often a solver that prints nothing is looked at, and one that has closed its output.
const LOOK_EVERY: i32 = 50;
const LOOK_AGAIN: Duration = Duration::from_millis(1);

pub struct Solver {
    words: Vec<OsString>,
}

/// What a solver says.
pub enum Answer {
    Unsatisfiable,
    /// It has no answer, and why.
    Unknown(String),
    /// What it printed: a plan, or something that is no answer. Reading it will tell.
    Printed(Vec<u8>),
}

impl Solver {
    /// A solver's name and its own words, split at blanks.
    pub fn new(words: Option<&OsStr>) -> Result<Solver, Failure> {
        let words = words.unwrap_or(OsStr::new(CADICAL)).as_bytes();
        let words: Vec<OsString> = words
            .split(u8::is_ascii_whitespace)
            .filter(|word| !word.is_empty())
            .map(|word| OsString::from_vec(word.to_vec()))
            .collect();
        match words.is_empty() {
            true => Err(Failure::usage("`--solver` wants a command")),
            false => Ok(Solver { words }),
        }
    }

    /// Runs the solver on files, for so many seconds at most.
    pub fn run(&self, files: &[&Path], seconds: Option<usize>) -> Result<Answer, Failure> {
        let mut running = self.start(files)?;
        let until = seconds
            .and_then(|seconds| Instant::now().checked_add(Duration::from_secs(seconds as u64)));
        let ended = running.wait(until);
        drop(running);
        match ended.map_err(|error| self.failed(format!("cannot be heard: {error}")))? {
            Ended::Itself(status, printed) => self.answer(status, printed),
            Ended::ByTime => Ok(Answer::Unknown(format!(
                "the solver `{}` was stopped after {} seconds",
                self.shown(),
                seconds.unwrap_or_default()
            ))),
            Ended::ByLength => Err(self.failed(format!(
                "printed more than {MOST_PRINTED_BYTES} bytes, and was stopped"
            ))),
        }
    }

    fn start(&self, files: &[&Path]) -> Result<Running, Failure> {
        let keeper = Keeper::new().map_err(Failure::no_process)?;
        let mut command = Command::new(&self.words[0]);
        command
            .args(&self.words[1..])
            .args(files)
            .stdin(Stdio::null())
            .stdout(Stdio::piped())
            .process_group(keeper.group());
        mark_command(&mut command);
        // SAFETY: the calls are allowed after a fork.
        unsafe {
            command.pre_exec(|| {
                system::hand_signals_on();
                Ok(())
            })
        };
        let child = command.spawn().map_err(|error| self.not_started(error))?;
        Ok(Running { child, keeper })
    }

    fn not_started(&self, error: io::Error) -> Failure {
        match error.kind() {
            io::ErrorKind::WouldBlock | io::ErrorKind::OutOfMemory => Failure::no_process(error),
            io::ErrorKind::NotFound => Failure::solver(format!(
                "there is no solver `{}`; `host/install-tools` installs cadical, and `--solver CMD` names another",
                shown(self.words[0].as_bytes(), MOST_NAME_SHOWN)
            )),
            _ => self.failed(format!("cannot be run: {error}")),
        }
    }

    fn answer(&self, status: ExitStatus, printed: Vec<u8>) -> Result<Answer, Failure> {
        let said = said(&printed);
        if status.signal() == Some(system::SIGXFSZ) {
            return Err(Failure::output(format!(
                "the solver `{}` cannot write its proof: a file may not be so long",
                self.shown()
            )));
        }
        match (complaint(status, said), said) {
            (Some(why), _) => Err(self.failed(why)),
            (None, Said::Unsatisfiable) => Ok(Answer::Unsatisfiable),
            (None, Said::Unknown) => Ok(Answer::Unknown(format!(
                "the solver `{}` says that it does not know",
                self.shown()
            ))),
            (None, Said::Other) => Ok(Answer::Printed(printed)),
        }
    }

    fn failed(&self, why: String) -> Failure {
        Failure::solver(format!(
            "the solver `{}` {why}; whether there is a plan stays open",
            self.shown()
        ))
    }

    fn shown(&self) -> String {
        let words: Vec<&[u8]> = self.words.iter().map(|word| word.as_bytes()).collect();
        shown(&words.join(&b' '), MOST_NAME_SHOWN)
    }
}

/// A solver that has been started, in its keeper's group.
struct Running {
    child: Child,
    keeper: Keeper,
}

enum Ended {
    Itself(ExitStatus, Vec<u8>),
    ByTime,
    ByLength,
}

/// What came through the pipe.
#[derive(PartialEq, Eq)]
enum Heard {
    Something,
    Nothing,
    TheEnd,
}

impl Running {
    /// Takes what the solver prints until it has ended, or has to be.
    fn wait(&mut self, until: Option<Instant>) -> io::Result<Ended> {
        let mut printed = Vec::new();
        let mut heard = Heard::Nothing;
        loop {
            let ended = self.child.try_wait()?;
            if ended.is_some() {
                // what it has printed is there; others that hold the pipe are not waited for
                self.keeper.end_solver();
                while self.hear(&mut printed, 0)? == Heard::Something {}
            }
            if printed.len() > MOST_PRINTED_BYTES {
                return Ok(Ended::ByLength);
            }
            if let Some(status) = ended {
                return Ok(Ended::Itself(status, printed));
            }
            if until.is_some_and(|until| Instant::now() >= until) {
                return Ok(Ended::ByTime);
            }
            match heard {
                Heard::TheEnd => sleep(LOOK_AGAIN),
                _ => heard = self.hear(&mut printed, LOOK_EVERY)?,
            }
        }
    }

    /// Takes what comes within so many milliseconds.
    fn hear(&mut self, printed: &mut Vec<u8>, milliseconds: i32) -> io::Result<Heard> {
        let Some(pipe) = &mut self.child.stdout else {
            return Ok(Heard::TheEnd);
        };
        if printed.len() > MOST_PRINTED_BYTES || !system::readable(&*pipe, milliseconds)? {
            return Ok(Heard::Nothing);
        }
        let mut part = [0; 1 << 16];
        let count = pipe.read(&mut part)?;
        printed.extend_from_slice(&part[..count]);
        match count {
            0 => Ok(Heard::TheEnd),
            _ => Ok(Heard::Something),
        }
    }
}

impl Drop for Running {
    fn drop(&mut self) {
        self.keeper.end_solver();
        let _ = self.child.wait();
    }
}

/// What the lines of a solver's output say.
#[derive(Debug, Clone, Copy, PartialEq, Eq)]
enum Said {
    Unsatisfiable,
    Unknown,
    Other,
}

/// The one status line decides. Without one, and without a plan, `c UNKNOWN` does, as cadical has it.
fn said(printed: &[u8]) -> Said {
    let lines = || {
        printed
            .split(|&byte| byte == b'\n')
            .map(|line| line.strip_suffix(b"\r").unwrap_or(line))
    };
    let marked: Vec<&[u8]> = lines()
        .filter(|line| line.starts_with(b"s") || line.starts_with(b"v"))
        .take(2)
        .collect();
    match marked.as_slice() {
        [b"s UNSATISFIABLE"] => Said::Unsatisfiable,
        [b"s UNKNOWN"] => Said::Unknown,
        [] if lines().any(|line| line == b"c UNKNOWN") => Said::Unknown,
        _ => Said::Other,
    }
}

/// What is wrong with the way the solver ended. Solvers end with 10 or 20, as they answer, or with 0.
fn complaint(status: ExitStatus, said: Said) -> Option<String> {
    match (status.code(), said) {
        (Some(0), _) | (Some(10), Said::Other) | (Some(20), Said::Unsatisfiable) => None,
        (Some(10), _) => Some("ended with the status 10 of satisfiable, and says another".into()),
        (Some(20), _) => {
            Some("ended with the status 20 of unsatisfiable, and does not say so".into())
        }
        (Some(code), _) => Some(format!("failed with the status {code}")),
        (None, _) => Some(format!(
            "was killed by signal {}",
            status.signal().unwrap_or_default()
        )),
    }
}
