//! Why a command fails, and with which exit status: a refusal's number, or one of those below.

use sirgholyn::Error;
use std::io;

const USAGE: u8 = 64;
const NO_INPUT: u8 = 66;
const SOLVER: u8 = 69;
pub const INTERNAL: u8 = 70;
pub const NO_MEMORY: u8 = 71;
const NO_OUTPUT: u8 = 73;
const UNDECIDED: u8 = 75;

pub struct Failure {
    pub status: u8,
    pub message: String,
}

impl Failure {
    fn new(status: u8, message: impl Into<String>) -> Self {
        let message = message.into();
        Failure { status, message }
    }

    /// The command line is not as it should be.
    pub fn usage(message: impl Into<String>) -> Self {
        Failure::new(USAGE, message)
    }

    /// An input cannot be read.
    pub fn input(message: impl Into<String>) -> Self {
        Failure::new(NO_INPUT, message)
    }

    /// The solver cannot be run, ends as no solver should, or proves nothing.
    pub fn solver(message: impl Into<String>) -> Self {
        Failure::new(SOLVER, message)
    }

    /// What the proofs exclude.
    pub fn internal(message: impl Into<String>) -> Self {
        Failure::new(INTERNAL, message)
    }

    /// No thread or process can be started.
    pub fn no_process(error: io::Error) -> Self {
        Failure::new(
            NO_MEMORY,
            format!("no thread or process can be started: {error}"),
        )
    }

    /// An output cannot be written.
    pub fn output(message: impl Into<String>) -> Self {
        Failure::new(NO_OUTPUT, message)
    }

    /// The solver has no answer.
    pub fn undecided(message: impl Into<String>) -> Self {
        Failure::new(UNDECIDED, message)
    }

    /// The same failure, with a word on where it was found.
    pub fn at(mut self, place: Option<impl std::fmt::Display>) -> Self {
        if let Some(place) = place {
            self.message = format!("{} ({place})", self.message);
        }
        self
    }
}

impl From<Error> for Failure {
    fn from(error: Error) -> Self {
        match error {
            Error::Refused(refusal) => Failure::new(refusal.0 as u8, error.to_string()),
            Error::NoMemory(_) => Failure::new(NO_MEMORY, error.to_string()),
        }
    }
}
