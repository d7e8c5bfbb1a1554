//! The limits of the host, and those of the specification that it counts with, in one place.

use std::time::Duration;

/// The limits on a formula's text: those of an input, or of a new formula that is read back.
#[derive(Debug, Clone, Copy, PartialEq, Eq)]
pub struct Limits {
    /// The header's V, or H.
    pub variables: usize,
    /// The header's C, or M.
    pub clauses: usize,
    /// Literals of all clauses that are kept.
    pub literals: usize,
}

impl Limits {
    /// Of a formula that is handed in.
    pub const INPUT: Limits = Limits {
        variables: 8_000,
        clauses: 20_000,
        literals: 60_000,
    };
    /// Of a new formula.
    pub const NEW_FORMULA: Limits = Limits {
        variables: 70_000,
        clauses: 300_000,
        literals: 1_000_000,
    };
}

/// No accepted formula has more choices: each has 5 literals or more, and no variable stands in two.
pub const MOST_CHOICES: usize = Limits::INPUT.variables / 5;

/// No variable of a log is above this one.
pub const MOST_LOG_VARIABLES: usize = 70_000;

/// A larger variable is no variable of a solver's proof.
pub const MOST_PROOF_VARIABLE: i32 = i32::MAX / 2;

/// A longer line is no line of a proof, so that a text without line ends cannot take all memory.
pub const MOST_PROOF_LINE_BYTES: u64 = 16 << 20;

/// No text that is read is longer; logs of accepted formulas stay well below.
pub const MOST_TEXT_BYTES: u64 = 4 << 30;

/// A solver that prints more is stopped.
pub const MOST_PRINTED_BYTES: usize = 256 << 20;

/// The library holds its tables on the stack, up to 1.5 MB, and does not ask whether they fit.
pub const STACK_BYTES: usize = 32 << 20;

/// Work that takes longer is told of on standard error.
pub const QUIET_FOR: Duration = Duration::from_secs(2);

/// How long another run may take to give its files their names.
pub const LOCK_WAIT: Duration = Duration::from_secs(10);

/// So much of a file's name is shown in a message.
pub const MOST_NAME_SHOWN: usize = 300;

/// So much of a word, or of a line of a proof, is shown in a message.
pub const MOST_WORD_SHOWN: usize = 40;
