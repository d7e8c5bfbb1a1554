//! A DRAT checker, which shares nothing with the proved library.
//!
//! [`check`] reads a proof line by line and keeps the standing clauses only: memory is a matter of how many
//! stand at once. Each added clause has to follow from them by unit propagation, or its resolvents on its
//! first literal have to; each deleted clause has to stand; and a line has to be the empty clause. All
//! deletions are done, those of unit clauses too. A clause is a set of literals: repeats do not count, and one
//! that holds a literal and its negation changes nothing in what follows.

mod checker;
mod clauses;
mod formula;
mod line;
mod occurrences;
mod propagation;
mod variables;

pub use checker::{Checker, Ground};
pub use formula::deletions_of_tautologies;

use crate::limits::MOST_WORD_SHOWN;
use crate::shown::shown;
use line::Lines;
use std::fmt;
use std::io::{self, BufRead};

/// What is wrong with a line of a proof, or with the proof as a whole.
#[derive(Debug, Clone, PartialEq, Eq)]
pub enum Fault {
    /// Not in the layout of a DRAT line: an optional `d `, literals and a closing `0` with one blank
    /// between words, and LF.
    Layout,
    /// An added clause that follows neither by unit propagation nor by its resolvents on its first literal.
    DoesNotFollow,
    /// A deletion of a clause that does not stand.
    NotStanding,
    /// The proof ends, no line of it is the empty clause, and the formula holds none.
    NoEmptyClause,
}

impl fmt::Display for Fault {
    fn fmt(&self, to: &mut fmt::Formatter) -> fmt::Result {
        to.write_str(match self {
            Fault::Layout => "not a line of DRAT in text",
            Fault::DoesNotFollow => "the added clause does not follow",
            Fault::NotStanding => "the deleted clause does not stand",
            Fault::NoEmptyClause => "the proof ends without the empty clause",
        })
    }
}

/// Why a proof is not accepted.
#[derive(Debug)]
pub enum Error {
    /// The first faulty line; the last one if the empty clause is missing.
    Faulty {
        /// Counted from 1.
        line: u64,
        /// What is wrong with it.
        fault: Fault,
        /// The line, shortened and escaped.
        text: String,
    },
    /// The proof cannot be read; or the formula is not DIMACS CNF, or more stands than there is room for.
    Unreadable(io::Error),
}

impl fmt::Display for Error {
    fn fmt(&self, to: &mut fmt::Formatter) -> fmt::Result {
        match self {
            Error::Faulty { line, fault, text } if text.is_empty() => {
                write!(to, "line {line}: {fault}")
            }
            Error::Faulty { line, fault, text } => write!(to, "line {line}: {fault}: `{text}`"),
            Error::Unreadable(error) => error.fmt(to),
        }
    }
}

impl std::error::Error for Error {}

impl From<io::Error> for Error {
    fn from(error: io::Error) -> Error {
        Error::Unreadable(error)
    }
}

/// What was checked.
#[derive(Debug, Clone, Copy, Default, PartialEq, Eq)]
pub struct Checked {
    /// All lines.
    pub lines: u64,
    /// Those that delete a clause.
    pub deletions: u64,
    /// Added clauses that have no resolvents, or follow by them only.
    pub by_resolvents: u64,
}

/// Checks a proof that the formula, in DIMACS CNF, cannot be satisfied.
///
/// `progress` gets the number of lines checked so far: after each line, and within a line for each clause
/// that it is resolved with. It should be quick.
///
/// ```
/// use sirgholyn::drat::{check, Error, Fault};
/// let formula = b"p cnf 2 4\n1 2 0\n-1 2 0\n1 -2 0\n-1 -2 0\n";
/// assert_eq!(check(formula, &b"2 0\n0\n"[..], &mut |_| {}).unwrap().lines, 2);
/// let cut = check(formula, &b"2 0\n"[..], &mut |_| {});
/// assert!(matches!(cut, Err(Error::Faulty { line: 1, fault: Fault::NoEmptyClause, .. })));
/// ```
pub fn check(
    formula: &[u8],
    proof: impl BufRead,
    progress: &mut dyn FnMut(u64),
) -> Result<Checked, Error> {
    let mut checker = checker_of(formula)?;
    let mut lines = Lines::new(proof);
    let mut checked = Checked::default();
    while lines.advance()? {
        test_room(&checker, lines.bytes().len())?;
        let taken = take_line(&mut checker, &mut lines, &mut checked, progress);
        taken.map_err(|fault| Error::Faulty {
            line: checked.lines + 1,
            fault,
            text: shown(without_lf(lines.bytes()), MOST_WORD_SHOWN),
        })?;
        checked.lines += 1;
        progress(checked.lines);
    }
    if checker.refuted() {
        return Ok(checked);
    }
    Err(Error::Faulty {
        line: checked.lines,
        fault: Fault::NoEmptyClause,
        text: String::new(),
    })
}

/// The clauses of a formula.
fn checker_of(formula: &[u8]) -> io::Result<Checker> {
    let why = "the formula is not DIMACS CNF";
    let clauses =
        formula::clauses(formula).ok_or(io::Error::new(io::ErrorKind::InvalidData, why))?;
    let mut checker = Checker::default();
    for clause in clauses {
        test_room(&checker, clause.len())?;
        checker.add(&clause);
    }
    Ok(checker)
}

/// That a clause of at most so many literals has room.
fn test_room(checker: &Checker, most_literals: usize) -> io::Result<()> {
    if checker.has_room(most_literals) {
        return Ok(());
    }
    let why = "more clauses stand than the checker has room for";
    Err(io::Error::new(io::ErrorKind::OutOfMemory, why))
}

/// Does what the line says, if it may be done.
fn take_line(
    checker: &mut Checker,
    lines: &mut Lines<impl BufRead>,
    checked: &mut Checked,
    progress: &mut dyn FnMut(u64),
) -> Result<(), Fault> {
    let line = lines.line().ok_or(Fault::Layout)?;
    if line.is_deletion {
        checked.deletions += 1;
        let stood = checker.delete(line.literals);
        return stood.then_some(()).ok_or(Fault::NotStanding);
    }
    let ground = checker.add_if_follows(line.literals, &mut || progress(checked.lines));
    match ground.ok_or(Fault::DoesNotFollow)? {
        Ground::Propagation => {}
        Ground::Resolvents => checked.by_resolvents += 1,
    }
    Ok(())
}

fn without_lf(line: &[u8]) -> &[u8] {
    line.strip_suffix(b"\n").unwrap_or(line)
}
