//! The calls with buffers of their own, each made once. Log, new formula and table get just the sizes that `sizes`
//! tells; a workspace or a line gets as much as any texts with so many words can ask for, so that a call is never
//! repeated.

use crate::calls::{self, ChoiceRecord, Counts, Settings, Tally};
use crate::limits::{Limits, MOST_LOG_VARIABLES};
use crate::refusals::Refusal;
use std::alloc::{alloc_zeroed, Layout};
use std::fmt;

/// Why a call with its own buffers gives no result.
#[derive(Debug, Clone, Copy, PartialEq, Eq)]
pub enum Error {
    /// The library refuses, and why.
    Refused(Refusal),
    /// The system has no memory for a buffer of so many bytes.
    NoMemory(usize),
}

impl fmt::Display for Error {
    fn fmt(&self, to: &mut fmt::Formatter) -> fmt::Result {
        match self {
            Error::Refused(refusal) => refusal.fmt(to),
            Error::NoMemory(bytes) => write!(to, "no memory for a buffer of {bytes} bytes"),
        }
    }
}

impl std::error::Error for Error {}

/// Exact sizes of a reencoding's buffers; of those left open, the workspace is made large enough, and the others just so
/// large.
#[derive(Debug, Clone, Copy, Default, PartialEq, Eq)]
pub struct ReencodeRoom {
    /// 32-bit entries.
    pub work: Option<usize>,
    /// Bytes.
    pub log: Option<usize>,
    /// Bytes.
    pub formula: Option<usize>,
    /// Records.
    pub table: Option<usize>,
}

/// Exact sizes of a walk-back's buffers; those left open are made large enough.
#[derive(Debug, Clone, Copy, Default, PartialEq, Eq)]
pub struct WalkBackRoom {
    /// 32-bit entries.
    pub work: Option<usize>,
    /// Bytes.
    pub line: Option<usize>,
}

/// Carrying forward has the same buffers.
pub type CarryForwardRoom = WalkBackRoom;

/// A reencoded formula.
#[derive(Debug, Clone, PartialEq, Eq)]
pub struct Reencoded {
    /// The counts.
    pub tally: Tally,
    /// The log, DRAT in text.
    pub log: Vec<u8>,
    /// The new formula, DIMACS CNF.
    pub formula: Vec<u8>,
    /// A record for each choice, in the order in which they were taken.
    pub table: Vec<ChoiceRecord>,
}

/// Clauses as `read_back` leaves them.
#[derive(Debug, Clone, PartialEq, Eq)]
pub struct ReadBack {
    /// How many there are.
    pub counts: Counts,
    store: Vec<i32>,
}

impl ReadBack {
    /// The clauses in order, each a part of the store.
    pub fn clauses(&self) -> impl Iterator<Item = &[i32]> {
        let mut rest = self.store.as_slice();
        (0..self.counts.clauses).map(move |_| {
            let (clause, after) = rest[1..].split_at(rest[0] as usize);
            rest = after;
            clause
        })
    }
}

/// Gives a formula's log, new formula and table of choices.
///
/// Refuses with 15, 1 to 4, 7 to 9, 16; with 11, 12, 13 and 17 only where the room for it is set.
///
/// ```
/// use sirgholyn::{reencode, Arrangement, ChoiceRecord, Form, ReencodeRoom, Settings};
/// let settings = Settings::new(Form::Counter, Arrangement::AsListed);
/// let text = b"p cnf 3 2\n1 2 0\n-1 3 0\n";
/// let new = reencode(text, settings, ReencodeRoom::default()).unwrap();
/// assert_eq!(new.log, b"2 3 0\nd 1 2 0\nd -1 3 0\nd 2 3 0\n");
/// assert_eq!(new.formula, b"p cnf 3 0\n");
///
/// let text = b"p cnf 8 3\n1 2 3 0\n-3 4 5 0\n-5 6 7 8 0\n";
/// let new = reencode(text, settings.with_step(10), ReencodeRoom::default()).unwrap();
/// assert_eq!(new.table, [ChoiceRecord { first: 11, length: 6, clauses: 3 }]);
/// ```
pub fn reencode(text: &[u8], settings: Settings, room: ReencodeRoom) -> Result<Reencoded, Error> {
    let mut work = input_workspace(text, room.work)?;
    let told = calls::sizes(text, settings, &mut work).map_err(refused)?;
    let mut log = zeroed(room.log.unwrap_or(told.log_bytes))?;
    let mut formula = zeroed(room.formula.unwrap_or(told.formula_bytes))?;
    let mut table = zeroed(room.table.unwrap_or(told.choices as usize))?;
    let tally = calls::reencode(
        text,
        settings,
        &mut work,
        &mut log,
        &mut formula,
        &mut table,
    )
    .map_err(refused)?;
    log.truncate(tally.log_bytes);
    formula.truncate(tally.formula_bytes);
    table.truncate(tally.choices as usize);
    Ok(Reencoded {
        tally,
        log,
        formula,
        table,
    })
}

/// Tells what `reencode` would of a formula, without its texts and its table, and so the sizes of their buffers.
///
/// Refuses with 15, 1 to 4, 7 to 9, 16; with 11 only where `work` is set.
///
/// ```
/// use sirgholyn::{reencode, sizes, Arrangement, Form, ReencodeRoom, Settings};
/// let settings = Settings::new(Form::Order, Arrangement::AsListed);
/// let text = b"p cnf 5 1\n1 2 3 4 5 0\n";
/// let tally = sizes(text, settings, None).unwrap();
/// assert_eq!((tally.choices, tally.highest, tally.clauses), (1, 9, 3));
/// let room = ReencodeRoom {
///     log: Some(tally.log_bytes),
///     formula: Some(tally.formula_bytes),
///     table: Some(1),
///     work: None,
/// };
/// assert_eq!(reencode(text, settings, room).unwrap().tally, tally);
/// ```
pub fn sizes(text: &[u8], settings: Settings, work: Option<usize>) -> Result<Tally, Error> {
    let mut work = input_workspace(text, work)?;
    calls::sizes(text, settings, &mut work).map_err(refused)
}

/// Carries a solver's answer back over the first `kept` lines of a log, to a line for the formula.
///
/// Refuses with 1 to 4, 7 to 9, 31 to 34, 41 to 44; with 11 and 14 only where the room for it is set.
///
/// ```
/// use sirgholyn::{walk_back, WalkBackRoom};
/// let formula = b"p cnf 3 2\n1 2 0\n-1 3 0\n";
/// let log = b"2 3 0\nd 1 2 0\nd -1 3 0\nd 2 3 0\n";
/// let line = walk_back(formula, log, 4, b"s SATISFIABLE\nv 0\n", WalkBackRoom::default());
/// assert_eq!(line.unwrap(), b"v -1 2 -3 0\n");
/// ```
pub fn walk_back(
    formula: &[u8],
    log: &[u8],
    kept: usize,
    answer: &[u8],
    room: WalkBackRoom,
) -> Result<Vec<u8>, Error> {
    let most = Limits::INPUT.variables;
    carry(calls::walk_back, most, formula, log, kept, answer, room)
}

/// Carries a plan for the formula forward over the first `kept` lines of its own log, to a line for all variables up
/// to the highest of formula and kept lines. It satisfies the clauses that stand there.
///
/// Refuses with 1 to 4, 7 to 9, 31, 32, 34, 41 to 43, 45, 46; with 11 and 14 only where the room for it is set.
///
/// ```
/// use sirgholyn::{carry_forward, reencode, Arrangement, CarryForwardRoom, Form, ReencodeRoom, Settings};
/// let formula = b"p cnf 5 1\n1 2 3 4 5 0\n";
/// let settings = Settings::new(Form::Counter, Arrangement::AsListed);
/// let new = reencode(formula, settings, ReencodeRoom::default()).unwrap();
/// let plan = b"s SATISFIABLE\nv 2 4 0\n";
/// let lines = new.tally.lines as usize;
/// let line = carry_forward(formula, &new.log, lines, plan, CarryForwardRoom::default());
/// assert_eq!(line.unwrap(), b"v -1 2 -3 -4 -5 -6 7 8 9 0\n");
/// ```
pub fn carry_forward(
    formula: &[u8],
    log: &[u8],
    kept: usize,
    plan: &[u8],
    room: CarryForwardRoom,
) -> Result<Vec<u8>, Error> {
    let most = MOST_LOG_VARIABLES;
    carry(calls::carry_forward, most, formula, log, kept, plan, room)
}

/// A call that carries an assignment over the kept lines of a log.
type Carrying = fn(&[u8], &[u8], usize, &[u8], &mut [i32], &mut [u8]) -> Result<usize, u32>;

/// Carries an assignment over the kept lines, to a line for that many variables at most.
fn carry(
    call: Carrying,
    most_variables: usize,
    formula: &[u8],
    log: &[u8],
    kept: usize,
    assignment: &[u8],
    room: WalkBackRoom,
) -> Result<Vec<u8>, Error> {
    let mut work = zeroed(room.work.unwrap_or(carrying_workspace(formula, log)))?;
    let mut line = zeroed(room.line.unwrap_or(longest_line(most_variables)))?;
    let bytes = call(formula, log, kept, assignment, &mut work, &mut line).map_err(refused)?;
    line.truncate(bytes);
    Ok(line)
}

/// Reads a new formula back. Refuses with 1 to 4, 7 to 9; with 11 only where `store` is set.
///
/// ```
/// let new = sirgholyn::read_back(b"p cnf 3 2\n1 -2 0\n0\n", None).unwrap();
/// assert_eq!(new.clauses().collect::<Vec<_>>(), [&[1, -2][..], &[]]);
/// ```
pub fn read_back(text: &[u8], store: Option<usize>) -> Result<ReadBack, Error> {
    let mut store = zeroed(store.unwrap_or(reading_workspace(text, &Limits::NEW_FORMULA)))?;
    let counts = calls::read_back(text, &mut store).map_err(refused)?;
    store.truncate((counts.clauses + counts.literals) as usize);
    Ok(ReadBack { counts, store })
}

fn refused(number: u32) -> Error {
    Error::Refused(Refusal(number))
}

/// The workspace for a formula that is handed in: as many entries as are set, or else enough.
fn input_workspace(text: &[u8], set: Option<usize>) -> Result<Vec<i32>, Error> {
    zeroed(set.unwrap_or(reading_workspace(text, &Limits::INPUT)))
}

/// At least as many entries as the rule for reading asks for, so that 11 cannot come: it asks by literals that are kept,
/// clauses and variables, and a text that passes one of their limits is refused before.
fn reading_workspace(text: &[u8], limits: &Limits) -> usize {
    let literals = words(text).min(limits.literals);
    40 * literals + 4 * limits.clauses + 12 * limits.variables + 8_192
}

/// At least as many entries as the rule for carrying asks for: it asks by the numbers of formula and kept lines and by
/// their highest variable, and no log has a higher one.
fn carrying_workspace(formula: &[u8], log: &[u8]) -> usize {
    4 * (words(formula) + words(log)) + 4 * MOST_LOG_VARIABLES + 64
}

/// At least as many bytes as the line for so many variables has, so that 14 cannot come: each may have a sign, and has a
/// blank.
fn longest_line(variables: usize) -> usize {
    let digits = variables.to_string().len();
    (1 + digits + 1) * variables + "v 0\n".len()
}

/// The words of a text: at least as many as its numbers.
fn words(text: &[u8]) -> usize {
    let separator = |byte: u8| matches!(byte, b' ' | b'\t' | b'\r' | b'\n');
    let mut count = 0;
    let mut inside = false;
    for &byte in text {
        let word = !separator(byte);
        count += usize::from(word && !inside);
        inside = word;
    }
    count
}

/// Numbers, or records of them, whose bytes may all be zero.
trait Number: Copy {}
impl Number for u8 {}
impl Number for i32 {}
impl Number for ChoiceRecord {}

/// Zeros. The system hands their memory out as they are first written, so a bound may be generous.
fn zeroed<T: Number>(count: usize) -> Result<Vec<T>, Error> {
    let none = Error::NoMemory(count.saturating_mul(size_of::<T>()));
    let layout = Layout::array::<T>(count).map_err(|_| none)?;
    if layout.size() == 0 {
        return Ok(Vec::new());
    }
    // SAFETY: the layout is that of `count` numbers, is not empty, and zero bytes are numbers.
    unsafe {
        let start = alloc_zeroed(layout).cast::<T>();
        if start.is_null() {
            return Err(none);
        }
        Ok(Vec::from_raw_parts(start, count, count))
    }
}
