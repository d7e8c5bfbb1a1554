//! The proved library's C functions on lent slices: one call each, the refusal's number as it comes.
//!
//! How a formula is read: a literal that is repeated in its clause is kept at its first place only, and a clause
//! that holds a literal and its negation is left out, though the header's C counts it.

use crate::limits::STACK_BYTES;
use std::cell::Cell;
use std::panic::resume_unwind;
use std::{io, thread};

/// The form that choices get.
#[derive(Debug, Clone, Copy, PartialEq, Eq)]
pub enum Form {
    /// Sequential counters beside the choice's literals.
    Counter,
    /// Counters in place of the choice's literals.
    Order,
}

/// What the caller wishes for the order of the choices' literals.
#[derive(Debug, Clone, Copy, PartialEq, Eq)]
pub enum Arrangement {
    /// As the clause lists them.
    AsListed,
    /// Linked choices alike.
    Alignment,
}

/// What the caller wishes of a reencoding.
#[derive(Debug, Clone, Copy, PartialEq, Eq)]
pub struct Settings {
    /// The form of the choices.
    pub form: Form,
    /// The order of their literals.
    pub arrangement: Arrangement,
    /// A choice's first new variable is the least number above all used that is 1 more than a multiple of it. From
    /// 1 to 100; the library refuses any other with 15.
    pub step: u32,
}

impl Settings {
    /// With step 1, which skips no number.
    pub const fn new(form: Form, arrangement: Arrangement) -> Settings {
        Settings {
            form,
            arrangement,
            step: 1,
        }
    }

    /// The same with another step.
    pub const fn with_step(self, step: u32) -> Settings {
        Settings { step, ..self }
    }

    /// Form, arrangement and step as the C functions take them.
    fn numbers(self) -> [u32; 3] {
        let form = match self.form {
            Form::Counter => 0,
            Form::Order => 1,
        };
        let arrangement = match self.arrangement {
            Arrangement::AsListed => 0,
            Arrangement::Alignment => 1,
        };
        [form, arrangement, self.step]
    }
}

/// What is written down of a choice.
#[repr(C)]
#[derive(Debug, Clone, Copy, Default, PartialEq, Eq)]
pub struct ChoiceRecord {
    /// Its first new variable; the others follow one by one, `length - 1` in all.
    pub first: u32,
    /// Its number of literals.
    pub length: u32,
    /// How many input clauses were resolved into it; 1 where it is an input clause itself.
    pub clauses: u32,
}

/// What a reencoding tells beside its two texts and its table, and what `sizes` tells without them.
#[derive(Debug, Clone, Copy, PartialEq, Eq)]
pub struct Tally {
    /// Clauses taken as choices, each with a record in the table.
    pub choices: u64,
    /// H, the highest variable used.
    pub highest: u64,
    /// M, the standing clauses.
    pub clauses: u64,
    /// Log lines.
    pub lines: u64,
    /// The log's length.
    pub log_bytes: usize,
    /// The new formula's length.
    pub formula_bytes: usize,
}

impl Tally {
    /// The counts as the C functions write them.
    fn read(counts: [u64; 6]) -> Tally {
        let [choices, highest, clauses, lines, log_bytes, formula_bytes] = counts;
        Tally {
            choices,
            highest,
            clauses,
            lines,
            log_bytes: log_bytes as usize,
            formula_bytes: formula_bytes as usize,
        }
    }
}

/// What reading back tells beside the clauses.
#[derive(Debug, Clone, Copy, PartialEq, Eq)]
pub struct Counts {
    /// The header's variables.
    pub variables: u64,
    /// Clauses that are kept.
    pub clauses: u64,
    /// Their literals.
    pub literals: u64,
}

/// The C functions as they are: pointer and length for a slice; the tally takes as many numbers as fit.
#[allow(missing_docs)]
pub mod library {
    use super::ChoiceRecord;

    extern "C" {
        pub fn sirgholyn_reencode(
            text: *const u8,
            text_len: usize,
            form: u32,
            arrangement: u32,
            step: u32,
            work: *mut i32,
            work_len: usize,
            log: *mut u8,
            log_len: usize,
            formula: *mut u8,
            formula_len: usize,
            table: *mut ChoiceRecord,
            table_len: usize,
            tally: *mut u64,
            tally_len: usize,
        ) -> u32;

        pub fn sirgholyn_sizes(
            text: *const u8,
            text_len: usize,
            form: u32,
            arrangement: u32,
            step: u32,
            work: *mut i32,
            work_len: usize,
            tally: *mut u64,
            tally_len: usize,
        ) -> u32;

        pub fn sirgholyn_walk_back(
            formula: *const u8,
            formula_len: usize,
            log: *const u8,
            log_len: usize,
            kept: usize,
            answer: *const u8,
            answer_len: usize,
            work: *mut i32,
            work_len: usize,
            out: *mut u8,
            out_len: usize,
            tally: *mut u64,
            tally_len: usize,
        ) -> u32;

        pub fn sirgholyn_carry_forward(
            formula: *const u8,
            formula_len: usize,
            log: *const u8,
            log_len: usize,
            kept: usize,
            plan: *const u8,
            plan_len: usize,
            work: *mut i32,
            work_len: usize,
            out: *mut u8,
            out_len: usize,
            tally: *mut u64,
            tally_len: usize,
        ) -> u32;

        pub fn sirgholyn_read_back(
            text: *const u8,
            text_len: usize,
            store: *mut i32,
            store_len: usize,
            tally: *mut u64,
            tally_len: usize,
        ) -> u32;
    }
}

thread_local! {
    static HAS_LARGE_STACK: Cell<bool> = const { Cell::new(false) };
}

/// Runs a call on a stack that is large enough for it: a new thread's, or that of the caller who is in such a
/// call already. Whoever makes many calls saves the threads by making them all in one of these. Fails where no
/// thread can be started.
pub fn on_large_stack<R: Send>(call: impl FnOnce() -> R + Send) -> io::Result<R> {
    if HAS_LARGE_STACK.get() {
        return Ok(call());
    }
    let marked = || {
        HAS_LARGE_STACK.set(true);
        call()
    };
    thread::scope(|scope| {
        let thread = thread::Builder::new()
            .stack_size(STACK_BYTES)
            .spawn_scoped(scope, marked)?;
        Ok(thread.join().unwrap_or_else(|panic| resume_unwind(panic)))
    })
}

/// The same for the calls below. Panics where no thread can be started, as `std::thread::spawn` does.
fn on_own_stack<R: Send>(call: impl FnOnce() -> R + Send) -> R {
    on_large_stack(call).expect("a thread can be started")
}

/// A result, or the number of a refusal.
fn outcome<R>(number: u32, result: R) -> Result<R, u32> {
    match number {
        0 => Ok(result),
        _ => Err(number),
    }
}

/// The tally that a call writes, or the number of its refusal.
fn tallied(call: impl FnOnce(&mut [u64; 6]) -> u32 + Send) -> Result<Tally, u32> {
    let mut counts = [0; 6];
    let lent = &mut counts;
    let number = on_own_stack(move || call(lent));
    outcome(number, Tally::read(counts))
}

/// Writes the log and the new formula of a text, and a record for each choice in the order in which they are taken.
/// Refuses with 15, 1 to 4, 7 to 9, 11, 16, 17, 12, 13.
pub fn reencode(
    text: &[u8],
    settings: Settings,
    work: &mut [i32],
    log: &mut [u8],
    formula: &mut [u8],
    table: &mut [ChoiceRecord],
) -> Result<Tally, u32> {
    let [form, arrangement, step] = settings.numbers();
    // SAFETY: each pointer and length are those of one slice, lent to the call alone while it runs.
    tallied(|tally| unsafe {
        library::sirgholyn_reencode(
            text.as_ptr(),
            text.len(),
            form,
            arrangement,
            step,
            work.as_mut_ptr(),
            work.len(),
            log.as_mut_ptr(),
            log.len(),
            formula.as_mut_ptr(),
            formula.len(),
            table.as_mut_ptr(),
            table.len(),
            tally.as_mut_ptr(),
            tally.len(),
        )
    })
}

/// Tells what `reencode` would, and writes no text: on as much workspace, a log and a new formula of just so many bytes
/// and a table with a record for each choice are accepted, and each one short is refused. Refuses with 15, 1 to 4,
/// 7 to 9, 11, 16.
pub fn sizes(text: &[u8], settings: Settings, work: &mut [i32]) -> Result<Tally, u32> {
    let [form, arrangement, step] = settings.numbers();
    // SAFETY: as in `reencode`.
    tallied(|tally| unsafe {
        library::sirgholyn_sizes(
            text.as_ptr(),
            text.len(),
            form,
            arrangement,
            step,
            work.as_mut_ptr(),
            work.len(),
            tally.as_mut_ptr(),
            tally.len(),
        )
    })
}

/// Writes the walked-back line, and gives its length. Refuses with 1 to 4, 7 to 9, 31 or 34, 41 to 43,
/// 11, 32, 44, 33, 14.
pub fn walk_back(
    formula: &[u8],
    log: &[u8],
    kept: usize,
    answer: &[u8],
    work: &mut [i32],
    line: &mut [u8],
) -> Result<usize, u32> {
    let function = library::sirgholyn_walk_back;
    carry(function, formula, log, kept, answer, work, line)
}

/// Writes the line of a plan carried forward, and gives its length. Refuses with 1 to 4, 7 to 9, 31 or 34,
/// 41 to 43, 11, 45, 32, 46, 14.
pub fn carry_forward(
    formula: &[u8],
    log: &[u8],
    kept: usize,
    plan: &[u8],
    work: &mut [i32],
    line: &mut [u8],
) -> Result<usize, u32> {
    let function = library::sirgholyn_carry_forward;
    carry(function, formula, log, kept, plan, work, line)
}

/// A C function that carries an assignment over the kept lines of a log.
type Carrying = unsafe extern "C" fn(
    *const u8,
    usize,
    *const u8,
    usize,
    usize,
    *const u8,
    usize,
    *mut i32,
    usize,
    *mut u8,
    usize,
    *mut u64,
    usize,
) -> u32;

/// Writes the line of the assignment carried over the kept lines, and gives its length.
fn carry(
    function: Carrying,
    formula: &[u8],
    log: &[u8],
    kept: usize,
    assignment: &[u8],
    work: &mut [i32],
    line: &mut [u8],
) -> Result<usize, u32> {
    let mut tally = [0u64; 1];
    let lent = &mut tally;
    // SAFETY: as in `reencode`.
    let number = on_own_stack(move || unsafe {
        function(
            formula.as_ptr(),
            formula.len(),
            log.as_ptr(),
            log.len(),
            kept,
            assignment.as_ptr(),
            assignment.len(),
            work.as_mut_ptr(),
            work.len(),
            line.as_mut_ptr(),
            line.len(),
            lent.as_mut_ptr(),
            lent.len(),
        )
    });
    outcome(number, tally[0] as usize)
}

/// Puts the kept clauses of a new formula into the store, each as its length and its literals, from entry
/// 0 on. Refuses with 1 to 4, 7 to 9, then 11.
pub fn read_back(text: &[u8], store: &mut [i32]) -> Result<Counts, u32> {
    let mut tally = [0u64; 3];
    let lent = &mut tally;
    // SAFETY: as in `reencode`.
    let number = on_own_stack(move || unsafe {
        library::sirgholyn_read_back(
            text.as_ptr(),
            text.len(),
            store.as_mut_ptr(),
            store.len(),
            lent.as_mut_ptr(),
            lent.len(),
        )
    });
    let [variables, clauses, literals] = tally;
    let counts = Counts {
        variables,
        clauses,
        literals,
    };
    outcome(number, counts)
}
