//! A plain model of document 01 (choice clauses, counters and the way back) and of M-100, M-112, M-118, M-121,
//! M-126, M-130 and M-152 in document 02.
//!
//! Five calls: [`reencode`], [`sizes`], [`read_back`], [`walk_back`] and [`carry_forward`].
//! Each gives its result or the number of its refusal.

#![forbid(unsafe_code)]

pub mod alignment;
pub mod answer;
pub mod carry_forward;
pub mod clearing;
pub mod counter;
pub mod encoding;
pub mod generator;
pub mod log_reading;
pub mod order;
pub mod reading;
pub mod sessions;
pub mod sizes;
pub mod standing;
pub mod texts;
pub mod valleys;
pub mod walk_back;

pub use carry_forward::carry_forward;
pub use sizes::{sizes, Sizes};
pub use walk_back::walk_back;

use encoding::encode;
use reading::{read_formula, READ_BACK_LIMITS};
use texts::{formula_text, log_text};

#[derive(Debug, Clone, Copy, PartialEq, Eq)]
pub enum Form {
    Counter,
    Order,
}

/// Whether the caller wishes the choices aligned.
#[derive(Debug, Clone, Copy, PartialEq, Eq)]
pub enum Arrangement {
    AsListed,
    Alignment,
}

/// What the caller asks of a reencoding.
#[derive(Debug, Clone, Copy, PartialEq, Eq)]
pub struct Settings {
    pub form: Form,
    pub arrangement: Arrangement,
    /// g: a choice's first new variable is 1 more than a multiple of it.
    pub step: u32,
}

impl Settings {
    /// With step 1, which skips no number.
    pub fn new(form: Form, arrangement: Arrangement) -> Settings {
        Settings {
            form,
            arrangement,
            step: 1,
        }
    }
}

/// What the caller lends for a reencoding.
#[derive(Debug, Clone, Copy, PartialEq, Eq)]
pub struct Room {
    /// In 32-bit entries.
    pub workspace: u64,
    /// In bytes.
    pub log: usize,
    /// In bytes.
    pub formula: usize,
    /// In records.
    pub table: usize,
}

impl Room {
    /// The greatest of each.
    pub fn enough() -> Room {
        Room {
            workspace: u64::MAX,
            log: usize::MAX,
            formula: usize::MAX,
            table: usize::MAX,
        }
    }
}

/// One record of the table, for one choice.
#[derive(Debug, Clone, Copy, PartialEq, Eq)]
pub struct ChoiceRecord {
    /// Its first new variable.
    pub first: i32,
    /// Its number of literals.
    pub length: usize,
    /// The number of input clauses resolved into it, 1 for an input clause itself.
    pub clauses: usize,
}

#[derive(Debug, Clone, PartialEq, Eq)]
pub struct Reencoded {
    pub choices: usize,
    /// H, the highest variable used.
    pub highest: i32,
    /// M, the number of standing clauses.
    pub clauses: usize,
    pub lines: usize,
    pub log: Vec<u8>,
    pub formula: Vec<u8>,
    /// In the order in which the choices are taken.
    pub table: Vec<ChoiceRecord>,
}

impl Reencoded {
    /// The numbers that the result carries.
    pub fn sizes(&self) -> Sizes {
        Sizes {
            choices: self.choices,
            highest: self.highest,
            clauses: self.clauses,
            lines: self.lines,
            log_bytes: self.log.len(),
            formula_bytes: self.formula.len(),
        }
    }
}

/// Refuses with 15, then 1 to 4 or 7 to 9, then 11, 16, 17, 12, 13.
pub fn reencode(text: &[u8], settings: Settings, room: Room) -> Result<Reencoded, u8> {
    let encoding = encode(text, settings, room.workspace)?;
    if encoding.table.len() > room.table {
        return Err(17);
    }
    let standing = encoding.standing.clauses();
    let log = log_text(&encoding.log);
    if log.len() > room.log {
        return Err(12);
    }
    let new_formula = formula_text(encoding.highest, &standing);
    if new_formula.len() > room.formula {
        return Err(13);
    }
    Ok(Reencoded {
        choices: encoding.choices.len(),
        highest: encoding.highest,
        clauses: standing.len(),
        lines: encoding.log.len(),
        log,
        formula: new_formula,
        table: encoding.table,
    })
}

/// Reads a new formula: its variables and the clauses kept. Refuses with 1 to 4 or 7 to 9, then 11.
pub fn read_back(text: &[u8], workspace: u64) -> Result<(i32, Vec<Vec<i32>>), u8> {
    let formula = read_formula(text, &READ_BACK_LIMITS)?;
    if workspace < formula.workspace_needed() {
        return Err(11);
    }
    Ok((formula.variables, formula.clauses))
}
