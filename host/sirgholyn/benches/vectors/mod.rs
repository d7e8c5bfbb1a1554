//! Reencoding as one writes it without proofs: a vector of clauses, and for each literal a vector of the places of its
//! clauses. It gives the same bytes and numbers as the library, which `compare` measures beside it.

mod alignment;
mod choices;
mod clauses;
mod clearing;
mod reading;
mod text;

use clauses::Clauses;
use sirgholyn::{Arrangement, Form};
use text::{put_formula, Log};

/// A reencoded formula.
pub struct Reencoded {
    pub choices: usize,
    /// H, the highest variable used.
    pub highest: i32,
    /// M, the clauses of the new formula.
    pub clauses: usize,
    pub lines: usize,
    pub log: Vec<u8>,
    pub formula: Vec<u8>,
}

/// A run under way: what stands, and the log so far.
struct Run {
    clauses: Clauses,
    log: Log,
}

impl Run {
    /// Adds a clause and tells the log; the answer is its place.
    fn add(&mut self, clause: Vec<i32>) -> usize {
        self.log.added(&clause);
        self.clauses.add(clause)
    }

    /// Deletes the clause at a place, which the log has as it is written.
    fn delete(&mut self, place: usize) {
        let clause = self.clauses.delete(place);
        self.log.deleted(&clause);
    }

    /// The same, but the log has other words: the literals in another order.
    fn delete_as(&mut self, place: usize, words: &[i32]) {
        self.clauses.delete(place);
        self.log.deleted(words);
    }

    /// The same with a literal first, the others in order.
    fn delete_first(&mut self, place: usize, literal: i32) {
        let mut words = self.clauses.delete(place);
        if let Some(found) = words.iter().position(|&other| other == literal) {
            words[..=found].rotate_right(1);
        }
        self.log.deleted(&words);
    }
}

/// Refuses with 1 to 4 or 7 to 9. There are no buffers to be too short.
pub fn reencode(text: &[u8], form: Form, arrangement: Arrangement) -> Result<Reencoded, u8> {
    let formula = reading::read(text)?;
    let mut run = Run {
        clauses: Clauses::new(formula.variables, formula.clauses),
        log: Log::default(),
    };
    clearing::clear_clashes(&mut run, formula.variables);
    clearing::delete_pure(&mut run);
    let mut choices = choices::found(&run.clauses);
    if arrangement == Arrangement::Alignment {
        alignment::align(&mut choices, &run.clauses, formula.variables);
    }
    let highest = choices::take_all(&mut run, &choices, form, formula.variables);
    let (clauses, formula) = put_formula(highest, &run.clauses);
    Ok(Reencoded {
        choices: choices.len(),
        highest,
        clauses,
        lines: run.log.lines,
        log: run.log.text,
        formula,
    })
}
