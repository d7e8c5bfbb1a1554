//! Which clauses hold a literal.

use super::clauses::{Clause, Clauses, Moves, NONE};
use super::variables::{negation, Literal};

#[derive(Default)]
pub struct Occurrences {
    /// By literal: how many standing clauses hold it.
    counts: Vec<u32>,
    /// By literal: those clauses, and dead ones that have not been dropped yet.
    lists: Vec<Vec<Clause>>,
}

impl Occurrences {
    /// Makes the tables long enough for so many variables.
    pub fn grow(&mut self, variables: usize) {
        if variables * 2 > self.counts.len() {
            self.counts.resize(variables * 2, 0);
            self.lists.resize_with(variables * 2, Vec::new);
        }
    }

    pub fn count(&self, literal: Literal) -> u32 {
        self.counts[literal as usize]
    }

    /// Whether no standing clause holds the literal or its negation.
    pub fn none_of(&self, literal: Literal) -> bool {
        self.count(literal) == 0 && self.count(negation(literal)) == 0
    }

    pub fn add(&mut self, clauses: &Clauses, clause: Clause) {
        for &literal in clauses.literals(clause) {
            self.counts[literal as usize] += 1;
            self.lists[literal as usize].push(clause);
        }
    }

    /// Counts a dead clause out.
    pub fn delete(&mut self, clauses: &Clauses, clause: Clause) {
        for &literal in clauses.literals(clause) {
            self.counts[literal as usize] -= 1;
        }
    }

    /// Hands the list of standing clauses out; it is to be put back.
    pub fn take(&mut self, clauses: &Clauses, literal: Literal) -> Vec<Clause> {
        let mut list = std::mem::take(&mut self.lists[literal as usize]);
        if list.len() > self.count(literal) as usize {
            list.retain(|&clause| clauses.stands(clause));
        }
        list
    }

    pub fn put(&mut self, literal: Literal, list: Vec<Clause>) {
        self.lists[literal as usize] = list;
    }

    /// Follows the clauses to their new places.
    pub fn follow(&mut self, moves: &Moves) {
        for list in &mut self.lists {
            list.retain_mut(|clause| {
                let place = moves.place(*clause);
                *clause = place.unwrap_or(NONE);
                place.is_some()
            });
            list.shrink_to(list.len() * 2);
        }
    }
}
