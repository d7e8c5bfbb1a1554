//! The variables of a proof under numbers of their own, so that tables are as long as variables are in use:
//! a number is given again when no clause holds its variable.

use std::collections::HashMap;

/// Twice the own number of the variable, and one more where it is negated.
pub type Literal = u32;

pub fn negation(literal: Literal) -> Literal {
    literal ^ 1
}

/// The own number of a literal's variable.
pub fn variable(literal: Literal) -> usize {
    literal as usize / 2
}

/// Variables below this have an entry in a table, which is faster; the others are hashed.
const SMALL: u32 = 1 << 17;

const UNKNOWN: u32 = u32::MAX;

#[derive(Default)]
pub struct Variables {
    /// The own number of each small variable, or UNKNOWN.
    small: Vec<u32>,
    large: HashMap<u32, u32>,
    /// The variable of each own number.
    names: Vec<u32>,
    /// Own numbers to be given again.
    free: Vec<u32>,
}

impl Variables {
    /// How many own numbers there are, free ones among them.
    pub fn count(&self) -> usize {
        self.names.len()
    }

    pub fn find(&self, literal: i32) -> Option<Literal> {
        let name = literal.unsigned_abs();
        let own = if name < SMALL {
            self.small.get(name as usize).copied()
        } else {
            self.large.get(&name).copied()
        };
        own.filter(|&own| own != UNKNOWN)
            .map(|own| own * 2 + u32::from(literal < 0))
    }

    /// Gives the variable a number if it has none.
    pub fn find_or_number(&mut self, literal: i32) -> Literal {
        if let Some(known) = self.find(literal) {
            return known;
        }
        let name = literal.unsigned_abs();
        let own = self.free.pop().unwrap_or_else(|| {
            self.names.push(name);
            self.names.len() as u32 - 1
        });
        self.names[own as usize] = name;
        self.set(name, own);
        own * 2 + u32::from(literal < 0)
    }

    /// Takes the number back.
    pub fn release(&mut self, variable: usize) {
        self.set(self.names[variable], UNKNOWN);
        self.free.push(variable as u32);
    }

    fn set(&mut self, name: u32, own: u32) {
        if name < SMALL {
            let entry = name as usize;
            if self.small.len() <= entry {
                self.small.resize(entry + 1, UNKNOWN);
            }
            self.small[entry] = own;
        } else if own == UNKNOWN {
            self.large.remove(&name);
        } else {
            self.large.insert(name, own);
        }
    }
}
