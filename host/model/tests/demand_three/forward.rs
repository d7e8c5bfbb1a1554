//! The way forward: where an added line is false, its first literal is made true.

use crate::tables::{Table, Tables};
use model::encoding::Encoding;
use std::collections::HashSet;

/// The lines -li -s(i-1) of all choices.
pub fn exclusions(encoding: &Encoding) -> HashSet<[i32; 2]> {
    let mut exclusions = HashSet::new();
    for ((_, choice), record) in encoding.choices.iter().zip(&encoding.table) {
        let pairs = choice[1..].iter().zip(record.first..);
        exclusions.extend(pairs.map(|(literal, step)| [-literal, -step]));
    }
    exclusions
}

/// The assignments that satisfy what stands before an added line, and after it.
pub struct Step<'a> {
    pub tables: &'a Tables,
    pub before: &'a Table,
    pub after: &'a Table,
}

impl Step<'_> {
    /// The assignments before it in which the line is false.
    fn changing(&self, literals: &[i32]) -> Table {
        self.before.and_not(&self.tables.clause(literals))
    }

    /// Whether each of these satisfies what stands after it, the first literal made true.
    fn is_carried(&self, literals: &[i32]) -> bool {
        let changing = self.changing(literals);
        match literals.first() {
            Some(&first) => self.tables.turned(&changing, first).within(self.after),
            None => changing.is_empty(),
        }
    }
}

#[derive(Default, Debug)]
pub struct Forward {
    pub lines: usize,
    /// A line that is false in some assignment.
    pub changing: usize,
    /// A line -li -s(i-1).
    pub exclusions: usize,
    pub changing_exclusions: usize,
    /// A changing line -li -s(i-1) that does not carry forward as -s(i-1) -li.
    pub failing_if_turned: usize,
}

impl Forward {
    /// Whether the line carries forward.
    pub fn check(&mut self, step: &Step, literals: &[i32], exclusions: &HashSet<[i32; 2]>) -> bool {
        let is_changing = !step.changing(literals).is_empty();
        self.lines += 1;
        self.changing += usize::from(is_changing);
        if let &[l, s] = literals {
            if exclusions.contains(&[l, s]) {
                self.exclusions += 1;
                self.changing_exclusions += usize::from(is_changing);
                self.failing_if_turned += usize::from(!step.is_carried(&[s, l]));
            }
        }
        step.is_carried(literals)
    }
}
