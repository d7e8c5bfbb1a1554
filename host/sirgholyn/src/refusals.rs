//! The numbers of document 01: what each means and who can mend it.

use std::fmt;

/// A refusal, by its number.
#[derive(Debug, Clone, Copy, PartialEq, Eq)]
pub struct Refusal(pub u32);

impl Refusal {
    /// What the number means.
    pub fn meaning(self) -> &'static str {
        match self.0 {
            1 => "the formula has no header line `p cnf V C`",
            2 => "the header's V or C is too large",
            3 => "a word of the formula is not a number",
            4 => "a literal's variable is above V",
            7 => "the formula's text ends inside a clause",
            8 => "the formula does not have exactly C clauses",
            9 => "the formula has too many literals",
            11 => "the workspace is too short",
            12 => "the log's buffer is too short",
            13 => "the new formula's buffer is too short",
            14 => "the answer's buffer is too short",
            15 => "the step is outside 1 to 100",
            16 => "with this step the highest variable would pass 70000",
            17 => "the table of choices is too short",
            31 => "a kept line of the log is not in the layout of a DRAT line, repeats or opposes a literal, or has a variable above 70000",
            32 => "the log deletes a clause that does not stand",
            33 => "the walked-back assignment fails the formula",
            34 => "the log has fewer lines than are to be kept",
            41 => "the answer or plan is not in the layout `s SATISFIABLE`, then `v ` lines that end in 0",
            42 => "the answer names a variable above those of formula and log, or the plan one above V",
            43 => "the answer or plan names a variable twice",
            44 => "a clause that stands is false under the answer",
            45 => "the plan fails the formula",
            46 => "a clause that stands is false under the plan carried forward, so the log is not the formula's own",
            _ => "a number that is not listed",
        }
    }

    /// Who can mend it.
    pub fn mender(self) -> &'static str {
        match self.0 {
            1..=4 | 7..=9 => "the formula's writer",
            11..=17 => "the caller",
            31..=34 | 46 => "the log's writer",
            41..=43 => "the solver or planner",
            44 => "the solver",
            45 => "the planner",
            _ => "nobody listed",
        }
    }
}

impl fmt::Display for Refusal {
    fn fmt(&self, to: &mut fmt::Formatter) -> fmt::Result {
        write!(
            to,
            "refused {}: {}; {} can mend it",
            self.0,
            self.meaning(),
            self.mender()
        )
    }
}
