//! The lines of a log: how many there are, what each belongs to, and why it follows.

use model::counter::copies_of_pairs;
use model::encoding::Encoding;
use model::generator::written_clauses;
use model::reading::Formula;
use model::texts::Line;
use model::walk_back::replay;
use sirgholyn::drat::{Checker, Ground};
use std::iter::repeat_n;

/// What a line belongs to.
#[derive(Debug, Clone, Copy, PartialEq, Eq)]
pub enum Part {
    /// Clashes and pure clauses.
    Clearing,
    /// Stage 2.
    Counter,
    /// Stage 3: -li -s(i-1) is added.
    Exclusion,
    /// Stage 3: s(k-1) lk is added.
    Last,
    /// Stage 4: the choice is deleted.
    Choice,
    /// Stage 4: a copy of a pair is deleted.
    Pair,
    /// Order form.
    Order,
}

/// What stands before the first choice is taken.
pub fn cleared(formula: &Formula, encoding: &Encoding) -> Vec<Vec<i32>> {
    let lines = &encoding.log[..encoding.tally.clearing_lines()];
    replay(&formula.clauses, lines).unwrap()
}

/// The parts of one choice in counter form, with the lines of each: 4(k-1) + 1 + p together, p the copies of its
/// pairs.
fn parts_of_choice(choice: &[i32], copies: usize) -> [(Part, usize); 5] {
    let k = choice.len();
    [
        (Part::Counter, 3 * k - 4),
        (Part::Exclusion, k - 1),
        (Part::Last, 1),
        (Part::Choice, 1),
        (Part::Pair, copies),
    ]
}

/// What each line of a log belongs to. Those of order form end where the next choice's first new variable comes.
pub fn parts(formula: &Formula, encoding: &Encoding) -> Vec<Part> {
    let standing = cleared(formula, encoding);
    let mut parts = vec![Part::Clearing; encoding.tally.clearing_lines()];
    for ((_, choice), record) in encoding.choices.iter().zip(&encoding.table) {
        let copies = copies_of_pairs(&standing, choice);
        for (part, lines) in parts_of_choice(choice, copies) {
            parts.extend(repeat_n(part, lines));
        }
        let used = record.first + record.length as i32 - 2;
        let rest = encoding.log[parts.len()..].iter();
        let of_order = rest.take_while(|line| line.literals.iter().all(|l| l.abs() <= used));
        parts.extend(of_order.map(|_| Part::Order));
    }
    parts
}

/// The lines that the choices have in counter form: 4(k-1) + 1 + p for each.
pub fn lines_of_choices(formula: &Formula, encoding: &Encoding) -> usize {
    let standing = cleared(formula, encoding);
    let lines = |choice: &[i32]| 4 * (choice.len() - 1) + 1 + copies_of_pairs(&standing, choice);
    let choices = encoding.choices.iter();
    choices.map(|(_, choice)| lines(choice)).sum()
}

/// Takes the lines of a log in, beginning with the clauses as they are written: each added clause follows, and each
/// deleted one stands. `look` gets the checker as it is before the line, the line's place, and why an added one follows.
pub fn check_lines(
    text: &[u8],
    lines: &[Line],
    mut look: impl FnMut(&mut Checker, usize, Option<Ground>),
) {
    let mut checker = Checker::new(written_clauses(text));
    for (place, line) in lines.iter().enumerate() {
        let seen = || format!("{line:?} of {}", String::from_utf8_lossy(text));
        if line.deletion {
            look(&mut checker, place, None);
            assert!(checker.delete(&line.literals), "{}", seen());
        } else {
            let ground = checker.ground(&line.literals);
            assert!(ground.is_some(), "{}", seen());
            look(&mut checker, place, ground);
            checker.add(&line.literals);
        }
    }
}
