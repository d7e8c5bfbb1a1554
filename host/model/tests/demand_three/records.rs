//! The table of records: which variables are used, and which input clauses go into a choice.

use crate::lists::place_of;
use model::encoding::Encoding;
use model::reading::Formula;
use std::collections::BTreeSet;

/// A clause, and the input clauses (by index) that went into it.
type Origin = (Vec<i32>, BTreeSet<usize>);

/// What stands when no clash is left, by the log's lines alone. A clash is a resolvent's addition and two deletions,
/// or two deletions where none is added.
fn unclashed(formula: &Formula, encoding: &Encoding) -> Vec<Origin> {
    let inputs = formula.clauses.iter().cloned().enumerate();
    let mut standing: Vec<Origin> = inputs.map(|(i, clause)| (clause, [i].into())).collect();
    let mut lines = encoding.log[..encoding.tally.clash_lines()].iter();
    while let Some(line) = lines.next() {
        let (resolvent, a) = if line.deletion {
            (None, line)
        } else {
            (Some(&line.literals), lines.next().expect("A is deleted"))
        };
        let b = lines.next().expect("B is deleted");
        let mut joined = BTreeSet::new();
        for parent in [a, b] {
            let clauses = standing.iter().map(|(clause, _)| clause);
            let place = place_of(clauses, &parent.literals);
            joined.extend(standing.remove(place).1);
        }
        standing.extend(resolvent.map(|resolvent| (resolvent.clone(), joined)));
    }
    standing
}

/// For each choice the input clauses (by index) that go into it. The order form replaces no choice: a choice with a
/// negated literal of another would clash with it.
pub fn going_into_choices(formula: &Formula, encoding: &Encoding) -> Vec<BTreeSet<usize>> {
    let standing = unclashed(formula, encoding);
    let into = |(_, choice): &(usize, Vec<i32>)| {
        let clauses = standing.iter().map(|(clause, _)| clause);
        standing[place_of(clauses, choice)].1.clone()
    };
    encoding.choices.iter().map(into).collect()
}

/// 1..V and the new variables of the table.
pub fn used(formula: &Formula, encoding: &Encoding) -> Vec<i32> {
    let mut used: Vec<i32> = (1..=formula.variables).collect();
    for record in &encoding.table {
        used.extend((record.first..).take(record.length - 1));
    }
    used
}
