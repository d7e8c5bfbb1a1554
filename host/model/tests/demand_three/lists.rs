//! What stands, by plain searches.

use model::encoding::Encoding;
use model::reading::Formula;
use model::texts::Line;

/// The place of the first clause with the same set of literals, by a plain search.
pub fn place_of<'a>(mut clauses: impl Iterator<Item = &'a Vec<i32>>, literals: &[i32]) -> usize {
    let same_set = |clause: &Vec<i32>| {
        clause.len() == literals.len() && clause.iter().all(|l| literals.contains(l))
    };
    clauses.position(same_set).expect("it stands")
}

/// What a line does to the standing clauses.
pub fn apply(standing: &mut Vec<Vec<i32>>, line: &Line) {
    if line.deletion {
        standing.remove(place_of(standing.iter(), &line.literals));
    } else {
        standing.push(line.literals.clone());
    }
}

fn after(formula: &Formula, lines: &[Line]) -> Vec<Vec<i32>> {
    let mut standing = formula.clauses.clone();
    for line in lines {
        apply(&mut standing, line);
    }
    standing
}

/// What stands when no clash is left.
pub fn unclashed(formula: &Formula, encoding: &Encoding) -> Vec<Vec<i32>> {
    after(formula, &encoding.log[..encoding.tally.clash_lines()])
}

/// What stands before the first choice is taken, and the lines from there on.
pub fn cleared<'a>(formula: &Formula, encoding: &'a Encoding) -> (Vec<Vec<i32>>, &'a [Line]) {
    let (before, choices) = encoding.log.split_at(encoding.tally.clearing_lines());
    (after(formula, before), choices)
}

pub fn count_holding(clauses: &[Vec<i32>], literal: i32) -> usize {
    let holders = clauses.iter().filter(|clause| clause.contains(&literal));
    holders.count()
}

/// The unique literal clauses of 5 to 64 literals, in list order.
pub fn long_unique(clauses: &[Vec<i32>]) -> Vec<Vec<i32>> {
    let is_unique = |clause: &[i32]| clause.iter().all(|&l| count_holding(clauses, l) == 1);
    let mut long = clauses.to_vec();
    long.retain(|clause| (5..=64).contains(&clause.len()) && is_unique(clause));
    long
}

/// Each clause with its literals sorted.
pub fn as_sets(clauses: impl IntoIterator<Item = Vec<i32>>) -> Vec<Vec<i32>> {
    let mut sets: Vec<Vec<i32>> = clauses.into_iter().collect();
    sets.iter_mut().for_each(|clause| clause.sort_unstable());
    sets
}
