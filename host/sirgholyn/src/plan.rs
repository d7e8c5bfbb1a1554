//! A plan tested against a formula, by plain code that shares nothing with the library.

use std::collections::HashSet;

/// Whether the line `v .. 0` names each of 1..V once and makes a literal of every clause true.
pub fn satisfies(formula: &str, line: &str) -> bool {
    try_satisfies(formula, line).unwrap_or(false)
}

fn try_satisfies(formula: &str, line: &str) -> Option<bool> {
    let mut literals = numbers(line.strip_prefix("v ")?)?;
    if literals.pop() != Some(0) {
        return None;
    }
    let chosen: HashSet<i64> = literals.iter().copied().collect();

    let start = formula.lines().position(|line| line.starts_with('p'))?;
    let mut lines = formula.lines().skip(start);
    let header: Vec<&str> = lines.next()?.split(' ').collect();
    let variables: i64 = header.get(2)?.parse().ok()?;
    let each_once = literals.len() as i64 == variables
        && (1..=variables).all(|v| chosen.contains(&v) != chosen.contains(&-v));

    let body = numbers(&lines.collect::<Vec<_>>().join(" "))?;
    let mut clauses = body.split_inclusive(|&number| number == 0);
    Some(each_once && clauses.all(|clause| clause.iter().any(|literal| chosen.contains(literal))))
}

fn numbers(text: &str) -> Option<Vec<i64>> {
    text.split_whitespace()
        .map(|word| word.parse().ok())
        .collect()
}
