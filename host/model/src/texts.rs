//! The texts that are written: log, new formula, walked-back answer.

use std::collections::HashSet;

/// One line of the log.
#[derive(Debug, Clone, PartialEq, Eq)]
pub struct Line {
    pub deletion: bool,
    pub literals: Vec<i32>,
}

fn write_line(text: &mut Vec<u8>, before: &str, literals: &[i32]) {
    text.extend_from_slice(before.as_bytes());
    for literal in literals {
        text.extend_from_slice(literal.to_string().as_bytes());
        text.push(b' ');
    }
    text.extend_from_slice(b"0\n");
}

pub fn log_text(lines: &[Line]) -> Vec<u8> {
    let mut text = Vec::new();
    for line in lines {
        write_line(
            &mut text,
            if line.deletion { "d " } else { "" },
            &line.literals,
        );
    }
    text
}

pub fn formula_text(highest: i32, clauses: &[Vec<i32>]) -> Vec<u8> {
    let mut text = format!("p cnf {} {}\n", highest, clauses.len()).into_bytes();
    for clause in clauses {
        write_line(&mut text, "", clause);
    }
    text
}

/// How many of the literals are true in a line `v .. 0`.
pub fn count_true(line: &str, literals: &[i32]) -> usize {
    let words = line.split_whitespace();
    let named: HashSet<i32> = words.filter_map(|word| word.parse().ok()).collect();
    let is_true = |literal: &&i32| named.contains(literal);
    literals.iter().filter(is_true).count()
}

/// The literals of 1..V, as the values of the variables have it.
pub fn answer_text(variables: i32, is_true: impl Fn(i32) -> bool) -> Vec<u8> {
    let literals: Vec<i32> = (1..=variables)
        .map(|variable| {
            if is_true(variable) {
                variable
            } else {
                -variable
            }
        })
        .collect();
    let mut text = Vec::new();
    write_line(&mut text, "v ", &literals);
    text
}
