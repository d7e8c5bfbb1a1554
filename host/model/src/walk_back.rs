//! Walk-back: replay, test, carry back.

use crate::answer::read_answer;
use crate::log_reading::read_kept_lines;
use crate::reading::{read_formula, Formula, INPUT_LIMITS};
use crate::standing::Standing;
use crate::texts::{answer_text, Line};

/// The values of variables, at their indices.
pub type Assignment = Vec<bool>;

pub fn is_true(literal: i32, values: &Assignment) -> bool {
    values[literal.unsigned_abs() as usize] == (literal > 0)
}

pub fn satisfies(values: &Assignment, clauses: &[Vec<i32>]) -> bool {
    clauses
        .iter()
        .all(|clause| clause.iter().any(|&literal| is_true(literal, values)))
}

/// The clauses that stand after the lines, or number 32.
pub fn replay(input: &[Vec<i32>], lines: &[Line]) -> Result<Vec<Vec<i32>>, u8> {
    let mut standing = Standing::new(input);
    for line in lines {
        if line.deletion {
            standing.delete(&line.literals).ok_or(32)?;
        } else {
            standing.add(line.literals.clone());
        }
    }
    Ok(standing.clauses())
}

/// Where all the literals are false, the first one is made true. Without literals nothing changes.
pub fn make_first_true(literals: &[i32], values: &mut Assignment) {
    if literals.iter().any(|&literal| is_true(literal, values)) {
        return;
    }
    if let Some(&first) = literals.first() {
        values[first.unsigned_abs() as usize] = first > 0;
    }
}

/// Goes through the lines, last first. An addition changes nothing.
pub fn carry_back(lines: &[Line], values: &mut Assignment) {
    for line in lines.iter().rev().filter(|line| line.deletion) {
        make_first_true(&line.literals, values);
    }
}

/// X, the greater of V and the highest variable in the kept lines.
pub fn highest_allowed(formula: &Formula, kept: &[Line]) -> i32 {
    kept.iter()
        .flat_map(|line| &line.literals)
        .map(|literal| literal.abs())
        .fold(formula.variables, i32::max)
}

/// The 32-bit entries that walking back, and any other call that reads a log, asks for. N counts the clauses that
/// are kept.
pub fn workspace_needed(formula: &Formula, kept: &[Line]) -> u64 {
    let formula_numbers = formula.literal_count() + formula.clauses.len() as u64;
    let line_numbers: u64 = kept.iter().map(|line| line.literals.len() as u64 + 1).sum();
    4 * (formula_numbers + line_numbers) + 4 * highest_allowed(formula, kept) as u64 + 64
}

/// The line of the variables from 1 to the highest, or number 14.
pub fn answer_line(highest: i32, values: &Assignment, room: usize) -> Result<Vec<u8>, u8> {
    let line = answer_text(highest, |variable| is_true(variable, values));
    if line.len() > room {
        return Err(14);
    }
    Ok(line)
}

pub fn walk_back(
    formula: &[u8],
    log: &[u8],
    keep: usize,
    answer: &[u8],
    workspace: u64,
    room: usize,
) -> Result<Vec<u8>, u8> {
    let formula = read_formula(formula, &INPUT_LIMITS)?;
    let lines = read_kept_lines(log, keep)?;
    let mut values = read_answer(answer, highest_allowed(&formula, &lines))?;
    if workspace < workspace_needed(&formula, &lines) {
        return Err(11);
    }

    let standing = replay(&formula.clauses, &lines)?;
    if !satisfies(&values, &standing) {
        return Err(44);
    }
    carry_back(&lines, &mut values);
    if !satisfies(&values, &formula.clauses) {
        return Err(33);
    }
    answer_line(formula.variables, &values, room)
}
