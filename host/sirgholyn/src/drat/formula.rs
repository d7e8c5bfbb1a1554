//! The formula that a proof is about, in DIMACS CNF.

use super::line::literal;
use std::collections::HashSet;

/// The clauses after `c` lines and the header, as many as it says and of variables up to its number. Words are
/// split by blanks, tabs, CR and LF. Literals may be repeated and opposed.
pub fn clauses(text: &[u8]) -> Option<Vec<Vec<i32>>> {
    let mut rest = text;
    while rest.starts_with(b"c") {
        rest = after_line(rest);
    }
    let header = &rest[..rest.len() - after_line(rest).len()];
    let (variables, count) = header_numbers(header)?;
    let mut clauses = Vec::new();
    let mut clause = Vec::new();
    let words = after_line(rest).split(|byte| b" \t\r\n".contains(byte));
    for word in words.filter(|word| !word.is_empty()) {
        if word == b"0" {
            clauses.push(std::mem::take(&mut clause));
        } else {
            clause.push(literal(word).filter(|literal| literal.abs() <= variables)?);
        }
    }
    (clause.is_empty() && clauses.len() == count as usize).then_some(clauses)
}

/// The lines of a proof that delete the clauses of a formula that hold a literal and its negation. They are true
/// by any assignment, yet a checker may ask that the resolvents with them follow.
///
/// ```
/// use sirgholyn::drat::deletions_of_tautologies;
/// let formula = b"p cnf 2 3\n1 2 0\n2 -1 2 1 0\n-2 -2 0\n";
/// assert_eq!(deletions_of_tautologies(formula), "d 2 -1 1 0\n");
/// ```
pub fn deletions_of_tautologies(text: &[u8]) -> String {
    let clauses = clauses(text).unwrap_or_default();
    clauses
        .iter()
        .filter_map(|clause| deletion_of_tautology(clause))
        .collect()
}

fn deletion_of_tautology(clause: &[i32]) -> Option<String> {
    let mut seen = HashSet::new();
    let different = clause.iter().filter(|&&literal| seen.insert(literal));
    let words: String = different.map(|literal| format!("{literal} ")).collect();
    let is_tautology = seen.iter().any(|literal| seen.contains(&-literal));
    is_tautology.then(|| format!("d {words}0\n"))
}

fn after_line(text: &[u8]) -> &[u8] {
    let end = text.iter().position(|&byte| byte == b'\n');
    end.map_or(&[], |end| &text[end + 1..])
}

/// The numbers of `p cnf V C`, whose line ends by LF, CR LF or the text's end.
fn header_numbers(line: &[u8]) -> Option<(i32, i32)> {
    let line = match line.strip_suffix(b"\n") {
        Some(line) => line.strip_suffix(b"\r").unwrap_or(line),
        None => line,
    };
    let numbers = line.strip_prefix(b"p cnf ")?;
    let blank = numbers.iter().position(|&byte| byte == b' ')?;
    let (variables, clauses) = (number(&numbers[..blank])?, number(&numbers[blank + 1..])?);
    Some((variables, clauses))
}

fn number(word: &[u8]) -> Option<i32> {
    match word {
        b"0" => Some(0),
        _ => literal(word).filter(|&number| number > 0),
    }
}
