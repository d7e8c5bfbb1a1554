//! Reading DIMACS CNF: refusals 1 to 4 and 7 to 9.

use crate::standing::holds_opposites;
use std::collections::HashSet;

pub struct Limits {
    pub variables: i64,
    pub clauses: i64,
    pub literals: usize,
}

/// For the formulas of callers.
pub const INPUT_LIMITS: Limits = Limits {
    variables: 8_000,
    clauses: 20_000,
    literals: 60_000,
};

/// For new formulas that are read back.
pub const READ_BACK_LIMITS: Limits = Limits {
    variables: 70_000,
    clauses: 300_000,
    literals: 1_000_000,
};

#[derive(Debug, Clone, PartialEq, Eq)]
pub struct Formula {
    pub variables: i32,
    /// The clauses that are kept.
    pub clauses: Vec<Vec<i32>>,
    /// How many clauses more the text has: those that hold a literal and its negation.
    pub left_out: usize,
}

impl Formula {
    /// All clauses are kept.
    pub fn new(variables: i32, clauses: Vec<Vec<i32>>) -> Formula {
        Formula {
            variables,
            clauses,
            left_out: 0,
        }
    }

    /// C, the clauses of the header.
    pub fn header_clauses(&self) -> usize {
        self.clauses.len() + self.left_out
    }

    /// L, the non-zero literals that are kept.
    pub fn literal_count(&self) -> u64 {
        self.clauses.iter().map(|clause| clause.len() as u64).sum()
    }

    /// The 32-bit entries that reencoding and reading back ask for.
    pub fn workspace_needed(&self) -> u64 {
        40 * self.literal_count()
            + 4 * self.header_clauses() as u64
            + 12 * self.variables as u64
            + 8_192
    }
}

/// Numbers have no length limit; those beyond this one are read as this one.
const HUGE: i64 = 1_000_000_000_000;

/// A number is `0`, or an optional `-` and digits beginning with 1 to 9.
pub fn number(word: &[u8]) -> Option<i64> {
    if word == b"0" {
        return Some(0);
    }
    let (negative, digits) = match word.strip_prefix(b"-") {
        Some(rest) => (true, rest),
        None => (false, word),
    };
    if !matches!(digits.first(), Some(b'1'..=b'9')) || !digits.iter().all(u8::is_ascii_digit) {
        return None;
    }
    let size = digits.iter().fold(0, |size: i64, &digit| {
        HUGE.min(size * 10 + i64::from(digit - b'0'))
    });
    Some(if negative { -size } else { size })
}

/// Cuts the text after its first line. A line ends by LF, by CR LF or by the
/// text's end; what is handed out comes without its ending.
pub fn cut_line(text: &[u8]) -> (&[u8], &[u8]) {
    match text.iter().position(|&byte| byte == b'\n') {
        Some(end) => {
            let line = &text[..end];
            (line.strip_suffix(b"\r").unwrap_or(line), &text[end + 1..])
        }
        None => (text, &[]),
    }
}

fn header_numbers(line: &[u8]) -> Option<(i64, i64)> {
    let words: Vec<&[u8]> = line
        .strip_prefix(b"p cnf ")?
        .split(|&byte| byte == b' ')
        .collect();
    if words.len() != 2 || words.iter().any(|word| word.starts_with(b"-")) {
        return None;
    }
    Some((number(words[0])?, number(words[1])?))
}

/// V, C and what follows the header.
fn read_header<'a>(text: &'a [u8], limits: &Limits) -> Result<(i64, i64, &'a [u8]), u8> {
    let mut rest = text;
    while rest.starts_with(b"c") {
        rest = cut_line(rest).1;
    }
    let (header, body) = cut_line(rest);
    let (variables, clauses) = header_numbers(header).ok_or(1)?;
    if variables > limits.variables || clauses > limits.clauses {
        return Err(2);
    }
    Ok((variables, clauses, body))
}

/// The words up to the next `0` as a clause: a repeated literal is kept at its first place only. Without a
/// word left the clause is missing.
fn read_clause<'a>(
    words: &mut impl Iterator<Item = &'a [u8]>,
    variables: i64,
) -> Result<Vec<i32>, u8> {
    let mut clause: Vec<i32> = Vec::new();
    let mut in_clause: HashSet<i32> = HashSet::new();
    loop {
        let word = words.next().ok_or(if clause.is_empty() { 8 } else { 7 })?;
        let value = number(word).ok_or(3)?;
        if value == 0 {
            return Ok(clause);
        }
        if value.abs() > variables {
            return Err(4);
        }
        let literal = value as i32;
        if in_clause.insert(literal) {
            clause.push(literal);
        }
    }
}

/// The formula, or the number of the first fault in reading order. A clause that holds a literal and its
/// negation is left out: it counts towards C alone.
pub fn read_formula(text: &[u8], limits: &Limits) -> Result<Formula, u8> {
    let (variables, clause_count, body) = read_header(text, limits)?;
    let mut words = body
        .split(|byte| b" \t\r\n".contains(byte))
        .filter(|word| !word.is_empty());
    let mut formula = Formula::new(variables as i32, Vec::new());
    let mut literal_count = 0;
    for _ in 0..clause_count {
        let clause = read_clause(&mut words, variables)?;
        if holds_opposites(&clause) {
            formula.left_out += 1;
            continue;
        }
        literal_count += clause.len();
        if literal_count > limits.literals {
            return Err(9);
        }
        formula.clauses.push(clause);
    }
    match words.next() {
        Some(_) => Err(8),
        None => Ok(formula),
    }
}
