//! Sizes before the run: the numbers of a reencoding's result, without either text.

use crate::encoding::{encode, Encoding};
use crate::texts::Line;
use crate::Settings;

/// The numbers that the result of a reencoding carries.
#[derive(Debug, Clone, Copy, PartialEq, Eq)]
pub struct Sizes {
    pub choices: usize,
    /// H, the highest variable used.
    pub highest: i32,
    /// M, the number of standing clauses.
    pub clauses: usize,
    pub lines: usize,
    /// The length of the log.
    pub log_bytes: usize,
    /// The length of the new formula.
    pub formula_bytes: usize,
}

/// The decimal digits of a number; 0 has one.
fn digits(number: usize) -> usize {
    number.checked_ilog10().unwrap_or(0) as usize + 1
}

/// Its sign, its digits and the blank after them.
fn literal_bytes(literal: i32) -> usize {
    usize::from(literal < 0) + digits(literal.unsigned_abs() as usize) + 1
}

/// The literals, `0` and LF.
fn clause_bytes(literals: &[i32]) -> usize {
    let literals = literals.iter().map(|&literal| literal_bytes(literal));
    literals.sum::<usize>() + 2
}

/// A deletion has `d` and a blank before.
fn line_bytes(line: &Line) -> usize {
    2 * usize::from(line.deletion) + clause_bytes(&line.literals)
}

/// `p cnf `, H, a blank, M and LF.
fn header_bytes(highest: i32, clauses: usize) -> usize {
    6 + digits(highest as usize) + 1 + digits(clauses) + 1
}

impl Sizes {
    fn of(encoding: &Encoding) -> Sizes {
        let standing = encoding.standing.clauses();
        let header = header_bytes(encoding.highest, standing.len());
        let body: usize = standing.iter().map(|clause| clause_bytes(clause)).sum();
        Sizes {
            choices: encoding.choices.len(),
            highest: encoding.highest,
            clauses: standing.len(),
            lines: encoding.log.len(),
            log_bytes: encoding.log.iter().map(line_bytes).sum(),
            formula_bytes: header + body,
        }
    }
}

/// Refuses with 15, then 1 to 4 or 7 to 9, then 11, 16.
pub fn sizes(text: &[u8], settings: Settings, workspace: u64) -> Result<Sizes, u8> {
    let encoding = encode(text, settings, workspace)?;
    Ok(Sizes::of(&encoding))
}

#[cfg(test)]
mod tests {
    use super::*;

    #[test]
    fn numbers_of_each_length() {
        for (number, length) in [
            (0, 1),
            (1, 1),
            (9, 1),
            (10, 2),
            (99, 2),
            (100, 3),
            (999, 3),
            (1_000, 4),
            (9_999, 4),
            (10_000, 5),
            (70_000, 5),
            (99_999, 5),
            (100_000, 6),
            (300_000, 6),
        ] {
            assert_eq!(digits(number), length, "{number}");
        }
    }

    #[test]
    fn lines_and_headers() {
        let line = |deletion, literals: &[i32]| {
            let literals = literals.to_vec();
            line_bytes(&Line { deletion, literals })
        };
        assert_eq!(line(false, &[]), "0\n".len());
        assert_eq!(line(true, &[]), "d 0\n".len());
        assert_eq!(line(false, &[-9, 10]), "-9 10 0\n".len());
        assert_eq!(line(true, &[-70_000]), "d -70000 0\n".len());
        assert_eq!(header_bytes(0, 0), "p cnf 0 0\n".len());
        assert_eq!(header_bytes(10, 9), "p cnf 10 9\n".len());
    }
}
