//! Reading a solver's answer: refusals 41 to 43.

use crate::reading::{cut_line, number};

enum Expecting {
    Status,
    Values,
    NothingMore,
}

/// The values of the variables 1..X, at their indices; those not named are false.
pub fn read_answer(text: &[u8], highest: i32) -> Result<Vec<bool>, u8> {
    let mut values = vec![false; highest as usize + 1];
    let mut named = vec![false; highest as usize + 1];
    let mut expecting = Expecting::Status;
    let mut rest = text;
    while !rest.is_empty() {
        let (line, after) = cut_line(rest);
        rest = after;
        if line.starts_with(b"c") {
            continue;
        }
        match expecting {
            Expecting::Status => {
                if line != b"s SATISFIABLE" {
                    return Err(41);
                }
                expecting = Expecting::Values;
            }
            Expecting::Values => {
                let literals = line.strip_prefix(b"v ").ok_or(41)?;
                let words = literals
                    .split(|byte| b" \t".contains(byte))
                    .filter(|word| !word.is_empty());
                for word in words {
                    if matches!(expecting, Expecting::NothingMore) {
                        return Err(41);
                    }
                    let value = number(word).ok_or(41)?;
                    if value == 0 {
                        expecting = Expecting::NothingMore;
                        continue;
                    }
                    if value.abs() > i64::from(highest) {
                        return Err(42);
                    }
                    let variable = value.unsigned_abs() as usize;
                    if named[variable] {
                        return Err(43);
                    }
                    named[variable] = true;
                    values[variable] = value > 0;
                }
            }
            Expecting::NothingMore => return Err(41),
        }
    }
    match expecting {
        Expecting::NothingMore => Ok(values),
        _ => Err(41),
    }
}
