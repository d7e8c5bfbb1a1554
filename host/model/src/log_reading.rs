//! Reading the kept lines of a log: refusals 31 and 34.

use crate::reading::number;
use crate::texts::Line;
use std::collections::HashSet;

/// The highest variable of a log and of a new formula.
pub const HIGHEST_VARIABLE: i64 = 70_000;

/// One line without its LF, if it is in the layout.
fn read_line(line: &[u8]) -> Option<Line> {
    let (deletion, rest) = match line.strip_prefix(b"d ") {
        Some(rest) => (true, rest),
        None => (false, line),
    };
    let mut words: Vec<&[u8]> = rest.split(|&byte| byte == b' ').collect();
    if words.pop() != Some(b"0".as_slice()) {
        return None;
    }
    let mut literals = Vec::new();
    let mut variables = HashSet::new();
    for word in words {
        let value = number(word)?;
        if value == 0 || value.abs() > HIGHEST_VARIABLE || !variables.insert(value.abs()) {
            return None;
        }
        literals.push(value as i32);
    }
    Some(Line { deletion, literals })
}

/// The first lines of the log, as many as are kept. What follows is not read.
pub fn read_kept_lines(log: &[u8], keep: usize) -> Result<Vec<Line>, u8> {
    let mut lines = Vec::new();
    let mut rest = log;
    while lines.len() < keep {
        if rest.is_empty() {
            return Err(34);
        }
        let end = rest.iter().position(|&byte| byte == b'\n').ok_or(31)?;
        lines.push(read_line(&rest[..end]).ok_or(31)?);
        rest = &rest[end + 1..];
    }
    Ok(lines)
}
