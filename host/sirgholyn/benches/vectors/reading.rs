//! A formula's text read: DIMACS CNF, or the number of its first fault.

use super::clauses::{entries, index};

const MOST_VARIABLES: i64 = 8_000;
const MOST_CLAUSES: i64 = 20_000;
const MOST_LITERALS: usize = 60_000;

pub struct Formula {
    pub variables: i32,
    /// Those that are kept.
    pub clauses: Vec<Vec<i32>>,
}

pub fn read(text: &[u8]) -> Result<Formula, u8> {
    let mut rest = text;
    while rest.starts_with(b"c") {
        rest = after_line(rest).1;
    }
    let (header, body) = after_line(rest);
    let (variables, count) = header_numbers(header).ok_or(1)?;
    if variables > MOST_VARIABLES || count > MOST_CLAUSES {
        return Err(2);
    }
    let mut reader = Reader {
        rest: body,
        variables,
        last_in: vec![0; entries(variables as i32)],
        clause: Vec::new(),
    };
    let mut clauses = Vec::with_capacity(count as usize);
    let mut literals = 0;
    for number in 1..=count as u32 {
        if reader.read_clause(number)? {
            literals += reader.clause.len();
            if literals > MOST_LITERALS {
                return Err(9);
            }
            clauses.push(reader.clause.clone());
        }
    }
    if reader.word().is_some() {
        return Err(8);
    }
    Ok(Formula {
        variables: variables as i32,
        clauses,
    })
}

/// The first line without its end, and what follows it.
fn after_line(text: &[u8]) -> (&[u8], &[u8]) {
    match text.iter().position(|&byte| byte == b'\n') {
        Some(end) => {
            let line = &text[..end];
            (line.strip_suffix(b"\r").unwrap_or(line), &text[end + 1..])
        }
        None => (text, &[]),
    }
}

fn header_numbers(line: &[u8]) -> Option<(i64, i64)> {
    let mut words = line.strip_prefix(b"p cnf ")?.split(|&byte| byte == b' ');
    let (variables, clauses) = (number(words.next()?)?, number(words.next()?)?);
    let is_header = words.next().is_none() && !line.contains(&b'-');
    is_header.then_some((variables, clauses))
}

/// `0`, or digits of which the first is not 0, behind an optional `-`. Larger numbers than any limit are all the same.
fn number(word: &[u8]) -> Option<i64> {
    const LARGE: i64 = 1 << 40;
    let (is_negative, digits) = match word {
        [b'-', digits @ ..] => (true, digits),
        _ => (false, word),
    };
    if digits.is_empty() || digits[0] == b'0' && word != b"0" {
        return None;
    }
    let mut value = 0;
    for &digit in digits {
        if !digit.is_ascii_digit() {
            return None;
        }
        value = LARGE.min(10 * value + i64::from(digit - b'0'));
    }
    Some(if is_negative { -value } else { value })
}

struct Reader<'a> {
    rest: &'a [u8],
    variables: i64,
    /// For each literal the number of the last clause that has it.
    last_in: Vec<u32>,
    /// The clause read last, a literal that is repeated at its first place only.
    clause: Vec<i32>,
}

impl<'a> Reader<'a> {
    fn word(&mut self) -> Option<&'a [u8]> {
        let is_blank = |byte: &u8| matches!(byte, b' ' | b'\t' | b'\r' | b'\n');
        let start = self.rest.iter().position(|byte| !is_blank(byte))?;
        let rest = &self.rest[start..];
        let end = rest.iter().position(is_blank).unwrap_or(rest.len());
        self.rest = &rest[end..];
        Some(&rest[..end])
    }

    /// Reads the clause with this number; whether it is kept, as it does not hold a literal and its negation.
    fn read_clause(&mut self, number_of_clause: u32) -> Result<bool, u8> {
        self.clause.clear();
        let mut is_kept = true;
        loop {
            let at_end = if self.clause.is_empty() { 8 } else { 7 };
            let value = number(self.word().ok_or(at_end)?).ok_or(3)?;
            if value == 0 {
                return Ok(is_kept);
            }
            if value.abs() > self.variables {
                return Err(4);
            }
            let literal = value as i32;
            if self.last_in[index(literal)] != number_of_clause {
                self.last_in[index(literal)] = number_of_clause;
                is_kept &= self.last_in[index(-literal)] != number_of_clause;
                self.clause.push(literal);
            }
        }
    }
}
