//! The lines of a proof, read one by one.

use crate::limits::{MOST_PROOF_LINE_BYTES, MOST_PROOF_VARIABLE};
use std::io::{self, BufRead, Read};

#[derive(Debug, PartialEq, Eq)]
pub struct Line<'a> {
    pub is_deletion: bool,
    pub literals: &'a [i32],
}

/// A text of which one line is held.
pub struct Lines<R> {
    text: R,
    bytes: Vec<u8>,
    literals: Vec<i32>,
}

impl<R: BufRead> Lines<R> {
    pub fn new(text: R) -> Lines<R> {
        Lines {
            text,
            bytes: Vec::new(),
            literals: Vec::new(),
        }
    }

    /// Goes to the next line, of which no more is taken than a line may have; false at the text's end.
    pub fn advance(&mut self) -> io::Result<bool> {
        self.bytes.clear();
        let mut text = self.text.by_ref().take(MOST_PROOF_LINE_BYTES);
        Ok(text.read_until(b'\n', &mut self.bytes)? > 0)
    }

    /// The line as it stands, with its LF if it has one.
    pub fn bytes(&self) -> &[u8] {
        &self.bytes
    }

    /// The line, if it is in the layout: an optional `d `, each literal and a blank, `0`, LF.
    pub fn line(&mut self) -> Option<Line<'_>> {
        self.literals.clear();
        let line = self.bytes.strip_suffix(b"\n")?;
        let after_d = line.strip_prefix(b"d ");
        let words = after_d.unwrap_or(line).strip_suffix(b"0")?;
        for word in words.split_inclusive(|&byte| byte == b' ') {
            self.literals.push(literal(word.strip_suffix(b" ")?)?);
        }
        Some(Line {
            is_deletion: after_d.is_some(),
            literals: &self.literals,
        })
    }
}

/// An optional `-` and digits that begin with 1 to 9.
pub fn literal(word: &[u8]) -> Option<i32> {
    let after_sign = word.strip_prefix(b"-");
    let digits = after_sign.unwrap_or(word);
    if !matches!(digits.first(), Some(b'1'..=b'9')) {
        return None;
    }
    let mut variable = 0;
    for digit in digits {
        if !digit.is_ascii_digit() || variable > MOST_PROOF_VARIABLE / 10 {
            return None;
        }
        variable = variable * 10 + i32::from(digit - b'0');
    }
    let sign = if after_sign.is_some() { -1 } else { 1 };
    (variable <= MOST_PROOF_VARIABLE).then_some(sign * variable)
}
