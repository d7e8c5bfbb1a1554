//! The texts that are written: the log and the new formula.

use super::clauses::Clauses;

#[derive(Default)]
pub struct Log {
    pub text: Vec<u8>,
    pub lines: usize,
}

impl Log {
    pub fn added(&mut self, clause: &[i32]) {
        put_clause(&mut self.text, clause);
        self.lines += 1;
    }

    pub fn deleted(&mut self, clause: &[i32]) {
        self.text.extend_from_slice(b"d ");
        put_clause(&mut self.text, clause);
        self.lines += 1;
    }
}

/// The number of clauses, and the new formula.
pub fn put_formula(highest: i32, clauses: &Clauses) -> (usize, Vec<u8>) {
    let count = clauses.standing().count();
    let mut text = format!("p cnf {highest} {count}\n").into_bytes();
    for (_, clause) in clauses.standing() {
        put_clause(&mut text, clause);
    }
    (count, text)
}

fn put_clause(text: &mut Vec<u8>, clause: &[i32]) {
    for &literal in clause {
        put_literal(text, literal);
    }
    text.extend_from_slice(b"0\n");
}

/// A literal and a blank.
fn put_literal(text: &mut Vec<u8>, literal: i32) {
    let mut word = [b' '; 12];
    let mut start = word.len() - 1;
    let mut rest = literal.unsigned_abs();
    while rest > 0 {
        start -= 1;
        word[start] = b'0' + (rest % 10) as u8;
        rest /= 10;
    }
    if literal < 0 {
        start -= 1;
        word[start] = b'-';
    }
    text.extend_from_slice(&word[start..]);
}
