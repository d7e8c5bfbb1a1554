//! Where the fault is in a text that the library has refused, found by plain code that shares nothing with
//! the library.
//!
//! Each text has a reader that stops at the first fault. A location is told only where that fault has the
//! library's number; for any other number, and for texts that are in order, there is none.

use crate::limits::{Limits, MOST_LOG_VARIABLES, MOST_WORD_SHOWN};
use crate::shown::shown;
use std::collections::HashMap;
use std::fmt;
use std::mem::{replace, take};
use std::ops::Range;

/// Where in a text a fault was found.
#[derive(Debug, Clone, PartialEq, Eq)]
pub struct Location {
    /// From 1; each LF ends a line.
    pub line: usize,
    /// Within the line, from 1.
    pub byte: usize,
    /// What stands there, shortened and escaped; nothing at the text's end.
    pub word: Option<String>,
}

impl Location {
    fn new(text: &[u8], place: Range<usize>) -> Self {
        let before = &text[..place.start];
        let line_start = before.iter().rposition(|&byte| byte == b'\n');
        Location {
            line: 1 + before.iter().filter(|&&byte| byte == b'\n').count(),
            byte: 1 + place.start - line_start.map_or(0, |lf| lf + 1),
            word: (place.start < text.len()).then(|| shown(&text[place], MOST_WORD_SHOWN)),
        }
    }
}

impl fmt::Display for Location {
    fn fmt(&self, to: &mut fmt::Formatter) -> fmt::Result {
        write!(to, "line {}, byte {}", self.line, self.byte)?;
        match &self.word {
            Some(word) => write!(to, ": `{word}`"),
            None => write!(to, ", where the text ends"),
        }
    }
}

/// Where a formula has the fault for which it was refused, numbers 1 to 4, 7 to 9: the line that is no header, or
/// the word; of too many literals, the `0` after which they are counted. Where words are missing it is the text's
/// end.
///
/// ```
/// use sirgholyn::{limits::Limits, location::in_formula};
/// let location = in_formula(b"p cnf 2 1\n1 x 0\n", &Limits::INPUT, 3).unwrap();
/// assert_eq!(location.to_string(), "line 2, byte 3: `x`");
/// let location = in_formula(b"p cnf 2 1\n1", &Limits::INPUT, 7).unwrap();
/// assert_eq!(location.to_string(), "line 2, byte 2, where the text ends");
/// ```
pub fn in_formula(text: &[u8], limits: &Limits, number: u32) -> Option<Location> {
    let fault = read_formula(text, limits).err()?;
    fault.location(text, number)
}

/// Where a log has the fault for which it was refused, numbers 31, 32 and 34: what is not in a line's layout, or
/// a deletion's line. Where lines or a line's LF are missing it is the text's end.
pub fn in_log(formula: &[u8], log: &[u8], kept: usize, number: u32) -> Option<Location> {
    let formula = read_formula(formula, &Limits::INPUT).ok()?;
    let read = highest_kept(log, kept).and_then(|_| replay(formula, log, kept));
    read.err()?.location(log, number)
}

/// Where an answer has the fault for which it was refused, numbers 41, 42 and 43: the line, or the word of a `v `
/// line. Where words are missing it is the text's end.
pub fn in_answer(
    formula: &[u8],
    log: &[u8],
    kept: usize,
    answer: &[u8],
    number: u32,
) -> Option<Location> {
    in_assignment(formula, log, kept, answer, number, i64::max)
}

/// The same for a plan that is carried forward, where 42 is a variable above V.
pub fn in_plan(
    formula: &[u8],
    log: &[u8],
    kept: usize,
    plan: &[u8],
    number: u32,
) -> Option<Location> {
    in_assignment(formula, log, kept, plan, number, |variables, _| variables)
}

/// `highest` gives the highest variable that may be named, by V and the highest in the kept lines.
fn in_assignment(
    formula: &[u8],
    log: &[u8],
    kept: usize,
    assignment: &[u8],
    number: u32,
    highest: fn(i64, i64) -> i64,
) -> Option<Location> {
    let formula = read_formula(formula, &Limits::INPUT).ok()?;
    let highest = highest(formula.variables, highest_kept(log, kept).ok()?);
    let fault = read_answer(assignment, highest).err()?;
    fault.location(assignment, number)
}

/// The first fault of a text in reading order: its number, and where it stands. A place that starts at the
/// text's end is the end itself.
struct Fault {
    number: u32,
    place: Range<usize>,
}

impl Fault {
    fn new(number: u32, place: Range<usize>) -> Self {
        Fault { number, place }
    }

    fn at_end(number: u32, text: &[u8]) -> Self {
        Fault::new(number, text.len()..text.len())
    }

    /// The location, if this is the fault that the library has found.
    fn location(self, text: &[u8], number: u32) -> Option<Location> {
        (self.number == number).then(|| Location::new(text, self.place))
    }
}

// Words, lines and numbers

/// The parts between single separators, which may be empty.
fn fields<'a>(
    text: &'a [u8],
    within: Range<usize>,
    separators: &'a [u8],
) -> impl Iterator<Item = Range<usize>> + 'a {
    let mut start = within.start;
    let fields = text[within].split(|byte| separators.contains(byte));
    fields.map(move |field| {
        let place = start..start + field.len();
        start = place.end + 1;
        place
    })
}

/// The parts between runs of separators.
fn words<'a>(
    text: &'a [u8],
    within: Range<usize>,
    separators: &'a [u8],
) -> impl Iterator<Item = Range<usize>> + 'a {
    fields(text, within, separators).filter(|word| !word.is_empty())
}

/// A line that LF, CR LF or the text's end may end.
struct Line {
    /// Without the line's end.
    content: Range<usize>,
    /// Where the next line starts.
    next: usize,
}

impl Line {
    fn at(text: &[u8], start: usize) -> Self {
        let length = text[start..].iter().position(|&byte| byte == b'\n');
        let (end, next) = match length.map(|length| start + length) {
            Some(lf) if text[start..lf].ends_with(b"\r") => (lf - 1, lf + 1),
            Some(lf) => (lf, lf + 1),
            None => (text.len(), text.len()),
        };
        let content = start..end;
        Line { content, next }
    }

    /// The line as a fault; of an empty one, its end.
    fn fault(&self, number: u32) -> Fault {
        let place = if self.content.is_empty() {
            self.content.start..self.next
        } else {
            self.content.clone()
        };
        Fault::new(number, place)
    }
}

/// `0`, or digits beginning with 1 to 9. Numbers have no length limit; the largest i64 stands for all above.
fn natural(word: &[u8]) -> Option<i64> {
    let begins = word == b"0" || matches!(word.first(), Some(b'1'..=b'9'));
    if !begins || !word.iter().all(u8::is_ascii_digit) {
        return None;
    }
    Some(word.iter().fold(0, |value: i64, digit| {
        value
            .saturating_mul(10)
            .saturating_add(i64::from(digit - b'0'))
    }))
}

/// `0`, or an optional `-` and digits beginning with 1 to 9.
fn number(word: &[u8]) -> Option<i64> {
    match word.strip_prefix(b"-") {
        Some(digits) => natural(digits)
            .filter(|&value| value > 0)
            .map(|value| -value),
        None => natural(word),
    }
}

/// The clause or line in which each literal was read last, counted from 1.
#[derive(Default)]
struct LastRead(Vec<usize>);

impl LastRead {
    fn of(&mut self, literal: i32) -> &mut usize {
        let index = 2 * literal.unsigned_abs() as usize + usize::from(literal < 0);
        if index >= self.0.len() {
            self.0.resize(index + 1, 0);
        }
        &mut self.0[index]
    }
}

// A formula: 1 to 4, 7 to 9

struct Formula {
    variables: i64,
    /// Those that are kept.
    clauses: Vec<Vec<i32>>,
}

struct Header {
    variables: i64,
    clauses: i64,
    /// Where the next line starts.
    next: usize,
}

fn read_formula(text: &[u8], limits: &Limits) -> Result<Formula, Fault> {
    let header = read_header(text, limits)?;
    let body = header.next..text.len();
    let mut reader = FormulaReader {
        header,
        literals_left: limits.literals,
        last_read: LastRead::default(),
        clauses_read: 0,
        clauses: Vec::new(),
        clause: Vec::new(),
        is_opposed: false,
    };
    for word in words(text, body, b" \t\r\n") {
        reader
            .read_word(&text[word.clone()])
            .map_err(|number| Fault::new(number, word))?;
    }
    reader
        .end_text()
        .map_err(|number| Fault::at_end(number, text))
}

fn read_header(text: &[u8], limits: &Limits) -> Result<Header, Fault> {
    let line = header_line(text);
    let fields: Vec<_> = fields(text, line.content.clone(), b" ").take(5).collect();
    let words: Vec<&[u8]> = fields.iter().map(|field| &text[field.clone()]).collect();
    let [b"p", b"cnf", variables, clauses] = words[..] else {
        return Err(line.fault(1));
    };
    let (Some(variables), Some(clauses)) = (natural(variables), natural(clauses)) else {
        return Err(line.fault(1));
    };
    if variables > limits.variables as i64 {
        return Err(Fault::new(2, fields[2].clone()));
    }
    if clauses > limits.clauses as i64 {
        return Err(Fault::new(2, fields[3].clone()));
    }
    let next = line.next;
    Ok(Header {
        variables,
        clauses,
        next,
    })
}

/// The first line that does not begin with `c`; at the text's end an empty one.
fn header_line(text: &[u8]) -> Line {
    let mut line = Line::at(text, 0);
    while text[line.content.clone()].starts_with(b"c") {
        line = Line::at(text, line.next);
    }
    line
}

struct FormulaReader {
    header: Header,
    literals_left: usize,
    last_read: LastRead,
    /// The clauses up to the last `0`, those left out among them.
    clauses_read: usize,
    clauses: Vec<Vec<i32>>,
    /// The different literals read since the last `0`.
    clause: Vec<i32>,
    /// Whether they hold a literal and its negation.
    is_opposed: bool,
}

impl FormulaReader {
    fn read_word(&mut self, word: &[u8]) -> Result<(), u32> {
        if self.clauses_read as i64 == self.header.clauses {
            return Err(8);
        }
        match number(word).ok_or(3u32)? {
            0 => self.end_clause(),
            literal => self.read_literal(literal),
        }
    }

    /// Keeps a literal at its first place.
    fn read_literal(&mut self, literal: i64) -> Result<(), u32> {
        if literal.abs() > self.header.variables {
            return Err(4);
        }
        let literal = literal as i32;
        let clause = self.clauses_read + 1;
        if replace(self.last_read.of(literal), clause) != clause {
            self.clause.push(literal);
            self.is_opposed |= *self.last_read.of(-literal) == clause;
        }
        Ok(())
    }

    /// Keeps a clause unless it holds a literal and its negation.
    fn end_clause(&mut self) -> Result<(), u32> {
        self.clauses_read += 1;
        let clause = take(&mut self.clause);
        if !take(&mut self.is_opposed) {
            let left = self.literals_left.checked_sub(clause.len());
            self.literals_left = left.ok_or(9u32)?;
            self.clauses.push(clause);
        }
        Ok(())
    }

    fn end_text(self) -> Result<Formula, u32> {
        if !self.clause.is_empty() {
            return Err(7);
        }
        if (self.clauses_read as i64) < self.header.clauses {
            return Err(8);
        }
        Ok(Formula {
            variables: self.header.variables,
            clauses: self.clauses,
        })
    }
}

// A log: 31, 34, then 32

struct LogLine {
    deletion: bool,
    literals: Vec<i32>,
    /// Without its LF.
    place: Range<usize>,
}

/// The kept lines of a log, one after the other, up to the first that is no line.
struct KeptLines<'a> {
    log: &'a [u8],
    /// Where the next line starts.
    next: usize,
    count: usize,
    kept: usize,
    last_read: LastRead,
}

impl<'a> KeptLines<'a> {
    fn new(log: &'a [u8], kept: usize) -> Self {
        KeptLines {
            log,
            next: 0,
            count: 0,
            kept,
            last_read: LastRead::default(),
        }
    }

    fn read_line(&mut self) -> Result<LogLine, Fault> {
        let log = self.log;
        let rest = &log[self.next..];
        if rest.is_empty() {
            return Err(Fault::at_end(34, log));
        }
        let Some(length) = rest.iter().position(|&byte| byte == b'\n') else {
            return Err(Fault::at_end(31, log));
        };
        let place = self.next..self.next + length;
        self.next = place.end + 1;
        self.count += 1;
        let mut words = fields(log, place.clone(), b" ").peekable();
        let deletion = words.next_if(|word| &log[word.clone()] == b"d").is_some();
        Ok(LogLine {
            deletion,
            literals: self.read_literals(words, place.end)?,
            place,
        })
    }

    /// Literals and `0`, up to the line's LF.
    fn read_literals(
        &mut self,
        words: impl Iterator<Item = Range<usize>>,
        lf: usize,
    ) -> Result<Vec<i32>, Fault> {
        let fault = |place| Err(Fault::new(31, place));
        let mut literals = Vec::new();
        for word in words {
            match number(&self.log[word.clone()]) {
                Some(0) if word.end == lf => return Ok(literals),
                Some(0) => return fault(word.end..lf),
                Some(literal) if self.is_new(literal) => literals.push(literal as i32),
                _ if word.is_empty() => return fault(word.start..word.start + 1),
                _ => return fault(word),
            }
        }
        fault(lf..lf + 1)
    }

    /// Whether the variable is allowed and not yet in this line.
    fn is_new(&mut self, literal: i64) -> bool {
        if literal.abs() > MOST_LOG_VARIABLES as i64 {
            return false;
        }
        let last = self.last_read.of(literal.abs() as i32);
        replace(last, self.count) != self.count
    }
}

impl Iterator for KeptLines<'_> {
    type Item = Result<LogLine, Fault>;

    fn next(&mut self) -> Option<Self::Item> {
        (self.count < self.kept).then(|| self.read_line())
    }
}

/// The highest variable in the kept lines; 0 if there is none.
fn highest_kept(log: &[u8], kept: usize) -> Result<i64, Fault> {
    let mut highest = 0;
    for line in KeptLines::new(log, kept) {
        let variables = line?.literals.into_iter().map(i32::unsigned_abs);
        highest = highest.max(variables.max().unwrap_or(0));
    }
    Ok(i64::from(highest))
}

/// Goes through the kept lines up to a deletion whose clause does not stand.
fn replay(formula: Formula, log: &[u8], kept: usize) -> Result<(), Fault> {
    let mut standing = Standing::new(formula.clauses);
    for line in KeptLines::new(log, kept) {
        let line = line?;
        if !line.deletion {
            standing.add(line.literals);
        } else if !standing.delete(line.literals) {
            return Err(Fault::new(32, line.place));
        }
    }
    Ok(())
}

/// How many clauses stand with each set of literals.
struct Standing(HashMap<Vec<i32>, usize>);

impl Standing {
    fn new(clauses: Vec<Vec<i32>>) -> Self {
        let mut standing = Standing(HashMap::new());
        for clause in clauses {
            standing.add(clause);
        }
        standing
    }

    fn add(&mut self, mut clause: Vec<i32>) {
        clause.sort_unstable();
        *self.0.entry(clause).or_default() += 1;
    }

    /// Whether there was such a clause.
    fn delete(&mut self, mut clause: Vec<i32>) -> bool {
        clause.sort_unstable();
        match self.0.get_mut(&clause) {
            Some(1) => self.0.remove(&clause).is_some(),
            Some(copies) => {
                *copies -= 1;
                true
            }
            None => false,
        }
    }
}

// An answer: 41 to 43

fn read_answer(answer: &[u8], highest: i64) -> Result<(), Fault> {
    let mut reader = AnswerReader {
        highest,
        begun: false,
        closed: false,
        named: vec![false; highest as usize + 1],
    };
    let mut start = 0;
    while start < answer.len() {
        let line = Line::at(answer, start);
        reader.read_line(answer, &line)?;
        start = line.next;
    }
    if !reader.closed {
        return Err(Fault::at_end(41, answer));
    }
    Ok(())
}

struct AnswerReader {
    highest: i64,
    /// The `s` line has been read.
    begun: bool,
    /// The closing `0` has been read.
    closed: bool,
    /// By variable.
    named: Vec<bool>,
}

impl AnswerReader {
    fn read_line(&mut self, answer: &[u8], line: &Line) -> Result<(), Fault> {
        let content = &answer[line.content.clone()];
        if content.starts_with(b"c") {
            return Ok(());
        }
        if content == b"s SATISFIABLE" && !self.begun {
            self.begun = true;
            return Ok(());
        }
        if !content.starts_with(b"v ") || !self.begun || self.closed {
            return Err(line.fault(41));
        }
        let literals = line.content.start + 2..line.content.end;
        for word in words(answer, literals, b" \t") {
            self.read_word(&answer[word.clone()])
                .map_err(|number| Fault::new(number, word))?;
        }
        Ok(())
    }

    fn read_word(&mut self, word: &[u8]) -> Result<(), u32> {
        if self.closed {
            return Err(41);
        }
        match number(word).ok_or(41u32)? {
            0 => self.closed = true,
            literal => self.read_literal(literal)?,
        }
        Ok(())
    }

    fn read_literal(&mut self, literal: i64) -> Result<(), u32> {
        if literal.abs() > self.highest {
            return Err(42);
        }
        let named = &mut self.named[literal.unsigned_abs() as usize];
        if replace(named, true) {
            return Err(43);
        }
        Ok(())
    }
}
