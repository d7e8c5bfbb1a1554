//! How many lines the log has in counter form.

use crate::lists::cleared;
use model::counter::copies_of_pairs;
use model::encoding::Encoding;
use model::generator::text_of;
use model::reading::Formula;
use model::texts::Line;
use model::{reencode, Arrangement, Form, Room, Settings};

/// The lines of each choice: additions, then deletions.
fn by_choice(lines: &[Line]) -> Vec<&[Line]> {
    let is_same = |line: &Line, next: &Line| !line.deletion || next.deletion;
    lines.chunk_by(is_same).collect()
}

/// Each choice writes 4(k-1) + 1 + p lines, a clash up to three, a pure clause one. The answer is the run, and how
/// many lines the log has less than these.
pub fn check(formula: &Formula, arrangement: Arrangement, step: u32) -> (Encoding, usize) {
    let settings = Settings {
        step,
        ..Settings::new(Form::Counter, arrangement)
    };
    let encoding = Encoding::run(formula, settings);
    let (standing, lines) = cleared(formula, &encoding);
    let by_choice = by_choice(lines);
    assert_eq!(by_choice.len(), encoding.choices.len());
    let mut most = 3 * encoding.tally.clashes + encoding.tally.pure;
    for ((_, choice), lines) in encoding.choices.iter().zip(by_choice) {
        let expected = 4 * (choice.len() - 1) + 1 + copies_of_pairs(&standing, choice);
        assert_eq!(lines.len(), expected, "{choice:?} of {formula:?}");
        most += expected;
    }
    let text = text_of(formula);
    let result = reencode(&text, settings, Room::enough());
    let lines = result.expect("in order").lines;
    assert!(lines <= most, "{formula:?}");
    (encoding, most - lines)
}
