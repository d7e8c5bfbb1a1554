//! Clearing clashes, then pure literals.

use crate::counter::is_choice;
use crate::encoding::Encoding;
use crate::standing::{holds_opposites, Standing};

/// A clause written with one of its literals first, the others in order.
pub fn written_first(literal: i32, clause: &[i32]) -> Vec<i32> {
    let mut written = vec![literal];
    written.extend(without(literal, clause));
    written
}

fn without(literal: i32, clause: &[i32]) -> Vec<i32> {
    clause
        .iter()
        .copied()
        .filter(|&other| other != literal)
        .collect()
}

/// The places of a clash's clauses: the variable stands in one unique literal
/// clause, and its negation in another.
pub fn clash_of(standing: &Standing, variable: i32) -> Option<(usize, usize)> {
    let a = standing.unique_literal_clause_with(variable)?;
    let b = standing.unique_literal_clause_with(-variable)?;
    (a != b).then_some((a, b))
}

/// The lowest variable that clashes, with the places of both clauses.
fn lowest_clash(standing: &Standing, variables: i32) -> Option<(i32, usize, usize)> {
    (1..=variables).find_map(|variable| {
        let (a, b) = clash_of(standing, variable)?;
        Some((variable, a, b))
    })
}

pub fn clear_clashes(encoding: &mut Encoding, variables: i32) {
    while let Some((variable, place_a, place_b)) = lowest_clash(&encoding.standing, variables) {
        let a = encoding.clause(place_a);
        let b = encoding.clause(place_b);
        let mut resolvent = without(variable, &a);
        resolvent.extend(without(-variable, &b));
        encoding.tally.clashes += 1;
        if place_a.max(place_b) >= encoding.input_clauses {
            encoding.tally.chained_clashes += 1;
        }
        if holds_opposites(&resolvent) {
            encoding.tally.double_clashes += 1;
        } else {
            if resolvent.is_empty() {
                encoding.tally.empty_resolvents += 1;
            }
            encoding.add(resolvent, &[place_a, place_b]);
        }
        encoding.delete(written_first(variable, &a));
        encoding.delete(written_first(-variable, &b));
    }
}

/// The first literal of the clause at a place whose negation stands nowhere.
fn pure_literal(standing: &Standing, place: usize) -> Option<i32> {
    let mut literals = standing.clause(place)?.iter().copied();
    literals.find(|&literal| standing.count_holding(-literal) == 0)
}

/// Deletes the unique literal clauses with a pure literal, except the choices.
pub fn delete_pure(encoding: &mut Encoding) {
    for place in encoding.standing.all_places() {
        if !encoding.standing.is_unique_literal_clause(place) {
            continue;
        }
        let Some(literal) = pure_literal(&encoding.standing, place) else {
            continue;
        };
        if is_choice(&encoding.standing, place) {
            encoding.tally.free_choices += 1;
            if place >= encoding.input_clauses {
                encoding.tally.joined_free_choices += 1;
            }
        } else {
            encoding.tally.pure += 1;
            encoding.delete(written_first(literal, &encoding.clause(place)));
        }
    }
}
