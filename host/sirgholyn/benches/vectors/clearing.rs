//! Clashes, then pure literals.

use super::choices::is_choice;
use super::clauses::{entries, index, Clauses};
use super::Run;

/// For each variable whether it and its negation are both in unique literal clauses.
fn clashing(clauses: &Clauses, variables: i32) -> Vec<bool> {
    let mut is_in_unique = vec![false; entries(variables)];
    for (_, clause) in clauses.standing() {
        if clauses.is_unique(clause) {
            for &literal in clause {
                is_in_unique[index(literal)] = true;
            }
        }
    }
    let signs = is_in_unique.chunks_exact(2);
    signs.map(|both| both[0] && both[1]).collect()
}

/// Clears the clashes by rising variable. None comes up on the way: a resolvent is a unique literal clause with the other
/// literals of both clauses, so their clashes stay; where it is not added, they go.
pub fn clear_clashes(run: &mut Run, variables: i32) {
    let mut clashes = clashing(&run.clauses, variables);
    let mut is_in_a = vec![false; entries(variables)];
    for variable in 1..=variables {
        if !clashes[variable as usize] {
            continue;
        }
        let (place_a, a) = run.clauses.last_with(variable).next().expect("A");
        let (place_b, b) = run.clauses.last_with(-variable).next().expect("B");
        let others_of_a = a.iter().copied().filter(|&literal| literal != variable);
        let others_of_b = b.iter().copied().filter(|&literal| literal != -variable);

        for literal in others_of_a.clone() {
            is_in_a[index(literal)] = true;
        }
        let is_opposed = others_of_b.clone().any(|literal| is_in_a[index(-literal)]);
        for literal in others_of_a.clone() {
            is_in_a[index(literal)] = false;
        }
        if is_opposed {
            for literal in others_of_a.chain(others_of_b) {
                clashes[literal.unsigned_abs() as usize] = false;
            }
        } else {
            let mut resolvent = Vec::with_capacity(a.len() + b.len() - 2);
            resolvent.extend(others_of_a.chain(others_of_b));
            run.add(resolvent);
        }
        run.delete_first(place_a, variable);
        run.delete_first(place_b, -variable);
    }
}

/// Deletes the unique literal clauses with a pure literal, except the choices.
pub fn delete_pure(run: &mut Run) {
    for place in 0..run.clauses.end() {
        let Some(clause) = run.clauses.get(place) else {
            continue;
        };
        if !run.clauses.is_unique(clause) || is_choice(&run.clauses, clause) {
            continue;
        }
        let mut literals = clause.iter().copied();
        if let Some(pure) = literals.find(|&literal| run.clauses.count(-literal) == 0) {
            run.delete_first(place, pure);
        }
    }
}
