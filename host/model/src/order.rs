//! Order form, for one choice directly after its stage 4.

use crate::encoding::Encoding;
use crate::standing::holds_opposites;
use std::collections::BTreeSet;

/// What stands for -li in a replaced clause, i from 1.
fn replacement(i: usize, steps: &[i32]) -> Vec<i32> {
    let k = steps.len() + 1;
    let s = |i: usize| steps[i - 1];
    if i == 1 {
        vec![-s(1)]
    } else if i < k {
        vec![s(i - 1), -s(i)]
    } else {
        vec![s(k - 1)]
    }
}

fn replaced(clause: &[i32], choice: &[i32], steps: &[i32]) -> Vec<i32> {
    let mut result = Vec::new();
    for &literal in clause {
        match choice.iter().position(|&chosen| chosen == -literal) {
            Some(index) => result.extend(replacement(index + 1, steps)),
            None => result.push(literal),
        }
    }
    result
}

pub fn put_in_order(encoding: &mut Encoding, choice: &[i32], steps: &[i32], own: &[usize]) {
    let k = choice.len();
    let l = |i: usize| choice[i - 1];
    let s = |i: usize| steps[i - 1];

    let mut to_replace: BTreeSet<usize> = choice
        .iter()
        .flat_map(|&literal| encoding.standing.places_holding(-literal))
        .collect();
    for place in own {
        to_replace.remove(place);
    }
    for place in to_replace {
        let old = encoding.clause(place);
        let result = replaced(&old, choice, steps);
        let negated = old.iter().filter(|&&n| choice.contains(&-n)).count();
        if negated > 1 {
            encoding.tally.several_negated += 1;
        }
        if holds_opposites(&result) {
            encoding.tally.replaced_by_nothing += 1;
        } else {
            encoding.add(result, &[place]);
        }
        encoding.delete(old);
    }

    for i in 1..=k {
        if i == 1 {
            encoding.delete(vec![l(1), -s(1)]);
        } else if i < k {
            encoding.delete(vec![l(i), -s(i), s(i - 1)]);
        } else {
            encoding.delete(vec![l(k), s(k - 1)]);
        }
        if i < k {
            encoding.delete(vec![-l(i), s(i)]);
        }
        if i > 1 {
            encoding.delete(vec![-l(i), -s(i - 1)]);
        }
    }
}
