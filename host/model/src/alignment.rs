//! Alignment of the choices, before the first is taken.

use std::collections::{HashMap, HashSet};

#[derive(Debug, Clone, Copy, PartialEq, Eq)]
pub enum Outcome {
    /// No two literals of different choices are linked.
    Unlinked,
    /// Some chain joins two literals of one choice: all orders stay.
    Unalignable,
    /// Chained: some literal is linked to more than one other.
    Aligned { chained: bool },
}

/// Sorts each choice by the numbers of its literals' groups, if that can be.
pub fn align(choices: &mut [Vec<i32>], standing: &[Vec<i32>]) -> Outcome {
    let mut choice_of: HashMap<i32, usize> = HashMap::new();
    for (index, choice) in choices.iter().enumerate() {
        for &literal in choice {
            choice_of.insert(literal, index);
        }
    }

    let mut linked: HashMap<i32, Vec<i32>> = HashMap::new();
    for clause in standing {
        let &[first, second] = clause.as_slice() else {
            continue;
        };
        let (Some(one), Some(other)) = (choice_of.get(&-first), choice_of.get(&-second)) else {
            continue;
        };
        if one != other {
            linked.entry(-first).or_default().push(-second);
            linked.entry(-second).or_default().push(-first);
        }
    }

    let mut group_of: HashMap<i32, usize> = HashMap::new();
    let mut groups = 0;
    for &literal in choices.iter().flatten() {
        if group_of.contains_key(&literal) {
            continue;
        }
        let mut reached = vec![literal];
        while let Some(next) = reached.pop() {
            if group_of.insert(next, groups).is_none() {
                reached.extend(linked.get(&next).into_iter().flatten());
            }
        }
        groups += 1;
    }

    for choice in choices.iter() {
        let different: HashSet<usize> = choice.iter().map(|literal| group_of[literal]).collect();
        if different.len() < choice.len() {
            return Outcome::Unalignable;
        }
    }
    for choice in choices.iter_mut() {
        choice.sort_by_key(|literal| group_of[literal]);
    }
    if linked.is_empty() {
        Outcome::Unlinked
    } else {
        let chained = linked.values().any(|links| {
            let different: HashSet<&i32> = links.iter().collect();
            different.len() > 1
        });
        Outcome::Aligned { chained }
    }
}
