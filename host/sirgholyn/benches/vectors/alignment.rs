//! Choices that are linked by pairs, brought into the same order.

use super::choices::Choice;
use super::clauses::{entries, index, Clauses};

/// Sets that are joined. Each element leads to one before it in its set, the first to itself.
struct Sets(Vec<usize>);

impl Sets {
    fn first(&mut self, mut element: usize) -> usize {
        while self.0[element] != element {
            self.0[element] = self.0[self.0[element]];
            element = self.0[element];
        }
        element
    }

    fn join(&mut self, one: usize, other: usize) {
        let (one, other) = (self.first(one), self.first(other));
        self.0[one.max(other)] = one.min(other);
    }
}

/// A literal of a choice: its number among those of all choices, and its choice's.
#[derive(Clone, Copy)]
struct Chosen {
    number: usize,
    choice: usize,
}

/// Sorts the literals of each choice by the first of their groups, unless some choice has two of one group. Pairs link
/// literals of different choices, and chains of them make a group.
pub fn align(choices: &mut [Choice], clauses: &Clauses, variables: i32) {
    let mut chosen: Vec<Option<Chosen>> = vec![None; entries(variables)];
    let mut count = 0;
    for (choice, own) in choices.iter().enumerate() {
        for (number, &literal) in (count..).zip(&own.literals) {
            chosen[index(literal)] = Some(Chosen { number, choice });
        }
        count += own.literals.len();
    }
    let mut groups = Sets((0..count).collect());
    for (_, clause) in clauses.standing() {
        let &[one, other] = clause else { continue };
        if let (Some(one), Some(other)) = (chosen[index(-one)], chosen[index(-other)]) {
            if one.choice != other.choice {
                groups.join(one.number, other.number);
            }
        }
    }
    let mut sorted: Vec<Vec<(usize, i32)>> = Vec::with_capacity(choices.len());
    let mut count = 0;
    for choice in choices.iter() {
        let numbered = (count..).zip(&choice.literals);
        let mut grouped: Vec<(usize, i32)> = numbered
            .map(|(number, &literal)| (groups.first(number), literal))
            .collect();
        count += grouped.len();
        grouped.sort_unstable();
        if grouped.windows(2).any(|two| two[0].0 == two[1].0) {
            return;
        }
        sorted.push(grouped);
    }
    for (choice, grouped) in choices.iter_mut().zip(sorted) {
        choice.literals = grouped.into_iter().map(|(_, literal)| literal).collect();
    }
}
