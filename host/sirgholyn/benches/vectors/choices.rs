//! The choices, and one of them taken in counter form and put in order form.

use super::clauses::{entries, index, Clauses};
use super::Run;
use sirgholyn::Form;

pub struct Choice {
    pub place: usize,
    /// l1..lk.
    pub literals: Vec<i32>,
}

/// Whether a clause that stands is a choice.
pub fn is_choice(clauses: &Clauses, clause: &[i32]) -> bool {
    (5..=64).contains(&clause.len()) && clauses.is_unique(clause)
}

/// The choices in list order.
pub fn found(clauses: &Clauses) -> Vec<Choice> {
    let standing = clauses.standing();
    let choices = standing.filter(|(_, clause)| is_choice(clauses, clause));
    choices
        .map(|(place, clause)| Choice {
            place,
            literals: clause.to_vec(),
        })
        .collect()
}

/// Takes all choices, with new variables from the first after those of the formula. The answer is the highest.
pub fn take_all(run: &mut Run, choices: &[Choice], form: Form, variables: i32) -> i32 {
    let new: usize = choices.iter().map(|choice| choice.literals.len() - 1).sum();
    let highest = variables + new as i32;
    run.clauses.reach(highest);
    let mut positions = vec![0; entries(highest)];
    let mut before = variables;
    for choice in choices {
        let mut taking = Taking {
            run,
            l: &choice.literals,
            before,
            positions: &mut positions,
        };
        taking.mark(true);
        let own = taking.counter_form(choice.place);
        if form == Form::Order {
            taking.order_form(own);
        }
        taking.mark(false);
        before += choice.literals.len() as i32 - 1;
    }
    highest
}

/// Places of a choice's own clauses.
struct Own {
    /// -s1 l1, then -si s(i-1) li, then s(k-1) lk.
    at_least: Vec<usize>,
    /// si -li.
    raising: Vec<usize>,
    /// -li -s(i-1), from i = 2 on.
    barring: Vec<usize>,
}

/// One choice while it is taken.
struct Taking<'a> {
    run: &'a mut Run,
    l: &'a [i32],
    /// The variable before s1.
    before: i32,
    /// For each negated literal of the choice its i, else 0.
    positions: &'a mut [u8],
}

impl Taking<'_> {
    fn k(&self) -> usize {
        self.l.len()
    }

    fn l(&self, i: usize) -> i32 {
        self.l[i - 1]
    }

    fn s(&self, i: usize) -> i32 {
        self.before + i as i32
    }

    fn mark(&mut self, is_taken: bool) {
        for i in 1..=self.k() {
            self.positions[index(-self.l(i))] = if is_taken { i as u8 } else { 0 };
        }
    }

    /// The i of a literal that is -li, else 0.
    fn position(&self, literal: i32) -> usize {
        usize::from(self.positions[index(literal)])
    }

    /// Adds the counter clauses, and deletes the choice and the copies of its pairs.
    fn counter_form(&mut self, place: usize) -> Own {
        let k = self.k();
        let (l, s) = (|i: usize| self.l[i - 1], |i: usize| self.before + i as i32);
        let mut own = Own {
            at_least: vec![self.run.add(vec![-s(1), l(1)])],
            raising: vec![self.run.add(vec![s(1), -l(1)])],
            barring: Vec::with_capacity(k - 1),
        };
        for i in 2..k {
            own.at_least.push(self.run.add(vec![-s(i), s(i - 1), l(i)]));
            self.run.add(vec![s(i), -s(i - 1)]);
            own.raising.push(self.run.add(vec![s(i), -l(i)]));
        }
        for i in 2..=k {
            own.barring.push(self.run.add(vec![-l(i), -s(i - 1)]));
        }
        own.at_least.push(self.run.add(vec![s(k - 1), l(k)]));
        self.run.delete_as(place, self.l);
        for i in 1..k {
            self.delete_pairs(i);
        }
        own
    }

    /// Deletes the copies of the pairs -li -lj with j behind i, by j.
    fn delete_pairs(&mut self, i: usize) {
        let mut pairs: Vec<(usize, usize)> = Vec::new();
        for (place, clause) in self.run.clauses.last_with(-self.l(i)) {
            let &[one, other] = clause else { continue };
            let j = self.position(one).max(self.position(other));
            if j > i {
                pairs.push((j, place));
            }
        }
        pairs.sort_unstable();
        for (j, place) in pairs {
            self.run.delete_as(place, &[-self.l(i), -self.l(j)]);
        }
    }

    /// Replaces the negated literals in all other clauses, and deletes the own clauses that hold one of the choice's.
    fn order_form(&mut self, own: Own) {
        for place in self.places_to_replace(own.at_least[0]) {
            self.replace(place);
        }
        let k = self.k();
        for i in 1..=k {
            let (l, s) = (|i: usize| self.l[i - 1], |i: usize| self.before + i as i32);
            let at_least = own.at_least[i - 1];
            if i == 1 {
                self.run.delete_as(at_least, &[l(1), -s(1)]);
            } else if i < k {
                self.run.delete_as(at_least, &[l(i), -s(i), s(i - 1)]);
            } else {
                self.run.delete_as(at_least, &[l(k), s(k - 1)]);
            }
            if i < k {
                self.run.delete_as(own.raising[i - 1], &[-l(i), s(i)]);
            }
            if i > 1 {
                self.run.delete(own.barring[i - 2]);
            }
        }
    }

    /// The clauses with a negated literal of the choice before its own, in list order.
    fn places_to_replace(&self, first_own: usize) -> Vec<usize> {
        let mut places: Vec<usize> = Vec::new();
        for &literal in self.l {
            let standing = self.run.clauses.last_with(-literal).map(|(place, _)| place);
            places.extend(standing.filter(|&place| place < first_own));
        }
        places.sort_unstable();
        places.dedup();
        places
    }

    /// Puts for each -li of a clause s(i-1) -si, as far as there are such. With -li and -l(i+1) the result is not added, as
    /// it holds si and its negation.
    fn replace(&mut self, place: usize) {
        let Some(clause) = self.run.clauses.get(place) else {
            return;
        };
        let mut result = Vec::with_capacity(clause.len() + 1);
        let mut replaced = 0u128;
        for &literal in clause {
            let i = self.position(literal);
            if i == 0 {
                result.push(literal);
                continue;
            }
            replaced |= 1 << i;
            if i > 1 {
                result.push(self.s(i - 1));
            }
            if i < self.k() {
                result.push(-self.s(i));
            }
        }
        if replaced & (replaced << 1) == 0 {
            self.run.add(result);
        }
        self.run.delete(place);
    }
}
