//! Valleys: each trap gets one of the lures, and traps in scent range must not hold the same one.

use crate::generator::Random;
use crate::reading::Formula;

pub struct Valley {
    pub traps: usize,
    pub lures: usize,
    /// Pairs of traps in scent range, numbered from 0.
    pub in_range: Vec<(usize, usize)>,
    /// Lures that a trap may hold whatever its neighbours hold.
    pub free: Vec<(usize, usize)>,
}

impl Valley {
    /// Traps in random places, the nearest pairs of them in scent range.
    pub fn random(random: &mut Random, traps: usize, lures: usize, pairs: usize) -> Valley {
        const SIDE: usize = 10_000;
        let places: Vec<(i64, i64)> = (0..traps)
            .map(|_| (random.below(SIDE) as i64, random.below(SIDE) as i64))
            .collect();
        let mut near: Vec<(i64, usize, usize)> = Vec::new();
        for (one, &(x, y)) in places.iter().enumerate() {
            for (other, &(u, v)) in places.iter().enumerate().skip(one + 1) {
                near.push(((x - u) * (x - u) + (y - v) * (y - v), one, other));
            }
        }
        near.sort_unstable();
        near.truncate(pairs);
        Valley {
            traps,
            lures,
            in_range: near
                .into_iter()
                .map(|(_, one, other)| (one, other))
                .collect(),
            free: Vec::new(),
        }
    }

    /// A crowd, the first traps, all in scent range of each other, and more traps around it: each in range of two to
    /// four that come before it. With fewer lures than the crowd has traps there is no plan; with as many, and at
    /// least five, there is one.
    pub fn crowded(random: &mut Random, crowd: usize, lures: usize, around: usize) -> Valley {
        let mut in_range: Vec<(usize, usize)> = (0..crowd)
            .flat_map(|other| (0..other).map(move |one| (one, other)))
            .collect();
        for trap in crowd..crowd + around {
            let mut before: Vec<usize> = (0..trap).collect();
            random.shuffle(&mut before);
            let near = before.iter().take(random.between(2, 4));
            in_range.extend(near.map(|&one| (one, trap)));
        }
        Valley {
            traps: crowd + around,
            lures,
            in_range,
            free: Vec::new(),
        }
    }

    /// That the trap holds the lure.
    fn holds(&self, trap: usize, lure: usize) -> i32 {
        (trap * self.lures + lure + 1) as i32
    }

    pub fn formula(&self) -> Formula {
        let mut clauses: Vec<Vec<i32>> = (0..self.traps)
            .map(|trap| (0..self.lures).map(|lure| self.holds(trap, lure)).collect())
            .collect();
        for &(one, other) in &self.in_range {
            for lure in 0..self.lures {
                if !self.free.contains(&(one, lure)) && !self.free.contains(&(other, lure)) {
                    clauses.push(vec![-self.holds(one, lure), -self.holds(other, lure)]);
                }
            }
        }
        Formula::new((self.traps * self.lures) as i32, clauses)
    }

    /// The formula with its clauses, and the literals of each, in random order.
    pub fn shuffled_formula(&self, random: &mut Random) -> Formula {
        let mut formula = self.formula();
        for clause in &mut formula.clauses {
            random.shuffle(clause);
        }
        random.shuffle(&mut formula.clauses);
        formula
    }
}

#[cfg(test)]
mod tests {
    use super::*;
    use crate::encoding::Encoding;
    use crate::generator::text_of;
    use crate::reading::{read_formula, INPUT_LIMITS};
    use crate::{Arrangement, Form, Settings};

    #[test]
    fn a_crowd_is_in_range_of_each_other() {
        for seed in 0..20 {
            let valley = Valley::crowded(&mut Random::new(seed), 9, 8, 40);
            let within = |&&(one, other): &&(usize, usize)| one.max(other) < 9;
            assert_eq!(valley.in_range.iter().filter(within).count(), 9 * 8 / 2);
            for trap in 9..49 {
                let before = |&&(one, other): &&(usize, usize)| other == trap && one < trap;
                assert!((2..=4).contains(&valley.in_range.iter().filter(before).count()));
            }
            let mut pairs = valley.in_range.clone();
            pairs.sort_unstable();
            pairs.dedup();
            assert_eq!(pairs.len(), valley.in_range.len());
        }
    }

    #[test]
    fn a_shuffled_crowd_is_accepted_and_aligned() {
        let random = &mut Random::new(1);
        let valley = Valley::crowded(random, 9, 8, 40);
        let formula = valley.shuffled_formula(random);
        assert_eq!(
            read_formula(&text_of(&formula), &INPUT_LIMITS),
            Ok(formula.clone())
        );
        for form in [Form::Counter, Form::Order] {
            let listed = Encoding::run(&formula, Settings::new(form, Arrangement::AsListed));
            let aligned = Encoding::run(&formula, Settings::new(form, Arrangement::Alignment));
            assert_eq!((aligned.choices.len(), aligned.tally.aligned), (49, 1));
            assert_ne!(listed.log, aligned.log);
        }
    }
}
