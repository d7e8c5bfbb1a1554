//! The formula as a list: the clauses that stand, in list order.

use std::collections::{BTreeSet, HashMap};

/// A clause gets a place when it is read or added, and keeps it: list order is
/// the order of places, and the place of a deleted clause stays empty.
pub struct Standing {
    places: Vec<Option<Vec<i32>>>,
    holding: HashMap<i32, BTreeSet<usize>>,
    same_set: HashMap<Vec<i32>, BTreeSet<usize>>,
}

fn as_set(literals: &[i32]) -> Vec<i32> {
    let mut set = literals.to_vec();
    set.sort_unstable();
    set
}

impl Standing {
    pub fn new(clauses: &[Vec<i32>]) -> Self {
        let mut standing = Standing {
            places: Vec::new(),
            holding: HashMap::new(),
            same_set: HashMap::new(),
        };
        for clause in clauses {
            standing.add(clause.clone());
        }
        standing
    }

    /// An addition goes to the end; the answer is its place.
    pub fn add(&mut self, literals: Vec<i32>) -> usize {
        let place = self.places.len();
        for &literal in &literals {
            self.holding.entry(literal).or_default().insert(place);
        }
        self.same_set
            .entry(as_set(&literals))
            .or_default()
            .insert(place);
        self.places.push(Some(literals));
        place
    }

    /// The first standing clause with the same set of literals.
    pub fn find(&self, literals: &[i32]) -> Option<usize> {
        self.same_set.get(&as_set(literals))?.first().copied()
    }

    /// A deletion takes the first standing clause with the same set of literals.
    /// The answer is the place it had, or nothing if there is none.
    pub fn delete(&mut self, literals: &[i32]) -> Option<usize> {
        let set = as_set(literals);
        let copies = self.same_set.get_mut(&set)?;
        let place = copies.pop_first()?;
        if copies.is_empty() {
            self.same_set.remove(&set);
        }
        for literal in set {
            if let Some(holders) = self.holding.get_mut(&literal) {
                holders.remove(&place);
            }
        }
        self.places[place] = None;
        Some(place)
    }

    pub fn clause(&self, place: usize) -> Option<&[i32]> {
        self.places[place].as_deref()
    }

    /// The places of the standing clauses that hold the literal, in list order.
    pub fn places_holding(&self, literal: i32) -> Vec<usize> {
        match self.holding.get(&literal) {
            Some(holders) => holders.iter().copied().collect(),
            None => Vec::new(),
        }
    }

    pub fn count_holding(&self, literal: i32) -> usize {
        self.holding.get(&literal).map_or(0, BTreeSet::len)
    }

    /// The places of all standing clauses, in list order.
    pub fn all_places(&self) -> Vec<usize> {
        (0..self.places.len())
            .filter(|&place| self.places[place].is_some())
            .collect()
    }

    /// All standing clauses, in list order.
    pub fn clauses(&self) -> Vec<Vec<i32>> {
        self.places.iter().flatten().cloned().collect()
    }

    /// A unique literal clause has at least one literal, and none of its
    /// literals stands in another clause.
    pub fn is_unique_literal_clause(&self, place: usize) -> bool {
        match self.clause(place) {
            Some(literals) => {
                !literals.is_empty()
                    && literals
                        .iter()
                        .all(|&literal| self.count_holding(literal) == 1)
            }
            None => false,
        }
    }

    /// The unique literal clause that holds the literal, if there is one.
    pub fn unique_literal_clause_with(&self, literal: i32) -> Option<usize> {
        if self.count_holding(literal) != 1 {
            return None;
        }
        let place = *self.holding.get(&literal)?.first()?;
        self.is_unique_literal_clause(place).then_some(place)
    }
}

/// Whether a literal and its negation are both there.
pub fn holds_opposites(literals: &[i32]) -> bool {
    let set: std::collections::HashSet<i32> = literals.iter().copied().collect();
    set.iter().any(|literal| set.contains(&-literal))
}
