//! The standing clauses of a proof, and what follows from them.

use super::clauses::{Clause, Clauses};
use super::occurrences::Occurrences;
use super::propagation::Propagation;
use super::variables::{negation, variable, Literal, Variables};

/// Why a clause may be added.
#[derive(Debug, Clone, Copy, PartialEq, Eq)]
pub enum Ground {
    /// It follows by unit propagation.
    Propagation,
    /// Its resolvents on its first literal do, or there are none. Clauses that hold a literal and its negation
    /// do not count.
    Resolvents,
}

/// The standing clauses, a multiset of sets of literals, and all that is true by unit propagation.
///
/// ```
/// use sirgholyn::drat::Checker;
/// let mut checker = Checker::new([[1, 2], [-1, 2], [1, -2], [-1, -2]]);
/// assert!(!checker.follows(&[]));
/// assert!(checker.follows(&[2]));
/// checker.add(&[2]);
/// assert!(checker.follows(&[]));
/// assert!(checker.delete(&[-2, 1]) && !checker.delete(&[1, -2]));
/// assert!(!checker.follows(&[]));
/// ```
#[derive(Default)]
pub struct Checker {
    variables: Variables,
    clauses: Clauses,
    occurrences: Occurrences,
    propagation: Propagation,
    /// A clause that is false by propagation.
    conflict: Option<Clause>,
    /// Whether an empty clause has been added.
    refuted: bool,
    line: Line,
    collections: u64,
}

/// The distinct literals of the clause that is looked at, in its order.
#[derive(Default)]
struct Line {
    literals: Vec<Literal>,
    /// By literal: the number of the line that held it last.
    marks: Vec<u32>,
    number: u32,
}

impl Line {
    fn clear(&mut self) {
        self.literals.clear();
        self.number = self.number.wrapping_add(1);
        if self.number == 0 {
            self.marks.fill(0);
            self.number = 1;
        }
    }

    /// Takes a literal in, unless it is there.
    fn put(&mut self, literal: Literal) {
        if !self.holds(literal) {
            self.marks[literal as usize] = self.number;
            self.literals.push(literal);
        }
    }

    fn holds(&self, literal: Literal) -> bool {
        self.marks[literal as usize] == self.number
    }
}

impl Checker {
    /// The clauses of a formula.
    pub fn new<C: AsRef<[i32]>>(clauses: impl IntoIterator<Item = C>) -> Checker {
        let mut checker = Checker::default();
        for clause in clauses {
            checker.add(clause.as_ref());
        }
        checker
    }

    /// Adds a clause, whether it follows or not. Panics where it has no room ([`Checker::has_room`]).
    pub fn add(&mut self, literals: &[i32]) {
        self.read(literals);
        self.add_line();
    }

    /// Takes out a clause with the same set of literals; false if none stands.
    pub fn delete(&mut self, literals: &[i32]) -> bool {
        self.line.clear();
        for &literal in literals {
            match self.variables.find(literal) {
                Some(literal) => self.line.put(literal),
                None => return false,
            }
        }
        let found = self.clauses.find(
            &self.line.literals,
            |literal| self.line.holds(literal),
            |clause| self.is_in_use(clause),
        );
        if let Some(clause) = found {
            self.delete_clause(clause);
        }
        found.is_some()
    }

    /// Whether a clause may be added.
    pub fn follows(&mut self, literals: &[i32]) -> bool {
        self.ground(literals).is_some()
    }

    /// Why a clause may be added, if it may. Propagation is tried first, unless no clause holds the first
    /// literal's negation.
    pub fn ground(&mut self, literals: &[i32]) -> Option<Ground> {
        self.read(literals);
        let ground = self.ground_of_line(&mut || {});
        self.release_unused();
        ground
    }

    /// Adds a clause if it may be added; calls `tick` for each clause that it is resolved with.
    pub fn add_if_follows(&mut self, literals: &[i32], tick: &mut dyn FnMut()) -> Option<Ground> {
        self.read(literals);
        let ground = self.ground_of_line(tick);
        match ground {
            Some(_) => self.add_line(),
            None => self.release_unused(),
        }
        ground
    }

    /// Whether an empty clause has been added, be it deleted since or not.
    pub fn refuted(&self) -> bool {
        self.refuted
    }

    /// Whether a clause of so many literals can be added. All together may have some four thousand million.
    pub fn has_room(&self, literals: usize) -> bool {
        self.clauses.has_room(literals)
    }

    /// How often the deleted clauses have been cleared away.
    pub fn collections(&self) -> u64 {
        self.collections
    }

    /// Makes a clause the line, with numbers for all its variables.
    fn read(&mut self, literals: &[i32]) {
        self.line.clear();
        for &literal in literals {
            let own = self.variables.find_or_number(literal);
            if own as usize >= self.line.marks.len() {
                self.grow();
            }
            self.line.put(own);
        }
    }

    fn grow(&mut self) {
        let variables = self.variables.count();
        self.line.marks.resize(variables * 2, 0);
        self.occurrences.grow(variables);
        self.propagation.grow(variables);
    }

    fn add_line(&mut self) {
        let clause = self.clauses.append(&self.line.literals);
        self.occurrences.add(&self.clauses, clause);
        let is_empty = self.line.literals.is_empty();
        self.refuted |= is_empty;
        let is_false = self.propagation.watch(&mut self.clauses, clause);
        if is_false && (is_empty || self.conflict.is_none()) {
            self.conflict = Some(clause);
        }
        self.propagate();
    }

    fn propagate(&mut self) {
        if self.conflict.is_none() {
            self.conflict = self.propagation.propagate(&mut self.clauses);
        }
    }

    fn ground_of_line(&mut self, tick: &mut dyn FnMut()) -> Option<Ground> {
        if self.conflict.is_some() {
            return Some(Ground::Propagation);
        }
        let pivot = *self.line.literals.first()?;
        if self.occurrences.count(negation(pivot)) == 0 {
            return Some(Ground::Resolvents);
        }
        let kept = self.propagation.count();
        let mut negations = self.line.literals.iter().map(|&literal| negation(literal));
        let by_propagation = negations.any(|literal| !self.propagation.assume(literal))
            || self.propagation.propagate(&mut self.clauses).is_some();
        let ground = if by_propagation {
            Some(Ground::Propagation)
        } else {
            self.resolvents_follow(pivot, tick)
                .then_some(Ground::Resolvents)
        };
        self.propagation.undo(kept);
        ground
    }

    /// Whether each resolvent follows by propagation, where that from the line's literals has been done.
    fn resolvents_follow(&mut self, pivot: Literal, tick: &mut dyn FnMut()) -> bool {
        let partners = self.occurrences.take(&self.clauses, negation(pivot));
        let follow = partners.iter().all(|&partner| {
            tick();
            self.resolvent_follows(pivot, partner)
        });
        self.occurrences.put(negation(pivot), partners);
        follow
    }

    /// A partner that holds the pivot as well is true by any assignment, and its resolvent need not follow.
    fn resolvent_follows(&mut self, pivot: Literal, partner: Clause) -> bool {
        let kept = self.propagation.count();
        let literals = self.clauses.literals(partner).iter();
        let mut others = literals.filter(|&&literal| literal != negation(pivot));
        let follows = others
            .any(|&literal| literal == pivot || !self.propagation.assume(negation(literal)))
            || self.propagation.propagate(&mut self.clauses).is_some();
        self.propagation.undo(kept);
        follows
    }

    /// Whether what is known to be true or false rests on the clause.
    fn is_in_use(&self, clause: Clause) -> bool {
        let implied = self.propagation.implied_by(&self.clauses, clause);
        self.conflict == Some(clause) || implied.is_some()
    }

    /// Deletes a clause whose literals are the line's.
    fn delete_clause(&mut self, clause: Clause) {
        self.clauses.kill(clause);
        self.occurrences.delete(&self.clauses, clause);
        if let Some(literal) = self.propagation.implied_by(&self.clauses, clause) {
            self.retract(literal);
        }
        let propagation = &self.propagation;
        self.conflict = self.conflict.filter(|&conflict| {
            conflict != clause && propagation.is_false(&self.clauses, conflict)
        });
        self.propagate();
        self.release_unused();
        if self.clauses.wants_collection(self.variables.count()) {
            self.collect();
        }
    }

    /// Makes a literal open whose reason is gone, and all that are true because of it.
    ///
    /// A clause that was true by one of these only may have a false watch that has been propagated, and
    /// would not be visited again; so the false watches of all clauses that hold one of them are to wait.
    fn retract(&mut self, literal: Literal) {
        self.propagation.retract(literal);
        let mut retracted = vec![literal];
        let mut next = 0;
        while let Some(&literal) = retracted.get(next) {
            self.retract_implied(literal, &mut retracted);
            next += 1;
        }
        for literal in retracted {
            self.revisit(literal);
            self.revisit(negation(literal));
        }
    }

    /// Makes the literals open that are true because of this one.
    fn retract_implied(&mut self, literal: Literal, retracted: &mut Vec<Literal>) {
        let clauses = self.occurrences.take(&self.clauses, negation(literal));
        for &clause in &clauses {
            if let Some(implied) = self.propagation.implied_by(&self.clauses, clause) {
                self.propagation.retract(implied);
                retracted.push(implied);
            }
        }
        self.occurrences.put(negation(literal), clauses);
    }

    fn revisit(&mut self, literal: Literal) {
        let clauses = self.occurrences.take(&self.clauses, literal);
        for &clause in &clauses {
            self.propagation.revisit(&self.clauses, clause);
        }
        self.occurrences.put(literal, clauses);
    }

    /// Takes the numbers back of the line's variables that no clause holds.
    fn release_unused(&mut self) {
        for &literal in &self.line.literals {
            let comes_twice = self.line.holds(negation(literal));
            let is_counted = !comes_twice || literal < negation(literal);
            if is_counted && self.occurrences.none_of(literal) {
                self.variables.release(variable(literal));
            }
        }
    }

    fn collect(&mut self) {
        let moves = self.clauses.collect();
        self.propagation.follow(&moves);
        self.occurrences.follow(&moves);
        self.conflict = self.conflict.and_then(|clause| moves.place(clause));
        self.collections += 1;
    }
}
