//! Unit propagation with two watched literals per clause.
//!
//! The trail holds the true literals, each with the clause that implies it. Those before `head` have been
//! propagated, the others wait: a clause that watches the negation of a propagated literal has a true
//! literal. So where none waits, no clause is false and none has just one open literal and no true one;
//! and where a clause is false, its watches wait.

use super::clauses::{Clause, Clauses, Moves, NONE};
use super::variables::{negation, variable, Literal};

const TRUE: i8 = 1;
const OPEN: i8 = 0;
const FALSE: i8 = -1;

/// A clause that watches a literal. Where the blocker, another literal of it, is true, it is not looked at.
#[derive(Clone, Copy)]
struct Watch {
    clause: Clause,
    blocker: Literal,
}

/// What becomes of a watch whose literal is false.
enum Visited {
    /// With this blocker.
    Stays(Literal),
    Leaves,
    /// All literals of the clause are false.
    False,
}

#[derive(Default)]
pub struct Propagation {
    /// By literal.
    values: Vec<i8>,
    /// By literal: the clauses that have it as one of their first two.
    watches: Vec<Vec<Watch>>,
    /// By variable: the clause all of whose other literals are false, or NONE for an assumption.
    reasons: Vec<Clause>,
    /// By variable: its place in the trail.
    places: Vec<u32>,
    trail: Vec<Literal>,
    head: usize,
}

impl Propagation {
    /// Makes the tables long enough for so many variables.
    pub fn grow(&mut self, variables: usize) {
        if variables > self.reasons.len() {
            self.values.resize(variables * 2, OPEN);
            self.watches.resize_with(variables * 2, Vec::new);
            self.reasons.resize(variables, NONE);
            self.places.resize(variables, 0);
        }
    }

    fn value(&self, literal: Literal) -> i8 {
        self.values[literal as usize]
    }

    /// How many literals are true.
    pub fn count(&self) -> usize {
        self.trail.len()
    }

    fn assign(&mut self, literal: Literal, reason: Clause) {
        self.values[literal as usize] = TRUE;
        self.values[negation(literal) as usize] = FALSE;
        self.reasons[variable(literal)] = reason;
        self.places[variable(literal)] = self.trail.len() as u32;
        self.trail.push(literal);
    }

    /// Makes a literal true; false where its negation is true.
    pub fn assume(&mut self, literal: Literal) -> bool {
        if self.value(literal) == OPEN {
            self.assign(literal, NONE);
        }
        self.value(literal) == TRUE
    }

    /// Forgets all but the first true literals, all of which have been propagated.
    pub fn undo(&mut self, kept: usize) {
        for &literal in &self.trail[kept..] {
            self.values[literal as usize] = OPEN;
            self.values[negation(literal) as usize] = OPEN;
        }
        self.trail.truncate(kept);
        self.head = kept;
    }

    /// Propagates what waits; the answer is a false clause, if one was met.
    pub fn propagate(&mut self, clauses: &mut Clauses) -> Option<Clause> {
        while let Some(&literal) = self.trail.get(self.head) {
            let met = self.visit_watches(clauses, negation(literal));
            if met.is_some() {
                return met;
            }
            self.head += 1;
        }
        None
    }

    fn visit_watches(&mut self, clauses: &mut Clauses, falsified: Literal) -> Option<Clause> {
        let mut list = std::mem::take(&mut self.watches[falsified as usize]);
        let (mut kept, mut next) = (0, 0);
        let mut met = None;
        while next < list.len() && met.is_none() {
            let watch = list[next];
            next += 1;
            let visited = if self.value(watch.blocker) == TRUE {
                Visited::Stays(watch.blocker)
            } else {
                self.visit(clauses, watch.clause, falsified)
            };
            let blocker = match visited {
                Visited::Stays(blocker) => blocker,
                Visited::Leaves => continue,
                Visited::False => {
                    met = Some(watch.clause);
                    watch.blocker
                }
            };
            list[kept] = Watch { blocker, ..watch };
            kept += 1;
        }
        list.copy_within(next.., kept);
        list.truncate(kept + list.len() - next);
        self.watches[falsified as usize] = list;
        met
    }

    /// Lets a clause watch another literal than the one that is false, or makes its last literal true.
    fn visit(&mut self, clauses: &mut Clauses, clause: Clause, falsified: Literal) -> Visited {
        if !clauses.stands(clause) {
            return Visited::Leaves;
        }
        let literals = clauses.literals_mut(clause);
        let [first, second, rest @ ..] = literals else {
            return Visited::False;
        };
        if *first == falsified {
            std::mem::swap(first, second);
        }
        let first = *first;
        if self.values[first as usize] == TRUE {
            return Visited::Stays(first);
        }
        for other in rest {
            if self.values[*other as usize] != FALSE {
                std::mem::swap(second, other);
                let watch = Watch {
                    clause,
                    blocker: first,
                };
                self.watches[*second as usize].push(watch);
                return Visited::Leaves;
            }
        }
        if self.values[first as usize] == FALSE {
            return Visited::False;
        }
        self.assign(first, clause);
        Visited::Stays(first)
    }

    /// Watches a new clause, by literals that are not false if it has them. The answer is whether it is false.
    pub fn watch(&mut self, clauses: &mut Clauses, clause: Clause) -> bool {
        let literals = clauses.literals_mut(clause);
        for place in 0..literals.len().min(2) {
            let best = (place..literals.len()).max_by_key(|&at| (self.value(literals[at]), !at));
            literals.swap(place, best.unwrap_or(place));
        }
        match *literals {
            [] => return true,
            [only] => self.watches[only as usize].push(Watch {
                clause,
                blocker: only,
            }),
            [first, second, ..] => {
                let watch = |blocker| Watch { clause, blocker };
                self.watches[first as usize].push(watch(second));
                self.watches[second as usize].push(watch(first));
            }
        }
        self.settle(clauses.literals(clause), clause)
    }

    /// Makes a new clause's first literal true if the others are false. A unit clause becomes the reason of a
    /// true literal, so that deleting the reason before it is cheap.
    fn settle(&mut self, literals: &[Literal], clause: Clause) -> bool {
        let (first, second) = (literals[0], literals.get(1));
        match self.value(first) {
            TRUE if second.is_none() => self.reasons[variable(first)] = clause,
            OPEN if second.is_none_or(|&second| self.value(second) == FALSE) => {
                self.assign(first, clause);
            }
            FALSE => {
                self.wait(negation(first));
                if let Some(&second) = second {
                    self.wait(negation(second));
                }
                return true;
            }
            _ => {}
        }
        false
    }

    /// Lets a true literal be propagated again.
    fn wait(&mut self, literal: Literal) {
        let place = self.places[variable(literal)] as usize;
        if place < self.head {
            self.head -= 1;
            self.exchange(place, self.head);
        }
    }

    fn exchange(&mut self, one: usize, other: usize) {
        self.trail.swap(one, other);
        self.places[variable(self.trail[one])] = one as u32;
        self.places[variable(self.trail[other])] = other as u32;
    }

    /// The literal of which the clause is the reason.
    pub fn implied_by(&self, clauses: &Clauses, clause: Clause) -> Option<Literal> {
        let watched = clauses.literals(clause).iter().take(2).copied();
        let mut implied = watched.filter(|&literal| {
            self.value(literal) == TRUE && self.reasons[variable(literal)] == clause
        });
        implied.next()
    }

    pub fn is_false(&self, clauses: &Clauses, clause: Clause) -> bool {
        let mut literals = clauses.literals(clause).iter();
        literals.all(|&literal| self.value(literal) == FALSE)
    }

    /// Makes a true literal open again.
    pub fn retract(&mut self, literal: Literal) {
        self.wait(literal);
        let place = self.places[variable(literal)] as usize;
        self.exchange(place, self.trail.len() - 1);
        self.trail.pop();
        self.values[literal as usize] = OPEN;
        self.values[negation(literal) as usize] = OPEN;
    }

    /// Lets a clause be visited again, some of whose literals have become open.
    pub fn revisit(&mut self, clauses: &Clauses, clause: Clause) {
        let literals = clauses.literals(clause);
        if literals.iter().any(|&literal| self.value(literal) == TRUE) {
            return;
        }
        if let [only] = *literals {
            if self.value(only) == OPEN {
                self.assign(only, clause);
            }
        }
        for &watched in literals.iter().take(2) {
            if self.value(watched) == FALSE {
                self.wait(negation(watched));
            }
        }
    }

    /// Follows the clauses to their new places.
    pub fn follow(&mut self, moves: &Moves) {
        for list in &mut self.watches {
            list.retain_mut(|watch| {
                let place = moves.place(watch.clause);
                watch.clause = place.unwrap_or(NONE);
                place.is_some()
            });
            list.shrink_to(list.len() * 2);
        }
        for &literal in &self.trail {
            let reason = &mut self.reasons[variable(literal)];
            *reason = moves.place(*reason).unwrap_or(NONE);
        }
    }
}
