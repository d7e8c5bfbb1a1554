//! One reencoding under way: what stands, the log so far, and where clauses went.

use crate::alignment::{align, Outcome};
use crate::clearing::{clear_clashes, delete_pure};
use crate::counter::{choice_places, take_choice};
use crate::log_reading::HIGHEST_VARIABLE;
use crate::order::put_in_order;
use crate::reading::{read_formula, Formula, INPUT_LIMITS};
use crate::standing::Standing;
use crate::texts::Line;
use crate::{Arrangement, ChoiceRecord, Form, Settings};

/// How often the remarkable cases occurred.
#[derive(Debug, Clone, Default, PartialEq, Eq)]
pub struct Tally {
    pub clashes: usize,
    /// A clash with a clause that a clash before it added.
    pub chained_clashes: usize,
    /// A clash whose resolvent holds a literal and its negation.
    pub double_clashes: usize,
    pub empty_resolvents: usize,
    /// A clause deleted for a pure literal.
    pub pure: usize,
    /// A choice with a pure literal when no clash is left.
    pub free_choices: usize,
    /// A free choice that a clash added.
    pub joined_free_choices: usize,
    /// A choice of which no pair stands.
    pub unpaired: usize,
    /// A choice of which some pairs stand, but not all.
    pub partly_paired: usize,
    /// A choice of which all pairs stand.
    pub fully_paired: usize,
    /// A pair of which stage 4 deleted several copies.
    pub repeated_pairs: usize,
    /// A clause with several negated literals of one choice.
    pub several_negated: usize,
    /// An order-form result that holds a literal and its negation.
    pub replaced_by_nothing: usize,
    pub aligned: usize,
    /// Aligned, with links that chain.
    pub chained_links: usize,
    pub unalignable: usize,
}

/// A case, and how often it occurs in a run.
pub type Case = (&'static str, fn(&Tally) -> usize);

/// Choices with no, some and all of their pairs, and pairs in several copies.
pub const PAIRS: [Case; 4] = [
    ("choices with no pair", |tally| tally.unpaired),
    ("choices with some pairs", |tally| tally.partly_paired),
    ("choices with all pairs", |tally| tally.fully_paired),
    ("pairs in several copies", |tally| tally.repeated_pairs),
];

impl Tally {
    /// A clash writes three lines, or two if no resolvent is added.
    pub fn clash_lines(&self) -> usize {
        3 * self.clashes - self.double_clashes
    }

    /// The lines before the first choice is taken.
    pub fn clearing_lines(&self) -> usize {
        self.clash_lines() + self.pure
    }
}

pub struct Encoding {
    pub standing: Standing,
    pub log: Vec<Line>,
    pub input_clauses: usize,
    /// For each place: the places that its clause came from.
    parents: Vec<Vec<usize>>,
    /// For each place: the number of input clauses that went into its clause.
    input_counts: Vec<usize>,
    /// The choices as they were taken, and the places they stood at.
    pub choices: Vec<(usize, Vec<i32>)>,
    /// A record for each choice, in the same order.
    pub table: Vec<ChoiceRecord>,
    /// The highest variable used, at least V.
    pub highest: i32,
    pub tally: Tally,
}

/// The least number above all used that is 1 more than a multiple of the step.
fn first_above(used: i32, step: u32) -> i32 {
    let is_wanted = |number: &i32| (number - 1) % step as i32 == 0;
    (used + 1..).find(is_wanted).expect("numbers do not end")
}

/// The run over the formula of a text. Refuses with 15, then 1 to 4 or 7 to 9, then 11, 16.
pub fn encode(text: &[u8], settings: Settings, workspace: u64) -> Result<Encoding, u8> {
    if !(1..=100).contains(&settings.step) {
        return Err(15);
    }
    let formula = read_formula(text, &INPUT_LIMITS)?;
    if workspace < formula.workspace_needed() {
        return Err(11);
    }
    let encoding = Encoding::run(&formula, settings);
    if i64::from(encoding.highest) > HIGHEST_VARIABLE {
        return Err(16);
    }
    Ok(encoding)
}

impl Encoding {
    /// The step is from 1 to 100.
    pub fn run(formula: &Formula, settings: Settings) -> Encoding {
        let mut encoding = Encoding {
            standing: Standing::new(&formula.clauses),
            log: Vec::new(),
            input_clauses: formula.clauses.len(),
            parents: vec![Vec::new(); formula.clauses.len()],
            input_counts: vec![1; formula.clauses.len()],
            choices: Vec::new(),
            table: Vec::new(),
            highest: formula.variables,
            tally: Tally::default(),
        };
        clear_clashes(&mut encoding, formula.variables);
        delete_pure(&mut encoding);
        encoding.choose(settings.arrangement);
        for (place, choice) in encoding.choices.clone() {
            encoding.take(place, &choice, settings);
        }
        encoding
    }

    /// Finds the choices, and aligns them if that is wished.
    fn choose(&mut self, arrangement: Arrangement) {
        let places = choice_places(&self.standing);
        let mut choices: Vec<Vec<i32>> = places.iter().map(|&p| self.clause(p)).collect();
        if arrangement == Arrangement::Alignment {
            match align(&mut choices, &self.standing.clauses()) {
                Outcome::Aligned { chained } => {
                    self.tally.aligned += 1;
                    self.tally.chained_links += usize::from(chained);
                }
                Outcome::Unalignable => self.tally.unalignable += 1,
                Outcome::Unlinked => {}
            }
        }
        self.choices = places.into_iter().zip(choices).collect();
    }

    /// Takes one choice, with new variables that follow the first one by one.
    fn take(&mut self, place: usize, choice: &[i32], settings: Settings) {
        let first = first_above(self.highest, settings.step);
        let new: Vec<i32> = (first..).take(choice.len() - 1).collect();
        self.highest = *new.last().expect("a choice has at least five literals");
        self.table.push(ChoiceRecord {
            first,
            length: choice.len(),
            clauses: self.input_counts[place],
        });
        let own = take_choice(self, choice, &new);
        if settings.form == Form::Order {
            put_in_order(self, choice, &new, &own);
        }
    }

    /// Writes an addition and does it; the answer is the new clause's place. What went into the parents went into it.
    pub fn add(&mut self, literals: Vec<i32>, parents: &[usize]) -> usize {
        self.log.push(Line {
            deletion: false,
            literals: literals.clone(),
        });
        self.parents.push(parents.to_vec());
        let counts = parents.iter().map(|&parent| self.input_counts[parent]);
        self.input_counts.push(counts.sum());
        self.standing.add(literals)
    }

    /// Writes a deletion and does it.
    pub fn delete(&mut self, literals: Vec<i32>) {
        let taken = self.standing.delete(&literals);
        assert!(taken.is_some(), "{literals:?} does not stand");
        self.log.push(Line {
            deletion: true,
            literals,
        });
    }

    /// The standing clause at a place.
    pub fn clause(&self, place: usize) -> Vec<i32> {
        self.standing
            .clause(place)
            .expect("a clause stands here")
            .to_vec()
    }

    /// The input clauses (by index) that go into some choice.
    pub fn input_clauses_in_choices(&self) -> Vec<usize> {
        let mut reached = vec![false; self.parents.len()];
        let mut open: Vec<usize> = self.choices.iter().map(|&(place, _)| place).collect();
        while let Some(place) = open.pop() {
            if !reached[place] {
                reached[place] = true;
                open.extend(&self.parents[place]);
            }
        }
        (0..self.input_clauses).filter(|&p| reached[p]).collect()
    }
}
