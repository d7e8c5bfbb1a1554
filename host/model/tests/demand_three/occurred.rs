//! How often the cases occurred.

use crate::back::FULL;
use crate::forward::Forward;
use crate::records::used;
use model::encoding::{Encoding, Tally};
use model::generator::{clauses_with_repeat, repeats_in_choices, Joined};
use model::reading::Formula;
use model::{Arrangement, ChoiceRecord, Form, Settings};

#[derive(Default, Debug)]
pub struct Occurred {
    pub formulas: usize,
    pub satisfiable: usize,
    pub lines: usize,
    pub with_choice: usize,
    pub with_two_choices: usize,
    pub with_joined_choice: usize,
    pub with_free_choice: usize,
    pub with_joined_free_choice: usize,
    /// A free choice beside another choice.
    pub with_free_of_two_choices: usize,
    pub satisfiable_with_free_choice: usize,
    pub satisfiable_with_joined_free_choice: usize,
    pub with_repeat: usize,
    /// A clause with a repeat that goes into a choice.
    pub with_repeat_in_choice: usize,
    pub left_out: usize,
    /// A clause left out of a formula with a choice.
    pub left_out_beside_choice: usize,
    pub tally: Tally,
    /// Of the satisfiable formulas, in counter form and in order form.
    pub satisfiable_tallies: [Tally; 2],
    pub forward: Forward,
    /// Of the satisfiable formulas with a step above 1, in counter form and in order form, listed and aligned.
    pub stepped: [Stepped; 4],
}

/// Runs with a step above 1.
#[derive(Default, Debug)]
pub struct Stepped {
    pub choices: usize,
    /// A number above V is skipped.
    pub skipping: usize,
    /// The same, and the truth tables are over all numbers.
    pub skipping_within_full: usize,
    pub two_choices: usize,
    /// A number is skipped between two choices.
    pub skipping_between: usize,
    /// A record of two and more input clauses.
    pub joined: usize,
    /// A record of three and more input clauses.
    pub joined_of_three: usize,
}

impl Stepped {
    fn count(&mut self, formula: &Formula, encoding: &Encoding) {
        let table = &encoding.table;
        let skips = encoding.highest > used(formula, encoding).len() as i32;
        let is_apart = |records: &[ChoiceRecord]| {
            let [one, next] = [&records[0], &records[1]];
            next.first > one.first + one.length as i32 - 1
        };
        let of = |least: usize| table.iter().any(|record| record.clauses >= least);
        self.choices += table.len();
        self.skipping += usize::from(skips);
        self.skipping_within_full += usize::from(skips && encoding.highest <= FULL);
        self.two_choices += usize::from(table.len() > 1);
        self.skipping_between += usize::from(table.windows(2).any(is_apart));
        self.joined += usize::from(of(2));
        self.joined_of_three += usize::from(of(3));
    }
}

impl Occurred {
    pub fn count(&mut self, joined: &Joined, encoding: &Encoding) {
        let tally = &encoding.tally;
        self.formulas += 1;
        self.lines += encoding.log.len();
        self.with_choice += usize::from(!encoding.choices.is_empty());
        self.with_two_choices += usize::from(encoding.choices.len() > 1);
        self.with_joined_choice += usize::from(
            encoding
                .choices
                .iter()
                .any(|&(place, _)| place >= encoding.input_clauses),
        );
        let has_free = tally.free_choices > 0;
        self.with_free_choice += usize::from(has_free);
        self.with_joined_free_choice += usize::from(tally.joined_free_choices > 0);
        self.with_free_of_two_choices += usize::from(has_free && encoding.choices.len() > 1);
        self.with_repeat += clauses_with_repeat(&joined.text).len();
        self.with_repeat_in_choice += repeats_in_choices(&joined.text, encoding);
        self.left_out += joined.formula.left_out;
        if !encoding.choices.is_empty() {
            self.left_out_beside_choice += joined.formula.left_out;
        }
        add_up(&mut self.tally, tally);
    }

    pub fn count_satisfiable(
        &mut self,
        formula: &Formula,
        encoding: &Encoding,
        settings: Settings,
    ) {
        let tally = &encoding.tally;
        let form = usize::from(settings.form == Form::Order);
        let aligned = usize::from(settings.arrangement == Arrangement::Alignment);
        add_up(&mut self.satisfiable_tallies[form], tally);
        if settings.step > 1 {
            self.stepped[2 * form + aligned].count(formula, encoding);
        }
        self.satisfiable += 1;
        self.satisfiable_with_free_choice += usize::from(tally.free_choices > 0);
        self.satisfiable_with_joined_free_choice += usize::from(tally.joined_free_choices > 0);
    }
}

pub fn add_up(total: &mut Tally, tally: &Tally) {
    total.clashes += tally.clashes;
    total.chained_clashes += tally.chained_clashes;
    total.double_clashes += tally.double_clashes;
    total.empty_resolvents += tally.empty_resolvents;
    total.pure += tally.pure;
    total.free_choices += tally.free_choices;
    total.joined_free_choices += tally.joined_free_choices;
    total.unpaired += tally.unpaired;
    total.partly_paired += tally.partly_paired;
    total.fully_paired += tally.fully_paired;
    total.repeated_pairs += tally.repeated_pairs;
    total.several_negated += tally.several_negated;
    total.replaced_by_nothing += tally.replaced_by_nothing;
    total.aligned += tally.aligned;
    total.unalignable += tally.unalignable;
    total.chained_links += tally.chained_links;
}
