//! Rows drawn from a seed: so many of each case.

use crate::calls::{
    carrying, carrying_astray, choice_of_20, free_clause, linked_choices, reading_back, reencoding,
    sizing, small, small_cut, small_freed, small_paired, unique_clause, ARRANGEMENTS, FORMS,
};
use crate::rows::{Call, Row, Way, READER};
use model::encoding::{Encoding, PAIRS};
use model::generator::{clauses_with_repeat, joined, text_of, Random};
use model::reading::{read_formula, INPUT_LIMITS, READ_BACK_LIMITS};
use model::{Arrangement, Form, Settings};

pub fn rows(seed: u64) -> Vec<Row> {
    let mut drawn = Drawn {
        random: Random::new(seed),
        rows: Vec::new(),
    };
    for form in FORMS {
        drawn.reencodings(form);
        drawn.aligned(form);
        drawn.walk_backs(form);
        drawn.read_backs(form);
        drawn.twenty(form);
    }
    drawn.refused_reencodings();
    drawn.refused_read_backs();
    drawn.refused_walk_backs();
    drawn.clause_sizes();
    for form in FORMS {
        drawn.free_choices(form);
    }
    drawn.free_clause_sizes();
    for form in FORMS {
        drawn.pairs(form);
    }
    for form in FORMS {
        for arrangement in ARRANGEMENTS {
            drawn.steps(form, arrangement);
        }
    }
    for form in FORMS {
        drawn.forwards(form);
        drawn.forwards_with_choices(form);
    }
    drawn.refused_forwards();
    for form in FORMS {
        for arrangement in ARRANGEMENTS {
            drawn.sizes(form, arrangement);
            drawn.sizes_with_steps(form, arrangement);
        }
        drawn.sizes_with_pairs(form);
        drawn.sizes_that_alignment_changes(form);
    }
    drawn.refused_sizes();
    drawn.rows
}

/// Steps that are allowed, above 1.
const STEPS: [u32; 5] = [2, 3, 7, 39, 100];

fn aligned(form: Form) -> Settings {
    Settings::new(form, Arrangement::Alignment)
}

fn with_any_step(random: &mut Random, form: Form, arrangement: Arrangement) -> Settings {
    Settings {
        step: *random.one_of(&STEPS),
        ..Settings::new(form, arrangement)
    }
}

fn any_settings(random: &mut Random, steps: &[u32]) -> Settings {
    let (form, arrangement) = (*random.one_of(&FORMS), *random.one_of(&ARRANGEMENTS));
    Settings {
        step: *random.one_of(steps),
        ..Settings::new(form, arrangement)
    }
}

struct Drawn {
    random: Random,
    rows: Vec<Row>,
}

fn has(row: &Row, what: impl Fn(&Encoding) -> bool) -> bool {
    row.run().is_some_and(|run| what(&run))
}

fn reads_back_without_a_clause(row: &Row) -> bool {
    let Call::ReadBack { text, .. } = &row.call else {
        return false;
    };
    read_formula(text, &READ_BACK_LIMITS).is_ok_and(|formula| formula.left_out > 0)
}

/// The clause of the size is written with a repeat, and no clause is left out.
fn has_repeat_in_clause_of(row: &Row, size: usize) -> bool {
    let Call::Choose { text } = &row.call else {
        return false;
    };
    read_formula(text, &INPUT_LIMITS).is_ok_and(|formula| {
        let is_of_size = |&place: &usize| formula.clauses[place].len() == size;
        formula.left_out == 0 && clauses_with_repeat(text).iter().any(is_of_size)
    })
}

impl Drawn {
    /// Draws until there are so many rows more, each other than those before it.
    #[track_caller]
    fn add(
        &mut self,
        wanted: usize,
        draw: impl Fn(&mut Random) -> Call,
        is_wanted: impl Fn(&Row) -> bool,
    ) {
        let whole = self.rows.len() + wanted;
        for _ in 0..100_000 {
            if self.rows.len() == whole {
                return;
            }
            let row = Row::of(draw(&mut self.random));
            if is_wanted(&row) && !self.rows.contains(&row) {
                self.rows.push(row);
            }
        }
        panic!("this case is too rare");
    }

    fn reencodings(&mut self, form: Form) {
        for arrangement in ARRANGEMENTS {
            let draw = |random: &mut Random| {
                reencoding(small(random), random, Settings::new(form, arrangement), 5)
            };
            self.add(20, draw, |_| true);
            self.add(20, draw, |row| has(row, |run| !run.choices.is_empty()));
            self.add(6, draw, |row| has(row, |run| run.tally.chained_clashes > 0));
            self.add(4, draw, |row| has(row, |run| run.tally.double_clashes > 0));
            self.add(2, draw, |row| {
                has(row, |run| run.tally.empty_resolvents > 0)
            });
            self.add(4, draw, |row| has(row, |run| run.tally.pure > 0));
            self.add(3, draw, |row| row.repeats_in_choices() > 0);
        }
    }

    fn aligned(&mut self, form: Form) {
        let draw = |random: &mut Random| reencoding(small(random), random, aligned(form), 0);
        self.add(10, draw, Row::alignment_matters);
        self.add(4, draw, |row| has(row, |run| run.tally.unalignable > 0));
        let draw =
            |random: &mut Random| reencoding(linked_choices(random), random, aligned(form), 0);
        self.add(1, draw, Row::alignment_matters);
    }

    fn walk_backs(&mut self, form: Form) {
        let draw = |random: &mut Random| carrying(Way::Back, small(random), random, form, 0);
        self.add(15, draw, |row| row.number() == 0 && !row.is_cut());
        self.add(15, draw, |row| row.number() == 0 && row.is_cut());
        self.add(10, draw, |row| row.is_changed() && !row.is_cut());
        self.add(10, draw, |row| row.is_changed() && row.is_cut());
    }

    fn read_backs(&mut self, form: Form) {
        let draw = |random: &mut Random| reading_back(small(random).formula, random, form, 0);
        self.add(10, draw, |_| true);
        self.add(2, draw, reads_back_without_a_clause);
    }

    /// The whole log of a choice of 20, written and walked back.
    fn twenty(&mut self, form: Form) {
        let draw = |random: &mut Random| {
            let settings = Settings::new(form, Arrangement::AsListed);
            reencoding(choice_of_20(random), random, settings, 0)
        };
        self.add(1, draw, |_| true);
        let draw = |random: &mut Random| carrying(Way::Back, choice_of_20(random), random, form, 0);
        self.add(1, draw, |row| row.number() == 0 && !row.is_cut());
    }

    fn refused_reencodings(&mut self) {
        let draw = |random: &mut Random| {
            let settings = any_settings(random, &[1, 1, 1, 2, 3, 7, 39, 100, 0, 101]);
            reencoding(small(random), random, settings, 50)
        };
        for number in READER.into_iter().chain(11..=13).chain([15, 17]) {
            self.add(6, draw, |row| row.number() == number);
        }
        let is_short_by = |row: &Row, table: usize| {
            let Call::Reencode(call) = &row.call else {
                return false;
            };
            row.number() == 17 && call.room.table == table
        };
        let draw = |random: &mut Random| {
            let settings = any_settings(random, &STEPS);
            reencoding(linked_choices(random), random, settings, 50)
        };
        self.add(2, draw, |row| is_short_by(row, 0));
        self.add(2, draw, |row| is_short_by(row, 2));
    }

    fn refused_read_backs(&mut self) {
        let draw = |random: &mut Random| {
            let form = *random.one_of(&FORMS);
            reading_back(small(random).formula, random, form, 50)
        };
        for number in READER.into_iter().chain([11]) {
            self.add(2, draw, |row| row.number() == number);
        }
    }

    fn refused_walk_backs(&mut self) {
        let draw = |random: &mut Random| {
            let form = *random.one_of(&FORMS);
            carrying(Way::Back, small(random), random, form, 40)
        };
        for number in READER {
            self.add(1, draw, |row| row.number() == number);
        }
        for number in [11, 14, 31, 32, 33, 34, 41, 42, 43, 44] {
            self.add(6, draw, |row| row.number() == number);
        }
    }

    /// Clauses of 5 to 64 literals are choices. The log of 64 is too long for the checker.
    fn clause_sizes(&mut self) {
        for size in [4, 5, 64, 65] {
            let draw = |random: &mut Random| Call::Choose {
                text: text_of(&unique_clause(random, size)),
            };
            self.add(2, draw, |_| true);
            let draw = |random: &mut Random| {
                let formula = unique_clause(random, size);
                let text = joined(random, &formula).text;
                Call::Choose { text }
            };
            self.add(1, draw, |row| has_repeat_in_clause_of(row, size));
        }
        for size in [4, 5, 65] {
            let draw = |random: &mut Random| {
                let formula = unique_clause(random, size);
                reencoding(formula, random, aligned(Form::Order), 0)
            };
            self.add(1, draw, |_| true);
        }
    }

    /// Choices with a pure literal, written and walked back.
    fn free_choices(&mut self, form: Form) {
        for arrangement in ARRANGEMENTS {
            let settings = Settings::new(form, arrangement);
            let draw = |random: &mut Random| reencoding(small_freed(random), random, settings, 0);
            self.add(3, draw, |row| has(row, |run| run.tally.free_choices > 0));
            self.add(1, draw, |row| {
                has(row, |run| run.tally.joined_free_choices > 0)
            });
        }
        let draw = |random: &mut Random| carrying(Way::Back, small_freed(random), random, form, 0);
        let is_wanted = |row: &Row| row.tally().free_choices > 0 && row.is_changed();
        self.add(2, draw, |row| is_wanted(row) && !row.is_cut());
        self.add(3, draw, |row| is_wanted(row) && row.is_cut());
    }

    /// Clauses with a pure literal: those of 5 to 64 literals are choices.
    fn free_clause_sizes(&mut self) {
        for size in [4, 5, 64, 65] {
            let draw = |random: &mut Random| Call::Choose {
                text: text_of(&free_clause(random, size)),
            };
            self.add(1, draw, |_| true);
        }
    }

    /// Choices of which no, some and all pairs stand, and pairs in several copies, written and walked back.
    fn pairs(&mut self, form: Form) {
        for (_, kind) in PAIRS {
            for arrangement in ARRANGEMENTS {
                let draw = |random: &mut Random| {
                    let settings = Settings::new(form, arrangement);
                    reencoding(small_paired(random), random, settings, 0)
                };
                self.add(2, draw, |row| has(row, |run| kind(&run.tally) > 0));
            }
            let draw =
                |random: &mut Random| carrying(Way::Back, small_paired(random), random, form, 0);
            let is_wanted = |row: &Row| row.number() == 0 && kind(&row.tally()) > 0;
            self.add(1, draw, |row| is_wanted(row) && !row.is_cut());
            self.add(2, draw, |row| is_wanted(row) && row.is_cut_in_choices());
        }
    }

    /// Steps above 1: skipped numbers, several choices, choices that clashes join.
    fn steps(&mut self, form: Form, arrangement: Arrangement) {
        let settings = |random: &mut Random| with_any_step(random, form, arrangement);
        let draw = |random: &mut Random| {
            let settings = settings(random);
            reencoding(small(random), random, settings, 0)
        };
        self.add(4, draw, |row| row.skipped() > 0);
        self.add(1, draw, |row| row.table().1.is_empty());
        let draw = |random: &mut Random| {
            let settings = settings(random);
            reencoding(small_cut(random), random, settings, 0)
        };
        self.add(2, draw, |row| row.table().1.len() > 1);
        let joins = |row: &Row, count: usize| row.table().1.iter().any(|r| r.clauses == count);
        for count in 2..=4 {
            self.add(1, draw, |row| row.skipped() > 0 && joins(row, count));
        }
        let draw = |random: &mut Random| {
            let settings = settings(random);
            reencoding(linked_choices(random), random, settings, 0)
        };
        self.add(1, draw, |row| row.skipped() > 0);
    }

    /// Plans carried forward over the whole log and over a part of it.
    fn forwards(&mut self, form: Form) {
        let draw = |random: &mut Random| carrying(Way::Forward, small(random), random, form, 0);
        for is_cut in [false, true] {
            let is_wanted = |row: &Row| row.number() == 0 && row.is_cut() == is_cut;
            self.add(4, draw, is_wanted);
            self.add(4, draw, |row| is_wanted(row) && row.makes_new_true());
            self.add(3, draw, |row| is_wanted(row) && row.skips_in_log());
        }
        self.add(2, draw, |row| row.number() == 0 && row.is_cut_in_choices());
    }

    /// Plans with several true literals in a choice, choices with pairs, and a choice of 20.
    fn forwards_with_choices(&mut self, form: Form) {
        let draw =
            |random: &mut Random| carrying(Way::Forward, small_freed(random), random, form, 0);
        let is_wanted = |row: &Row| row.tally().free_choices > 0 && row.is_changed();
        self.add(4, draw, |row| is_wanted(row) && !row.is_cut());
        self.add(4, draw, |row| is_wanted(row) && row.is_cut());
        let draw =
            |random: &mut Random| carrying(Way::Forward, small_paired(random), random, form, 0);
        for (_, kind) in PAIRS {
            let is_wanted = |row: &Row| row.makes_new_true() && kind(&row.tally()) > 0;
            self.add(1, draw, |row| is_wanted(row) && !row.is_cut());
            self.add(1, draw, |row| is_wanted(row) && row.is_cut_in_choices());
        }
        let draw =
            |random: &mut Random| carrying(Way::Forward, choice_of_20(random), random, form, 0);
        self.add(1, draw, |row| row.number() == 0 && !row.is_cut());
    }

    fn refused_forwards(&mut self) {
        let draw = |random: &mut Random| {
            let form = *random.one_of(&FORMS);
            carrying(Way::Forward, small(random), random, form, 40)
        };
        for number in READER {
            self.add(1, draw, |row| row.number() == number);
        }
        for number in [11, 14, 31, 32, 34, 41, 42, 43, 45, 46] {
            self.add(6, draw, |row| row.number() == number);
        }
        self.add(3, draw, Row::names_new);
        let draw = |random: &mut Random| {
            let form = *random.one_of(&FORMS);
            carrying_astray(Way::Forward, random, form)
        };
        self.add(4, draw, |row| row.number() == 46);
        self.add(2, draw, |row| row.number() == 0 && row.is_changed());
    }

    /// Sizes with step 1: clashes, pure literals, repeats, no line, no clause left.
    fn sizes(&mut self, form: Form, arrangement: Arrangement) {
        let settings = Settings::new(form, arrangement);
        let draw = |random: &mut Random| sizing(small(random), random, settings, 0);
        self.add(2, draw, |_| true);
        self.add(4, draw, |row| has(row, |run| !run.choices.is_empty()));
        let kinds: [fn(&Encoding) -> bool; 6] = [
            |run| run.tally.chained_clashes > 0,
            |run| run.tally.double_clashes > 0,
            |run| run.tally.empty_resolvents > 0,
            |run| run.tally.pure > 0,
            |run| run.log.is_empty() && !run.standing.clauses().is_empty(),
            |run| !run.log.is_empty() && run.standing.clauses().is_empty(),
        ];
        for kind in kinds {
            self.add(1, draw, |row| has(row, kind));
        }
        self.add(1, draw, |row| row.repeats_in_choices() > 0);
        let draw = |random: &mut Random| sizing(small_freed(random), random, settings, 0);
        self.add(1, draw, |row| has(row, |run| run.tally.free_choices > 0));
    }

    /// Sizes with steps above 1: skipped numbers, several choices, choices that clashes join.
    fn sizes_with_steps(&mut self, form: Form, arrangement: Arrangement) {
        let settings = |random: &mut Random| with_any_step(random, form, arrangement);
        let draw = |random: &mut Random| {
            let settings = settings(random);
            sizing(small(random), random, settings, 0)
        };
        self.add(3, draw, |row| row.skipped() > 0);
        self.add(1, draw, |row| has(row, |run| run.choices.is_empty()));
        let draw = |random: &mut Random| {
            let settings = settings(random);
            sizing(small_cut(random), random, settings, 0)
        };
        self.add(1, draw, |row| has(row, |run| run.choices.len() > 1));
        let draw = |random: &mut Random| {
            let settings = settings(random);
            sizing(linked_choices(random), random, settings, 0)
        };
        self.add(1, draw, |row| row.skipped() > 0);
    }

    /// Sizes of choices of which no, some and all pairs stand, and of a choice of 20.
    fn sizes_with_pairs(&mut self, form: Form) {
        let settings = Settings::new(form, Arrangement::AsListed);
        let draw = |random: &mut Random| sizing(small_paired(random), random, settings, 0);
        for (_, kind) in PAIRS {
            self.add(1, draw, |row| has(row, |run| kind(&run.tally) > 0));
        }
        let draw = |random: &mut Random| sizing(choice_of_20(random), random, settings, 0);
        self.add(1, draw, |_| true);
    }

    fn sizes_that_alignment_changes(&mut self, form: Form) {
        let draw = |random: &mut Random| sizing(small(random), random, aligned(form), 0);
        self.add(2, draw, Row::alignment_matters);
        let draw = |random: &mut Random| sizing(linked_choices(random), random, aligned(form), 0);
        self.add(1, draw, Row::alignment_matters);
    }

    fn refused_sizes(&mut self) {
        let draw = |random: &mut Random| {
            let settings = any_settings(random, &[1, 2, 7, 100, 0, 101]);
            sizing(small(random), random, settings, 50)
        };
        for number in READER {
            self.add(4, draw, |row| row.number() == number);
        }
        for number in [11, 15] {
            self.add(8, draw, |row| row.number() == number);
        }
    }
}
