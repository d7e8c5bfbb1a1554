//! Every number of kept lines: with every assignment that satisfies what stands there, carried back, and with every
//! plan, carried forward.

mod common;

use common::formulas::is_joined;
use common::lines::{parts, Part};
use common::{
    expect_more, note, over_seeds, run_model, skipped, sum, way_of, Carrying, Occurred, WAYS,
};
use model::encoding::{Encoding, PAIRS};
use model::generator::{
    clauses_apart, clauses_with_repeat, planned, varied, written_clauses, Joined, Random,
};
use model::reading::Formula;
use model::texts::{count_true, formula_text, log_text};
use model::walk_back::{highest_allowed, replay, satisfies};
use sirgholyn::{calls, plan, ChoiceRecord, Form, Settings};
use std::collections::HashSet;
use std::ops::Range;

/// One formula's log, which is the library's.
struct Walk<'a> {
    input: &'a Joined,
    way: Settings,
    log: Vec<u8>,
    encoding: Encoding,
    in_choices: Vec<usize>,
}

impl<'a> Walk<'a> {
    fn new(input: &'a Joined, way: Settings) -> Walk<'a> {
        let (mut work, mut log, mut new) = (vec![0; 100_000], vec![0; 10_000], vec![0; 10_000]);
        let (text, table) = (&input.text, &mut [ChoiceRecord::default(); 2]);
        let tally = calls::reencode(text, way, &mut work, &mut log, &mut new, table);
        log.truncate(tally.unwrap().log_bytes);
        let encoding = run_model(&input.formula, way);
        assert_eq!(log, log_text(&encoding.log));
        Walk {
            input,
            way,
            log,
            in_choices: encoding.input_clauses_in_choices(),
            encoding,
        }
    }

    fn seen(&self, kept: usize) -> String {
        format!("{kept} lines of {} {:?}", shown(&self.input.text), self.way)
    }

    /// The line of an assignment that the library carries over so many lines.
    fn carry(&self, carrying: Carrying, kept: usize, given: &[u8]) -> String {
        let call = match carrying {
            Carrying::Back => calls::walk_back,
            Carrying::Forward => calls::carry_forward,
        };
        let (mut work, mut line) = (vec![0; 10_000], vec![0; 2_000]);
        let outcome = call(
            &self.input.text,
            &self.log,
            kept,
            given,
            &mut work,
            &mut line,
        );
        let bytes = outcome.unwrap_or_else(|number| panic!("{number}: {}", self.seen(kept)));
        shown(&line[..bytes])
    }

    /// An answer walks back to a plan; over all lines, to one with exactly one true literal in each clause that goes
    /// into a choice.
    fn walk_back(&self, kept: usize, answer: &[u8], walked: &mut Occurred) {
        let Joined { text, formula } = self.input;
        let seen = || self.seen(kept);
        let line = self.carry(Carrying::Back, kept, answer);
        assert!(plan::satisfies(&shown(text), &line), "{line}: {}", seen());
        if kept == self.encoding.log.len() {
            for &place in &self.in_choices {
                let chosen = count_true(&line, &formula.clauses[place]);
                assert_eq!(chosen, 1, "{line}: clause {place}, {}", seen());
                note(walked, "exactly one literal", chosen);
            }
        }
    }

    /// Walks back from every assignment that satisfies what stands after so many lines; the answer is how many.
    fn walk_cut(&self, kept: usize, walked: &mut Occurred) -> usize {
        let lines = &self.encoding.log[..kept];
        let standing = replay(&self.input.formula.clauses, lines).unwrap();
        let mut answers = 0;
        for_each_answer(&standing, |answer| {
            self.walk_back(kept, answer, walked);
            answers += 1;
        });
        answers
    }

    /// Carries every plan forward over so many lines, to what satisfies the clauses that stand there and walks back to
    /// a plan; the answer is how many.
    fn forward_to_cut(&self, kept: usize, walked: &mut Occurred) -> usize {
        let (formula, lines) = (&self.input.formula, &self.encoding.log[..kept]);
        let standing = replay(&formula.clauses, lines).unwrap();
        let standing = shown(&formula_text(highest_allowed(formula, lines), &standing));
        let mut plans = 0;
        for_each_answer(&formula.clauses, |given| {
            let line = self.carry(Carrying::Forward, kept, given);
            let seen = || self.seen(kept);
            assert!(plan::satisfies(&standing, &line), "{line}: {}", seen());
            if kept == self.encoding.log.len() {
                let changed = self.expect_first_stays(&shown(given), &line);
                note(walked, "plans changed", usize::from(changed));
            }
            let answer = format!("s SATISFIABLE\n{line}");
            self.walk_back(kept, answer.as_bytes(), walked);
            plans += 1;
        });
        plans
    }

    /// The values of a plan stay over all lines, but of each choice only the first true literal does; the answer is
    /// whether a value changed.
    fn expect_first_stays(&self, given: &str, line: &str) -> bool {
        let mut expected = true_variables(given);
        let before = expected.clone();
        for (_, choice) in &self.encoding.choices {
            let is_true = |literal: &&i32| before.contains(&literal.abs()) == (**literal > 0);
            for literal in choice.iter().filter(is_true).skip(1) {
                match *literal > 0 {
                    true => expected.remove(literal),
                    false => expected.insert(-literal),
                };
            }
        }
        let mut found = true_variables(line);
        found.retain(|&variable| variable <= self.input.formula.variables);
        assert_eq!(found, expected, "{line} of {given}");
        found != before
    }

    /// Carries back from every cut, or forward to it.
    fn over_cuts(&self, carrying: Carrying, walked: &mut Occurred) {
        let Joined { text, formula } = self.input;
        self.note(walked);
        let parts = parts(formula, &self.encoding);
        assert_eq!(parts.len(), self.encoding.log.len());
        let free = self.encoding.tally.free_choices > 0;
        let skips = skipped(formula, &self.encoding) > 0;
        let can = can_be_satisfied(formula.variables, &written_clauses(text));
        for kept in 0..=parts.len() {
            let times = match carrying {
                Carrying::Back => self.walk_cut(kept, walked),
                Carrying::Forward => self.forward_to_cut(kept, walked),
            };
            assert_eq!(times > 0, can, "{kept} lines of {}", shown(text));
            note(walked, "carried", times);
            note(walked, "cuts", 1);
            note(walked, "cuts with a free choice", usize::from(free));
            if let Some(place) = place_of_cut(&parts, kept).filter(|_| can) {
                let form = self.way.form;
                note(walked, format!("{form:?}: cuts {place}"), 1);
                let skips = usize::from(skips);
                note(
                    walked,
                    format!("{form:?}, numbers skipped: cuts {place}"),
                    skips,
                );
            }
        }
    }

    fn note(&self, walked: &mut Occurred) {
        let Joined { text, formula } = self.input;
        let (choices, tally) = (self.encoding.choices.len(), &self.encoding.tally);
        let joined_choice = choices > 0 && is_joined(self.input);
        for (what, times) in [
            ("formulas", 1),
            ("formulas with a choice", usize::from(choices > 0)),
            ("joined, with a choice", usize::from(joined_choice)),
            ("clauses with a repeat", clauses_with_repeat(text).len()),
            ("clauses left out", formula.left_out),
        ] {
            note(walked, what, times);
        }
        for (what, times) in PAIRS {
            note(walked, what, times(tally));
        }
    }
}

/// Where in a choice's lines a log is cut: the parts of the lines before and after it.
fn place_of_cut(parts: &[Part], kept: usize) -> Option<&'static str> {
    match (parts.get(kept.checked_sub(1)?)?, parts.get(kept)?) {
        (Part::Counter, Part::Counter) => Some("in stage 2"),
        (Part::Counter, _) => Some("between stages 2 and 3"),
        (Part::Exclusion, _) => Some("in stage 3"),
        (Part::Last, _) => Some("between stages 3 and 4"),
        (Part::Choice | Part::Pair, Part::Pair) => Some("in stage 4"),
        (Part::Choice | Part::Pair, Part::Order) => Some("between stage 4 and order form"),
        (Part::Order, Part::Order) => Some("in order form"),
        _ => None,
    }
}

fn shown(text: &[u8]) -> String {
    String::from_utf8_lossy(text).into_owned()
}

/// The variables that a text of literals names as true.
fn true_variables(text: &str) -> HashSet<i32> {
    let literals = text.split_whitespace().filter_map(|word| word.parse().ok());
    literals.filter(|&literal| literal > 0).collect()
}

/// Does the work with each assignment of the clauses' variables that satisfies them, as an answer.
fn for_each_answer(clauses: &[Vec<i32>], mut work: impl FnMut(&[u8])) {
    let literals = clauses.iter().flatten();
    let mut named: Vec<usize> = literals.map(|l| l.unsigned_abs() as usize).collect();
    named.sort_unstable();
    named.dedup();
    let mut values = vec![false; named.last().map_or(1, |last| last + 1)];
    for bits in 0..1usize << named.len() {
        for (index, &variable) in named.iter().enumerate() {
            values[variable] = bits >> index & 1 == 1;
        }
        if satisfies(&values, clauses) {
            work(answer(&values, &named).as_bytes());
        }
    }
}

fn answer(values: &[bool], named: &[usize]) -> String {
    let mut text = String::from("s SATISFIABLE\nv ");
    for &variable in named {
        text += &format!("{}{variable} ", if values[variable] { "" } else { "-" });
    }
    text + "0\n"
}

fn can_be_satisfied(variables: i32, clauses: &[Vec<i32>]) -> bool {
    let variables = variables as usize;
    (0..1usize << variables).any(|bits| {
        let values: Vec<bool> = (0..=variables)
            .map(|v| v > 0 && bits >> (v - 1) & 1 == 1)
            .collect();
        satisfies(&values, clauses)
    })
}

/// One of five is a choice alone, of which no pair stands unless it is paired.
fn drawn(random: &mut Random) -> Joined {
    let formula = if random.chance(20) {
        clauses_apart(random.between(5, 6), 1)
    } else {
        let (variables, clauses) = (random.between(3, 8), random.between(3, 22));
        planned(random, variables, clauses)
    };
    varied(random, formula, 33, 33)
}

/// The variables of a formula and the new ones.
fn variables(formula: &Formula) -> i32 {
    run_model(formula, WAYS[0]).highest
}

/// Carries back from every cut of formulas that are drawn, or forward to it.
fn over_drawn(seeds: Range<u64>, carrying: Carrying) -> Occurred {
    let counted = over_seeds(seeds, |seed, walked: &mut Occurred| {
        let input = drawn(&mut Random::new(seed));
        if variables(&input.formula) <= 13 {
            Walk::new(&input, way_of(seed)).over_cuts(carrying, walked);
        }
    });
    let walked = sum(counted);
    println!("{walked:#?}");
    walked
}

#[test]
fn every_cut_walks_back() {
    let walked = over_drawn(0..600, Carrying::Back);
    let cases = [
        ("formulas with a choice", 100),
        ("joined, with a choice", 20),
        ("clauses with a repeat", 200),
        ("clauses left out", 150),
        ("choices with no pair", 50),
        ("choices with some pairs", 50),
        ("choices with all pairs", 20),
        ("pairs in several copies", 50),
        ("cuts", 5_000),
        ("cuts with a free choice", 1_000),
        ("carried", 40_000),
        ("exactly one literal", 500),
    ];
    expect_more(&walked, cases);
    expect_cuts(&walked, 1);
}

#[test]
fn every_plan_is_carried_forward() {
    let walked = over_drawn(0..80, Carrying::Forward);
    let cases = [
        ("formulas with a choice", 20),
        ("joined, with a choice", 4),
        ("choices with no pair", 10),
        ("choices with some pairs", 10),
        ("choices with all pairs", 1),
        ("cuts", 1_000),
        ("cuts with a free choice", 200),
        ("carried", 20_000),
        ("plans changed", 400),
        ("exactly one literal", 400),
    ];
    expect_more(&walked, cases);
    expect_cuts(&walked, 15);
}

/// Cuts of a formula that has a plan, all over the lines of a choice; fewer by the share of formulas.
fn expect_cuts(walked: &Occurred, share: usize) {
    for form in [Form::Counter, Form::Order] {
        let cuts = [
            ("in stage 2", 500),
            ("between stages 2 and 3", 50),
            ("in stage 3", 200),
            ("between stages 3 and 4", 50),
            ("in stage 4", 200),
        ];
        let of_form = |(place, least)| (format!("{form:?}: cuts {place}"), least / share);
        expect_more(walked, cuts.map(of_form));
        let skipping = format!("{form:?}, numbers skipped");
        let of_skipping = |(place, least)| (format!("{skipping}: cuts {place}"), least / 2 / share);
        expect_more(walked, cuts.map(of_skipping));
    }
    let order = [
        ("Order: cuts between stage 4 and order form", 50),
        ("Order: cuts in order form", 500),
        ("Order, numbers skipped: cuts in order form", 250),
    ];
    expect_more(walked, order.map(|(cuts, least)| (cuts, least / share)));
}
