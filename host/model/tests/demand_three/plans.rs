//! Plans carried forward: a formula's own log, every plan that satisfies the formula, every cut.

use crate::drawing::Drawn;
use crate::lists::apply;
use model::answer::read_answer;
use model::encoding::Encoding;
use model::generator::{answer_for, Joined, Random};
use model::reading::Formula;
use model::texts::{answer_text, log_text, Line};
use model::walk_back::{is_true, satisfies, Assignment};
use model::{carry_forward, walk_back};
use std::collections::BTreeSet;

/// Up to so many variables the plans that fail the formula are tried too.
const WITH_FAILING: i32 = 8;

/// What there is after a number of kept lines.
struct Cut {
    standing: Vec<Vec<i32>>,
    /// X.
    highest: i32,
    /// The numbers above V that stand in kept lines.
    new: BTreeSet<i32>,
    /// The line before and the line after are of one choice.
    inside_choice: bool,
}

impl Cut {
    /// Whether a number between V and X stands in no kept line.
    fn skips(&self, formula: &Formula) -> bool {
        self.new.len() < (self.highest - formula.variables) as usize
    }
}

/// The numbers of lines before each choice, of which -s1 l1 is the first line.
fn before_choices(encoding: &Encoding) -> Vec<usize> {
    let choices = encoding.choices.iter().zip(&encoding.table);
    let before = choices.map(|((_, choice), record)| {
        let first = [-record.first, choice[0]];
        let mut lines = encoding.log.iter();
        lines.position(|line| !line.deletion && line.literals == first)
    });
    before.map(|before| before.expect("it is taken")).collect()
}

/// From no line kept to all lines kept.
fn cuts(formula: &Formula, encoding: &Encoding) -> Vec<Cut> {
    let before_choices = before_choices(encoding);
    let is_inside = |kept: usize| {
        let is_begun = before_choices.first().is_some_and(|&first| kept > first);
        is_begun && kept < encoding.log.len() && !before_choices.contains(&kept)
    };
    let mut standing = formula.clauses.clone();
    let mut new = BTreeSet::new();
    let mut cuts = Vec::new();
    for kept in 0..=encoding.log.len() {
        if let Some(line) = kept.checked_sub(1).map(|last| &encoding.log[last]) {
            apply(&mut standing, line);
            let variables = line.literals.iter().map(|literal| literal.abs());
            new.extend(variables.filter(|&variable| variable > formula.variables));
        }
        cuts.push(Cut {
            standing: standing.clone(),
            highest: new.last().copied().unwrap_or(formula.variables),
            new: new.clone(),
            inside_choice: is_inside(kept),
        });
    }
    cuts
}

/// The plan in which variable v has the bit v - 1.
fn plan_of(bits: usize, variables: i32) -> Assignment {
    let values = (1..=variables).map(|variable| bits >> (variable - 1) & 1 == 1);
    [false].into_iter().chain(values).collect()
}

/// A line `v .. 0` as an answer.
fn as_answer(line: &[u8]) -> Vec<u8> {
    [b"s SATISFIABLE\n", line].concat()
}

/// The values that a line `v .. 0` gives to the variables up to the highest, each of which it names.
fn read_line(line: &[u8], highest: i32) -> Assignment {
    let values = read_answer(&as_answer(line), highest).expect("an answer");
    let written = answer_text(highest, |variable| is_true(variable, &values));
    assert_eq!(line, written);
    values
}

/// A formula and its own log.
pub struct OwnLog<'a> {
    joined: &'a Joined,
    encoding: &'a Encoding,
    log: Vec<u8>,
    cuts: Vec<Cut>,
    /// The plans that satisfy the formula, and those that fail it.
    plans: (Vec<Assignment>, Vec<Assignment>),
}

impl<'a> OwnLog<'a> {
    pub fn of(drawn: &'a Drawn) -> OwnLog<'a> {
        let formula = &drawn.joined.formula;
        let plans = (0..1 << formula.variables).map(|bits| plan_of(bits, formula.variables));
        OwnLog {
            joined: &drawn.joined,
            encoding: &drawn.encoding,
            log: log_text(&drawn.encoding.log),
            cuts: cuts(formula, &drawn.encoding),
            plans: plans.partition(|plan| satisfies(plan, &formula.clauses)),
        }
    }

    /// How many plans satisfy the formula.
    pub fn plans(&self) -> usize {
        self.plans.0.len()
    }

    fn forward(&self, keep: usize, plan: &[u8]) -> Result<Vec<u8>, u8> {
        let text = &self.joined.text;
        carry_forward(text, &self.log, keep, plan, 1 << 40, 1 << 20)
    }

    fn back(&self, keep: usize, line: &[u8]) -> Result<Vec<u8>, u8> {
        let (text, answer) = (&self.joined.text, as_answer(line));
        walk_back(text, &self.log, keep, &answer, 1 << 40, 1 << 20)
    }

    fn seen(&self) -> String {
        format!(
            "{:?} {:?}",
            String::from_utf8_lossy(&self.joined.text),
            String::from_utf8_lossy(&self.log)
        )
    }
}

/// A plan on its way forwards.
struct OnTheWay {
    values: Assignment,
    changed: BTreeSet<i32>,
}

impl OnTheWay {
    /// New variables start false.
    fn new(plan: &Assignment, highest: i32) -> OnTheWay {
        let mut values = plan.clone();
        values.resize(highest as usize + 1, false);
        OnTheWay {
            values,
            changed: BTreeSet::new(),
        }
    }

    /// Where the clause of an added line is false, its first literal is made true.
    fn pass(&mut self, line: &Line) {
        let is_false = line.literals.iter().all(|&l| !is_true(l, &self.values));
        if line.deletion || !is_false {
            return;
        }
        let &first = line.literals.first().expect("the plan satisfies the rest");
        self.values[first.unsigned_abs() as usize] = first > 0;
        self.changed.insert(first.abs());
    }

    fn has_changed(&self, mut variables: impl Iterator<Item = i32>) -> bool {
        variables.any(|variable| self.changed.contains(&variable))
    }
}

/// How often the cases occurred.
#[derive(Default, Debug)]
pub struct Carried {
    pub formulas: usize,
    pub with_two_choices: usize,
    pub aligned: usize,
    pub failing_plans: usize,
    pub plans: usize,
    /// A plan at a cut; all that follow are counted so.
    pub cuts: usize,
    pub inside_choices: usize,
    /// A number between V and X stands in no kept line.
    pub skipping: usize,
    /// A variable of 1..V was changed.
    pub changed: usize,
    pub changed_inside_choices: usize,
    /// A new variable was made true.
    pub with_new: usize,
    /// Forwards and then back gives the plan, though a new variable was made true.
    pub same: usize,
    /// Forwards and then back gives another plan.
    pub other: usize,
}

impl Carried {
    /// Every plan of the formula, at every cut of its own log.
    pub fn check(&mut self, own: &OwnLog, random: &mut Random) {
        let highest = own.cuts.last().map_or(0, |cut| cut.highest);
        self.formulas += 1;
        self.with_two_choices += usize::from(own.encoding.choices.len() > 1);
        self.aligned += own.encoding.tally.aligned;
        for plan in &own.plans.0 {
            self.plans += 1;
            let answer = answer_for(random, plan);
            let mut way = OnTheWay::new(plan, highest);
            for (keep, cut) in own.cuts.iter().enumerate() {
                if keep > 0 {
                    way.pass(&own.encoding.log[keep - 1]);
                }
                let line = own.forward(keep, &answer);
                let line = line.unwrap_or_else(|number| panic!("{number}, {}", own.seen()));
                check_line(own, cut, &way, &line);
                let is_same = check_back(own, keep, &line) == *plan;
                self.count(own, cut, &way, is_same);
            }
        }
    }

    /// The plans that fail the formula, each at one cut.
    pub fn check_failing(&mut self, own: &OwnLog, random: &mut Random) {
        if own.joined.formula.variables > WITH_FAILING {
            return;
        }
        for plan in &own.plans.1 {
            self.failing_plans += 1;
            let keep = random.below(own.cuts.len());
            let refused = own.forward(keep, &answer_for(random, plan));
            assert_eq!(refused, Err(45), "{plan:?}, {keep} of {}", own.seen());
        }
    }

    fn count(&mut self, own: &OwnLog, cut: &Cut, way: &OnTheWay, is_same: bool) {
        let formula = &own.joined.formula;
        let is_changed = way.has_changed(1..=formula.variables);
        let has_new = way.has_changed(formula.variables + 1..=cut.highest);
        self.cuts += 1;
        self.inside_choices += usize::from(cut.inside_choice);
        self.skipping += usize::from(cut.skips(formula));
        self.changed += usize::from(is_changed);
        self.changed_inside_choices += usize::from(is_changed && cut.inside_choice);
        self.with_new += usize::from(has_new);
        self.same += usize::from(has_new && is_same);
        self.other += usize::from(!is_same);
    }
}

/// The line names 1..X, as the steps one by one have it. It satisfies what stands, and a new variable that nothing
/// changed is false.
fn check_line(own: &OwnLog, cut: &Cut, way: &OnTheWay, line: &[u8]) {
    let values = read_line(line, cut.highest);
    assert!(way.values.starts_with(&values), "{}", own.seen());
    assert!(satisfies(&values, &cut.standing), "{}", own.seen());
    for variable in own.joined.formula.variables + 1..=cut.highest {
        let is_changed = way.changed.contains(&variable);
        assert!(is_changed || !values[variable as usize], "{}", own.seen());
    }
}

/// Back over the same lines the line gives a plan that satisfies the formula.
fn check_back(own: &OwnLog, keep: usize, line: &[u8]) -> Assignment {
    let formula = &own.joined.formula;
    let back = own.back(keep, line);
    let back = back.unwrap_or_else(|number| panic!("{number} back, {}", own.seen()));
    let plan = read_line(&back, formula.variables);
    assert!(satisfies(&plan, &formula.clauses), "{}", own.seen());
    plan
}
