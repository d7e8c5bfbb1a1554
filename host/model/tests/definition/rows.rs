//! Rows: a call, and what the model gives for it.

use model::answer::read_answer;
use model::encoding::{Encoding, Tally};
use model::generator::repeats_in_choices;
use model::log_reading::read_kept_lines;
use model::reading::{read_formula, Formula, INPUT_LIMITS};
use model::texts::{formula_text, log_text, Line};
use model::walk_back::highest_allowed;
use model::{
    carry_forward, read_back, reencode, sizes, walk_back, Arrangement, ChoiceRecord, Form,
    Reencoded, Room, Settings, Sizes,
};
use std::collections::BTreeSet;

pub type Text = Vec<u8>;

/// The numbers of the reader that occur in rows; a text for 9 is too long for the checker.
pub const READER: [u8; 6] = [1, 2, 3, 4, 7, 8];

/// More workspace and room than any row wants.
pub const PLENTY: usize = 1_000_000;

pub const PLENTY_OF_ROOM: Room = Room {
    workspace: PLENTY as u64,
    log: PLENTY,
    formula: PLENTY,
    table: PLENTY,
};

pub const NO_ROOM: Room = Room {
    workspace: 0,
    log: 0,
    formula: 0,
    table: 0,
};

#[derive(Clone, PartialEq)]
pub enum Call {
    Reencode(Reencode),
    Sizes {
        settings: Settings,
        work: usize,
        text: Text,
    },
    ReadBack {
        work: usize,
        text: Text,
    },
    Carry(Carry),
    /// Which clauses are taken as choices.
    Choose {
        text: Text,
    },
}

#[derive(Clone, PartialEq)]
pub struct Reencode {
    pub settings: Settings,
    pub room: Room,
    pub text: Text,
}

/// The two ways over a log.
#[derive(Clone, Copy, PartialEq)]
pub enum Way {
    Back,
    Forward,
}

#[derive(Clone, PartialEq)]
pub struct Carry {
    pub way: Way,
    pub work: usize,
    pub room: usize,
    pub kept: usize,
    pub text: Text,
    pub log: Text,
    /// A solver's answer on the way back, a plan on the way forward.
    pub answer: Text,
}

/// Choices, H, M, log lines and both byte lengths.
pub type Numbers = [usize; 6];

#[derive(Clone, PartialEq)]
pub enum Outcome {
    Refused(u8),
    Reencoded {
        tally: Numbers,
        log: Text,
        formula: Text,
        table: Vec<ChoiceRecord>,
    },
    Sized(Numbers),
    /// What is read back, written again.
    Read(Text),
    /// What an answer is walked back to, or a plan carried forward to.
    Line(Text),
    /// The choices, written as added lines are.
    Chosen(Text),
}

#[derive(Clone, PartialEq)]
pub struct Row {
    pub call: Call,
    pub outcome: Outcome,
}

impl Reencode {
    fn given(&self) -> Result<Reencoded, u8> {
        reencode(&self.text, self.settings, self.room)
    }
}

impl Way {
    /// The name of the call.
    pub fn name(self) -> &'static str {
        match self {
            Way::Back => "walk-back",
            Way::Forward => "carry-forward",
        }
    }
}

impl Carry {
    pub fn given(&self) -> Result<Text, u8> {
        let call = match self.way {
            Way::Back => walk_back,
            Way::Forward => carry_forward,
        };
        let (work, room) = (self.work as u64, self.room);
        call(&self.text, &self.log, self.kept, &self.answer, work, room)
    }

    /// The formula and the kept lines, if both are in order.
    fn read(&self) -> Option<(Formula, Vec<Line>)> {
        let formula = read_formula(&self.text, &INPUT_LIMITS).ok()?;
        Some((formula, read_kept_lines(&self.log, self.kept).ok()?))
    }

    /// The values of 1..X in a text that is laid out as an answer is.
    fn values_in(&self, answer: &[u8]) -> Option<Vec<bool>> {
        let (formula, lines) = self.read()?;
        read_answer(answer, highest_allowed(&formula, &lines)).ok()
    }
}

impl Row {
    /// The call, and what the model gives for it.
    pub fn of(call: Call) -> Row {
        let outcome = given(&call).unwrap_or_else(Outcome::Refused);
        Row { call, outcome }
    }

    /// The number of the refusal, 0 for a result.
    pub fn number(&self) -> u8 {
        match self.outcome {
            Outcome::Refused(number) => number,
            _ => 0,
        }
    }

    /// The settings and the text of a reencoding, or of its sizes.
    fn asked(&self) -> Option<(Settings, &Text)> {
        match &self.call {
            Call::Reencode(call) => Some((call.settings, &call.text)),
            Call::Sizes { settings, text, .. } => Some((*settings, text)),
            _ => None,
        }
    }

    /// The formula of this text and its run, if there is a result.
    fn formula_and_run(&self) -> Option<(Formula, Encoding)> {
        let (settings, text) = self.asked().filter(|_| self.number() == 0)?;
        let formula = read_formula(text, &INPUT_LIMITS).ok()?;
        let run = Encoding::run(&formula, settings);
        Some((formula, run))
    }

    /// The run of a reencoding, or of its sizes, that gives a result.
    pub fn run(&self) -> Option<Encoding> {
        self.formula_and_run().map(|(_, run)| run)
    }

    /// The step of a reencoding that gives a result, and its records.
    pub fn table(&self) -> (u32, &[ChoiceRecord]) {
        match (&self.call, &self.outcome) {
            (Call::Reencode(call), Outcome::Reencoded { table, .. }) => (call.settings.step, table),
            _ => (1, &[]),
        }
    }

    /// How many numbers this run skips.
    pub fn skipped(&self) -> usize {
        self.formula_and_run().map_or(0, |(formula, run)| {
            let new: usize = run.table.iter().map(|record| record.length - 1).sum();
            (run.highest - formula.variables) as usize - new
        })
    }

    /// How many clauses with a repeat go into a choice of this run.
    pub fn repeats_in_choices(&self) -> usize {
        match (self.asked(), self.run()) {
            (Some((_, text)), Some(run)) => repeats_in_choices(text, &run),
            _ => 0,
        }
    }

    /// The run in counter form over the formula that is reencoded or sized, chosen from, or at the start of a log.
    pub fn plain_run(&self) -> Option<Encoding> {
        let text = match &self.call {
            Call::Reencode(call) => &call.text,
            Call::Carry(call) => &call.text,
            Call::Sizes { text, .. } | Call::Choose { text } => text,
            Call::ReadBack { .. } => return None,
        };
        let formula = read_formula(text, &INPUT_LIMITS).ok()?;
        Some(run_plainly(&formula))
    }

    /// The tally of this run.
    pub fn tally(&self) -> Tally {
        self.plain_run().map(|run| run.tally).unwrap_or_default()
    }

    /// Without the arrangement, the result would be another one.
    pub fn alignment_matters(&self) -> bool {
        let mut call = self.call.clone();
        let settings = match &mut call {
            Call::Reencode(call) => {
                call.room = PLENTY_OF_ROOM;
                &mut call.settings
            }
            Call::Sizes { settings, .. } => settings,
            _ => return false,
        };
        settings.arrangement = Arrangement::AsListed;
        self.number() == 0 && Row::of(call).outcome != self.outcome
    }

    /// A number above V stands in none of the kept lines, though a higher one does.
    pub fn skips_in_log(&self) -> bool {
        let Some((formula, lines)) = self.carry().and_then(Carry::read) else {
            return false;
        };
        let literals = lines.iter().flat_map(|line| &line.literals);
        let mut new: BTreeSet<i32> = literals.map(|literal| literal.abs()).collect();
        new.retain(|&variable| variable > formula.variables);
        let highest = new.last().map_or(0, |&last| last - formula.variables);
        highest > new.len() as i32
    }

    /// Some lines of the log are not kept.
    pub fn is_cut(&self) -> bool {
        self.carry()
            .is_some_and(|call| call.kept < call.log.split(|&byte| byte == b'\n').count() - 1)
    }

    /// The lines of choices are kept in part.
    pub fn is_cut_in_choices(&self) -> bool {
        let before = self.tally().clearing_lines();
        self.carry().is_some_and(|call| call.kept > before) && self.is_cut()
    }

    /// The call that goes over a log, either way.
    pub fn carry(&self) -> Option<&Carry> {
        match &self.call {
            Call::Carry(call) => Some(call),
            _ => None,
        }
    }

    /// V, the values that are handed in, and those of the line given.
    fn values(&self) -> Option<(usize, Vec<bool>, Vec<bool>)> {
        let (Call::Carry(call), Outcome::Line(line)) = (&self.call, &self.outcome) else {
            return None;
        };
        let (formula, _) = call.read()?;
        let line = [b"s SATISFIABLE\n", line.as_slice()].concat();
        let (before, after) = (call.values_in(&call.answer)?, call.values_in(&line)?);
        Some((formula.variables as usize, before, after))
    }

    /// An answer or a plan is carried to other values of 1..V than it has.
    pub fn is_changed(&self) -> bool {
        self.values()
            .is_some_and(|(highest, before, after)| before[..=highest] != after[..=highest])
    }

    /// A plan is carried forward to a line with a variable above V true.
    pub fn makes_new_true(&self) -> bool {
        self.values()
            .is_some_and(|(highest, _, after)| after[highest + 1..].contains(&true))
    }

    /// A plan is refused for a variable above V, though none is above X.
    pub fn names_new(&self) -> bool {
        let is_answer = |call: &Carry| call.values_in(&call.answer).is_some();
        let is_forward = |call: &&Carry| call.way == Way::Forward && self.number() == 42;
        self.carry().filter(is_forward).is_some_and(is_answer)
    }
}

fn given(call: &Call) -> Result<Outcome, u8> {
    match call {
        Call::Reencode(call) => call.given().map(reencoded),
        Call::Sizes {
            settings,
            work,
            text,
        } => {
            let sizes = sizes(text, *settings, *work as u64)?;
            Ok(Outcome::Sized(numbers(sizes)))
        }
        Call::ReadBack { work, text } => {
            let (variables, clauses) = read_back(text, *work as u64)?;
            Ok(Outcome::Read(formula_text(variables, &clauses)))
        }
        Call::Carry(call) => call.given().map(Outcome::Line),
        Call::Choose { text } => {
            let formula = read_formula(text, &INPUT_LIMITS)?;
            Ok(chosen(&run_plainly(&formula)))
        }
    }
}

fn numbers(sizes: Sizes) -> Numbers {
    [
        sizes.choices,
        sizes.highest as usize,
        sizes.clauses,
        sizes.lines,
        sizes.log_bytes,
        sizes.formula_bytes,
    ]
}

fn reencoded(result: Reencoded) -> Outcome {
    Outcome::Reencoded {
        tally: numbers(result.sizes()),
        log: result.log,
        formula: result.formula,
        table: result.table,
    }
}

/// The run in counter form, as listed, with step 1.
fn run_plainly(formula: &Formula) -> Encoding {
    let settings = Settings::new(Form::Counter, Arrangement::AsListed);
    Encoding::run(formula, settings)
}

fn chosen(run: &Encoding) -> Outcome {
    let line = |(_, choice): &(usize, Vec<i32>)| Line {
        deletion: false,
        literals: choice.clone(),
    };
    let lines: Vec<Line> = run.choices.iter().map(line).collect();
    Outcome::Chosen(log_text(&lines))
}
