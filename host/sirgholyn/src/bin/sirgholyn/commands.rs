//! The commands over one call each.

use crate::args::Args;
use crate::failure::Failure;
use crate::files::{self, say};
use crate::outputs::{self, Output, Taken};
use sirgholyn::limits::Limits;
use sirgholyn::location::{self, Location};
use sirgholyn::{
    Arrangement, ChoiceRecord, Error, Form, ReencodeRoom, Settings, Tally, WalkBackRoom,
};
use std::io::Cursor;

pub fn reencode(args: &Args) -> Result<u8, Failure> {
    let room = ReencodeRoom {
        work: args.number("--work"),
        log: args.number("--log-room"),
        formula: args.number("--formula-room"),
        table: args.number("--table-room"),
    };
    let input = files::read(args.file(0))?;
    let mut taken = Taken::new(&[&input])?;
    let mut open = |name| {
        args.value(name)
            .map(|file| Output::open(file, &mut taken))
            .transpose()
    };
    let (formula, log, table) = (open("--formula")?, open("--log")?, open("--table")?);

    let new = sirgholyn::reencode(&input.text, settings(args), room)
        .map_err(|error| refused_formula(error, &input.text, &Limits::INPUT))?;
    let mut all = Vec::new();
    for (output, bytes) in [
        (formula, new.formula),
        (log, new.log),
        (table, table_text(&new.table)),
    ] {
        if let Some(mut output) = output {
            output.write(Cursor::new(bytes))?;
            all.push(output);
        }
    }
    let on_standard = all.iter().any(Output::is_standard);
    outputs::finish(all)?;
    tell(&new.tally, on_standard)?;
    Ok(0)
}

pub fn sizes(args: &Args) -> Result<u8, Failure> {
    let input = files::read(args.file(0))?;
    Taken::new(&[&input])?;
    let tally = sirgholyn::sizes(&input.text, settings(args), args.number("--work"))
        .map_err(|error| refused_formula(error, &input.text, &Limits::INPUT))?;
    tell(&tally, false)?;
    Ok(0)
}

/// Counter form, and the literals as they are listed, unless another wish is named.
fn settings(args: &Args) -> Settings {
    let arrangement = match args.has("--align") {
        true => Arrangement::Alignment,
        false => Arrangement::AsListed,
    };
    args.settings(Form::Counter, arrangement)
}

/// A line with the columns' names, and one for each choice, tabs between.
fn table_text(table: &[ChoiceRecord]) -> Vec<u8> {
    let mut text = String::from("first\tlength\tclauses\n");
    for choice in table {
        text += &format!("{}\t{}\t{}\n", choice.first, choice.length, choice.clauses);
    }
    text.into_bytes()
}

/// Prints the tally, on standard error where a text went to standard output.
fn tell(tally: &Tally, on_error: bool) -> Result<(), Failure> {
    let line = format!(
        "choices {} highest {} clauses {} lines {} log-bytes {} formula-bytes {}",
        tally.choices,
        tally.highest,
        tally.clauses,
        tally.lines,
        tally.log_bytes,
        tally.formula_bytes
    );
    match on_error {
        true => {
            say(line);
            Ok(())
        }
        false => files::print((line + "\n").as_bytes()),
    }
}

pub fn walk_back(args: &Args) -> Result<u8, Failure> {
    carry(args, sirgholyn::walk_back, refused_walk_back)
}

pub fn carry_forward(args: &Args) -> Result<u8, Failure> {
    carry(args, sirgholyn::carry_forward, refused_carry_forward)
}

/// A call that carries an assignment over the kept lines of a log.
type Carrying = fn(&[u8], &[u8], usize, &[u8], WalkBackRoom) -> Result<Vec<u8>, Error>;

/// What is told of its refusal.
type Refused = fn(Error, &[u8], &[u8], usize, &[u8]) -> Failure;

/// Prints the line of an assignment that a call carries over the kept lines.
fn carry(args: &Args, call: Carrying, refused: Refused) -> Result<u8, Failure> {
    let room = WalkBackRoom {
        work: args.number("--work"),
        line: args.number("--room"),
    };
    let formula = files::read(args.file(0))?;
    let log = files::read(args.file(1))?;
    let assignment = files::read(args.file(2))?;
    Taken::new(&[&formula, &log, &assignment])?;
    let kept = args.number("--keep").unwrap_or_else(|| lines(&log.text));
    let (formula, log, assignment) = (&formula.text, &log.text, &assignment.text);
    let line = call(formula, log, kept, assignment, room)
        .map_err(|error| refused(error, formula, log, kept, assignment))?;
    files::print(&line)?;
    Ok(0)
}

pub fn read_back(args: &Args) -> Result<u8, Failure> {
    let input = files::read(args.file(0))?;
    Taken::new(&[&input])?;
    let counts = sirgholyn::read_back(&input.text, args.number("--work"))
        .map_err(|error| refused_formula(error, &input.text, &Limits::NEW_FORMULA))?
        .counts;
    let line = format!(
        "variables {} clauses {} literals {}\n",
        counts.variables, counts.clauses, counts.literals
    );
    files::print(line.as_bytes())?;
    Ok(0)
}

/// All lines of a log, a last one without LF included.
fn lines(log: &[u8]) -> usize {
    log.split_inclusive(|&byte| byte == b'\n').count()
}

/// A refusal, with where in the formula the fault was found.
pub fn refused_formula(error: Error, text: &[u8], limits: &Limits) -> Failure {
    let found = match error {
        Error::Refused(refusal) => location::in_formula(text, limits, refusal.0),
        Error::NoMemory(_) => None,
    };
    Failure::from(error).at(found)
}

/// A refusal of walk-back, with where the fault was found, in the text that it is a fault of.
pub fn refused_walk_back(
    error: Error,
    formula: &[u8],
    log: &[u8],
    kept: usize,
    answer: &[u8],
) -> Failure {
    refused_over_log(error, formula, log, kept, |number| {
        location::in_answer(formula, log, kept, answer, number)
    })
}

/// The same for carrying forward.
fn refused_carry_forward(
    error: Error,
    formula: &[u8],
    log: &[u8],
    kept: usize,
    plan: &[u8],
) -> Failure {
    refused_over_log(error, formula, log, kept, |number| {
        location::in_plan(formula, log, kept, plan, number)
    })
}

fn refused_over_log(
    error: Error,
    formula: &[u8],
    log: &[u8],
    kept: usize,
    in_assignment: impl Fn(u32) -> Option<Location>,
) -> Failure {
    let found = match error {
        Error::Refused(refusal) => match refusal.0 {
            1..=4 | 7..=9 => location::in_formula(formula, &Limits::INPUT, refusal.0),
            31 | 32 | 34 => location::in_log(formula, log, kept, refusal.0),
            41..=43 => in_assignment(refusal.0),
            _ => None,
        },
        Error::NoMemory(_) => None,
    };
    Failure::from(error).at(found)
}
