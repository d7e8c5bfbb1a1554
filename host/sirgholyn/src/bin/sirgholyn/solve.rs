//! `solve`: reencode, run a solver, carry its answer back and test the plan, or check the proof.

use crate::args::Args;
use crate::cleanup::{uncut, Temporary};
use crate::commands::{refused_formula, refused_walk_back};
use crate::failure::Failure;
use crate::files::{self, say, shown_name};
use crate::outputs::{self, Output, Taken};
use crate::solver::{Answer, Solver};
use sirgholyn::drat::{self, Fault};
use sirgholyn::limits::{Limits, QUIET_FOR};
use sirgholyn::{plan, Arrangement, Form, ReencodeRoom, Reencoded, WalkBackRoom};
use std::fs::{self, DirBuilder, File, OpenOptions};
use std::io::{self, BufReader, Seek, Write};
use std::os::unix::fs::DirBuilderExt;
use std::path::Path;
use std::time::Instant;

const SATISFIABLE: u8 = 10;
const UNSATISFIABLE: u8 = 20;

pub fn solve(args: &Args) -> Result<u8, Failure> {
    let solver = Solver::new(args.value("--solver"))?;
    let arrangement = arrangement(args)?;
    if args.has("--no-check") && !args.has("--proof") {
        return Err(Failure::usage("`--no-check` wants `--proof`"));
    }
    let input = files::read(args.file(0))?;
    let mut taken = Taken::new(&[&input])?;
    let proof = match args.value("--proof") {
        Some(name) => Some(Output::open(name, &mut taken)?),
        None => None,
    };
    let text = &input.text;

    let settings = args.settings(Form::Order, arrangement);
    let new = sirgholyn::reencode(text, settings, ReencodeRoom::default())
        .map_err(|error| refused_formula(error, text, &Limits::INPUT))?;
    let scratch = Scratch::new(&new.formula)?;
    let mut given = vec![scratch.formula.path.as_path()];
    given.extend(proof.iter().map(|_| scratch.proof.path.as_path()));
    match (solver.run(&given, args.number("--timeout"))?, proof) {
        (Answer::Printed(printed), proof) => plan(text, &new, &printed, proof),
        (Answer::Unsatisfiable, None) => ended("s UNSATISFIABLE\n", UNSATISFIABLE),
        (Answer::Unsatisfiable, Some(output)) => {
            let deletions = drat::deletions_of_tautologies(text);
            let proof = scratch.whole_proof(&[deletions.as_bytes(), &new.log])?;
            let is_checked = !args.has("--no-check");
            if is_checked {
                let ours = deletions.lines().count() as u64 + new.tally.lines;
                check_proof(text, ours, &proof)?;
            }
            proved(output, proof, is_checked)
        }
        (Answer::Unknown(why), _) => {
            files::print(b"s UNKNOWN\n")?;
            Err(Failure::undecided(why))
        }
    }
}

fn ended(printed: &str, status: u8) -> Result<u8, Failure> {
    files::print(printed.as_bytes())?;
    Ok(status)
}

/// Alignment, unless it is not wished.
fn arrangement(args: &Args) -> Result<Arrangement, Failure> {
    match (args.has("--align"), args.has("--no-align")) {
        (true, true) => Err(Failure::usage(
            "`--align` and `--no-align` exclude each other",
        )),
        (false, true) => Ok(Arrangement::AsListed),
        _ => Ok(Arrangement::Alignment),
    }
}

/// The solver's files, in a folder of their own; removed in the end.
struct Scratch {
    formula: Temporary,
    proof: Temporary,
    folder: Temporary,
}

impl Scratch {
    fn new(formula: &[u8]) -> Result<Scratch, Failure> {
        let within = std::env::temp_dir();
        // a whole path, as no solver takes that for an option
        let within = std::path::absolute(&within).unwrap_or(within);
        Scratch::within(&within, formula).map_err(|error| not_written(&within, error))
    }

    fn within(folder: &Path, formula: &[u8]) -> io::Result<Scratch> {
        let own = |path: &Path| DirBuilder::new().mode(0o700).create(path);
        let (folder, ()) = Temporary::make(folder, own)?;
        let scratch = Scratch {
            formula: Temporary::named(folder.path.join("formula.cnf"))?,
            proof: Temporary::named(folder.path.join("proof.drat"))?,
            folder,
        };
        uncut(|| fs::write(&scratch.formula.path, formula))?;
        Ok(scratch)
    }

    /// Our parts and the solver's proof after them: a proof of the formula that was handed in, in a file that no
    /// solver knows of.
    fn whole_proof(&self, ours: &[&[u8]]) -> Result<File, Failure> {
        let mut from = open_proof(&self.proof.path)?;
        let create = |path: &Path| {
            let mut options = OpenOptions::new();
            options.read(true).write(true).create_new(true).open(path)
        };
        let copy = |(temporary, mut whole): (Temporary, File)| {
            // without a name it is gone when it is closed
            drop(temporary);
            whole.write_all(&ours.concat())?;
            io::copy(&mut from, &mut whole)?;
            Ok(whole)
        };
        let whole = Temporary::make(&self.folder.path, create).and_then(copy);
        let _ = fs::remove_file(&self.proof.path);
        whole.map_err(|error| not_written(&self.folder.path, error))
    }
}

fn not_written(folder: &Path, error: io::Error) -> Failure {
    let folder = shown_name(folder.as_os_str());
    Failure::output(format!(
        "the solver's files cannot be written in {folder}: {error}"
    ))
}

/// Prints the plan for the formula that was handed in. An older proof that there is none is removed.
fn plan(text: &[u8], new: &Reencoded, answer: &[u8], proof: Option<Output>) -> Result<u8, Failure> {
    let lines = new.tally.lines as usize;
    let line = sirgholyn::walk_back(text, &new.log, lines, answer, WalkBackRoom::default())
        .map_err(|error| refused_walk_back(error, text, &new.log, lines, answer))?;
    let line = String::from_utf8_lossy(&line);
    if !plan::satisfies(&String::from_utf8_lossy(text), &line) {
        return Err(Failure::internal(
            "the plan carried back does not satisfy the formula",
        ));
    }
    if let Some(output) = proof {
        output.remove_older()?;
    }
    ended(&format!("s SATISFIABLE\n{line}"), SATISFIABLE)
}

/// Writes the proof. On standard output it stands alone, and the exit status is the verdict.
fn proved(mut output: Output, mut proof: File, is_checked: bool) -> Result<u8, Failure> {
    proof.rewind().map_err(unreadable)?;
    output.write(proof)?;
    let alone = output.is_standard();
    outputs::finish(vec![output])?;
    let comment = match is_checked {
        true => "",
        false => "c proof not checked\n",
    };
    if alone {
        comment.lines().for_each(say);
        return Ok(UNSATISFIABLE);
    }
    ended(&format!("{comment}s UNSATISFIABLE\n"), UNSATISFIABLE)
}

/// Opens the solver's proof, which has to be a file: opening a pipe might never end.
fn open_proof(solvers: &Path) -> Result<File, Failure> {
    let opened = match fs::symlink_metadata(solvers) {
        Ok(known) if !known.is_file() => Err(io::Error::other("it is not a file")),
        found => found.and_then(|_| File::open(solvers)),
    };
    opened.map_err(unreadable)
}

fn unreadable(error: io::Error) -> Failure {
    not_proved(format!("its proof cannot be read: {error}"))
}

fn not_proved(why: String) -> Failure {
    Failure::solver(format!(
        "the solver says unsatisfiable, and {why}; whether there is a plan stays open"
    ))
}

/// Checks the whole proof, of which so many lines are ours, against the formula that was handed in.
fn check_proof(text: &[u8], ours: u64, mut proof: &File) -> Result<(), Failure> {
    proof.rewind().map_err(unreadable)?;
    let mut tell_at = Instant::now() + QUIET_FOR;
    let mut progress = |lines: u64| {
        if Instant::now() >= tell_at {
            say(format!("c checking the proof: {lines} lines"));
            tell_at = Instant::now() + QUIET_FOR;
        }
    };
    match drat::check(text, BufReader::new(proof), &mut progress) {
        Ok(_) => Ok(()),
        Err(drat::Error::Unreadable(error)) => Err(unreadable(error)),
        Err(drat::Error::Faulty { line, fault, text }) => Err(match fault {
            Fault::NoEmptyClause => not_proved(format!(
                "its proof of {} lines ends without the empty clause",
                line - ours
            )),
            _ if line > ours => not_proved(format!(
                "its proof fails at line {}: {fault}: `{text}`",
                line - ours
            )),
            _ => Failure::internal(format!("the log fails at line {line}: {fault}: `{text}`")),
        }),
    }
}
