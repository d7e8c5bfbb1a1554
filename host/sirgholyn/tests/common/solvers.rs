//! Solvers that are not ours, run on texts: cadical and minisat.

use model::reading::{read_formula, READ_BACK_LIMITS};
use model::texts::formula_text;
use std::collections::HashSet;
use std::fs;
use std::path::PathBuf;
use std::process::{Command, Output};
use std::sync::atomic::{AtomicUsize, Ordering};

/// A folder of its own, removed in the end.
pub struct Folder(PathBuf);

impl Folder {
    pub fn new() -> Folder {
        static NEXT: AtomicUsize = AtomicUsize::new(0);
        let own = NEXT.fetch_add(1, Ordering::Relaxed);
        let path =
            std::env::temp_dir().join(format!("sirgholyn-test-{}-{own}", std::process::id()));
        fs::create_dir(&path).unwrap();
        Folder(path)
    }

    pub fn path(&self, name: &str) -> String {
        self.0.join(name).to_string_lossy().into_owned()
    }

    pub fn write(&self, name: &str, bytes: &[u8]) -> String {
        fs::write(self.path(name), bytes).unwrap();
        self.path(name)
    }

    /// The names in the folder, in order.
    pub fn names(&self) -> Vec<String> {
        let mut names: Vec<String> = fs::read_dir(&self.0)
            .unwrap()
            .map(|entry| entry.unwrap().file_name().to_string_lossy().into_owned())
            .collect();
        names.sort();
        names
    }
}

impl Drop for Folder {
    fn drop(&mut self) {
        let _ = fs::remove_dir_all(&self.0);
    }
}

/// A solver's answer in the competitions' layout; or that there is none, with its proof in text if it
/// writes one.
pub enum Answer {
    Satisfiable(Vec<u8>),
    Unsatisfiable(Option<String>),
}

fn run(command: &mut Command) -> Output {
    command.output().unwrap_or_else(|error| {
        panic!("{command:?}: {error} (host/install-tools installs the solvers)")
    })
}

pub fn cadical(formula: &[u8]) -> Answer {
    let folder = Folder::new();
    let file = folder.write("formula.cnf", formula);
    let proof = folder.path("proof.drat");
    let output = run(Command::new("cadical").args(["-q", "--no-binary", &file, &proof]));
    match output.status.code() {
        Some(10) => Answer::Satisfiable(output.stdout),
        Some(20) => Answer::Unsatisfiable(Some(fs::read_to_string(proof).unwrap())),
        other => panic!("cadical ended with {other:?}"),
    }
}

/// Minisat writes `SAT` and the literals into a file; it writes no proof.
pub fn minisat(formula: &[u8]) -> Answer {
    let folder = Folder::new();
    let file = folder.write("formula.cnf", formula);
    let result = folder.path("result");
    let output = run(Command::new("minisat").args(["-verb=0", &file, &result]));
    match output.status.code() {
        Some(10) => {
            let result = fs::read_to_string(result).unwrap();
            let literals = result.strip_prefix("SAT\n").unwrap();
            Answer::Satisfiable(format!("s SATISFIABLE\nv {literals}").into_bytes())
        }
        Some(20) => Answer::Unsatisfiable(None),
        other => panic!("minisat ended with {other:?}"),
    }
}

/// The literals that an answer names.
pub fn named(answer: &[u8]) -> HashSet<i32> {
    let answer = String::from_utf8_lossy(answer);
    let words = answer.split_whitespace();
    words.filter_map(|word| word.parse().ok()).collect()
}

/// Those of the variables 1.. that no clause holds.
fn unheld(variables: i32, clauses: &[Vec<i32>]) -> Vec<i32> {
    let held: HashSet<i32> = clauses.iter().flatten().map(|l| l.abs()).collect();
    (1..=variables).filter(|v| !held.contains(v)).collect()
}

/// An answer with so many of the variables 1.. true that none has these and one more; `None` if there is no answer.
pub fn fullest_answer(formula: &[u8], variables: i32) -> Option<Vec<u8>> {
    let read = read_formula(formula, &READ_BACK_LIMITS).unwrap();
    let mut demanded = unheld(variables, &read.clauses);
    let mut one_more = None;
    let mut fullest = None;
    loop {
        let units = demanded.iter().map(|&variable| vec![variable]);
        let more = units.chain(one_more).collect();
        let clauses = [read.clauses.clone(), more].concat();
        let Answer::Satisfiable(answer) = cadical(&formula_text(read.variables, &clauses)) else {
            return fullest;
        };
        let named = named(&answer);
        let (held, others) = (1..=variables).partition(|variable| named.contains(variable));
        demanded = held;
        one_more = Some(others);
        fullest = Some(answer);
    }
}
