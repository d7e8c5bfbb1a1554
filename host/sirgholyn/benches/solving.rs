//! What reencoding does for a solver: conflicts and processor seconds of cadical and minisat on valleys as they are
//! handed in, in counter form and in order form, as listed and aligned. Prints the tables of docs/BENCHMARKS.md.
//!
//! `cargo bench --offline --bench solving [-- [--short | --seeds] [--solver NAME] [--limit SECONDS]]`. Every answer is
//! tested: it is the one that is known for the valley, and a plan is carried back and holds. Without `--bench`, as
//! `cargo test` runs it, only two small valleys are tried.

#[allow(dead_code)]
mod measure;
#[path = "../tests/common/solvers.rs"]
#[allow(dead_code)]
mod solvers;

use measure::{measure_once, spent};
use model::generator::{text_of, Random};
use model::valleys::Valley;
use sirgholyn::{
    plan, reencode, walk_back, Arrangement, Form, ReencodeRoom, Settings, WalkBackRoom,
};
use solvers::Folder;
use std::{env, fs};

/// More traps around a crowd.
const AROUND: usize = 40;

/// A run that is not decided has had at least this part of the limit.
const LEAST_SHARE: f64 = 0.9;

fn main() {
    let words: Vec<String> = env::args().skip(1).collect();
    let words: Vec<&str> = words.iter().map(String::as_str).collect();
    if let ["--measure", printed, command @ ..] = words.as_slice() {
        return measure_once(printed, command);
    }
    if !words.contains(&"--bench") {
        solve_all(&smallest(), &SOLVERS, 5);
        return;
    }
    let Some(Wanted {
        cases,
        solvers,
        limit,
    }) = wanted(&words)
    else {
        return eprintln!("wanted: nothing, or --short or --seeds, --solver NAME, --limit SECONDS");
    };
    let rows = solve_all(&cases, &solvers, limit);
    for (index, solver) in solvers.iter().enumerate() {
        print_table(solver, index, &rows);
    }
}

struct Wanted {
    cases: Vec<Case>,
    solvers: Vec<&'static str>,
    /// Processor seconds.
    limit: u32,
}

/// What the words ask for.
fn wanted(words: &[&str]) -> Option<Wanted> {
    let (mut cases, mut own_limit, mut limit) = (full as fn() -> Vec<Case>, 40, None);
    let mut solvers = SOLVERS.to_vec();
    let mut words = words.iter().filter(|&&word| word != "--bench");
    while let Some(&word) = words.next() {
        match word {
            "--short" => (cases, own_limit) = (short, 5),
            "--seeds" => cases = seeds,
            "--solver" => {
                let named = *words.next()?;
                solvers.retain(|&solver| solver == named);
            }
            "--limit" => limit = Some(words.next()?.parse().ok().filter(|&limit| limit > 0)?),
            _ => return None,
        }
    }
    let limit = limit.unwrap_or(own_limit);
    (!solvers.is_empty()).then(|| Wanted {
        cases: cases(),
        solvers,
        limit,
    })
}

// ---- the valleys

/// A valley's formula, its clauses and their literals in random order.
struct Case {
    name: String,
    has_plan: bool,
    text: Vec<u8>,
}

fn crowded(seed: u64, crowd: usize, lures: usize, around: usize) -> Case {
    let random = &mut Random::new(seed);
    let valley = Valley::crowded(random, crowd, lures, around);
    Case {
        name: format!("crowd of {crowd}, {around} around, {lures} lures"),
        has_plan: crowd <= lures,
        text: text_of(&valley.shuffled_formula(random)),
    }
}

/// Those of 20 traps are `valley.cnf` and `no_plan.cnf` of `examples`, shuffled.
fn spread(traps: usize, lures: usize, pairs: usize, has_plan: bool) -> Case {
    let random = &mut Random::new(3);
    let valley = Valley::random(random, traps, lures, pairs);
    Case {
        name: format!("{traps} traps spread, {pairs} pairs, {lures} lures"),
        has_plan,
        text: text_of(&valley.shuffled_formula(random)),
    }
}

/// For `cargo test`: one with a plan and one without.
fn smallest() -> Vec<Case> {
    vec![crowded(1, 6, 6, 5), crowded(1, 6, 5, 5)]
}

fn short() -> Vec<Case> {
    let no_plans = (8..=9).map(|crowd| crowded(1, crowd, crowd - 1, AROUND));
    let plans = (8..=9).map(|crowd| crowded(1, crowd, crowd, AROUND));
    let spread = [spread(20, 6, 50, true), spread(20, 6, 80, false)];
    no_plans.chain(plans).chain(spread).collect()
}

fn full() -> Vec<Case> {
    let no_plans = (8..=12).map(|crowd| crowded(1, crowd, crowd - 1, AROUND));
    let plans = (8..=12).map(|crowd| crowded(1, crowd, crowd, AROUND));
    let spread = [
        spread(20, 6, 50, true),
        spread(20, 6, 80, false),
        spread(40, 8, 208, true),
        spread(40, 8, 216, false),
        spread(100, 10, 660, true),
        spread(100, 10, 680, false),
        spread(200, 10, 1_080, true),
        spread(200, 10, 1_120, false),
        spread(600, 12, 1_560, true),
    ];
    no_plans.chain(plans).chain(spread).collect()
}

/// Crowds of 10 and 11 without a plan, three of each.
fn seeds() -> Vec<Case> {
    let mut cases = Vec::new();
    for crowd in 10..=11 {
        for seed in 1..=3 {
            let case = crowded(seed, crowd, crowd - 1, AROUND);
            let name = format!("{}, seed {seed}", case.name);
            cases.push(Case { name, ..case });
        }
    }
    cases
}

// ---- the formulas of a valley

const WAYS: [(&str, Form, Arrangement); 4] = [
    ("counter", Form::Counter, Arrangement::AsListed),
    ("counter, aligned", Form::Counter, Arrangement::Alignment),
    ("order", Form::Order, Arrangement::AsListed),
    ("order, aligned", Form::Order, Arrangement::Alignment),
];

/// A formula, and the log that ties it to the one handed in.
struct Version {
    formula: Vec<u8>,
    log: Vec<u8>,
    lines: usize,
}

/// The formula handed in, and the new ones in the order of the ways. The choices of a valley can be aligned, and are
/// not yet when their literals are shuffled.
fn versions(text: &[u8]) -> Vec<Version> {
    let mut versions = vec![Version {
        formula: text.to_vec(),
        log: Vec::new(),
        lines: 0,
    }];
    for (_, form, arrangement) in WAYS {
        let settings = Settings::new(form, arrangement);
        let new = reencode(text, settings, ReencodeRoom::default()).unwrap();
        versions.push(Version {
            formula: new.formula,
            log: new.log,
            lines: new.tally.lines as usize,
        });
    }
    assert!(versions[1].log != versions[2].log && versions[3].log != versions[4].log);
    versions
}

// ---- the runs

const SOLVERS: [&str; 2] = ["cadical", "minisat"];

struct Run {
    decided: bool,
    conflicts: u64,
    seconds: f64,
}

/// A valley's runs: for each solver, one for each version.
struct Row<'a> {
    case: &'a Case,
    runs: Vec<Vec<Run>>,
}

fn solve_all<'a>(cases: &'a [Case], solvers: &[&str], limit: u32) -> Vec<Row<'a>> {
    let folder = Folder::new();
    let mut rows = Vec::new();
    for case in cases {
        let versions = versions(&case.text);
        let by = |solver: &&str| {
            eprintln!("{}: {solver}", case.name);
            let run = |version| solve(&folder, solver, case, version, limit);
            versions.iter().map(run).collect()
        };
        let runs = solvers.iter().map(by).collect();
        rows.push(Row { case, runs });
    }
    rows
}

/// A run with the limit in processor seconds. Cadical's own limit is of the clock, of which other work on the machine
/// takes a part: a run that is stopped too early is done again with more of it.
fn solve(folder: &Folder, solver: &str, case: &Case, version: &Version, limit: u32) -> Run {
    let mut own_limit = limit;
    loop {
        let run = solve_once(folder, solver, case, version, own_limit);
        let share = run.seconds / f64::from(limit);
        if run.decided || share >= LEAST_SHARE {
            return run;
        }
        eprintln!("  again: {:.0} s of the processor", run.seconds);
        own_limit = (f64::from(own_limit) / share.max(0.1)).ceil() as u32;
    }
}

/// One run, its answer tested.
fn solve_once(folder: &Folder, solver: &str, case: &Case, version: &Version, limit: u32) -> Run {
    let file = folder.write("formula.cnf", &version.formula);
    let (result, printed) = (folder.write("result", b""), folder.path("printed"));
    let seconds = spent(&command(solver, &file, &result, limit), &printed).seconds;
    let answer = answer(&fs::read_to_string(result).unwrap());
    let is_right = match &answer {
        Some(Some(answer)) => case.has_plan && holds(case, version, answer),
        Some(None) => !case.has_plan,
        None => true,
    };
    assert!(is_right, "{}: a wrong answer by {solver}", case.name);
    Run {
        decided: answer.is_some(),
        conflicts: conflicts(&fs::read_to_string(printed).unwrap(), answer.is_some()),
        seconds,
    }
}

/// The solver's command. It ends itself, with its statistics, when its limit is reached: cadical by the clock, minisat
/// by its processor's seconds.
fn command(solver: &str, file: &str, result: &str, limit: u32) -> Vec<String> {
    let clock_limit = limit.to_string();
    let processor_limit = format!("-cpu-lim={limit}");
    let words: &[&str] = match solver {
        "cadical" => &["-t", &clock_limit, "-w", result, file],
        _ => &[&processor_limit, file, result],
    };
    let command = [&[solver], words].concat();
    command.into_iter().map(str::to_string).collect()
}

/// What a solver's result file says: a plan in the competitions' layout or that there is none, if it is decided.
fn answer(result: &str) -> Option<Option<String>> {
    if let Some(literals) = result.strip_prefix("SAT\n") {
        return Some(Some(format!("s SATISFIABLE\nv {literals}")));
    }
    if result.starts_with("s SATISFIABLE\n") {
        return Some(Some(result.to_string()));
    }
    let no_plan = result.starts_with("UNSAT\n") || result.starts_with("s UNSATISFIABLE\n");
    no_plan.then_some(None)
}

/// The conflicts of a solver's statistics. Cadical leaves out those that are 0.
fn conflicts(printed: &str, decided: bool) -> u64 {
    let mut counts = printed.lines().filter_map(|line| {
        let line = line.strip_prefix("c ").unwrap_or(line);
        let count = line.strip_prefix("conflicts")?.trim_start();
        let count = count.strip_prefix(':')?.split_whitespace().next()?;
        count.parse().ok()
    });
    let count = counts.next_back();
    assert!(decided || count.is_some(), "no statistics: {printed}");
    count.unwrap_or(0)
}

/// Whether the plan carried back is one for the formula handed in.
fn holds(case: &Case, version: &Version, answer: &str) -> bool {
    let line = walk_back(
        &case.text,
        &version.log,
        version.lines,
        answer.as_bytes(),
        WalkBackRoom::default(),
    )
    .unwrap();
    plan::satisfies(
        &String::from_utf8_lossy(&case.text),
        &String::from_utf8_lossy(&line),
    )
}

// ---- the tables

fn print_table(solver: &str, index: usize, rows: &[Row]) {
    let ways = WAYS.map(|(name, _, _)| name).join(" | ");
    println!("| {solver} on | plan | the input | {ways} |");
    println!("|---|---|---|---|---|---|---|");
    for row in rows {
        let plan = if row.case.has_plan { "yes" } else { "no" };
        let runs: Vec<String> = row.runs[index].iter().map(shown).collect();
        println!("| {} | {plan} | {} |", row.case.name, runs.join(" | "));
    }
    println!();
}

/// Conflicts and seconds; after `>` where the limit was reached.
fn shown(run: &Run) -> String {
    let (conflicts, seconds) = (in_thousands(run.conflicts), run.seconds);
    if run.decided {
        format!("{conflicts} ({seconds:.2} s)")
    } else {
        format!("> {conflicts} (> {seconds:.0} s)")
    }
}

fn in_thousands(count: u64) -> String {
    let digits = count.to_string();
    let mut shown = String::new();
    for (index, digit) in digits.chars().enumerate() {
        if index > 0 && (digits.len() - index).is_multiple_of(3) {
            shown.push(',');
        }
        shown.push(digit);
    }
    shown
}
