//! The library beside an ordinary implementation with vectors and cadical's and minisat's preprocessing, in one run:
//! instructions, seconds, peak memory, and growth from size to size; what carrying a plan over a log takes; what telling
//! the sizes beforehand takes; and the memory of the whole command. Prints the tables of docs/BENCHMARKS.md.
//!
//! `cargo bench --offline --bench compare [-- --short | -- --long | -- --carrying | -- --sizes]`. Instructions are counted
//! by valgrind's callgrind where it is installed, for runs of at most a second; they are those of the whole process.
//! `-- --memory [--long] [COMMAND]` takes the memory of the command, or of another build of it that is named.

#[path = "../tests/common/formulas.rs"]
#[allow(dead_code)]
mod formulas;
mod measure;
mod vectors;

use measure::{measure_once, spent, Spent};
use model::generator::{largest_with, text_of, Random};
use model::log_reading::read_kept_lines;
use model::reading::{read_formula, INPUT_LIMITS};
use model::valleys::Valley;
use model::walk_back::workspace_needed;
use sirgholyn::{
    calls, plan, Arrangement, ChoiceRecord, Form, ReencodeRoom, Settings, WalkBackRoom,
};
use std::hint::black_box;
use std::io::{self, Read};
use std::path::Path;
use std::process::{Command, Stdio};
use std::{env, fs};

/// Longer runs are not counted by callgrind, which takes some fifty times as long.
const LONGEST_COUNTED: f64 = 1.0;
const RUNS: usize = 3;

fn main() {
    let words: Vec<String> = env::args()
        .skip(1)
        .filter(|word| word != "--bench")
        .collect();
    let words: Vec<&str> = words.iter().map(String::as_str).collect();
    match words.as_slice() {
        ["--reencode", who, file, form, sizes @ ..] => reencode_once(who, file, form, sizes),
        ["--carry", call, formula, log, given, sizes @ ..] => {
            carry_once(call, [formula, log, given], sizes)
        }
        ["--size", file, form, work] => size_once(file, form, work),
        ["--measure", printed, command @ ..] => measure_once(printed, command),
        ["--short"] => compare(&valleys(&[75, 150])),
        ["--long"] => compare_long(),
        ["--carrying"] => compare_carrying(&valleys(&SIZES)),
        ["--sizes"] => compare_sizes(&[valleys(&SIZES), at_the_limits()].concat()),
        ["--memory"] => compare_memory(OWN_COMMAND, false),
        ["--memory", "--long"] => compare_memory(OWN_COMMAND, true),
        ["--memory", "--long", command] => compare_memory(command, true),
        ["--memory", command] => compare_memory(command, false),
        [] => {
            compare(&[valleys(&SIZES), at_the_limits(), clashes()].concat());
            println!();
            compare_carrying(&valleys(&SIZES));
            println!();
            compare_sizes(&[valleys(&SIZES), at_the_limits()].concat());
            println!();
            compare_memory(OWN_COMMAND, false);
        }
        _ => eprintln!("wanted: nothing, --short, --long, --carrying, --sizes or --memory"),
    }
}

/// The traps of the valleys.
const SIZES: [usize; 4] = [75, 150, 300, 600];

fn named(form: &str) -> Form {
    match form {
        "order" => Form::Order,
        _ => Form::Counter,
    }
}

// ---- one run, in a process of its own

/// One reencoding of a file, the library's on buffers of these sizes.
fn reencode_once(who: &str, file: &str, form: &str, sizes: &[&str]) {
    let text = fs::read(file).unwrap();
    let (form, wish) = (named(form), Arrangement::Alignment);
    let settings = Settings::new(form, wish);
    if who == "sirgholyn" {
        let sizes: Vec<usize> = sizes.iter().map(|size| size.parse().unwrap()).collect();
        let mut work = vec![0; sizes[0]];
        let (mut log, mut formula) = (vec![0; sizes[1]], vec![0; sizes[2]]);
        let table = &mut vec![ChoiceRecord::default(); sizes[3]];
        calls::reencode(&text, settings, &mut work, &mut log, &mut formula, table).unwrap();
    } else {
        black_box(vectors::reencode(&text, form, wish).ok().unwrap());
    }
}

/// The sizes of a file's reencoding, on a workspace of this size.
fn size_once(file: &str, form: &str, work: &str) {
    let text = fs::read(file).unwrap();
    let settings = Settings::new(named(form), Arrangement::Alignment);
    let mut work = vec![0; work.parse().unwrap()];
    calls::sizes(&text, settings, &mut work).unwrap();
}

/// One assignment carried over the log, on buffers of these sizes.
fn carry_once(call: &str, texts: [&str; 3], sizes: &[&str]) {
    let [formula, log, given] = texts.map(|file| fs::read(file).unwrap());
    let sizes: Vec<usize> = sizes.iter().map(|size| size.parse().unwrap()).collect();
    let (kept, mut work, mut line) = (sizes[0], vec![0; sizes[1]], vec![0; sizes[2]]);
    let call = match call {
        "walk-back" => calls::walk_back,
        _ => calls::carry_forward,
    };
    call(&formula, &log, kept, &given, &mut work, &mut line).unwrap();
}

// ---- the comparison

struct Measured {
    instructions: Option<u64>,
    seconds: f64,
    peak_megabytes: f64,
}

/// The median of some runs, and, if they are wanted, the instructions of one.
fn measure(folder: &Path, command: &[String], counted: bool) -> Measured {
    let mut runs: Vec<Spent> = (0..RUNS).map(|_| spent(command, "/dev/null")).collect();
    runs.sort_by(|one, other| one.seconds.total_cmp(&other.seconds));
    let Spent {
        seconds,
        peak_megabytes,
    } = runs.swap_remove(RUNS / 2);
    let instructions = if counted && seconds <= LONGEST_COUNTED {
        count(folder, command)
    } else {
        None
    };
    Measured {
        instructions,
        seconds,
        peak_megabytes,
    }
}

/// Instructions by callgrind, where it is installed.
fn count(folder: &Path, command: &[String]) -> Option<u64> {
    let out = folder.join("callgrind.out");
    let ran = Command::new("valgrind")
        .args(["--tool=callgrind", "-q"])
        .arg(format!("--callgrind-out-file={}", out.display()))
        .args(command)
        .stdout(Stdio::null())
        .stderr(Stdio::null())
        .status();
    ran.ok()?;
    let counted = fs::read_to_string(out).ok()?;
    let line = counted.lines().find_map(|line| {
        line.strip_prefix("totals: ")
            .or(line.strip_prefix("summary: "))
    })?;
    line.trim().parse().ok()
}

/// What is measured for each row, in the order of its columns.
const WHO: [&str; 4] = ["sirgholyn", "vectors", "cadical", "minisat"];

struct Row {
    family: &'static str,
    name: String,
    form: &'static str,
    log_megabytes: f64,
    by: [Measured; WHO.len()],
}

#[derive(Clone)]
struct Input {
    /// Formulas of one family are of growing size, if there are several.
    family: &'static str,
    name: String,
    text: Vec<u8>,
}

fn input(family: &'static str, name: String, text: Vec<u8>) -> Input {
    Input { family, name, text }
}

fn valleys(sizes: &[usize]) -> Vec<Input> {
    let valley = |&traps: &usize| {
        let valley = Valley::random(&mut Random::new(1), traps, 12, traps * 13 / 5);
        let text = text_of(&valley.formula());
        input("valleys", format!("valley, {traps} traps"), text)
    };
    sizes.iter().map(valley).collect()
}

/// A valley with free lures, and the largest formulas.
fn at_the_limits() -> Vec<Input> {
    let mut valley = Valley::random(&mut Random::new(1), 300, 12, 780);
    valley.free = (0..300).map(|trap| (trap, 11)).collect();
    let name = "valley, 300 traps, a free lure each".into();
    vec![
        input("free lures", name, text_of(&valley.formula())),
        input("k = 5", "largest, k = 5".into(), largest_with(5)),
        input("k = 64", "largest, k = 64".into(), largest_with(64)),
    ]
}

fn clashes() -> Vec<Input> {
    let mut inputs = Vec::new();
    for clashes in [650, 1_300, 2_600] {
        let name = format!("{clashes} clashes in a chain");
        let text = formulas::clash_chain(clashes);
        inputs.push(input("clashes in a chain", name, text));
    }
    for clashes in [300, 600, 1_200] {
        let name = format!("{clashes} clashes apart");
        let text = formulas::clashes_apart(clashes);
        inputs.push(input("clashes apart", name, text));
    }
    inputs
}

fn compare(inputs: &[Input]) {
    let rows = in_both_forms(inputs, |folder, input, form| {
        measure_row(folder, input, form, true)
    });
    print_instructions(&rows);
    println!();
    print_seconds(&rows);
}

/// The longest logs: a clause of 8,000 literals that loses one with each clash, and 1,600 choices each of which replaces
/// all of the wide clauses. They take some gigabytes, and seconds only are told.
fn compare_long() {
    let chain = formulas::unit_chain(8_000);
    let chain = input("long", "unit chain of 8,000".into(), chain);
    let mut rows = Vec::new();
    in_folder(|folder| {
        for (input, form) in [(chain, "counter"), (wide(), "order")] {
            rows.push(measure_row(folder, &input, form, false));
        }
    });
    print_seconds(&rows);
}

fn wide() -> Input {
    let text = formulas::wide_over_choices(5, 1_600, 52_000);
    input("long", "1,600 choices of 5 under wide clauses".into(), text)
}

/// A row for each formula in each form.
fn in_both_forms<Row>(
    inputs: &[Input],
    row: impl Fn(&Path, &Input, &'static str) -> Row,
) -> Vec<Row> {
    let mut rows = Vec::new();
    in_folder(|folder| {
        for form in ["counter", "order"] {
            rows.extend(inputs.iter().map(|input| row(folder, input, form)));
        }
    });
    rows
}

fn in_folder(work: impl FnOnce(&Path)) {
    let folder = env::temp_dir().join(format!("sirgholyn-bench-{}", std::process::id()));
    fs::create_dir(&folder).unwrap();
    work(&folder);
    fs::remove_dir_all(&folder).unwrap();
}

/// The sizes of the least buffers: workspace, log, formula and table. Library and vectors have the same bytes.
fn least_sizes(text: &[u8], form: Form) -> [usize; 4] {
    let wish = Arrangement::Alignment;
    let other = vectors::reencode(text, form, wish).ok().unwrap();
    let work = read_formula(text, &INPUT_LIMITS)
        .unwrap()
        .workspace_needed();
    let texts = [other.log.len(), other.formula.len()];
    let sizes = [work as usize, texts[0], texts[1], other.choices];
    let [work, log, formula, table] = sizes.map(Some);
    let room = ReencodeRoom {
        work,
        log,
        formula,
        table,
    };
    let new = sirgholyn::reencode(text, Settings::new(form, wish), room).unwrap();
    assert!(new.log == other.log && new.formula == other.formula);
    let tally = new.tally;
    let counts = [tally.choices, tally.highest, tally.clauses, tally.lines];
    let others = [
        other.choices,
        other.highest as usize,
        other.clauses,
        other.lines,
    ];
    assert_eq!(counts, others.map(|count| count as u64));
    sizes
}

/// Writes a file into the folder, and gives its whole name.
fn write(folder: &Path, name: &str, bytes: &[u8]) -> String {
    let path = folder.join(name).to_string_lossy().into_owned();
    fs::write(&path, bytes).unwrap();
    path
}

fn own_program() -> String {
    env::current_exe().unwrap().to_string_lossy().into_owned()
}

fn measure_row(folder: &Path, input: &Input, form: &'static str, counted: bool) -> Row {
    let name = &input.name;
    eprintln!("{name}, {form} form");
    let path = |name: &str| folder.join(name).to_string_lossy().into_owned();
    let file = write(folder, "formula.cnf", &input.text);
    let sizes = least_sizes(&input.text, named(form));
    let sizes_in_words = sizes.map(|size| size.to_string());
    let own = own_program();
    let words = |who| match who {
        "cadical" => words(&[
            "cadical",
            "-q",
            "-f",
            "-c",
            "0",
            "-o",
            &path("new.cnf"),
            "-e",
            &path("stack"),
            &file,
        ]),
        "minisat" => words(&[
            "minisat",
            "-verb=0",
            "-pre",
            &format!("-dimacs={}", path("minisat.cnf")),
            &file,
        ]),
        _ => {
            let first = words(&[&own, "--reencode", who, &file, form]);
            [&first[..], &sizes_in_words].concat()
        }
    };
    Row {
        family: input.family,
        name: name.clone(),
        form,
        log_megabytes: sizes[1] as f64 / 1e6,
        by: WHO.map(|who| measure(folder, &words(who), counted)),
    }
}

fn words(words: &[&str]) -> Vec<String> {
    words.iter().map(|word| word.to_string()).collect()
}

// ---- carrying over a log

/// The calls of a row, in the order of its columns.
const CARRYING: [&str; 2] = ["walk-back", "carry-forward"];

struct CarryingRow {
    name: String,
    form: &'static str,
    lines: usize,
    by: [Measured; CARRYING.len()],
}

/// A solver's answer carried back over the whole log, and the plan that it gives forward.
fn compare_carrying(inputs: &[Input]) {
    print_carrying(&in_both_forms(inputs, measure_carrying));
}

fn measure_carrying(folder: &Path, input: &Input, form: &'static str) -> CarryingRow {
    eprintln!("{}, {form} form, carried", input.name);
    let write = |name: &str, bytes: &[u8]| write(folder, name, bytes);
    let text = &input.text;
    let settings = Settings::new(named(form), Arrangement::Alignment);
    let new = sirgholyn::reencode(text, settings, ReencodeRoom::default()).unwrap();
    let lines = new.tally.lines as usize;
    let room = WalkBackRoom::default();
    let answer = answer_of(&write("new.cnf", &new.formula));
    let back = sirgholyn::walk_back(text, &new.log, lines, &answer, room).unwrap();
    let plan = [b"s SATISFIABLE\n", &back[..]].concat();
    let forward = sirgholyn::carry_forward(text, &new.log, lines, &plan, room).unwrap();
    let [new_formula, line] = [&new.formula, &forward].map(|text| String::from_utf8_lossy(text));
    assert!(plan::satisfies(&new_formula, &line));

    let read = read_formula(text, &INPUT_LIMITS).unwrap();
    let kept = read_kept_lines(&new.log, lines).unwrap();
    let work = workspace_needed(&read, &kept);
    let own = own_program();
    let files = [write("formula.cnf", text), write("log.drat", &new.log)];
    let command = |call: &str, given: &[u8], line: &[u8]| {
        let given = write(call, given);
        let sizes = [lines.to_string(), work.to_string(), line.len().to_string()];
        let first = words(&[&own, "--carry", call, &files[0], &files[1], &given]);
        [&first[..], &sizes].concat()
    };
    let [one, other] = CARRYING;
    let commands = [
        command(one, &answer, &back),
        command(other, &plan, &forward),
    ];
    CarryingRow {
        name: input.name.clone(),
        form,
        lines,
        by: commands.map(|command| measure(folder, &command, true)),
    }
}

/// What cadical prints of a formula that can be satisfied.
fn answer_of(file: &str) -> Vec<u8> {
    let output = Command::new("cadical").args(["-q", file]).output().unwrap();
    assert_eq!(output.status.code(), Some(10));
    output.stdout
}

// ---- sizes before the run

/// The calls of a row, in the order of its columns.
const SIZING: [&str; 2] = ["sizes", "reencode"];

struct SizesRow {
    name: String,
    form: &'static str,
    log_megabytes: f64,
    by: [Measured; SIZING.len()],
}

/// The sizes told, and the reencoding on buffers of these sizes: each reads the file and lends the same workspace.
fn compare_sizes(inputs: &[Input]) {
    print_sizes(&in_both_forms(inputs, measure_sizes));
}

fn measure_sizes(folder: &Path, input: &Input, form: &'static str) -> SizesRow {
    eprintln!("{}, {form} form, sizes", input.name);
    let file = write(folder, "formula.cnf", &input.text);
    let sizes = least_sizes(&input.text, named(form));
    let settings = Settings::new(named(form), Arrangement::Alignment);
    let told = sirgholyn::sizes(&input.text, settings, Some(sizes[0])).unwrap();
    let told = [told.log_bytes, told.formula_bytes, told.choices as usize];
    assert_eq!(told, sizes[1..]);

    let (own, lent) = (own_program(), sizes.map(|size| size.to_string()));
    let sizing = words(&[&own, "--size", &file, form, &lent[0]]);
    let reencoding = words(&[&own, "--reencode", "sirgholyn", &file, form]);
    let commands = [sizing, [&reencoding[..], &lent].concat()];
    SizesRow {
        name: input.name.clone(),
        form,
        log_megabytes: sizes[1] as f64 / 1e6,
        by: commands.map(|command| measure(folder, &command, true)),
    }
}

// ---- the memory of the command

const OWN_COMMAND: &str = env!("CARGO_BIN_EXE_sirgholyn");

/// The whole command `reencode` in order form, on a valley, and on the formula with the longest log.
fn compare_memory(command: &str, is_long: bool) {
    let mut inputs = valleys(&[600]);
    inputs.extend(is_long.then(wide));
    println!("The whole command in order form: peak memory in MB, resident and of addresses; median processor seconds.");
    println!();
    print_head(&["formula", "log MB", "resident", "addresses", "seconds"]);
    in_folder(|folder| {
        for input in &inputs {
            let file = write(folder, "formula.cnf", &input.text);
            let command = words(&[command, "reencode", &file, "--form", "order", "--align"]);
            let [resident, addresses, log] = peaks(&command);
            let seconds = measure(folder, &command, false).seconds;
            let name = &input.name;
            println!("| {name} | {log:.2} | {resident:.1} | {addresses:.1} | {seconds:.3} |");
        }
    });
}

/// The peaks of a run that writes its log, resident and of addresses in MB, and the log's millions of bytes. They are
/// read while the run waits for someone to take the log, and so has made all its buffers. It has one arena only: the
/// addresses that the allocator sets aside for another would hide the buffers.
fn peaks(command: &[String]) -> [f64; 3] {
    let mut run = Command::new(&command[0])
        .args(&command[1..])
        .args(["--log", "-"])
        .env("MALLOC_ARENA_MAX", "1")
        .stdout(Stdio::piped())
        .stderr(Stdio::null())
        .spawn()
        .unwrap();
    let mut log = run.stdout.take().unwrap();
    log.read_exact(&mut [0]).unwrap();
    let status = fs::read_to_string(format!("/proc/{}/status", run.id())).unwrap();
    let rest = io::copy(&mut log, &mut io::sink()).unwrap();
    assert!(run.wait().unwrap().success());
    let megabytes = |name: &str| {
        let line = status.lines().find_map(|line| line.strip_prefix(name));
        let kilobytes = line.unwrap().trim().trim_end_matches(" kB");
        kilobytes.parse::<f64>().unwrap() / 1024.0
    };
    let log = (1 + rest) as f64 / 1e6;
    [megabytes("VmHWM:"), megabytes("VmPeak:"), log]
}

// ---- the tables

fn print_sizes(rows: &[SizesRow]) {
    println!(
        "Sizes before the run: instructions of the whole process, the ratio of the two, seconds."
    );
    println!();
    let columns = ["formula", "form", "log MB"];
    print_head(&[&columns[..], &SIZING, &["ratio", "seconds", "seconds"]].concat());
    for row in rows {
        let [sizes, reencode] = &row.by;
        println!(
            "| {} | {} | {:.2} | {} | {} | {} | {:.3} | {:.3} |",
            row.name,
            row.form,
            row.log_megabytes,
            in_millions(sizes),
            in_millions(reencode),
            ratio(sizes, reencode),
            sizes.seconds,
            reencode.seconds,
        );
    }
}

fn print_carrying(rows: &[CarryingRow]) {
    println!("Carrying over the whole log: instructions of the whole process, growth to the row before, seconds.");
    println!();
    let columns = CARRYING.map(|call| [call, "growth", "seconds"]).concat();
    print_head(&[&["formula", "form", "lines"][..], &columns].concat());
    let mut before: Option<&CarryingRow> = None;
    for row in rows {
        let smaller = before.filter(|before| before.form == row.form);
        let shown = |call: usize| {
            let by = &row.by[call];
            let growth = smaller.map(|smaller| ratio(by, &smaller.by[call]));
            let growth = growth.unwrap_or_default();
            format!("{} | {growth} | {:.3}", in_millions(by), by.seconds)
        };
        let (name, form, lines) = (&row.name, row.form, row.lines);
        println!(
            "| {name} | {form} | {lines} | {} | {} |",
            shown(0),
            shown(1)
        );
        before = Some(row);
    }
}

fn print_head(first: &[&str]) {
    println!("| {} |", first.join(" | "));
    println!("|{}", "---|".repeat(first.len()));
}

fn print_instructions(rows: &[Row]) {
    println!("Instructions of the whole process (callgrind). Growth is to the row before. A ratio is the library's");
    println!("instructions (where one is not counted: seconds) over the other's.");
    println!();
    print_head(&[
        "formula",
        "form",
        "log MB",
        "sirgholyn",
        "growth",
        "vectors",
        "growth",
        "cadical",
        "minisat",
        "/ vectors",
        "/ cadical",
        "/ minisat",
    ]);
    let mut before: Option<&Row> = None;
    for row in rows {
        let smaller =
            before.filter(|before| before.family == row.family && before.form == row.form);
        let growth = |who: usize| {
            let growth = smaller.map(|smaller| ratio(&row.by[who], &smaller.by[who]));
            growth.unwrap_or_default()
        };
        let [library, vectors, cadical, minisat] = &row.by;
        println!(
            "| {} | {} | {:.2} | {} | {} | {} | {} | {} | {} | {} | {} | {} |",
            row.name,
            row.form,
            row.log_megabytes,
            in_millions(library),
            growth(0),
            in_millions(vectors),
            growth(1),
            in_millions(cadical),
            in_millions(minisat),
            ratio(library, vectors),
            ratio(library, cadical),
            ratio(library, minisat),
        );
        before = Some(row);
    }
}

fn print_seconds(rows: &[Row]) {
    println!("Median processor seconds of {RUNS} runs, and peak memory in MB.");
    println!();
    print_head(&[&["formula", "form", "log MB"][..], &WHO].concat());
    for row in rows {
        let shown = |by: &Measured| format!("{:.3}, {:.0}", by.seconds, by.peak_megabytes);
        let (name, form, log) = (&row.name, row.form, row.log_megabytes);
        let by = row.by.each_ref().map(shown).join(" | ");
        println!("| {name} | {form} | {log:.2} | {by} |");
    }
}

fn in_millions(measured: &Measured) -> String {
    match measured.instructions {
        Some(instructions) => format!("{:.1} M", instructions as f64 / 1e6),
        None => "not counted".into(),
    }
}

fn ratio(one: &Measured, other: &Measured) -> String {
    match (one.instructions, other.instructions) {
        (Some(one), Some(other)) => format!("{:.2}", one as f64 / other as f64),
        _ => format!("{:.2} (s)", one.seconds / other.seconds),
    }
}
