//! The library from other languages: the C header, the shared library, Python.

mod common;

use common::solvers::Folder;
use common::{numbers_of, LISTED};
use sirgholyn::limits::MOST_CHOICES;
use sirgholyn::{
    reencode, Arrangement, ChoiceRecord, Form, ReencodeRoom, Reencoded, Refusal, Settings, Tally,
};
use std::fs;
use std::mem::offset_of;
use std::path::{Path, PathBuf};
use std::process::{Command, Output};
use std::time::{Duration, SystemTime};

const STRICT: [&str; 4] = ["-Wall", "-Wextra", "-Werror", "-pedantic"];

/// A file of the checkout.
fn checkout(name: &str) -> PathBuf {
    Path::new(env!("CARGO_MANIFEST_DIR"))
        .join("../..")
        .join(name)
}

fn text(name: &str) -> String {
    fs::read_to_string(checkout(name)).unwrap()
}

/// The folder of libexports.a, as the build script finds it.
fn library_folder() -> PathBuf {
    match std::env::var_os("SIRGHOLYN_LIB") {
        Some(named) => fs::canonicalize(named).unwrap(),
        None => checkout("target/staticlib"),
    }
}

fn run(command: &mut Command) -> Output {
    command.output().unwrap_or_else(|error| {
        panic!("{command:?}: {error} (host/install-tools installs what the tests need)")
    })
}

/// What a command prints, if it ends well.
#[track_caller]
fn printed(command: &mut Command) -> String {
    let output = run(command);
    let said = String::from_utf8_lossy(&output.stderr);
    let printed = String::from_utf8_lossy(&output.stdout).into_owned();
    assert!(output.status.success(), "{command:?}: {said}{printed}");
    println!("{said}");
    printed
}

/// Builds the shared library beside the archive in a folder.
#[track_caller]
fn build_shared_library(folder: &Path) {
    printed(Command::new(checkout("host/shared-library")).env("SIRGHOLYN_LIB", folder));
}

// ---- declarations

/// Words with single blanks between, the stars that begin comment lines left out.
fn words(text: &str) -> String {
    let words: Vec<&str> = text
        .split_whitespace()
        .filter(|&word| word != "*")
        .collect();
    words.join(" ")
}

#[test]
fn the_header_has_every_number_and_its_words() {
    let header = text("host/include/sirgholyn.h");
    let (_, from) = header.split_once("enum sirgholyn_number {").unwrap();
    let (constants, _) = from.split_once("};").unwrap();
    let mut group = String::new();
    let mut found = Vec::new();
    for part in constants.split("/*").skip(1) {
        let (comment, constant) = part.split_once("*/").unwrap();
        let comment = words(comment);
        let Some((_, number)) = constant.split_once(" = ") else {
            group = comment;
            continue;
        };
        let refusal = Refusal(number.trim().trim_end_matches(',').parse().unwrap());
        assert_eq!(comment, refusal.meaning());
        let mender = refusal.mender();
        let numbers = numbers_of(mender);
        assert_eq!(group, format!("{numbers}: {mender} can mend it."));
        found.push(refusal.0);
    }
    assert_eq!(found, LISTED);
}

/// An exported function of the Rattle source: its name, and each parameter with its type.
struct Exported {
    name: String,
    parameters: Vec<(String, String)>,
}

fn exported() -> Vec<Exported> {
    let source = text("crates/exports/src/lib.rt");
    let functions = source.split("pub extern \"C\" fn ").skip(1);
    functions
        .map(|from| {
            let (name, from) = from.split_once('(').unwrap();
            let (parameters, after) = from.split_once(')').unwrap();
            assert!(after.starts_with(" -> u32\n"), "{name}");
            let parameters = parameters
                .split(',')
                .filter_map(|parameter| parameter.trim().split_once(": "))
                .map(|(name, kind)| (name.to_string(), kind.to_string()))
                .collect();
            Exported {
                name: name.to_string(),
                parameters,
            }
        })
        .collect()
}

/// The table of choices, as the source has it.
const RECORDS: &str = "&mut [ChoiceRecord]";

fn in_c((name, kind): &(String, String)) -> String {
    let slice = |element| format!("{element} *{name}, size_t {name}_len");
    match kind.as_str() {
        "&[u8]" => slice("const uint8_t"),
        "&mut [u8]" => slice("uint8_t"),
        "&mut [i32]" => slice("int32_t"),
        "&mut [u64]" => slice("uint64_t"),
        RECORDS => slice("struct sirgholyn_choice"),
        "u32" => format!("uint32_t {name}"),
        "usize" => format!("size_t {name}"),
        _ => panic!("{name}: {kind}"),
    }
}

fn in_rust((name, kind): &(String, String)) -> String {
    let slice = |pointer| format!("{name}: {pointer}, {name}_len: usize,");
    match kind.as_str() {
        "&[u8]" => slice("*const u8"),
        "&mut [u8]" => slice("*mut u8"),
        "&mut [i32]" => slice("*mut i32"),
        "&mut [u64]" => slice("*mut u64"),
        RECORDS => slice("*mut ChoiceRecord"),
        _ => format!("{name}: {kind},"),
    }
}

#[test]
fn the_declarations_are_those_of_the_source() {
    let header = words(&text("host/include/sirgholyn.h")).replace("( ", "(");
    let calls = words(&text("host/sirgholyn/src/calls.rs"));
    let exported = exported();
    assert_eq!(exported.len(), 5);
    for Exported { name, parameters } in &exported {
        let c: Vec<String> = parameters.iter().map(in_c).collect();
        let c = format!("uint32_t {name}({});", c.join(", "));
        assert!(header.contains(&c), "{c}");
        let rust: Vec<String> = parameters.iter().map(in_rust).collect();
        let rust = format!("pub fn {name}( {} ) -> u32;", rust.join(" "));
        assert!(calls.contains(&rust), "{rust}");
    }
    assert_eq!(header.matches("uint32_t sirgholyn_").count(), 5);
    assert_eq!(calls.matches("pub fn sirgholyn_").count(), 5);
}

/// The names of the 32-bit numbers that a text has between two words.
fn fields<'a>(
    text: &'a str,
    from: &str,
    field: impl Fn(&'a str) -> Option<&'a str>,
) -> Vec<&'a str> {
    let (_, text) = text.split_once(from).unwrap();
    let (text, _) = text.split_once("\n}").unwrap();
    text.lines().filter_map(|line| field(line.trim())).collect()
}

#[test]
fn a_record_of_the_table_in_c_and_rust() {
    let (header, calls) = (
        text("host/include/sirgholyn.h"),
        text("host/sirgholyn/src/calls.rs"),
    );
    let in_c = fields(&header, "\nstruct sirgholyn_choice {", |line| {
        Some(line.strip_prefix("uint32_t ")?.split_once(';')?.0)
    });
    let in_rust = fields(&calls, "pub struct ChoiceRecord {", |line| {
        line.strip_prefix("pub ")?.strip_suffix(": u32,")
    });
    assert_eq!(in_c, ["first", "length", "clauses"]);
    assert_eq!(in_rust, in_c);
    let places = [
        offset_of!(ChoiceRecord, first),
        offset_of!(ChoiceRecord, length),
        offset_of!(ChoiceRecord, clauses),
        size_of::<ChoiceRecord>(),
    ];
    assert_eq!(places, [0, 4, 8, 12]);
    let most = format!("#define SIRGHOLYN_MOST_CHOICES {MOST_CHOICES}\n");
    assert!(header.contains(&most));
}

/// The functions that a library gives to others.
fn symbols(nm: &mut Command) -> Vec<String> {
    let listed = printed(nm.args(["--extern-only", "--defined-only"]));
    let mut names: Vec<String> = listed
        .lines()
        .filter_map(|line| line.split_once(" T "))
        .map(|(_, name)| name.to_string())
        .collect();
    names.sort();
    names
}

#[test]
fn the_libraries_export_what_is_declared() {
    let mut declared: Vec<String> = exported().into_iter().map(|found| found.name).collect();
    declared.sort();
    let folder = library_folder();
    build_shared_library(&folder);
    let archive = symbols(Command::new("nm").arg(folder.join("libexports.a")));
    assert_eq!(archive, declared);
    let shared = folder.join("libsirgholyn.so");
    let shared = symbols(Command::new("nm").arg("--dynamic").arg(shared));
    assert_eq!(shared, declared);
}

// ---- C

/// Compiles the C program with a library, and runs it.
#[track_caller]
fn run_sessions_in_c(library: &[&str]) {
    let folder = Folder::new();
    let program = folder.path("sessions");
    let mut compiler = Command::new("cc");
    compiler.args(["-std=c99", "-O1", "-pthread", "-o", &program]);
    compiler.args(STRICT);
    compiler.arg("-I").arg(checkout("host/include"));
    compiler.arg(checkout("host/sirgholyn/tests/c/sessions.c"));
    printed(compiler.args(library));
    assert_eq!(printed(&mut Command::new(program)), "");
}

#[test]
fn sessions_in_c() {
    let archive = library_folder().join("libexports.a");
    run_sessions_in_c(&[&archive.to_string_lossy()]);
}

/// So that it can be linked where there is no C library.
#[test]
fn the_archive_wants_memset_alone() {
    let archive = library_folder().join("libexports.a");
    let names = printed(Command::new("nm").args(["-P", "-u"]).arg(&archive));
    let wanted: Vec<&str> = names
        .lines()
        .filter_map(|line| line.split_once(" U"))
        .map(|(name, _)| name)
        .collect();
    assert_eq!(wanted, ["memset"]);
}

#[test]
fn sessions_in_c_with_the_shared_library() {
    let folder = library_folder();
    build_shared_library(&folder);
    let shared = folder.join("libsirgholyn.so");
    let path = format!("-Wl,-rpath,{}", folder.to_string_lossy());
    run_sessions_in_c(&[&shared.to_string_lossy(), &path]);
}

/// The header is C++ as well; tried where there is a compiler for that.
#[test]
fn the_header_in_cpp() {
    if Command::new("c++").arg("--version").output().is_err() {
        println!("there is no c++");
        return;
    }
    let mut compiler = Command::new("c++");
    compiler.args(["-std=c++11", "-fsyntax-only", "-x", "c++"]);
    compiler.args(STRICT);
    printed(compiler.arg(checkout("host/include/sirgholyn.h")));
}

// ---- the shared library

/// Gives a file a time, in seconds.
fn set_time(file: &str, seconds: u64) {
    let time = SystemTime::UNIX_EPOCH + Duration::from_secs(seconds);
    let file = fs::File::options().write(true).open(file).unwrap();
    file.set_modified(time).unwrap();
}

#[test]
fn the_shared_library_is_built_where_it_is_missing_or_older() {
    let folder = Folder::new();
    let (archive, library) = (folder.path("libexports.a"), folder.path("libsirgholyn.so"));
    fs::copy(library_folder().join("libexports.a"), &archive).unwrap();
    let build = || build_shared_library(Path::new(&folder.path("")));

    set_time(&archive, 1_000_000_000);
    build();
    let built = fs::read(&library).unwrap();
    // one that is not older stays as it is
    fs::write(&library, b"other").unwrap();
    set_time(&library, 1_000_000_000);
    build();
    assert_eq!(fs::read(&library).unwrap(), b"other");
    set_time(&archive, 1_000_000_001);
    build();
    assert_eq!(fs::read(&library).unwrap(), built);
    assert_eq!(folder.names(), ["libexports.a", "libsirgholyn.so"]);
}

/// Nothing is left of a build that fails, and the library that was there stays.
#[test]
fn a_shared_library_that_cannot_be_built() {
    let folder = Folder::new();
    let mut build = Command::new(checkout("host/shared-library"));
    build.env("SIRGHOLYN_LIB", folder.path(""));
    let output = run(&mut build);
    assert_eq!(output.status.code(), Some(78));
    let said = String::from_utf8_lossy(&output.stderr);
    assert!(
        said.contains("libexports.a; unset SIRGHOLYN_LIB to have the library built"),
        "{said}"
    );

    let library = folder.write("libsirgholyn.so", b"old");
    set_time(&library, 1_000_000_000);
    folder.write("libexports.a", b"not an archive");
    assert!(!run(&mut build).status.success());
    assert_eq!(folder.names(), ["libexports.a", "libsirgholyn.so"]);
    assert_eq!(fs::read(library).unwrap(), b"old");
}

// ---- Python

fn python() -> Command {
    let mut python = Command::new("python3");
    python.arg("-B");
    python.current_dir(checkout("bindings/python"));
    python
}

#[test]
fn python_bindings() {
    let folder = library_folder();
    build_shared_library(&folder);
    let mut tests = python();
    tests.args(["test_sirgholyn.py", "--verbose"]);
    tests.env("SIRGHOLYN_LIB", folder);
    tests.env("SIRGHOLYN_COMMAND", env!("CARGO_BIN_EXE_sirgholyn"));
    printed(&mut tests);
}

/// An example's reencoding in order form, aligned, with a step that skips numbers; and what a line of Python prints
/// of its `text` with the same `settings`.
fn of_example(line: &str) -> (Reencoded, String) {
    let (example, folder) = (checkout("examples/valley.cnf"), library_folder());
    build_shared_library(&folder);
    let settings = Settings::new(Form::Order, Arrangement::Alignment).with_step(7);
    let formula = fs::read(&example).unwrap();
    let new = reencode(&formula, settings, ReencodeRoom::default()).unwrap();
    let script = format!(
        "import sys, sirgholyn\n\
        text = sys.stdin.buffer.read()\n\
        settings = dict(form='order', align=True, step=7)\n\
        {line}"
    );
    let mut python = python();
    python.args(["-c", &script]).env("SIRGHOLYN_LIB", folder);
    python.stdin(fs::File::open(example).unwrap());
    (new, printed(&mut python))
}

#[test]
fn tables_in_python() {
    let line = "for c in sirgholyn.reencode(text, **settings).table: print(*c)";
    let (new, printed) = of_example(line);
    assert_eq!(new.table.len(), 20);
    let line = |c: &ChoiceRecord| format!("{} {} {}\n", c.first, c.length, c.clauses);
    assert_eq!(printed, new.table.iter().map(line).collect::<String>());
}

#[test]
fn sizes_in_python() {
    let (new, printed) = of_example("print(*sirgholyn.sizes(text, **settings))");
    let Tally {
        choices,
        highest,
        clauses,
        lines,
        ..
    } = new.tally;
    let (log, formula) = (new.log.len(), new.formula.len());
    assert_eq!(
        printed,
        format!("{choices} {highest} {clauses} {lines} {log} {formula}\n")
    );
}

#[test]
fn refusals_in_python() {
    let script = "import sirgholyn\nfor n in range(100): print(sirgholyn.Refused(n))";
    let said = printed(python().args(["-c", script]));
    let expected: Vec<String> = (0..100).map(|n| Refusal(n).to_string()).collect();
    assert_eq!(said.lines().collect::<Vec<_>>(), expected);
    let script = "import sirgholyn; print(list(sirgholyn._MEANINGS))";
    let found = printed(python().args(["-c", script]));
    assert_eq!(found.trim_end(), format!("{LISTED:?}"));
}
