//! The command itself: its results, its words, and the texts that it refuses.

mod common;

use common::command::{example, expect_failure, run, run_with, Ran};
use common::formulas::JOINED_F;
use common::numbers_of;
use common::solvers::Folder;
use model::generator::{clauses_apart, text_of, Random};
use model::sessions::{CHAIN, F};
use model::valleys::Valley;
use sirgholyn::plan;
use std::collections::HashSet;
use std::fs;

const ANSWER: &str = "s SATISFIABLE\nv 1 2 3 4 5 -6 -7 -8 -9 10 0\n";

#[track_caller]
fn expect_printed(ran: &Ran, printed: &str) {
    assert_eq!(
        (ran.status, ran.out.as_str(), ran.err.as_str()),
        (0, printed, "")
    );
}

/// Session F reencoded, read back and walked back by the command, from a text that is read as F.
fn reencode_and_back(text: &str) {
    let folder = Folder::new();
    let input = folder.write("in.cnf", text.as_bytes());
    let (formula, log) = (folder.path("new.cnf"), folder.path("new.drat"));
    let outputs = ["--formula", &formula, "--log", &log];
    let ran = run(&[&["reencode", &input, "--form", "order"], &outputs[..]].concat());
    let tally = "choices 1 highest 10 clauses 8 lines 41 log-bytes 371 formula-bytes 77\n";
    expect_printed(&ran, tally);
    let new = fs::read_to_string(&formula).unwrap();
    assert!(new.starts_with("p cnf 10 8\n8 -7 0\n"));
    assert_eq!(folder.names(), ["in.cnf", "new.cnf", "new.drat"]);

    let counts = "variables 10 clauses 8 literals 19\n";
    expect_printed(&run(&["read-back", &formula]), counts);
    let counts = "variables 6 clauses 7 literals 17\n";
    expect_printed(&run(&["read-back", &input]), counts);

    let answer = folder.write("answer", ANSWER.as_bytes());
    let line = "v -1 -2 -3 4 -5 -6 0\n";
    expect_printed(&run(&["walk-back", &input, &log, &answer]), line);
    let words = ["walk-back", "--keep=41", &input, "-", &answer];
    expect_printed(&run_with(&words, &fs::read(&log).unwrap()), line);
    let words = ["walk-back", &input, &log, "-", "--keep", "0"];
    expect_printed(&run_with(&words, b"s SATISFIABLE\nv 4 0\n"), line);

    let plan = folder.write("plan", format!("s SATISFIABLE\n{line}").as_bytes());
    let forward = "v -1 -2 -3 4 -5 -6 -7 -8 -9 10 0\n";
    expect_printed(&run(&["carry-forward", &input, &log, &plan]), forward);
    let words = ["carry-forward", "--keep=41", &input, "-", &plan];
    expect_printed(&run_with(&words, &fs::read(&log).unwrap()), forward);
    let words = ["carry-forward", &input, &log, "-", "--keep", "0"];
    expect_printed(&run_with(&words, b"s SATISFIABLE\nv 4 0\n"), line);
    let words = ["carry-forward", &input, &log, &plan, "--keep", "4"];
    expect_printed(&run(&words), "v -1 -2 -3 4 -5 -6 -7 -8 0\n");
    let answer = format!("s SATISFIABLE\n{forward}");
    let words = ["walk-back", &input, &log, "-"];
    expect_printed(&run_with(&words, answer.as_bytes()), line);
}

/// What `solve` prints is carried forward to values that satisfy the new formula.
#[test]
fn a_plan_carried_forward() {
    let folder = Folder::new();
    let input = example("valley.cnf");
    let (formula, log) = (folder.path("new.cnf"), folder.path("new.drat"));
    let solved = run(&["solve", &input]);
    assert_eq!(solved.status, 10);
    for form in ["counter", "order"] {
        let outputs = ["--form", form, "--formula", &formula, "--log", &log];
        let ran = run(&[&["reencode", &input], &outputs[..]].concat());
        assert_eq!(ran.status, 0, "{}", ran.err);
        let words = ["carry-forward", &input, &log, "-"];
        let ran = run_with(&words, solved.out.as_bytes());
        assert_eq!((ran.status, ran.err.as_str()), (0, ""));
        let new = fs::read_to_string(&formula).unwrap();
        assert!(plan::satisfies(&new, &ran.out), "{form}");
    }
}

#[test]
fn session_f() {
    reencode_and_back(F);
}

#[test]
fn session_f_with_repeats_and_tautologies() {
    reencode_and_back(JOINED_F);
    let ran = run_with(&["solve", "-"], JOINED_F.as_bytes());
    assert_eq!((ran.status, ran.err.as_str()), (10, ""));
    let line = ran.out.strip_prefix("s SATISFIABLE\n").unwrap();
    assert!(plan::satisfies(JOINED_F, line) && plan::satisfies(F, line));
}

#[test]
fn standard_input_and_output() {
    let ran = run_with(
        &["reencode", "-", "--form=order", "--formula", "-"],
        F.as_bytes(),
    );
    assert_eq!(ran.status, 0);
    assert!(ran.out.starts_with("p cnf 10 8\n") && ran.out.ends_with("10 -6 0\n"));
    assert!(ran.err.starts_with("choices 1 "));
    let ran = run_with(&["reencode", "-", "--log", "-"], b"p cnf 1 2\n1 0\n-1 0\n");
    assert_eq!(ran.out, "0\nd 1 0\nd -1 0\n");
}

/// The table of choices to the byte: as a file beside the other two, and on standard output.
#[test]
fn tables() {
    let folder = Folder::new();
    let input = folder.write("in.cnf", CHAIN.as_bytes());
    let paths = ["new.cnf", "new.drat", "new.tsv"].map(|name| folder.path(name));
    let outputs = [
        "--formula",
        &paths[0],
        "--log",
        &paths[1],
        "--table",
        &paths[2],
    ];
    for form in ["counter", "order"] {
        let ran = run(&[&["reencode", &input, "--form", form], &outputs[..]].concat());
        assert_eq!((ran.status, ran.err.as_str()), (0, ""));
        assert!(ran.out.starts_with("choices 1 highest 13 "));
        let table = fs::read_to_string(&paths[2]).unwrap();
        assert_eq!(table, "first\tlength\tclauses\n9\t6\t3\n");
        let log = fs::read_to_string(&paths[1]).unwrap();
        assert!(log.starts_with("1 2 4 5 0\nd 3 1 2 0\nd -3 4 5 0\n1 2 4 6 7 8 0\n"));
    }
    assert_eq!(folder.names(), ["in.cnf", "new.cnf", "new.drat", "new.tsv"]);

    let printed = |words: &[&str], input: &str| {
        let ran = run_with(
            &[&["reencode", "-", "--table", "-"], words].concat(),
            input.as_bytes(),
        );
        assert_eq!(ran.status, 0);
        assert!(ran.err.starts_with("choices "));
        ran.out
    };
    let table = printed(&["--step", "10", "--table-room", "1"], CHAIN);
    assert_eq!(table, "first\tlength\tclauses\n11\t6\t3\n");
    let two = "p cnf 11 2\n1 2 3 4 5 0\n6 7 8 9 10 11 0\n";
    let table = printed(&["--step=100"], two);
    assert_eq!(table, "first\tlength\tclauses\n101\t5\t1\n201\t6\t1\n");
    assert_eq!(printed(&[], "p cnf 0 0\n"), "first\tlength\tclauses\n");
}

/// Step 1 is no step, and a longer one changes numbers only.
#[test]
fn steps() {
    let log = |words: &[&str]| {
        let words = [&["reencode", "-", "--log", "-"], words].concat();
        run_with(&words, CHAIN.as_bytes()).out
    };
    assert_eq!(log(&["--step", "1"]), log(&[]));
    let later = log(&["--step", "20"]);
    let turned = (9..=13).fold(log(&[]), |text, variable: i32| {
        text.replace(&format!("{variable} "), &format!("{} ", variable + 12))
    });
    assert_eq!(later, turned);
}

/// The sizes told before the run are the line of the run, with the same options; no file appears.
#[test]
fn sizes_before_the_run() {
    let folder = Folder::new();
    let input = folder.write("in.cnf", F.as_bytes());
    let tally = "choices 1 highest 10 clauses 8 lines 41 log-bytes 371 formula-bytes 77\n";
    expect_printed(&run(&["sizes", &input, "--form", "order"]), tally);
    let words = ["sizes", "-", "--form=order", "--work", "8980"];
    expect_printed(&run_with(&words, JOINED_F.as_bytes()), tally);
    assert_eq!(folder.names(), ["in.cnf"]);

    let valley = example("valley.cnf");
    let mut lines = HashSet::new();
    for form in ["counter", "order"] {
        for options in [&[][..], &["--align"], &["--step", "10"]] {
            let words = [&[&valley, "--form", form], options].concat();
            let told = run(&[&["sizes"], &words[..]].concat());
            expect_printed(&run(&[&["reencode"], &words[..]].concat()), &told.out);
            lines.insert(told.out);
        }
    }
    // the valley is aligned as it stands
    assert_eq!(lines.len(), 4);
    let unnamed = run(&["sizes", &valley]);
    expect_printed(&run(&["reencode", &valley]), &unnamed.out);
}

/// With just what `sizes` prints the command reencodes; with one less of anything it does not.
#[test]
fn rooms_of_the_sizes_told() {
    let told = run(&["sizes", &example("valley.cnf"), "--align"]).out;
    let numbers = told.split_whitespace().filter_map(|word| word.parse().ok());
    let numbers: Vec<usize> = numbers.collect();
    let exact = [numbers[0], numbers[4], numbers[5]];
    let reencode = |[table, log, formula]: [usize; 3]| {
        let rooms = [table, log, formula].map(|room| room.to_string());
        run(&[
            "reencode",
            &example("valley.cnf"),
            "--align",
            "--table-room",
            &rooms[0],
            "--log-room",
            &rooms[1],
            "--formula-room",
            &rooms[2],
        ])
    };
    expect_printed(&reencode(exact), &told);
    for (place, number) in [17, 12, 13].into_iter().enumerate() {
        let mut short = exact;
        short[place] -= 1;
        expect_failure(&reencode(short), number, "the caller can mend it");
    }
}

/// Refusals of `sizes`: who can mend them, and where.
#[test]
fn refusals_of_sizes() {
    let folder = Folder::new();
    let input = folder.write("in.cnf", F.as_bytes());
    let many = folder.write("many.cnf", &text_of(&clauses_apart(5, 1_600)));
    let literal = folder.write("literal.cnf", b"p cnf 2 1\n1\n\t3 0\n");
    let writer = "the formula's writer can mend it";
    expect_failure(&run(&["sizes", "/dev/null"]), 1, writer);
    expect_failure(&run(&["sizes", &literal]), 4, writer);
    expect_failure(&run(&["sizes", &literal]), 4, "(line 3, byte 2: `3`)");
    let caller = "the caller can mend it";
    expect_failure(&run(&["sizes", &input, "--work", "8971"]), 11, caller);
    expect_failure(&run(&["sizes", "/dev/null", "--step", "0"]), 15, caller);
    expect_failure(&run(&["sizes", &many, "--step", "39"]), 16, caller);
    assert_eq!(run(&["sizes", &many, "--step", "38"]).status, 0);
    let room = ["sizes", &input, "--work", "999999999999999999"];
    expect_failure(&run(&room), 71, "no memory");
}

#[test]
fn help_and_version() {
    let ran = run(&["--help"]);
    assert_eq!((ran.status, ran.err.as_str()), (0, ""));
    assert_eq!(run(&["help"]).out, ran.out);
    assert_eq!(run(&["-h"]).out, ran.out);
    assert_eq!(run(&["help", "nothing"]).out, ran.out);
    for command in [
        "reencode",
        "sizes",
        "walk-back",
        "carry-forward",
        "read-back",
        "solve",
    ] {
        assert!(ran.out.contains(&format!("  sirgholyn {command} ")));
        let own = run(&[command, "--help"]);
        assert_eq!((own.status, own.err.as_str()), (0, ""));
        assert!(own.out.starts_with(&format!("sirgholyn {command} ")));
        assert!(own.out.contains("Example:\n"));
        for words in [
            &["help", command][..],
            &[command, "-h"],
            &[command, "a", "b", "--help", "--nonsense"],
        ] {
            assert_eq!(run(words).out, own.out);
        }
    }
    let ran = run(&["--version"]);
    let lines: Vec<&str> = ran.out.lines().collect();
    assert_eq!((ran.status, lines.len()), (0, 3));
    assert_eq!(lines[0], concat!("sirgholyn ", env!("CARGO_PKG_VERSION")));
    assert!(lines[1].starts_with("toolchain ") && lines[2].starts_with("library "));
}

/// Every option of the table stands in its command's help, and in the page of all commands.
#[test]
fn help_tells_every_option() {
    let table = include_str!("../words/commands.txt");
    let all = run(&["--help"]).out;
    let mut own = String::new();
    let mut options = 0;
    for line in table.lines().filter(|line| !line.starts_with('#')) {
        match line.strip_prefix("  ") {
            None => own = run(&["help", line.split(' ').next().unwrap()]).out,
            Some(option) => {
                let name = option.split(' ').next().unwrap();
                assert!(own.contains(name), "{name}");
                assert!(
                    all.contains(option.trim_start_matches("--")) || name == "--align",
                    "{option}"
                );
                options += 1;
            }
        }
    }
    assert_eq!(options, 29);
}

#[test]
fn help_tells_every_number() {
    let help = run(&["--help"]).out;
    for mender in [
        "the formula's writer",
        "the caller",
        "the log's writer",
        "the solver or planner",
        "the solver",
        "the planner",
    ] {
        let numbers = format!("  {} ", numbers_of(mender));
        let line = help.lines().find(|line| line.starts_with(&numbers));
        assert!(line.is_some_and(|line| line.contains(mender)), "{mender}");
    }
}

/// Words that are wrong: the message says which, and no file is looked at.
#[test]
fn wrong_words() {
    for (words, said) in [
        (&[][..], "which command?"),
        (&["encode"], "there is no command `encode`"),
        (&["--encode"], "there is no command `--encode`"),
        (&[""], "there is no command ``"),
        (&["reencode"], "wanted: IN.cnf; found 0 file names"),
        (
            &["reencode", "a", "b"],
            "wanted: IN.cnf; found 2 file names",
        ),
        (&["reencode", "--", "a", "--align"], "found 2 file names"),
        (
            &["reencode", "a", "--from", "order"],
            "no option `--from` here",
        ),
        (
            &["reencode", "a", "-form", "order"],
            "no option `-form` here",
        ),
        (
            &["reencode", "a", "--no-align"],
            "no option `--no-align` here",
        ),
        (&["reencode", "a", "--form"], "`--form` wants a value"),
        (
            &["reencode", "a", "--form", "orders"],
            "`--form` wants `counter` or `order`",
        ),
        (
            &["reencode", "a", "--form="],
            "`--form` wants `counter` or `order`",
        ),
        (
            &["reencode", "a", "--align=yes"],
            "`--align` takes no value",
        ),
        (
            &["reencode", "a", "--align", "--align"],
            "`--align` stands twice",
        ),
        (
            &["reencode", "a", "--work", "-1"],
            "`--work` wants a number",
        ),
        (
            &["reencode", "a", "--work", "+1"],
            "`--work` wants a number",
        ),
        (
            &["reencode", "a", "--work", "many"],
            "`--work` wants a number",
        ),
        (&["reencode", "a", "--work="], "`--work` wants a number"),
        (
            &["reencode", "a", "--work", "18446744073709551616"],
            "`--work` wants a number",
        ),
        (&["reencode", "a", "--step"], "`--step` wants a value"),
        (
            &["reencode", "a", "--step", "ten"],
            "`--step` wants a number",
        ),
        (&["solve", "a", "--step=-1"], "`--step` wants a number"),
        (
            &["walk-back", "a", "b", "c", "--step", "1"],
            "no option `--step` here",
        ),
        (&["reencode", "a", "--table"], "`--table` wants a value"),
        (&["solve", "a", "--table", "b"], "no option `--table` here"),
        (
            &["reencode", "a", "--table-room", "x"],
            "`--table-room` wants a number",
        ),
        (&["sizes", "a", "b"], "wanted: IN.cnf; found 2 file names"),
        (&["sizes", "a", "--log", "b"], "no option `--log` here"),
        (
            &["sizes", "a", "--table-room", "1"],
            "no option `--table-room` here",
        ),
        (&["sizes", "a", "--no-align"], "no option `--no-align` here"),
        (&["sizes", "a", "--step", "ten"], "`--step` wants a number"),
        (
            &["walk-back", "a", "b"],
            "wanted: IN.cnf LOG.drat ANSWER; found 2",
        ),
        (
            &["walk-back", "-", "-", "a"],
            "standard input can be read once only",
        ),
        (
            &["carry-forward", "a", "b", "c", "d"],
            "wanted: IN.cnf LOG.drat PLAN; found 4",
        ),
        (
            &["carry-forward", "a", "-", "-"],
            "standard input can be read once only",
        ),
        (
            &["carry-forward", "a", "b", "c", "--form", "order"],
            "no option `--form` here",
        ),
        (
            &["carry-forward", "a", "b", "c", "--keep", "all"],
            "`--keep` wants a number",
        ),
        (&["read-back"], "wanted: NEW.cnf; found 0"),
        (&["solve", "a", "--log", "b"], "no option `--log` here"),
        (
            &["solve", "a", "--align", "--no-align"],
            "exclude each other",
        ),
        (
            &["solve", "a", "--no-check"],
            "`--no-check` wants `--proof`",
        ),
        (
            &["solve", "a", "--timeout", "0"],
            "`--timeout` wants a number of seconds",
        ),
        (
            &["solve", "a", "--timeout", "1.5"],
            "`--timeout` wants a number of seconds",
        ),
        (
            &["solve", "a", "--solver", " "],
            "`--solver` wants a command",
        ),
        (&["solve", "a", "--solver="], "`--solver` wants a command"),
    ] {
        expect_failure(&run(words), 64, said);
    }
}

#[test]
fn refusals_are_the_exit_status() {
    let folder = Folder::new();
    let input = folder.write("in.cnf", F.as_bytes());
    let log = folder.write("log", b"1 0\n");
    let wrong_log = folder.write("wrong-log", b"d 1 0\n");
    let answer = folder.write("answer", ANSWER.as_bytes());
    let wrong_answer = folder.write("wrong-answer", b"s SATISFIABLE\nv 0\n");
    let writer = "the formula's writer can mend it";
    expect_failure(&run(&["reencode", "/dev/null"]), 1, writer);
    expect_failure(&run_with(&["reencode", "-"], b"p cnf 9000 1\n"), 2, writer);
    expect_failure(&run_with(&["solve", "-"], b"p cnf 1 1\n2 0\n"), 4, writer);
    expect_failure(&run_with(&["read-back", "-"], b"p cnf 1 1\n1"), 7, writer);
    let caller = "the caller can mend it";
    expect_failure(&run(&["reencode", &input, "--work", "8971"]), 11, caller);
    expect_failure(&run(&["reencode", &input, "--log-room", "10"]), 12, caller);
    expect_failure(
        &run(&["reencode", &input, "--formula-room", "0"]),
        13,
        caller,
    );
    for step in [
        "0",
        "101",
        "4294967295",
        "4294967297",
        "18446744073709551615",
    ] {
        expect_failure(&run(&["reencode", &input, "--step", step]), 15, caller);
        expect_failure(&run(&["reencode", "/dev/null", "--step", step]), 15, caller);
    }
    let many = folder.write("many.cnf", &text_of(&clauses_apart(5, 1_600)));
    assert_eq!(run(&["reencode", &many, "--step", "38"]).status, 0);
    expect_failure(&run(&["reencode", &many, "--step", "39"]), 16, caller);
    let table = |room| run(&["reencode", &input, "--table-room", room, "--log-room", "10"]);
    expect_failure(&table("0"), 17, caller);
    expect_failure(&table("1"), 12, caller);
    expect_failure(&run(&["read-back", &input, "--work=0"]), 11, caller);
    let kept = run(&[
        "walk-back",
        &input,
        &log,
        &answer,
        "--keep",
        "0",
        "--room",
        "5",
    ]);
    expect_failure(&kept, 42, "the solver or planner can mend it");
    let good = folder.write("good", b"s SATISFIABLE\nv 4 0\n");
    expect_failure(
        &run(&["walk-back", &input, &log, &good, "--keep=0", "--room", "5"]),
        14,
        caller,
    );
    expect_failure(
        &run(&["walk-back", &input, &log, &good, "--work", "5"]),
        11,
        caller,
    );
    let log_writer = "the log's writer can mend it";
    expect_failure(
        &run(&["walk-back", &input, &answer, &answer]),
        31,
        log_writer,
    );
    expect_failure(
        &run(&["walk-back", &input, &wrong_log, &wrong_answer]),
        32,
        log_writer,
    );
    expect_failure(
        &run(&["walk-back", &input, &log, &good, "--keep", "7"]),
        34,
        log_writer,
    );
    expect_failure(
        &run(&["walk-back", &input, &log, &input]),
        41,
        "the solver or planner can mend it",
    );
    expect_failure(
        &run(&["walk-back", &input, &log, &wrong_answer]),
        44,
        "refused 44: ",
    );
    assert_eq!(run(&["reencode", &input, "--work", "8972"]).status, 0);
}

/// The same of carrying forward: who can mend it, for each of its numbers that is no formula's.
#[test]
fn refusals_of_carrying_forward() {
    let folder = Folder::new();
    let input = folder.write("in.cnf", F.as_bytes());
    let (log, plan) = ("7 -4 0\nd -1 -2 0\n", "s SATISFIABLE\nv 4 0\n");
    for (log, plan, options, number, mender) in [
        ("1  0\n", plan, &[][..], 31, "the log's writer"),
        ("d 1 0\n", plan, &[], 32, "the log's writer"),
        (log, plan, &["--keep", "3"], 34, "the log's writer"),
        ("-4 0\n", plan, &[], 46, "the log's writer"),
        (log, "s UNKNOWN\n", &[], 41, "the solver or planner"),
        (
            log,
            "s SATISFIABLE\nv 7 0\n",
            &[],
            42,
            "the solver or planner",
        ),
        (
            log,
            "s SATISFIABLE\nv 4 4 0\n",
            &[],
            43,
            "the solver or planner",
        ),
        (log, "s SATISFIABLE\nv 0\n", &[], 45, "the planner"),
        (log, plan, &["--work", "211"], 11, "the caller"),
        (log, plan, &["--room", "22"], 14, "the caller"),
    ] {
        let log = folder.write("log", log.as_bytes());
        let plan = folder.write("plan", plan.as_bytes());
        let ran = run(&[&["carry-forward", &input, &log, &plan], options].concat());
        let said = format!("; {mender} can mend it");
        expect_failure(&ran, number, &format!("refused {number}: "));
        expect_failure(&ran, number, &said);
    }
    let log = folder.write("log", log.as_bytes());
    let plan = folder.write("plan", plan.as_bytes());
    let exact = ["--work", "212", "--room", "23"];
    let ran = run(&[&["carry-forward", &input, &log, &plan], &exact[..]].concat());
    expect_printed(&ran, "v -1 -2 -3 4 -5 -6 7 0\n");
}

/// A refused text: the line, the byte and the word where the fault was found.
#[test]
fn refusals_tell_where() {
    for (text, number, place) in [
        (&b""[..], 1, "(line 1, byte 1, where the text ends)"),
        (b"c\np cnf 9000 1\n", 2, "(line 2, byte 7: `9000`)"),
        (
            b"p cnf 2 1\r\n1 \x1b[31m 0\n",
            3,
            "(line 2, byte 3: `\\x1b[31m`)",
        ),
        (b"p cnf 2 1\n1\n\t3 0\n", 4, "(line 3, byte 2: `3`)"),
        (b"p cnf 2 1\n1 1 -1 3 0\n", 4, "(line 2, byte 8: `3`)"),
        (b"p cnf 2 1\n1", 7, "(line 2, byte 2, where the text ends)"),
        (b"p cnf 2 1\n1 0 2 0\n", 8, "(line 2, byte 5: `2`)"),
    ] {
        for command in ["reencode", "sizes", "solve"] {
            expect_failure(&run_with(&[command, "-"], text), number, place);
        }
    }
    let new = run_with(&["read-back", "-"], b"p cnf 70001 1\n");
    expect_failure(&new, 2, "(line 1, byte 7: `70001`)");
    let folder = Folder::new();
    let input = folder.write("in.cnf", F.as_bytes());
    let good = folder.write("good", b"s SATISFIABLE\nv 4 0\n");
    for (log, answer, number, place) in [
        (&b"1 0\n1  0\n"[..], &b""[..], 31, "(line 2, byte "),
        (b"1 0\nd 6 5 0\n", b"", 32, "(line 2, byte "),
        (
            b"1 0\n",
            b"s SATISFIABLE\nv 4 x 0\n",
            41,
            "(line 2, byte 5: `x`)",
        ),
        (
            b"1 0\n",
            b"s SATISFIABLE\nv 4 7 0\n",
            42,
            "(line 2, byte 5: `7`)",
        ),
        (
            b"1 0\n",
            b"s SATISFIABLE\nv 4 4 0\n",
            43,
            "(line 2, byte 5: `4`)",
        ),
    ] {
        let log = folder.write("log", log);
        let answer = match answer {
            b"" => good.clone(),
            _ => folder.write("answer", answer),
        };
        for command in ["walk-back", "carry-forward"] {
            expect_failure(&run(&[command, &input, &log, &answer]), number, place);
        }
    }
    // a variable of the log, which an answer may name and a plan may not
    let log = folder.write("log", b"7 0\n");
    let given = folder.write("given", b"s SATISFIABLE\nv 4 7 0\n");
    assert_eq!(run(&["walk-back", &input, &log, &given]).status, 0);
    let ran = run(&["carry-forward", &input, &log, &given]);
    expect_failure(&ran, 42, "(line 2, byte 5: `7`)");
}

#[test]
fn inputs_that_cannot_be_read() {
    let folder = Folder::new();
    let missing = folder.path("missing");
    for words in [
        &["reencode", &missing][..],
        &["sizes", &missing],
        &["solve", &missing],
        &["read-back", &missing],
        &["walk-back", &missing, &missing, &missing],
        &["carry-forward", &missing, &missing, &missing],
        &["reencode", &folder.path("")],
    ] {
        expect_failure(&run(words), 66, "cannot be read");
    }
}

#[test]
fn enormous_inputs() {
    let folder = Folder::new();
    let enormous = folder.write("enormous", b"");
    let file = fs::File::options().write(true).open(&enormous).unwrap();
    file.set_len(5 << 30).unwrap();
    expect_failure(&run(&["reencode", &enormous]), 66, "longer than");
    file.set_len(100 << 20).unwrap();
    expect_failure(&run(&["reencode", &enormous]), 1, "refused 1");
    let comment = folder.write(
        "comment",
        &[&[b'c'].repeat(50 << 20), "\n".as_bytes(), F.as_bytes()].concat(),
    );
    assert_eq!(run(&["reencode", &comment]).status, 0);
    let input = folder.write("in.cnf", F.as_bytes());
    for room in ["999999999999999999", "18446744073709551615"] {
        for option in ["--log-room", "--table-room"] {
            let ran = run(&["reencode", &input, option, room]);
            expect_failure(&ran, 71, "no memory");
        }
    }
}

/// The examples are those that `examples/valley.rs` of this package tells to write.
#[test]
fn examples_are_as_written() {
    for (name, pairs, free) in [
        ("valley.cnf", 50, vec![]),
        ("no_plan.cnf", 80, vec![]),
        ("free_lure.cnf", 50, vec![(0, 5)]),
    ] {
        let mut valley = Valley::random(&mut Random::new(3), 20, 6, pairs);
        valley.free = free;
        let text = fs::read(example(name)).unwrap();
        assert!(text.starts_with(b"c 20 traps, 6 lures, "));
        assert!(text.ends_with(&text_of(&valley.formula())));
    }
}
