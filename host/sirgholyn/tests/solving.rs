//! `solve`: plans, proofs that there is none, and solvers that fail, lie or do not end.

mod common;

use common::command::{
    example, expect_failure, expect_message, run, run_with, script, wait_for, Ran, COMMAND,
};
use common::formulas::rewritten;
use common::solvers::{fullest_answer, named, Folder};
use common::{run_model, WAYS as NAMED_WAYS};
use model::encoding::PAIRS;
use model::generator::{clauses_apart, paired, text_of, Random};
use model::reading::{read_formula, Formula, INPUT_LIMITS};
use model::sessions::F;
use model::texts::log_text;
use sirgholyn::{drat, plan};
use std::fs;
use std::os::unix::process::{CommandExt, ExitStatusExt};
use std::process::{Child, Command, Stdio};
use std::thread::sleep;
use std::time::{Duration, Instant};

fn check(formula: &str, proof: &str) {
    drat::check(formula.as_bytes(), proof.as_bytes(), &mut |_| ()).unwrap();
}

#[test]
fn a_plan() {
    for name in ["valley.cnf", "free_lure.cnf"] {
        let input = example(name);
        let text = fs::read_to_string(&input).unwrap();
        for words in [
            &["solve", &input][..],
            &["solve", &input, "--no-align"],
            &[
                "solve",
                &input,
                "--form",
                "counter",
                "--align",
                "--timeout",
                "60",
            ],
        ] {
            let ran = run(words);
            assert_eq!((ran.status, ran.err.as_str()), (10, ""));
            let line = ran.out.strip_prefix("s SATISFIABLE\n").unwrap();
            assert!(plan::satisfies(&text, line));
        }
    }
    let empty = run_with(&["solve", "-"], b"p cnf 0 0\n");
    assert_eq!(
        (empty.status, empty.out.as_str()),
        (10, "s SATISFIABLE\nv 0\n")
    );
}

/// Form and alignment, as words of `solve`: those of `NAMED_WAYS`.
const WAYS: [[&str; 3]; 4] = [
    ["--form", "counter", "--no-align"],
    ["--form", "counter", "--align"],
    ["--form", "order", "--no-align"],
    ["--form", "order", "--align"],
];

/// How many lures each trap of an example holds: six literals a trap.
fn lures_held(ran: &Ran) -> Vec<usize> {
    let line = ran.out.strip_prefix("s SATISFIABLE\nv ").unwrap();
    let literals: Vec<&str> = line.split_whitespace().collect();
    let (end, literals) = literals.split_last().unwrap();
    assert_eq!((*end, literals.len()), ("0", 20 * 6));
    let held = |trap: &[&str]| trap.iter().filter(|word| !word.starts_with('-')).count();
    literals.chunks(6).map(held).collect()
}

#[track_caller]
fn expect_one_lure_each(input: &str, ran: &Ran) {
    assert_eq!((ran.status, ran.err.as_str()), (10, ""));
    assert_eq!(lures_held(ran), [1; 20], "{input}");
    let text = fs::read_to_string(input).unwrap();
    assert!(plan::satisfies(&text, &ran.out["s SATISFIABLE\n".len()..]));
}

/// With cadical as it is, and without its lucky guesses.
#[test]
fn one_lure_for_each_trap() {
    let solvers = [&[][..], &["--solver", "cadical -q --no-lucky"]];
    for (words, solver) in WAYS.iter().flat_map(|way| solvers.map(|own| (way, own))) {
        let solve = |input: &str| run(&[&["solve", input], &words[..], solver].concat());
        for name in ["valley.cnf", "free_lure.cnf"] {
            let input = example(name);
            expect_one_lure_each(&input, &solve(&input));
        }
        let ran = solve(&example("no_plan.cnf"));
        let found = (ran.status, ran.out.as_str(), ran.err.as_str());
        assert_eq!(found, (20, "s UNSATISFIABLE\n", ""));
    }
}

/// A solver that names as many lures as it can. The new formula in order form has no variable of a trap, so that
/// all may be named.
#[test]
fn one_lure_for_each_trap_from_the_fullest_answer() {
    let folder = Folder::new();
    let (seen, answer) = (folder.path("seen"), folder.path("answer"));
    let keep = format!("cp \"$1\" {seen}; exec cadical -q \"$1\"");
    let keep = script(&folder, "keep", &keep);
    let most = script(&folder, "most", &format!("cat {answer}; exit 10"));
    for words in WAYS {
        for name in ["valley.cnf", "free_lure.cnf"] {
            let input = example(name);
            let solve = |solver: &str| {
                let own = ["solve", &input, "--solver", solver];
                run(&[&own, &words[..]].concat())
            };
            expect_one_lure_each(&input, &solve(&keep));
            let fullest = fullest_answer(&fs::read(&seen).unwrap(), 120).unwrap();
            fs::write(&answer, &fullest).unwrap();
            expect_one_lure_each(&input, &solve(&most));
            let literals = named(&fullest);
            let all = (1..=120).all(|variable| literals.contains(&variable));
            assert_eq!(all, words[1] == "order");
        }
    }
}

#[test]
fn a_proof_that_there_is_no_plan() {
    let folder = Folder::new();
    let input = example("no_plan.cnf");
    let text = fs::read_to_string(&input).unwrap();
    let proof = folder.path("proof.drat");
    for form in ["counter", "order"] {
        let ran = run(&["solve", &input, "--form", form, "--proof", &proof]);
        assert_eq!(
            (ran.status, ran.out.as_str(), ran.err.as_str()),
            (20, "s UNSATISFIABLE\n", "")
        );
        let lines = fs::read_to_string(&proof).unwrap();
        check(&text, &lines);
        let log = run(&["reencode", &input, "--form", form, "--align", "--log", "-"]).out;
        assert!(lines.starts_with(&log) && lines.ends_with("\n0\n"));
        let printed = run(&["solve", &input, "--form", form, "--proof", "-"]);
        assert_eq!((printed.status, printed.out.as_str()), (20, lines.as_str()));

        let unchecked = run(&[
            "solve",
            &input,
            "--form",
            form,
            "--proof",
            &proof,
            "--no-check",
        ]);
        assert_eq!(
            (unchecked.status, unchecked.out.as_str()),
            (20, "c proof not checked\ns UNSATISFIABLE\n")
        );
        assert_eq!(fs::read_to_string(&proof).unwrap(), lines);
        let printed = run(&[
            "solve",
            &input,
            "--form",
            form,
            "--proof",
            "-",
            "--no-check",
        ]);
        assert_eq!(
            (printed.out, printed.err.as_str()),
            (lines, "c proof not checked\n")
        );
    }
    assert_eq!(folder.names(), ["proof.drat"]);
    let ran = run(&["solve", &input]);
    assert_eq!((ran.status, ran.out.as_str()), (20, "s UNSATISFIABLE\n"));
    for small in [
        "p cnf 1 2\n1 0\n-1 0\n",
        "p cnf 0 1\n0\n",
        "p cnf 1 4\n1 0\n1 0\n-1 0\n-1 0\n",
    ] {
        let ran = run_with(&["solve", "-", "--proof", &proof], small.as_bytes());
        assert_eq!((ran.status, ran.err.as_str()), (20, ""));
        check(small, &fs::read_to_string(&proof).unwrap());
    }
}

/// An example with more pairs of its traps: of each some or all, a few twice.
fn paired_example(name: &str) -> Formula {
    let text = fs::read(example(name)).unwrap();
    let formula = read_formula(&text, &INPUT_LIMITS).unwrap();
    paired(&mut Random::new(1), formula)
}

/// A script may forbid each trap two lures itself. The proof begins with our log, which deletes these pairs.
#[test]
fn plans_and_proofs_where_pairs_stand() {
    let folder = Folder::new();
    let proof = folder.path("proof.drat");
    for (way, words) in NAMED_WAYS.into_iter().zip(WAYS) {
        let solve = |input: &str| {
            let own = ["solve", input, "--proof", &proof];
            run(&[&own, &words[..]].concat())
        };
        let valley = folder.write("in.cnf", &text_of(&paired_example("valley.cnf")));
        expect_one_lure_each(&valley, &solve(&valley));

        let formula = paired_example("no_plan.cnf");
        let text = text_of(&formula);
        let ran = solve(&folder.write("in.cnf", &text));
        let found = (ran.status, ran.out.as_str(), ran.err.as_str());
        assert_eq!(found, (20, "s UNSATISFIABLE\n", ""));
        let whole = fs::read_to_string(&proof).unwrap();
        check(&String::from_utf8(text).unwrap(), &whole);
        let encoding = run_model(&formula, way);
        assert!(whole.as_bytes().starts_with(&log_text(&encoding.log)));
        let [_, pairs @ ..] = PAIRS.map(|(_, times)| times(&encoding.tally));
        assert!(!pairs.contains(&0), "{pairs:?}");
    }
}

/// Where literals are repeated and clauses hold a literal and its negation, the proof is one of that text: it
/// begins with the deletions of these clauses, and is then one of the formula that is read.
#[test]
fn a_proof_for_a_text_with_repeats_and_tautologies() {
    let folder = Folder::new();
    let proof = folder.path("proof.drat");
    let plain = fs::read(example("no_plan.cnf")).unwrap();
    let formula = read_formula(&plain, &INPUT_LIMITS).unwrap();
    let joined = rewritten(&mut Random::new(1), formula);
    let text = String::from_utf8(joined.text).unwrap();
    let plain = String::from_utf8(plain).unwrap();
    let small = "p cnf 1 4\n1 1 0\n1 -1 0\n-1 -1 -1 0\n-1 1 -1 0\n";
    for (text, left_out, read) in [
        (text.as_str(), joined.formula.left_out, plain.as_str()),
        (small, 2, "p cnf 1 2\n1 0\n-1 0\n"),
    ] {
        assert!(left_out > 0);
        for form in ["counter", "order"] {
            let words = ["solve", "-", "--form", form, "--proof", &proof];
            let ran = run_with(&words, text.as_bytes());
            assert_eq!(
                (ran.status, ran.out.as_str(), ran.err.as_str()),
                (20, "s UNSATISFIABLE\n", "")
            );
            let whole = fs::read_to_string(&proof).unwrap();
            check(text, &whole);
            let rest = whole.splitn(left_out + 1, '\n').last().unwrap();
            check(read, rest);
            assert_eq!(
                whole,
                drat::deletions_of_tautologies(text.as_bytes()) + rest
            );
        }
    }
    assert_eq!(
        drat::deletions_of_tautologies(small.as_bytes()),
        "d 1 -1 0\nd -1 1 0\n"
    );
}

/// With a step: plans are carried back over the numbers that it skips, and a proof begins with our log. A step that is
/// refused, or leads too far, starts no solver.
#[test]
fn steps() {
    let folder = Folder::new();
    let (proof, started) = (folder.path("proof.drat"), folder.path("started"));
    let (valley, no_plan) = (example("valley.cnf"), example("no_plan.cnf"));
    let text = fs::read_to_string(&no_plan).unwrap();
    for form in ["counter", "order"] {
        for step in ["7", "100"] {
            let settings = ["--form", form, "--align", "--step", step];
            let solve = |input: &str| {
                let own = ["solve", input, "--proof", &proof];
                run(&[&own, &settings[..]].concat())
            };
            expect_one_lure_each(&valley, &solve(&valley));
            assert_eq!(solve(&no_plan).status, 20);
            let lines = fs::read_to_string(&proof).unwrap();
            check(&text, &lines);
            let own = ["reencode", &no_plan, "--log", "-"];
            let log = run(&[&own, &settings[..]].concat()).out;
            assert!(lines.starts_with(&log));
        }
    }
    let solver = script(&folder, "solver", &format!("echo >{started}; exit 1"));
    let many = folder.write("many.cnf", &text_of(&clauses_apart(5, 1_600)));
    for (input, step, number) in [(&valley, "0", 15), (&valley, "101", 15), (&many, "39", 16)] {
        let ran = run(&["solve", input, "--step", step, "--solver", &solver]);
        expect_failure(&ran, number, "the caller can mend it");
    }
    assert!(!fs::exists(&started).unwrap());
}

/// The solver gets the formula in order form and aligned, unless told otherwise.
#[test]
fn the_form_that_solve_chooses() {
    let folder = Folder::new();
    let seen = folder.path("seen");
    let solver = script(
        &folder,
        "solver",
        &format!("cp \"$1\" {seen}; exec cadical -q \"$1\""),
    );
    // the second trap's literals in another order
    let valley = fs::read_to_string(example("valley.cnf")).unwrap();
    let turned = valley.replace("\n7 8 9 10 11 12 0\n", "\n12 11 10 9 8 7 0\n");
    let input = folder.write("in.cnf", turned.as_bytes());
    let formula = |words: &[&str]| {
        let own = [&["reencode", &input, "--formula", "-"], words].concat();
        run(&own).out
    };
    let (best, order) = (
        formula(&["--form=order", "--align"]),
        formula(&["--form=order"]),
    );
    let (aligned, counter) = (formula(&["--align"]), formula(&[]));
    assert!(best != order && aligned != counter && best != aligned && order != counter);
    for (words, expected) in [
        (&[][..], &best),
        (&["--align"], &best),
        (&["--form", "order"], &best),
        (&["--no-align"], &order),
        (&["--form", "counter"], &aligned),
        (&["--form", "counter", "--no-align"], &counter),
    ] {
        let ran = run(&[&["solve", &input, "--solver", &solver], words].concat());
        assert_eq!(ran.status, 10, "{}", ran.err);
        assert_eq!(&fs::read_to_string(&seen).unwrap(), expected, "{words:?}");
    }
}

/// A solver that is a script, run on session F; `proof` has an older file.
struct Scripted {
    folder: Folder,
    input: String,
    proof: String,
}

impl Scripted {
    fn new(input: &[u8]) -> Scripted {
        let folder = Folder::new();
        fs::create_dir(folder.path("scratch")).unwrap();
        let input = folder.write("in.cnf", input);
        let proof = folder.write("proof", b"older");
        Scripted {
            folder,
            input,
            proof,
        }
    }

    fn command(&self, lines: &str) -> Command {
        self.with_words(Command::new(COMMAND), lines)
    }

    /// The same with all signals at their default effect, also where the tests run behind a shell's `&`.
    fn command_by_default_signals(&self, lines: &str) -> Command {
        let mut command = Command::new("env");
        command.args(["--default-signal", COMMAND]);
        self.with_words(command, lines)
    }

    fn with_words(&self, mut command: Command, lines: &str) -> Command {
        let solver = script(&self.folder, "solver", lines);
        command
            .args(["solve", &self.input, "--form", "counter", "--no-align"])
            .args(["--solver", &solver, "--proof", &self.proof])
            .env("TMPDIR", self.folder.path("scratch"))
            .stdin(Stdio::null());
        command
    }

    fn solve(&self, lines: &str) -> Ran {
        self.command(lines).output().unwrap().into()
    }

    /// Nothing is left of a run, and the older proof is as it was.
    #[track_caller]
    fn expect_clean(&self) {
        let names = self.folder.names();
        assert!(
            names.iter().all(|name| !name.contains(".sirgholyn")),
            "{names:?}"
        );
        let scratch = fs::read_dir(self.folder.path("scratch")).unwrap();
        assert_eq!(scratch.count(), 0);
        assert_eq!(fs::read(&self.proof).unwrap(), b"older");
    }

    #[track_caller]
    fn expect_failure(&self, lines: &str, status: i32, said: &str) {
        let ran = self.solve(lines);
        expect_failure(&ran, status, said);
        assert!(!ran.err.contains("no plan"), "{}", ran.err);
        self.expect_clean();
    }
}

#[test]
fn solvers_that_fail() {
    let scripted = Scripted::new(F.as_bytes());
    for (lines, status, said) in [
        ("kill -9 $$", 69, "killed by signal 9"),
        (
            "printf 's SATISFIABLE\\nv 1 6 7 8 9 10 0\\n'; kill -15 $$",
            69,
            "killed by signal 15",
        ),
        ("exit 3", 69, "the status 3"),
        ("exit 20", 69, "does not say so"),
        ("echo s UNKNOWN; exit 20", 69, "does not say so"),
        ("echo s UNSATISFIABLE; exit 10", 69, "says another"),
        ("echo s UNKNOWN; exit 1", 69, "the status 1"),
        ("yes", 69, "printed more than"),
        ("exit 0", 41, "refused 41"),
        ("echo nonsense", 41, "the solver or planner can mend it"),
        ("echo nonsense", 41, "(line 1, byte 1: `nonsense`)"),
        ("printf 's SATISFIABLE\\n'; exit 10", 41, "refused 41"),
        ("printf 's SATISFIABLE\\nv 1 2 '; exit 10", 41, "refused 41"),
        ("echo s UNSATISFIABLE; echo s SATISFIABLE", 41, "refused 41"),
        ("echo s UNSATISFIABLE; echo v 1 0", 41, "refused 41"),
        ("echo s UNKNOWN; echo v 1 0", 41, "refused 41"),
        (
            "printf 's SATISFIABLE\\nv 1 11 0\\n'; exit 10",
            42,
            "(line 2, byte 5: `11`)",
        ),
        (
            "printf 's SATISFIABLE\\nv 1 -1 0\\n'; exit 10",
            43,
            "(line 2, byte 5: `-1`)",
        ),
        (
            "printf 's SATISFIABLE\\nv 1 -7 0\\n'; exit 10",
            44,
            "refused 44",
        ),
    ] {
        scripted.expect_failure(lines, status, said);
    }
    let missing = scripted.folder.path("missing");
    let ran = run(&["solve", &scripted.input, "--solver", &missing]);
    expect_failure(&ran, 69, "there is no solver `");
    assert!(ran.err.contains("host/install-tools") && ran.err.contains("--solver CMD"));
    assert!(!ran.err.contains("no plan"));
    expect_failure(
        &run(&["solve", &scripted.input, "--solver", "/dev/null"]),
        69,
        "cannot be run",
    );
}

/// A solver that says that it does not know, and one whose time is over, are told apart from nonsense.
#[test]
fn solvers_that_do_not_know() {
    let scripted = Scripted::new(F.as_bytes());
    for lines in [
        "echo s UNKNOWN",
        "echo c hello; echo s UNKNOWN",
        "printf 's UNKNOWN\\r\\n'",
        "echo c UNKNOWN",
    ] {
        let ran = scripted.solve(lines);
        expect_message(&ran, 75, "does not know");
        assert_eq!(ran.out, "s UNKNOWN\n");
        scripted.expect_clean();
    }
    for lines in [
        "sleep 60",
        "exec sleep 60",
        "echo s SATISFIABLE; sleep 60",
        "exec >&-; sleep 60",
        "while :; do echo c; done",
        "trap '' TERM INT; sleep 60 & wait",
    ] {
        let start = Instant::now();
        let ran = Ran::from(
            scripted
                .command(lines)
                .args(["--timeout", "1"])
                .output()
                .unwrap(),
        );
        expect_message(&ran, 75, "stopped after 1 seconds");
        assert_eq!(ran.out, "s UNKNOWN\n");
        assert!(start.elapsed() < Duration::from_secs(30));
        scripted.expect_clean();
    }
    let in_time = scripted
        .command("sleep 1; printf 's SATISFIABLE\\nv 1 6 7 8 9 10 0\\n'")
        .args(["--timeout=20"])
        .output();
    assert_eq!(in_time.unwrap().status.code(), Some(10));
}

/// Verdicts that no proof bears out are not believed.
#[test]
fn proofs_that_fail() {
    let scripted = Scripted::new(F.as_bytes());
    let unsatisfiable =
        |proof: &str| format!("printf -- '{proof}' >\"$2\"; echo s UNSATISFIABLE; exit 20");
    for (lines, said) in [
        ("echo s UNSATISFIABLE; exit 20".into(), "cannot be read"),
        (
            "mkfifo \"$2\"; echo s UNSATISFIABLE; exit 20".into(),
            "not a file",
        ),
        (
            "mkdir \"$2\"; echo s UNSATISFIABLE; exit 20".into(),
            "not a file",
        ),
        // satisfiable, and the proof is empty, or says so
        (unsatisfiable(""), "empty clause"),
        (unsatisfiable("0\\n"), "its proof fails at line 1: "),
        (unsatisfiable("99 0\\n0\\n"), "its proof fails at line 2: "),
        (
            unsatisfiable("- - d d 0 5\\n"),
            "its proof fails at line 1: ",
        ),
        (unsatisfiable("99 0\\n- - d d 0 5\\n"), "`- - d d 0 5`"),
        (
            unsatisfiable("a\\001\\002\\000"),
            "its proof fails at line 1: ",
        ),
        (
            unsatisfiable("d 1 2 3 4 5 0\\n0\\n"),
            "its proof fails at line 1: ",
        ),
    ] {
        scripted.expect_failure(&lines, 69, said);
    }
    let ran = scripted.solve("printf 'c hello\\ns SATISFIABLE\\nv 1 6 7 8 9 10 0\\n'");
    assert_eq!(
        (ran.status, ran.out.as_str()),
        (10, "s SATISFIABLE\nv 1 -2 -3 -4 -5 6 0\n")
    );
    assert!(
        !fs::exists(&scripted.proof).unwrap(),
        "an older proof is not true any more"
    );
}

/// A true proof, cut off after any of its lines, or inside one.
#[test]
fn proofs_that_are_cut_off() {
    let text = fs::read(example("no_plan.cnf")).unwrap();
    let scripted = Scripted::new(&text);
    let true_proof = scripted.folder.path("true");
    let lines =
        format!("cadical -q --no-binary \"$1\" {true_proof}; cp {true_proof} \"$2\"; exit 20");
    assert_eq!(scripted.solve(&lines).status, 20);
    let whole = fs::read_to_string(&scripted.proof).unwrap();
    check(&String::from_utf8(text).unwrap(), &whole);
    fs::write(&scripted.proof, b"older").unwrap();
    let solvers = fs::read_to_string(&true_proof).unwrap();
    let refuted = solvers.find("\n0\n").unwrap();
    for (cut, said) in [
        (refuted + 1, "empty clause"),
        (refuted, "not a line of DRAT"),
        (refuted + 2, "not a line of DRAT"),
        (
            solvers[..refuted / 2].rfind('\n').unwrap() + 1,
            "empty clause",
        ),
    ] {
        let lines = format!("head -c {cut} {true_proof} >\"$2\"; echo s UNSATISFIABLE; exit 20");
        scripted.expect_failure(&lines, 69, said);
    }
}

fn is_running(process: &str) -> bool {
    // a zombie has ended
    let status = fs::read_to_string(format!("/proc/{process}/stat"));
    status.is_ok_and(|status| !status.contains(") Z "))
}

/// The command with a solver that has started another process; the names of the two.
fn with_busy_solver(scripted: &Scripted) -> (Child, [String; 2]) {
    let pids = scripted.folder.path("pids");
    let _ = fs::remove_file(&pids);
    let lines = format!("sleep 100 & echo $$ $! >{pids}.new; mv {pids}.new {pids}; wait");
    let child = scripted
        .command_by_default_signals(&lines)
        .stdout(Stdio::null())
        .stderr(Stdio::piped())
        .spawn()
        .unwrap();
    wait_for(&pids);
    let pids = fs::read_to_string(&pids).unwrap();
    let mut pids = pids.split_whitespace().map(str::to_string);
    (child, [pids.next().unwrap(), pids.next().unwrap()])
}

#[track_caller]
fn expect_ended(processes: &[String]) {
    for _ in 0..500 {
        if !processes.iter().any(|process| is_running(process)) {
            return;
        }
        sleep(Duration::from_millis(10));
    }
    panic!("the solver still runs");
}

fn send(signal: &str, child: &Child) {
    let pid = child.id().to_string();
    assert!(Command::new("kill")
        .args([signal, &pid])
        .status()
        .unwrap()
        .success());
}

#[test]
fn signals_end_the_solver_and_leave_nothing() {
    let scripted = Scripted::new(F.as_bytes());
    for (signal, number) in [("-INT", 2), ("-TERM", 15), ("-HUP", 1)] {
        let (mut child, processes) = with_busy_solver(&scripted);
        assert!(processes.iter().all(|process| is_running(process)));
        send(signal, &child);
        assert_eq!(child.wait().unwrap().signal(), Some(number));
        expect_ended(&processes);
        scripted.expect_clean();
    }
}

/// Killed outright, the command can undo nothing; its solver ends all the same.
#[test]
fn the_solver_does_not_outlive_the_command() {
    let scripted = Scripted::new(F.as_bytes());
    let (mut child, processes) = with_busy_solver(&scripted);
    send("-KILL", &child);
    assert_eq!(child.wait().unwrap().signal(), Some(9));
    expect_ended(&processes);
}

/// A solver that leaves its process group is ended all the same, by time, by a signal, and with the command.
#[test]
fn solvers_that_leave_their_group() {
    let scripted = Scripted::new(F.as_bytes());
    let pid = scripted.folder.path("pid");
    for solver in ["timeout 60 sh -c", "setsid sh -c", "exec setsid -f sh -c"] {
        let lines = format!("{solver} 'echo $$ >{pid}; sleep 60' & sleep 60");
        for way in ["--timeout", "-TERM", "-KILL"] {
            let _ = fs::remove_file(&pid);
            let mut command = scripted.command(&lines);
            command.stdout(Stdio::null()).stderr(Stdio::null());
            if way == "--timeout" {
                let start = Instant::now();
                assert_eq!(command.args([way, "1"]).status().unwrap().code(), Some(75));
                assert!(start.elapsed() < Duration::from_secs(20));
            } else {
                let mut child = command.spawn().unwrap();
                wait_for(&pid);
                send(way, &child);
                assert!(child.wait().unwrap().signal().is_some());
            }
            let process = fs::read_to_string(&pid).unwrap();
            expect_ended(&[process.trim().to_string()]);
        }
    }
}

/// What still holds the solver's output when it has ended is not waited for.
#[test]
fn an_answer_is_not_kept_back() {
    let scripted = Scripted::new(F.as_bytes());
    for left in [
        "setsid sleep 60 &",
        "(while :; do echo c; sleep 0.01; done) &",
        "setsid sh -c 'while :; do echo c; done' &",
    ] {
        let start = Instant::now();
        let ran = scripted.solve(&format!(
            "{left} printf 's SATISFIABLE\\nv 1 6 7 8 9 10 0\\n'"
        ));
        assert!(ran.status == 10 || ran.status == 41, "{}", ran.err);
        assert!(start.elapsed() < Duration::from_secs(20));
        fs::write(&scripted.proof, b"older").unwrap();
    }
}

/// The proof that is written is the one that was checked: a process that the solver has left, and that is not found, waits until
/// the command has opened the proof, and gives another file its name.
#[test]
fn the_proof_written_is_the_proof_checked() {
    let text = fs::read(example("no_plan.cnf")).unwrap();
    let scripted = Scripted::new(&text);
    // long enough to be renamed while it is checked
    let ran = scripted.solve(
        "clause=$(sed -n 2p \"$1\"); yes -- \"$clause\nd $clause\" | head -n 2000000 >\"$2\"\n\
         cadical -q --no-binary \"$1\" \"$2.own\"; cat \"$2.own\" >>\"$2\"\n\
         cp \"$2\" \"$2.bad\"; echo 9 9 9 garbage >>\"$2.bad\"\n\
         env -i setsid sh -c 'echo >\"$1.ready\"; while [ -d /proc/$2 ]; do\n\
         if ls -l /proc/$2/fd | grep -q \"$1\\$\"; then mv \"$1.bad\" \"$1\"; exit; fi; done' \\\n\
         sh \"$2\" $PPID >/dev/null 2>&1 &\n\
         until [ -f \"$2.ready\" ]; do sleep 0.01; done; exit 20",
    );
    assert_eq!(
        (ran.status, ran.out.as_str()),
        (20, "s UNSATISFIABLE\n"),
        "{}",
        ran.err
    );
    let proof = fs::read_to_string(&scripted.proof).unwrap();
    check(std::str::from_utf8(&text).unwrap(), &proof);
}

/// What a solver leaves running is ended with it.
#[test]
fn what_a_solver_leaves_running_is_ended() {
    let scripted = Scripted::new(F.as_bytes());
    let pid = scripted.folder.path("pid");
    let start = Instant::now();
    let ran = scripted.solve(&format!(
        "sleep 100 & echo $! >{pid}; printf 's SATISFIABLE\\nv 1 6 7 8 9 10 0\\n'"
    ));
    assert_eq!(ran.status, 10, "{}", ran.err);
    // else it has ended by itself
    assert!(start.elapsed() < Duration::from_secs(50));
    expect_ended(&[fs::read_to_string(&pid).unwrap().trim().to_string()]);
}

#[test]
fn a_signal_that_the_caller_ignores_stays_ignored() {
    let scripted = Scripted::new(F.as_bytes());
    let started = scripted.folder.path("started");
    let mut command = Command::new("nohup");
    let inner = scripted.command(&format!(
        "echo >{started}; sleep 1; printf 's SATISFIABLE\\nv 1 6 7 8 9 10 0\\n'"
    ));
    command
        .arg(inner.get_program())
        .args(inner.get_args())
        .stdin(Stdio::null())
        .stdout(Stdio::null())
        .stderr(Stdio::null());
    let mut child = command.spawn().unwrap();
    wait_for(&started);
    send("-HUP", &child);
    assert_eq!(child.wait().unwrap().code(), Some(10));
}

#[test]
fn nothing_is_left_in_the_temporary_folder() {
    for (solver, status) in [("cadical -q", 10), ("false", 69), ("/missing", 69)] {
        let folder = Folder::new();
        let ran = Command::new(COMMAND)
            .args(["solve", &example("valley.cnf"), "--solver", solver])
            .env("TMPDIR", folder.path(""))
            .output()
            .unwrap();
        assert_eq!(ran.status.code(), Some(status));
        assert_eq!(folder.names(), Vec::<String>::new());
    }
    let nowhere = Command::new(COMMAND)
        .args(["solve", &example("valley.cnf")])
        .env("TMPDIR", "/missing")
        .output();
    expect_failure(&nowhere.unwrap().into(), 73, "/missing");
}

/// A proof longer than the memory that the command may have is checked and written; progress is told of after two seconds.
#[test]
fn large_proofs_are_streamed() {
    const MOST_KILOBYTES: u64 = 100_000;
    let text = fs::read(example("no_plan.cnf")).unwrap();
    let scripted = Scripted::new(&text);
    let done = scripted.folder.path("done");
    // a clause of the new formula, added and deleted again and again
    let lines = format!(
        "clause=$(sed -n 2p \"$1\"); i=0; part=\n\
         while [ $i -lt 1000 ]; do part=\"$part$clause\nd $clause\n\"; i=$((i + 1)); done\n\
         yes -- \"$part\" | grep . | head -c {} >\"$2.long\"; cadical -q --no-binary \"$1\" \"$2.own\"\n\
         sed '$d' \"$2.long\" >\"$2\"; cat \"$2.own\" >>\"$2\"; echo >{done}; exit 20",
        2 * MOST_KILOBYTES * 1024
    );
    let inner = scripted.command(&lines);
    let mut command = Command::new("sh");
    command.args([
        "-c",
        &format!("ulimit -v {MOST_KILOBYTES}; exec \"$@\""),
        "sh",
    ]);
    command.arg(inner.get_program()).args(inner.get_args());
    command
        .env("TMPDIR", scripted.folder.path("scratch"))
        .stdin(Stdio::null());
    let child = command
        .stdout(Stdio::piped())
        .stderr(Stdio::piped())
        .process_group(0)
        .spawn()
        .unwrap();
    wait_for(&done);
    sleep(Duration::from_millis(200));
    send("-STOP", &child);
    sleep(Duration::from_millis(2_500));
    send("-CONT", &child);
    let ran = Ran::from(child.wait_with_output().unwrap());
    assert_eq!(
        (ran.status, ran.out.as_str()),
        (20, "s UNSATISFIABLE\n"),
        "{}",
        ran.err
    );
    assert!(ran.err.starts_with("c checking the proof: "), "{}", ran.err);
    assert!(fs::metadata(&scripted.proof).unwrap().len() > 2 * MOST_KILOBYTES * 1024);
}
