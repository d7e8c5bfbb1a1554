//! Outputs appear whole or not at all, and together; nothing that the user has is lost.

mod common;

use common::command::{
    example, expect_failure, expect_message, run, run_with, script, shell, COMMAND,
};
use common::solvers::Folder;
use model::sessions::F;
use std::ffi::{OsStr, OsString};
use std::fs::{self, File};
use std::io;
use std::os::unix::ffi::{OsStrExt, OsStringExt};
use std::os::unix::fs::{symlink, MetadataExt, PermissionsExt};
use std::process::{Command, Stdio};
use std::thread;
use std::time::Duration;

/// A step for each form, so that tables tell forms apart too.
fn step_of(form: &str) -> &'static str {
    match form {
        "order" => "10",
        _ => "1",
    }
}

/// The words for session F's new formula, log and table in a form.
fn set_words<'a>(input: &'a str, form: &'a str, names: [&'a str; 3]) -> [&'a str; 12] {
    let [formula, log, table] = names;
    [
        "reencode",
        input,
        "--form",
        form,
        "--step",
        step_of(form),
        "--formula",
        formula,
        "--log",
        log,
        "--table",
        table,
    ]
}

/// The new formula, the log and the table of session F in a form.
fn set(form: &str) -> [String; 3] {
    let text = |option: &str| {
        let settings = ["--form", form, "--step", step_of(form)];
        let words = [&["reencode", "-", option, "-"], &settings[..]].concat();
        run_with(&words, F.as_bytes()).out
    };
    ["--formula", "--log", "--table"].map(text)
}

fn read_all(names: [&str; 3]) -> [String; 3] {
    names.map(|name| fs::read_to_string(name).unwrap())
}

/// A folder with session F as `in.cnf`, and the name of that.
fn folder_with_input() -> (Folder, String) {
    let folder = Folder::new();
    let input = folder.write("in.cnf", F.as_bytes());
    (folder, input)
}

#[test]
fn outputs_that_cannot_be_written() {
    let (folder, input) = folder_with_input();
    let kept = folder.write("kept", b"as it was");
    fs::create_dir(folder.path("folder")).unwrap();
    symlink("nothing", folder.path("dangling")).unwrap();
    symlink("loop", folder.path("loop")).unwrap();
    let before = folder.names();
    for target in [
        folder.path("missing/new.cnf"),
        folder.path("folder"),
        folder.path("folder/"),
        folder.path("new.cnf/"),
        folder.path("."),
        folder.path(".."),
        folder.path("dangling"),
        folder.path("loop"),
        folder.path(&"n".repeat(256)),
        folder.path("in.cnf/new.cnf"),
        "/dev/fd/77".into(),
        "/dev/fd/3".into(),
        "/dev/fd/4".into(),
        "/dev/fd/-1".into(),
        "/dev/full".into(),
        String::new(),
    ] {
        let failed = [
            run(&["reencode", &input, "--log", &kept, "--formula", &target]),
            run(&["reencode", &input, "--log", &target, "--formula", &kept]),
            run(&["reencode", &input, "--table", &target, "--log", &kept]),
            run(&["reencode", &input, "--table", &kept, "--log", &target]),
            run(&["solve", &example("no_plan.cnf"), "--proof", &target]),
        ];
        for ran in failed {
            expect_failure(&ran, 73, "cannot be written");
        }
        assert_eq!(fs::read(&kept).unwrap(), b"as it was");
        assert_eq!(folder.names(), before);
    }
}

#[test]
fn the_input_by_any_name_is_no_output() {
    let (folder, input) = folder_with_input();
    let (link, hard_link) = (folder.path("link"), folder.path("hard-link"));
    symlink("in.cnf", &link).unwrap();
    fs::hard_link(&input, &hard_link).unwrap();
    let before = folder.names();
    let dotted = folder.path("./in.cnf");
    for name in [&input, &link, &hard_link, &dotted] {
        for option in ["--formula", "--log", "--table"] {
            expect_failure(
                &run(&["reencode", &input, option, name]),
                64,
                "is the input",
            );
            expect_failure(&run(&["reencode", &link, option, name]), 64, "is the input");
            let through_input = shell(
                "\"$SIRGHOLYN\" reencode - \"$1\" \"$2\" <\"$3\"",
                &[option, name, &input],
            );
            expect_failure(&through_input, 64, "is the input");
        }
        expect_failure(
            &run(&["solve", &input, "--proof", name]),
            64,
            "is the input",
        );
        for command in [
            "reencode \"$2\"",
            "reencode \"$2\" --log -",
            "sizes \"$2\"",
            "read-back \"$2\"",
            "solve \"$2\"",
            "walk-back \"$3\" \"$3\" \"$2\"",
            "carry-forward \"$3\" \"$2\" \"$3\"",
        ] {
            let appended = shell(
                &format!("\"$SIRGHOLYN\" {command} >>\"$1\""),
                &[name, &input, &example("valley.cnf")],
            );
            expect_failure(&appended, 64, "is the input");
        }
    }
    assert_eq!(fs::read_to_string(&input).unwrap(), F);
    assert_eq!(folder.names(), before);
}

#[test]
fn one_output_is_not_given_twice() {
    let (folder, input) = folder_with_input();
    let kept = folder.write("kept", b"as it was");
    let (link, hard_link) = (folder.path("link"), folder.path("hard-link"));
    symlink("kept", &link).unwrap();
    fs::hard_link(&kept, &hard_link).unwrap();
    fs::create_dir(folder.path("folder")).unwrap();
    symlink(".", folder.path("same")).unwrap();
    let before = folder.names();
    let path = |name: &str| folder.path(name);
    for (one, other) in [
        (kept.clone(), kept.clone()),
        (kept.clone(), link.clone()),
        (hard_link.clone(), link.clone()),
        (path("new"), path("new")),
        (path("new"), path("./new")),
        (path("new"), path("folder/../new")),
        (path("same/new"), path("new")),
        ("-".into(), "-".into()),
        ("-".into(), "/dev/stdout".into()),
        ("/dev/fd/1".into(), "/proc/self/fd/1".into()),
    ] {
        for options in [
            ["--formula", "--log"],
            ["--formula", "--table"],
            ["--table", "--log"],
        ] {
            let ran = run(&["reencode", &input, options[0], &one, options[1], &other]);
            expect_failure(&ran, 64, "is given twice");
        }
    }
    // standard output is an output as well
    let ran = shell(
        "\"$SIRGHOLYN\" reencode \"$1\" --formula \"$2\" >>\"$2\"",
        &[&input, &kept],
    );
    expect_failure(&ran, 64, "is standard output");
    let ran = shell(
        "\"$SIRGHOLYN\" reencode \"$1\" --formula - --log \"$2\" >>\"$2\"",
        &[&input, &kept],
    );
    expect_failure(&ran, 64, "is standard output");
    assert_eq!(fs::read(&kept).unwrap(), b"as it was");
    assert_eq!(folder.names(), before);
    let ran = run(&[
        "reencode",
        &input,
        "--formula",
        "/dev/null",
        "--log",
        "/dev/null",
    ]);
    assert_eq!(ran.status, 0, "{}", ran.err);
}

/// `-`, `/dev/stdout` and `/dev/fd/1` are what the caller has opened, and are appended to as a shell would.
#[test]
fn standard_output_by_its_names() {
    let (folder, input) = folder_with_input();
    let [formula, ..] = set("counter");
    let link = folder.path("link");
    symlink("/dev/stdout", &link).unwrap();
    for name in ["-", "/dev/stdout", "/dev/fd/1", "/proc/self/fd/1", &link] {
        let ran = run(&["reencode", &input, "--formula", name]);
        assert_eq!((ran.status, &ran.out), (0, &formula), "{name}");
        assert!(ran.err.starts_with("choices 1 "));

        let file = folder.write("file", b"before\n");
        let number = fs::metadata(&file).unwrap().ino();
        let ran = shell(
            "{ echo more; \"$SIRGHOLYN\" reencode \"$1\" --formula \"$2\"; echo after; } >>\"$3\"",
            &[&input, name, &file],
        );
        assert_eq!(ran.status, 0, "{}", ran.err);
        assert_eq!(
            fs::read_to_string(&file).unwrap(),
            format!("before\nmore\n{formula}after\n")
        );
        assert_eq!(fs::metadata(&file).unwrap().ino(), number);
    }
    let other = shell(
        "\"$SIRGHOLYN\" reencode \"$1\" --formula /dev/fd/3 3>&1 >/dev/null",
        &[&input],
    );
    assert_eq!((other.status, other.out), (0, formula));
}

#[test]
fn links_devices_and_pipes_are_written_through() {
    let (folder, input) = folder_with_input();
    let target = folder.write("target", b"");
    fs::set_permissions(&target, fs::Permissions::from_mode(0o640)).unwrap();
    let link = folder.path("link");
    symlink("target", &link).unwrap();
    let ran = run(&["reencode", &input, "--formula", &link, "--log", "/dev/null"]);
    assert_eq!(ran.status, 0, "{}", ran.err);
    assert!(fs::symlink_metadata(&link).unwrap().is_symlink());
    assert_eq!(fs::read_to_string(&target).unwrap(), set("counter")[0]);
    assert_eq!(
        fs::metadata(&target).unwrap().permissions().mode() & 0o777,
        0o640
    );
    assert!(!fs::metadata("/dev/null").unwrap().is_file());

    let pipe = folder.path("pipe");
    let ran = shell(
        "mkfifo \"$2\"; cat \"$2\" & \"$SIRGHOLYN\" reencode \"$1\" --log \"$2\" >&2; wait",
        &[&input, &pipe],
    );
    assert_eq!((ran.status, &ran.out), (0, &set("counter")[1]));
}

#[test]
fn names_of_all_kinds() {
    let (folder, input) = folder_with_input();
    let [formula, log, _] = set("counter");
    let inside = |name: &[u8]| {
        let name = [folder.path("").as_bytes(), name].concat();
        OsString::from_vec(name)
    };
    for (one, other) in [
        (vec![b'n'; 255], vec![b'm'; 255]),
        (b"\xff\xfe\x80".to_vec(), b"t\xe4ler".to_vec()),
        ("täler".into(), "ущелье 谷".into()),
        (b"a\nb\x1b[31m".to_vec(), b"\x01\x7f\t".to_vec()),
        (b" ".to_vec(), b"\"'\\$`*?".to_vec()),
        (b"=x".to_vec(), b"--help".to_vec()),
    ] {
        let (one, other) = (inside(&one), inside(&other));
        let mut joined = OsString::from("--log=");
        joined.push(&other);
        let output = Command::new(COMMAND)
            .args(["reencode", &input, "--formula"])
            .args([&one, &joined])
            .output()
            .unwrap();
        assert_eq!(output.status.code(), Some(0), "{one:?} {other:?}");
        assert_eq!(fs::read_to_string(&one).unwrap(), formula);
        assert_eq!(fs::read_to_string(&other).unwrap(), log);
        for name in [&one, &other] {
            let as_input = Command::new(COMMAND)
                .arg("read-back")
                .arg(name)
                .output()
                .unwrap();
            assert!(as_input.status.code().is_some_and(|status| status < 64));
            fs::remove_file(name).unwrap();
        }
    }
    assert_eq!(folder.names(), ["in.cnf"]);
}

/// Names in messages have no control characters, and every byte can be told.
#[test]
fn names_are_shown_escaped() {
    for (name, seen) in [
        (
            &b"a\nb\x1b[31m\xff"[..],
            "a\\nb\\x1b[31m\\xff cannot be read",
        ),
        ("täler".as_bytes(), "täler cannot be read"),
    ] {
        for words in [
            &["reencode"][..],
            &["sizes"],
            &["solve"],
            &["read-back"],
            &["walk-back", "/dev/null", "/dev/null"],
            &["carry-forward", "/dev/null", "/dev/null"],
        ] {
            let ran = Command::new(COMMAND)
                .args(words)
                .arg(OsStr::from_bytes(name))
                .output()
                .unwrap();
            expect_failure(&ran.into(), 66, seen);
        }
    }
    let hostile = OsStr::from_bytes(b"--\x1b[2J\xff");
    let ran = Command::new(COMMAND)
        .arg("solve")
        .arg(hostile)
        .output()
        .unwrap();
    expect_failure(&ran.into(), 64, "--\\x1b[2J\\xff");
    let ran = Command::new(COMMAND).arg(hostile).output().unwrap();
    expect_failure(&ran.into(), 64, "--\\x1b[2J\\xff");
}

#[test]
fn a_refusal_leaves_files_as_they_were() {
    let (folder, input) = folder_with_input();
    let formula = folder.write("new.cnf", b"as it was");
    let wrong = folder.write("wrong.cnf", b"p cnf 1 1\n1");
    let log = folder.path("new.drat");
    let ran = run(&["reencode", &wrong, "--formula", &formula, "--log", &log]);
    expect_failure(&ran, 7, "refused 7");
    assert_eq!(fs::read(&formula).unwrap(), b"as it was");
    assert_eq!(folder.names(), ["in.cnf", "new.cnf", "wrong.cnf"]);
    assert_eq!(run(&["reencode", &input, "--formula", &formula]).status, 0);
    assert_eq!(fs::read_to_string(&formula).unwrap(), set("counter")[0]);
}

/// Where one of three cannot be written, or the call is refused, none is.
#[test]
fn three_files_appear_together() {
    let (folder, input) = folder_with_input();
    let names = ["new.cnf", "new.drat", "new.tsv"].map(|name| folder.path(name));
    let [formula, log, table] = names.each_ref().map(String::as_str);
    let words = |table| set_words(&input, "counter", [formula, log, table]);
    expect_failure(&run(&words("/dev/full")), 73, "cannot be written");
    let refused = || {
        for (option, number) in [
            ("--table-room", 17),
            ("--log-room", 12),
            ("--formula-room", 13),
        ] {
            let ran = run(&[&words(table)[..], &[option, "0"]].concat());
            expect_failure(&ran, number, "the caller can mend it");
        }
    };
    refused();
    assert_eq!(folder.names(), ["in.cnf"]);
    fs::write(table, b"as it was").unwrap();
    refused();
    assert_eq!(fs::read(table).unwrap(), b"as it was");
    assert_eq!(folder.names(), ["in.cnf", "new.tsv"]);

    let ran = run(&words(table));
    assert_eq!((ran.status, ran.err.as_str()), (0, ""));
    assert_eq!(read_all([formula, log, table]), set("counter"));
    assert_eq!(folder.names(), ["in.cnf", "new.cnf", "new.drat", "new.tsv"]);
}

/// Runs at once on the same names leave the files of one of them.
#[test]
fn runs_at_once_leave_one_set() {
    let (folder, input) = folder_with_input();
    fs::create_dir(folder.path("a")).unwrap();
    fs::create_dir(folder.path("b")).unwrap();
    let sets = [set("counter"), set("order")];
    for names in [
        ["new.cnf", "new.drat", "new.tsv"],
        ["a/new", "b/new", "a/table"],
        ["b/new", "a/new", "a/table"],
    ] {
        let names = names.map(|name| folder.path(name));
        let names = names.each_ref().map(String::as_str);
        thread::scope(|scope| {
            for turn in 0..8 {
                let form = if turn % 2 == 0 { "counter" } else { "order" };
                let words = set_words(&input, form, names);
                scope.spawn(move || {
                    for _ in 0..5 {
                        let ran = run(&words);
                        assert_eq!((ran.status, ran.err.as_str()), (0, ""));
                    }
                });
            }
        });
        assert!(sets.contains(&read_all(names)));
    }
    let own = ["a", "b", "in.cnf", "new.cnf", "new.drat", "new.tsv"];
    assert_eq!(folder.names(), own);
    assert_eq!(fs::read_dir(folder.path("a")).unwrap().count(), 2);
    assert_eq!(fs::read_dir(folder.path("b")).unwrap().count(), 1);
}

#[test]
fn a_run_waits_for_the_lock() {
    let (folder, input) = folder_with_input();
    let lock = File::create(folder.path(".sirgholyn.lock")).unwrap();
    lock.lock().unwrap();
    let (formula, log) = (folder.path("new.cnf"), folder.path("new.drat"));
    let words = ["reencode", &input, "--formula", &formula, "--log", &log];
    thread::scope(|scope| {
        let waiting = scope.spawn(|| run(&words));
        thread::sleep(Duration::from_millis(600));
        assert!(!waiting.is_finished());
        assert!(!fs::exists(&formula).unwrap() && !fs::exists(&log).unwrap());
        lock.unlock().unwrap();
        let ran = waiting.join().unwrap();
        assert_eq!((ran.status, ran.err.as_str()), (0, ""));
    });
    assert_eq!(folder.names(), ["in.cnf", "new.cnf", "new.drat"]);

    let lock = File::create(folder.path(".sirgholyn.lock")).unwrap();
    lock.lock().unwrap();
    fs::write(&formula, b"as it was").unwrap();
    expect_failure(&run(&words), 73, "another run has it");
    assert_eq!(fs::read(&formula).unwrap(), b"as it was");
    assert_eq!(run(&words[..4]).status, 0, "one file wants no lock");
    assert_eq!(
        folder.names(),
        [".sirgholyn.lock", "in.cnf", "new.cnf", "new.drat"]
    );
}

/// Signals at any moment: the files belong together, and nothing is left.
#[test]
fn signals_leave_one_set_and_nothing_else() {
    let (folder, input) = folder_with_input();
    let sets = [set("counter"), set("order")];
    let names = ["new.cnf", "new.drat", "new.tsv"].map(|name| folder.path(name));
    let names = names.each_ref().map(String::as_str);
    let words = |form| set_words(&input, form, names);
    assert_eq!(run(&words("counter")).status, 0);
    let (mut ended, mut done) = (0, 0);
    for turn in 0..400 {
        let form = if turn % 2 == 0 { "order" } else { "counter" };
        let mut child = Command::new(COMMAND)
            .args(words(form))
            .stdout(Stdio::null())
            .spawn()
            .unwrap();
        thread::sleep(Duration::from_micros(turn * 10));
        let pid = child.id().to_string();
        let _ = Command::new("kill")
            .args([["-TERM", "-HUP", "-INT"][turn as usize % 3], &pid])
            .stderr(Stdio::null())
            .status();
        match child.wait().unwrap().code() {
            None => ended += 1,
            Some(status) => {
                assert_eq!(status, 0);
                done += 1;
            }
        }
        assert!(sets.contains(&read_all(names)));
        assert_eq!(folder.names(), ["in.cnf", "new.cnf", "new.drat", "new.tsv"]);
    }
    println!("{ended} ended, {done} done");
    assert!(ended > 0);
}

/// A file of the user's that has the lock's name is not touched.
#[test]
fn a_file_with_the_name_of_the_lock() {
    let (folder, input) = folder_with_input();
    let (formula, log) = (folder.path("new.cnf"), folder.path("new.drat"));
    let lock = folder.path(".sirgholyn.lock");
    let as_output = run(&["reencode", &input, "--formula", &lock, "--log", &log]);
    expect_failure(&as_output, 64, "is the name of a lock");
    fs::write(&lock, F).unwrap();
    let words = ["reencode", &lock, "--formula", &formula, "--log", &log];
    expect_failure(&run(&words), 73, "it is another file");
    assert_eq!(fs::read_to_string(&lock).unwrap(), F);
    fs::remove_file(&lock).unwrap();
    fs::hard_link(&input, &lock).unwrap();
    expect_failure(
        &run(&["reencode", &input, "--formula", &formula, "--log", &log]),
        73,
        "it is another file",
    );
    assert_eq!(fs::read_to_string(&input).unwrap(), F);
    assert_eq!(folder.names(), [".sirgholyn.lock", "in.cnf"]);
}

/// A lock file that is left tells that a run was killed between the first name and the last.
#[test]
fn a_lock_that_is_left_is_told_of() {
    let (folder, input) = folder_with_input();
    let left = b"sirgholyn gives these files their names: /x/new.cnf, /x/new\x1b.drat";
    folder.write(".sirgholyn.lock", left);
    let (formula, log) = (folder.path("new.cnf"), folder.path("new.drat"));
    let ran = run(&["reencode", &input, "--formula", &formula, "--log", &log]);
    expect_message(
        &ran,
        0,
        "may not belong together: /x/new.cnf, /x/new\\x1b.drat",
    );
    assert_eq!(folder.names(), ["in.cnf", "new.cnf", "new.drat"]);
    symlink("in.cnf", folder.path(".sirgholyn.lock")).unwrap();
    let ran = run(&["reencode", &input, "--formula", &formula, "--log", &log]);
    expect_failure(&ran, 73, "cannot be locked");
    assert_eq!(fs::read_to_string(&input).unwrap(), F);
}

#[test]
fn full_standard_output_and_error() {
    let (folder, input) = folder_with_input();
    let log = folder.path("new.drat");
    let valley = example("valley.cnf");
    for words in [
        &["solve", &valley][..],
        &["reencode", &valley],
        &["reencode", &valley, "--formula", "-", "--log", &log],
        &["read-back", &valley],
        &["--help"],
        &["--version"],
    ] {
        let ran = shell("\"$SIRGHOLYN\" \"$@\" >/dev/full", words);
        expect_failure(&ran, 73, "cannot be written");
        let both = shell("\"$SIRGHOLYN\" \"$@\" >/dev/full 2>&1", words);
        assert_eq!(both.status, 73);
        let (_, nobody_reads) = io::pipe().unwrap();
        let closed = Command::new(COMMAND)
            .args(words)
            .stdout(nobody_reads)
            .output();
        expect_failure(&closed.unwrap().into(), 73, "Broken pipe");
    }
    assert_eq!(folder.names(), ["in.cnf"], "no log without its formula");
    for (words, status) in [
        (&["reencode", "/dev/null"][..], 1),
        (&["encode"], 64),
        (&["reencode", "/missing"], 66),
        (&["solve", &valley, "--solver", "false"], 69),
        (&["reencode", &input, "--log", "/missing/new"], 73),
        (&["reencode", &input, "--log", "-"], 0),
    ] {
        assert_eq!(
            shell("\"$SIRGHOLYN\" \"$@\" 2>/dev/full", words).status,
            status
        );
    }
}

/// Where the system gives no more, the command ends with 71 or 73, soon, and leaves nothing.
#[test]
fn limits_of_the_system() {
    let (folder, _) = folder_with_input();
    let no_plan = example("no_plan.cnf");
    let (formula, log) = (folder.path("new.cnf"), folder.path("new.drat"));
    let reencode = ["reencode", &no_plan, "--formula", &formula, "--log", &log];
    let solve = ["solve", &no_plan, "--proof", &log];
    let under = |limit: &str, words: &[&str]| {
        let script = format!("TMPDIR=\"$1\"; export TMPDIR; shift; ulimit {limit}; exec timeout 20 \"$SIRGHOLYN\" \"$@\"");
        shell(&script, &[&[folder.path("").as_str()], words].concat())
    };
    for words in [&reencode[..], &solve] {
        expect_failure(&under("-v 20000", words), 71, "no thread or process");
        for blocks in ["0", "1", "8"] {
            expect_failure(&under(&format!("-f {blocks}"), words), 73, "cannot");
        }
        assert_eq!(folder.names(), ["in.cnf"]);
    }
    let large = folder.write("large.cnf", &[&b"c ".repeat(40 << 20)[..], b"\n"].concat());
    expect_failure(&under("-v 100000", &["reencode", &large]), 71, "no memory");
    expect_failure(
        &under(
            "-v 100000",
            &["reencode", &no_plan, "--log-room", "100000000"],
        ),
        71,
        "no memory for a buffer",
    );
}

/// Without root's rights, no more processes than there are.
#[test]
fn no_process_can_be_started() {
    let folder = Folder::new();
    fs::set_permissions(folder.path(""), fs::Permissions::from_mode(0o777)).unwrap();
    let command = folder.path("command");
    fs::copy(COMMAND, &command).unwrap();
    let input = folder.write("in.cnf", F.as_bytes());
    let log = folder.path("new.drat");
    let unprivileged = "setpriv --reuid 65534 --regid 65534 --clear-groups";
    for (words, most) in [
        (["reencode", &input, "--log", &log], 0),
        (["solve", &input, "--proof", &log], 0),
        (["solve", &input, "--proof", &log], 1),
    ] {
        let nobody = format!("TMPDIR=\"$2\" {unprivileged} prlimit --nproc={most} \"$@\"");
        let own = format!("prlimit --nproc={most} \"$@\"");
        let script = format!("shift 2; if [ \"$(id -u)\" = 0 ]; then {nobody}; else {own}; fi");
        let ran = shell(
            &script,
            &[&["x", "y", command.as_str()], &words[..]].concat(),
        );
        expect_failure(&ran, 71, "no thread or process can be started");
        assert_eq!(folder.names(), ["command", "in.cnf"]);
    }
}

/// A temporary file that a killed run has left blocks nothing.
#[test]
fn what_a_killed_run_has_left_does_not_block() {
    let (folder, input) = folder_with_input();
    let started = folder.path("started");
    let solver = script(&folder, "solver", &format!("echo >{started}; sleep 60"));
    let proof = folder.path("proof");
    let mut child = Command::new(COMMAND)
        .args(["solve", &input, "--solver", &solver, "--proof", &proof])
        .env("TMPDIR", folder.path(""))
        .stdout(Stdio::null())
        .spawn()
        .unwrap();
    common::command::wait_for(&started);
    child.kill().unwrap();
    child.wait().unwrap();
    let left = folder
        .names()
        .iter()
        .filter(|name| name.starts_with(".sirgholyn-"))
        .count();
    assert_eq!(
        left,
        2,
        "the proof's file and the solver's folder: {:?}",
        folder.names()
    );
    for _ in 0..3 {
        let ran = run(&["solve", &example("no_plan.cnf"), "--proof", &proof]);
        assert_eq!((ran.status, ran.err.as_str()), (20, ""));
    }
}
