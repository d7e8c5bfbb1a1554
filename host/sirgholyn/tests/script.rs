//! The script at the root on good days and bad: copies of it, with stand-ins for rt and cargo.

mod common;

#[path = "common/checkout.rs"]
mod checkout;

use checkout::{copy, ran, root, unprivileged, write_program, Checkout, Ran, BUILT, CRATES, RT};
use std::fs::{self, File, Permissions};
use std::os::unix::fs::{symlink, PermissionsExt};
use std::os::unix::process::{CommandExt, ExitStatusExt};
use std::path::{Path, PathBuf};
use std::process::{Child, Command, Stdio};
use std::thread::sleep;
use std::time::{Duration, Instant};

#[track_caller]
fn expect_setup_failure(ran: &Ran, said: &[&str]) {
    assert_eq!(ran.status, Some(78), "{}", ran.err);
    for said in said {
        assert!(ran.err.contains(said), "{said}: {}", ran.err);
    }
    assert!(ran.err.lines().last().unwrap().starts_with("sirgholyn: "));
    assert_eq!(ran.out, "");
}

/// Waits until something is so.
#[track_caller]
fn wait_for(mut is_so: impl FnMut() -> bool) {
    let start = Instant::now();
    while !is_so() {
        assert!(start.elapsed() < Duration::from_secs(60), "in vain");
        sleep(Duration::from_millis(10));
    }
}

#[test]
fn built_in_the_checkout_and_run_where_it_is_called() {
    let checkout = Checkout::new();
    let ran = checkout.run(&["solve", "a b", "--solver", "x  y"]);
    assert_eq!(ran.status, Some(10), "{}", ran.err);
    let caller = checkout.folder.path("caller");
    assert_eq!(
        ran.out,
        format!("in {caller} \nword solve\nword a b\nword --solver\nword x  y\n")
    );
    let root = checkout.root.display();
    assert_eq!(
        checkout.record(),
        format!(
            "rt lib in {root}/crates/exports\n\
             cargo build --release --offline --target-dir {root}/host/target/command \
             --package sirgholyn --bin sirgholyn in {root}/host\n"
        )
    );
    let identity = fs::read_to_string(checkout.path("target/staticlib/identity.txt")).unwrap();
    // printf 'archive\n' | sha256sum
    assert_eq!(
        identity,
        "toolchain kit-7 logic 0123\nlibrary sha256 371e16ce98051a3e\n"
    );
}

/// Neither rt nor cargo is in PATH, nothing can be written, and nothing is.
#[test]
fn where_all_is_built_nothing_is_needed() {
    let checkout = Checkout::built();
    checkout.set_writable(false);
    let before = checkout.listing();
    let plain = ran(checkout.command("sirgholyn", "").arg("solve"));
    assert_eq!((plain.status, plain.err.as_str()), (Some(10), ""));
    assert!(plain.out.ends_with("word solve\n"));

    let mut command = Command::new("env");
    command.args(unprivileged()).arg(checkout.path("sirgholyn"));
    checkout.prepare(&mut command, "");
    let ran = ran(&mut command);
    assert_eq!((ran.status, ran.err.as_str()), (Some(10), ""));
    assert_eq!(checkout.listing(), before);

    // with both in PATH neither is called
    assert_eq!(checkout.run(&["solve", "x"]).err, "");
    assert_eq!(checkout.record(), "");
    assert_eq!(checkout.listing(), before);
}

#[test]
fn what_is_newer_is_built_again() {
    let checkout = Checkout::built();
    let remove = |name: &str| fs::remove_file(checkout.path(name)).unwrap();
    let write = |name: &str, text: &str| checkout.write(name, text);
    #[rustfmt::skip]
    let rows: [(&str, &dyn Fn(), &[&str]); 17] = [
        ("a source of the library", &|| write("crates/text/src/lib.rt", "new"), &BUILT),
        ("one more", &|| write("crates/text/specs/More.antt", ""), &BUILT),
        ("one less", &|| remove("crates/text/src/removed.rt"), &BUILT),
        ("a folder less", &|| fs::remove_dir_all(checkout.path("crates/text/specs")).unwrap(), &BUILT),
        ("the crates", &|| write("crates.txt", CRATES), &BUILT),
        ("the pinned toolchain", &|| write("TOOLCHAIN", "kit-7 logic 0123\n"), &BUILT),
        ("no archive", &|| remove("target/staticlib/libexports.a"), &BUILT),
        ("another archive", &|| write("target/staticlib/libexports.a", "other"), &BUILT),
        ("no identity", &|| remove("target/staticlib/identity.txt"), &BUILT),
        ("no target folder", &|| fs::remove_dir_all(checkout.path("target")).unwrap(), &BUILT),
        ("a source of the command", &|| write("host/sirgholyn/src/lib.rs", "new"), &BUILT[1..]),
        ("one less", &|| remove("host/sirgholyn/src/removed.rs"), &BUILT[1..]),
        ("its words", &|| write("host/sirgholyn/words/more.txt", ""), &BUILT[1..]),
        ("no command", &|| remove("host/target/command/release/sirgholyn"), &BUILT[1..]),
        ("no stamp", &|| remove("host/target/command/stamp"), &BUILT[1..]),
        ("another command", &|| write("host/target/release/sirgholyn", "other"), &[]),
        ("no source", &|| {
            for name in ["README.md", ".git/index", "target/log/text.out", "host/target/debug/x", "crates/text/out/kept"] {
                write(name, "");
            }
        }, &[]),
    ];
    for (what, change, called) in rows {
        change();
        let ran = checkout.run(&["solve", "x"]);
        assert_eq!(ran.status, Some(10), "{what}: {}", ran.err);
        assert_eq!(checkout.called(), called, "{what}");
        assert_eq!(checkout.run(&["solve", "x"]).err, "", "{what}");
        assert_eq!(checkout.called(), [""; 0], "{what}");
    }
}

/// What is changed while rt proves may be proved or not: it is proved again.
#[test]
fn a_source_that_is_changed_meanwhile_is_newer() {
    let checkout = Checkout::new();
    let first = ran(checkout.script(&["solve", "x"]).env("PROVER", "edited"));
    assert_eq!(first.status, Some(10), "{}", first.err);
    assert_eq!(checkout.called(), BUILT);
    assert_eq!(checkout.run(&["solve", "x"]).status, Some(10));
    assert_eq!(checkout.called(), BUILT);
    assert_eq!(checkout.run(&["solve", "x"]).status, Some(10));
    assert_eq!(checkout.called(), [""; 0]);
}

/// Settings in the caller's folder and environment, which are for other builds.
const POISON: [(&str, &str); 9] = [
    ("CARGO_TARGET_DIR", "/nowhere/target"),
    ("CARGO_BUILD_TARGET", "wasm32-unknown-unknown"),
    ("CARGO_BUILD_RUSTFLAGS", "--poison"),
    ("CARGO_ENCODED_RUSTFLAGS", "--poison"),
    ("RUSTFLAGS", "--poison"),
    ("RUSTC", "/nowhere/rustc"),
    ("RUSTC_WRAPPER", "/nowhere/wrapper"),
    ("RUSTUP_TOOLCHAIN", "poison"),
    ("CDPATH", "/:/tmp"),
];

fn poison(folder: &Path) {
    fs::create_dir_all(folder.join(".cargo")).unwrap();
    let config = "[build]\ntarget-dir = \"/nowhere/target\"\nrustc = \"/nowhere/rustc\"\n";
    fs::write(folder.join(".cargo/config.toml"), config).unwrap();
    fs::write(folder.join("rust-toolchain"), "poison\n").unwrap();
}

#[test]
fn nothing_of_the_caller_counts() {
    let checkout = Checkout::new();
    let caller = checkout.folder.path("caller");
    poison(Path::new(&caller));
    let mut script = checkout.script(&["solve", "x"]);
    let ran = ran(script.envs(POISON).env("CARGO_HOME", "/home/cargo"));
    assert_eq!(ran.status, Some(10), "{}", ran.err);
    // the command has all of it
    assert_eq!(
        ran.out,
        format!("in {caller} --poison\nword solve\nword x\n")
    );
    let record = checkout.record();
    let root = checkout.root.display();
    assert!(
        record.ends_with(&format!(" in {root}/host\nCARGO_HOME=/home/cargo\n")),
        "{record}"
    );
}

/// The command built by cargo itself, from the sources here and the library here.
#[test]
fn cargo_builds_the_command() {
    let checkout = Checkout::built();
    copy(&root().join("host"), &checkout.path("host"));
    let library = std::env::var_os("SIRGHOLYN_LIB").filter(|named| !named.is_empty());
    let library = library.map_or(root().join("target/staticlib"), PathBuf::from);
    poison(Path::new(&checkout.folder.path("caller")));
    let mut script = checkout.script(&["reencode", "in.cnf"]);
    script
        .envs(POISON)
        .env("PATH", std::env::var("PATH").unwrap());
    for name in ["HOME", "CARGO_HOME", "RUSTUP_HOME"] {
        if let Some(value) = std::env::var_os(name) {
            script.env(name, value);
        }
    }
    fs::write(checkout.folder.path("caller/in.cnf"), "p cnf 1 1\n1 0\n").unwrap();
    let ran = ran(script.env("SIRGHOLYN_LIB", library));
    assert_eq!(ran.status, Some(0), "{}", ran.err);
    assert!(ran.out.starts_with("choices 0 highest 1 "), "{}", ran.out);
    assert_eq!(ran.err, "sirgholyn: building the command, once\n");
}

#[test]
fn the_script_runs_from_anywhere() {
    let checkout = Checkout::built();
    let link = checkout.folder.path("link");
    symlink(
        checkout.path("sirgholyn"),
        checkout.folder.path("first link"),
    )
    .unwrap();
    symlink("first link", &link).unwrap();
    let mut command = Command::new(&link);
    checkout.prepare(&mut command, "");
    let ran_through = ran(command.arg("solve").current_dir("/"));
    assert_eq!(ran_through.status, Some(10), "{}", ran_through.err);
    assert_eq!(ran_through.out, "in / \nword solve\n");

    // the caller's folder is removed, or cannot be read
    checkout.set_writable(false);
    let caller = checkout.folder.path("caller");
    for spoil in ["rmdir ../caller", "chmod 000 ."] {
        let mut command = Command::new("sh");
        let text = format!("{spoil} && exec \"$@\"");
        command.args(["-c", &text, "sh"]).args(unprivileged());
        command.arg(checkout.path("sirgholyn")).arg("solve");
        checkout.prepare(&mut command, "");
        let ran = ran(&mut command);
        assert_eq!(ran.status, Some(10), "{spoil}: {}", ran.err);
        assert!(ran.out.ends_with("word solve\n"));
        let _ = fs::create_dir(&caller);
        fs::set_permissions(&caller, Permissions::from_mode(0o755)).unwrap();
    }
    assert_eq!(checkout.called(), [""; 0]);

    // this checkout, whatever is built of it
    let here = ran(Command::new(root().join("sirgholyn"))
        .current_dir("/")
        .arg("--help"));
    assert_eq!(here.status, Some(0), "{}", here.err);
    assert!(here.out.starts_with("sirgholyn: "));
}

#[test]
fn the_input_is_left_to_the_command() {
    let checkout = Checkout::new();
    let input = checkout.folder.write("input", b"p cnf 0 0\n");
    let mut script = checkout.script(&["solve", "-"]);
    let ran = ran(script.stdin(File::open(input).unwrap()));
    assert!(
        ran.out.ends_with("word solve\nword -\np cnf 0 0\n"),
        "{}",
        ran.out
    );
}

#[test]
fn setup_failures() {
    let checkout = Checkout::new();
    let log = checkout.path("target/staticlib.log").display().to_string();
    let solve = |stand_ins: &str, variable: &str, value: &str| {
        let mut command = checkout.command("sirgholyn", stand_ins);
        ran(command.args(["solve", "x"]).env(variable, value))
    };
    expect_setup_failure(&solve("", "A", ""), &["rt to PATH"]);
    expect_setup_failure(&solve("cargo", "A", ""), &["rt to PATH"]);
    assert_eq!(checkout.called(), [""; 0]);
    assert!(!checkout.has("target"));

    let failed = solve("rt-cargo", "PROVER", "fails");
    let [chosen, fault, said] = [
        "rt: chose --jobs 2 for definition",
        "fn definition::all: not proved: wrong",
        "rt: the library definition did not build, so nothing above it was checked",
    ];
    let pinned =
        "'kit-7 logic 0123'; the proofs were last checked with 'kit-6 logic 0122' (file TOOLCHAIN)";
    expect_setup_failure(
        &failed,
        &[
            "proving 1 of 3: definition",
            fault,
            said,
            pinned,
            "status 1",
            &log,
        ],
    );
    let whole = fs::read_to_string(&log).unwrap();
    assert_eq!(whole, format!("{chosen}\n{fault}\n{said}\n"));
    let half = solve("rt-cargo", "PROVER", "half");
    expect_setup_failure(&half, &["status 2", &log]);
    assert_eq!(checkout.called(), ["rt lib", "rt lib"]);
    let mut left: Vec<_> = fs::read_dir(checkout.path("target/staticlib"))
        .unwrap()
        .collect();
    assert!(left.pop().is_none());

    expect_setup_failure(&solve("rt", "A", ""), &["cargo to PATH"]);
    assert_eq!(checkout.called(), &BUILT[..1]);
    let failed = solve("cargo", "BUILDER", "fails");
    let log = checkout
        .path("host/target/command.log")
        .display()
        .to_string();
    expect_setup_failure(&failed, &["linker `cc` not found", &log]);
    assert!(!checkout.has("host/target/command/stamp"));
    assert_eq!(checkout.called(), &BUILT[1..]);
    assert_eq!(solve("cargo", "A", "").status, Some(10));
}

/// Root may write everywhere; a file where a folder has to be holds root as well.
#[test]
fn checkouts_that_cannot_be_written() {
    for (wall, builds) in [
        ("target", 0),
        ("target/staticlib", 0),
        ("host/target", 1),
        ("host/target/command", 1),
    ] {
        let checkout = Checkout::new();
        checkout.write(wall, "");
        let ran = checkout.run(&["solve", "x"]);
        expect_setup_failure(
            &ran,
            &[
                wall,
                "cannot be written",
                "sirgholyn once as a user who may",
            ],
        );
        assert_eq!(checkout.called(), &BUILT[..builds]);
    }
    let checkout = Checkout::new();
    let mut command = Command::new("env");
    command.args(unprivileged()).arg(checkout.path("sirgholyn"));
    checkout.prepare(command.args(["solve", "x"]), "rt-cargo");
    checkout.set_writable(false);
    expect_setup_failure(&ran(&mut command), &["target cannot be written"]);
}

#[test]
fn another_library() {
    let checkout = Checkout::new();
    let other = checkout.folder.path("an other");
    fs::create_dir(&other).unwrap();
    let solve = |library: &str| {
        let mut script = checkout.script(&["solve", "x"]);
        ran(script.env("SIRGHOLYN_LIB", library))
    };
    expect_setup_failure(&solve(&other), &["there is no ", "an other/libexports.a"]);
    expect_setup_failure(&solve("../an other"), &["whole path"]);
    assert_eq!(checkout.record(), "");
    let archive = format!("{other}/libexports.a");
    for change in [true, false, true] {
        if change {
            fs::write(&archive, "other").unwrap();
        }
        assert_eq!(solve(&other).status, Some(10));
        let record = checkout.record();
        assert_eq!(record.contains("cargo build "), change);
        assert_eq!(
            record.contains(&format!("\nSIRGHOLYN_LIB={other}\n")),
            change
        );
        assert!(!record.contains("rt "));
    }
    // then that of the checkout, and the other one again
    assert_eq!(solve("").status, Some(10));
    assert_eq!(checkout.called(), BUILT);
    assert_eq!(solve("").status, Some(10));
    assert_eq!(checkout.called(), [""; 0]);
    assert_eq!(solve(&other).status, Some(10));
    assert_eq!(checkout.called(), &BUILT[1..]);
}

#[test]
fn crates_are_counted() {
    let checkout = Checkout::new();
    let log = checkout.path("target/staticlib.log");
    let ran_plainly = checkout.run(&["solve", "x"]);
    let lines: Vec<&str> = ran_plainly.err.lines().collect();
    assert!(lines[0].starts_with("sirgholyn: ") && lines[0].contains("minutes"));
    assert!(lines[0].contains("interrupted") && lines[0].contains(log.to_str().unwrap()));
    assert_eq!(
        &lines[1..],
        [
            "proving 1 of 3: definition",
            "proving 2 of 3: text",
            "proving 3 of 3: exports",
            "sirgholyn: building the command, once",
        ]
    );
    let whole = fs::read_to_string(log).unwrap();
    assert!(whole.contains("rt: chose --jobs 2 for text\nfn text::all: proved\n"));

    // on a terminal, in one line
    checkout.write("crates.txt", CRATES);
    let mut command = Command::new("script");
    checkout.prepare(&mut command, "rt-cargo");
    command.args(["-qec", "exec \"$SCRIPT\" solve x", "/dev/null"]);
    command
        .env("SCRIPT", checkout.path("sirgholyn"))
        .env("SHELL", "/bin/sh");
    let Ok(output) = command.output() else {
        return; // there is no script(1)
    };
    let ran = Ran::from(output);
    let first = ran.out.find("\rproving 1 of 3: definition ").unwrap();
    let last = ran.out.find("\rproving 3 of 3: exports ").unwrap();
    assert!(!ran.out[first..last].contains('\n'), "{}", ran.out);
}

#[test]
fn two_at_once() {
    let checkout = Checkout::new();
    let start = |name: &str| -> Child {
        let said = File::create(checkout.folder.path(name)).unwrap();
        let mut script = checkout.script(&["solve", name]);
        script.stdout(Stdio::piped()).stderr(said);
        script.env("PROVER", "waits").spawn().unwrap()
    };
    let file = |name: &str| fs::read_to_string(checkout.folder.path(name)).unwrap_or_default();
    let first = start("first");
    wait_for(|| file("record").contains("waiting"));
    let second = start("second");
    let mut third = start("third");
    for name in ["second", "third"] {
        wait_for(|| file(name).contains("another run is proving the library"));
    }
    // one that gives up does not disturb the others
    end(&third, "TERM", "");
    assert_eq!(third.wait().unwrap().signal(), Some(15));
    checkout.folder.write("record.go", b"");
    for child in [first, second] {
        assert_eq!(
            Ran::from(child.wait_with_output().unwrap()).status,
            Some(10)
        );
    }
    assert_eq!(checkout.called(), BUILT);
}

/// Sends a signal to a process, or with `-` to its group.
fn end(child: &Child, signal: &str, group: &str) {
    let process = format!("{group}{}", child.id());
    let kill = Command::new("kill")
        .args(["-s", signal, "--", &process])
        .status();
    assert!(kill.unwrap().success());
}

/// Whether a process has ended; one that nobody has waited for counts as well.
fn has_ended(process: &str) -> bool {
    let stat = fs::read_to_string(format!("/proc/{process}/stat")).unwrap_or_default();
    stat.rsplit(')')
        .next()
        .unwrap()
        .trim_start()
        .starts_with('Z')
        || stat.is_empty()
}

/// Whether this process was started so that a signal is ignored, as its children then do.
fn is_ignored(signal: u32) -> bool {
    let status = fs::read_to_string("/proc/self/status").unwrap();
    let mask = status
        .lines()
        .find_map(|line| line.strip_prefix("SigIgn:\t"));
    u64::from_str_radix(mask.unwrap(), 16).unwrap() >> (signal - 1) & 1 == 1
}

/// The script alone is ended, or all that the terminal knows of; nothing of rt or cargo goes on, and nothing
/// half is left.
#[test]
fn interrupted_while_building() {
    for (variable, signal, number, group) in [
        ("PROVER", "TERM", 15, ""),
        ("PROVER", "INT", 2, "-"),
        ("PROVER", "INT", 2, ""),
        ("PROVER", "HUP", 1, "-"),
        ("BUILDER", "TERM", 15, ""),
        ("BUILDER", "INT", 2, "-"),
    ] {
        if is_ignored(number) {
            continue;
        }
        let checkout = Checkout::new();
        let mut script = checkout.script(&["solve", "x"]);
        script.stdout(Stdio::piped()).stderr(Stdio::piped());
        let child = script.process_group(0).env(variable, "slow").spawn();
        let child = child.unwrap();
        let record = || fs::read_to_string(checkout.folder.path("record")).unwrap_or_default();
        wait_for(|| record().contains("slow "));
        end(&child, signal, group);
        let ran = Ran::from(child.wait_with_output().unwrap());
        assert_eq!(ran.signal, Some(number as i32), "{signal}: {}", ran.err);
        assert_eq!(ran.out, "");
        let record = record();
        let mut lines = record.lines();
        let slow = lines.find_map(|line| line.strip_prefix("slow "));
        wait_for(|| slow.unwrap().split(' ').all(has_ended));
        let mut called = BUILT.to_vec();
        if variable == "BUILDER" {
            assert!(!checkout.has("host/target/command/stamp"));
            assert!(!checkout.has("host/target/command/release/sirgholyn"));
            called.drain(..1);
        } else {
            let left = fs::read_dir(checkout.path("target/staticlib")).unwrap();
            assert_eq!(left.count(), 0, "{signal}");
        }

        checkout.record();
        let ran = checkout.run(&["solve", "x"]);
        assert_eq!(ran.status, Some(10), "{}", ran.err);
        assert!(!ran.err.contains("another run"));
        assert_eq!(checkout.called(), called);
    }
}

/// Words that the script answers where nothing is built, each with its message, or the text that is told.
#[rustfmt::skip]
const WORDS: [(&[&str], Result<&str, &str>); 52] = [
    (&[], Err("which command? `sirgholyn --help` lists them")),
    (&["--help"], Ok("help")),
    (&["-h"], Ok("help")),
    (&["help"], Ok("help")),
    (&["help", "solve"], Ok("solve")),
    (&["--help", "walk-back", "x"], Ok("walk-back")),
    (&["help", "carry-forward"], Ok("carry-forward")),
    (&["sizes", "-h"], Ok("sizes")),
    (&["help", "encode"], Ok("help")),
    (&["help", ""], Ok("help")),
    (&["reencode", "--help"], Ok("reencode")),
    (&["read-back", "a", "b", "--wrong", "-h"], Ok("read-back")),
    (&["encode"], Err("there is no command `encode`; `sirgholyn --help` lists them")),
    (&["encode", "--help"], Err("there is no command `encode`; `sirgholyn --help` lists them")),
    (&[""], Err("there is no command ``; `sirgholyn --help` lists them")),
    (&["#"], Err("there is no command `#`; `sirgholyn --help` lists them")),
    (&["--form"], Err("there is no command `--form`; `sirgholyn --help` lists them")),
    (&["tä`\t\u{1b}\n"], Err("there is no command `tä\\x60\\t\\x1b\\n`; `sirgholyn --help` lists them")),
    (&["reencode"], Err("wanted: IN.cnf; found 0 file names")),
    (&["reencode", "a", "b"], Err("wanted: IN.cnf; found 2 file names")),
    (&["sizes"], Err("wanted: IN.cnf; found 0 file names")),
    (&["sizes", "a", "--log-room", "1"], Err("there is no option `--log-room` here")),
    (&["walk-back", "a", "b"], Err("wanted: IN.cnf LOG.drat ANSWER; found 2 file names")),
    (&["walk-back", "-", "a", "-"], Err("standard input can be read once only")),
    (&["carry-forward"], Err("wanted: IN.cnf LOG.drat PLAN; found 0 file names")),
    (&["carry-forward", "a", "-", "-"], Err("standard input can be read once only")),
    (&["carry-forward", "a", "b", "c", "--step=1"], Err("there is no option `--step` here")),
    (&["solve", "--", "-", "--form"], Err("wanted: IN.cnf; found 2 file names")),
    (&["walk-back", "-", "--", "-", "--work"], Err("standard input can be read once only")),
    (&["solve", "a", "--log", "b"], Err("there is no option `--log` here")),
    (&["solve", "a", "-f"], Err("there is no option `-f` here")),
    (&["solve", "a", "--=x"], Err("there is no option `--` here")),
    (&["solve", "a", "--nö\\=x"], Err("there is no option `--nö\\x5c` here")),
    (&["solve", "--form"], Err("`--form` wants a value")),
    (&["solve", "--form", "orders"], Err("`--form` wants `counter` or `order`")),
    (&["solve", "--form="], Err("`--form` wants `counter` or `order`")),
    (&["solve", "--form=order", "--form", "order"], Err("`--form` stands twice")),
    (&["solve", "--align=yes"], Err("`--align` takes no value")),
    (&["reencode", "--work", "-1", "--wrong"], Err("`--work` wants a number")),
    (&["reencode", "--work=+1"], Err("`--work` wants a number")),
    (&["reencode", "--work", ""], Err("`--work` wants a number")),
    (&["reencode", "--log-room", "18446744073709551616"], Err("`--log-room` wants a number")),
    (&["reencode", "--log-room=0018446744073709551615"], Err("wanted: IN.cnf; found 0 file names")),
    (&["reencode", "--step", "ten"], Err("`--step` wants a number")),
    (&["solve", "a", "--step"], Err("`--step` wants a value")),
    (&["read-back", "a", "--step=1"], Err("there is no option `--step` here")),
    (&["reencode", "a", "--table"], Err("`--table` wants a value")),
    (&["reencode", "--table-room="], Err("`--table-room` wants a number")),
    (&["solve", "--timeout=00"], Err("`--timeout` wants a number of seconds")),
    (&["solve", "--solver", "--proof", "--timeout=9"], Err("wanted: IN.cnf; found 0 file names")),
    (&["solve", "a", "--no-align", "--align"], Err("`--align` and `--no-align` exclude each other")),
    (&["solve", "a", "--no-check"], Err("`--no-check` wants `--proof`")),
];

#[test]
fn words_are_read_before_anything_is_built() {
    let checkout = Checkout::new();
    let before = checkout.listing();
    let command = |words: &[&str]| ran(Command::new(env!("CARGO_BIN_EXE_sirgholyn")).args(words));
    // the command's words: one that has no --version reads other words
    let same_words = command(&["--version"]).status == Some(0);
    for (words, answer) in WORDS {
        let (status, out, err) = match answer {
            Ok(text) => {
                let text = checkout.path(&format!("host/sirgholyn/words/{text}.txt"));
                (0, fs::read_to_string(text).unwrap(), String::new())
            }
            Err(message) => (64, String::new(), format!("sirgholyn: {message}\n")),
        };
        let script = ran(checkout.command("sirgholyn", "").args(words));
        assert_eq!(
            (script.status, &script.out, &script.err),
            (Some(status), &out, &err),
            "{words:?}"
        );
        if same_words {
            let command = command(words);
            assert_eq!(
                (command.status, &command.out, &command.err),
                (Some(status), &out, &err),
                "{words:?}"
            );
        }
    }
    // right words, where nothing can be built
    for words in [
        &["reencode", "--", "-"][..],
        &["solve", "a", "--proof=", "--no-check", "--align"],
        &[
            "reencode",
            "a",
            "--step=0",
            "--table",
            "-",
            "--table-room",
            "0",
        ],
        &["sizes", "a", "--align", "--form=order", "--step", "9"],
        &["walk-back", "a", "b", "-", "--keep", "18446744073709551615"],
        &["carry-forward", "a", "b", "-", "--keep=0", "--room", "9"],
    ] {
        let ran = ran(checkout.command("sirgholyn", "").args(words));
        expect_setup_failure(&ran, &["rt to PATH"]);
    }
    assert_eq!(checkout.listing(), before);
}

#[test]
fn help_that_cannot_be_written() {
    let checkout = Checkout::new();
    for words in ["--help", "--version"] {
        let full = File::options().write(true).open("/dev/full").unwrap();
        let ran = ran(checkout.command("sirgholyn", "").arg(words).stdout(full));
        assert_eq!(ran.status, Some(73));
        assert_eq!(ran.err, "sirgholyn: standard output cannot be written\n");
    }
}

#[test]
fn versions() {
    let checkout = Checkout::new();
    let version = |library: &str| {
        let mut command = checkout.command("sirgholyn", "");
        ran(command.arg("--version").env("SIRGHOLYN_LIB", library))
    };
    let first = concat!("sirgholyn ", env!("CARGO_PKG_VERSION"));
    let not_built = format!("{first}\ntoolchain kit-6 logic 0122\nlibrary not built\n");
    assert_eq!(version("").out, not_built);
    let library = ran(&mut checkout.command("host/library", "rt"));
    assert_eq!(library.status, Some(0), "{}", library.err);
    assert_eq!(
        version("").out,
        format!("{first}\ntoolchain kit-7 logic 0123\nlibrary sha256 371e16ce98051a3e\n")
    );
    checkout.write("crates/text/src/lib.rt", "new");
    assert_eq!(version("").out, not_built);

    let other = checkout.folder.path("other");
    fs::create_dir(&other).unwrap();
    assert_eq!(version(&other).out, not_built);
    fs::write(format!("{other}/libexports.a"), "").unwrap();
    let unknown = format!("{first}\ntoolchain unknown\nlibrary unknown\n");
    assert_eq!(version(&other).out, unknown);
    fs::write(format!("{other}/identity.txt"), "toolchain t\nlibrary l\n").unwrap();
    assert_eq!(
        version(&other).out,
        format!("{first}\ntoolchain t\nlibrary l\n")
    );
}

#[test]
fn the_library_alone() {
    let checkout = Checkout::new();
    let library = || ran(&mut checkout.command("host/library", "rt"));
    assert_eq!(library().status, Some(0));
    assert_eq!(library().err, "");
    assert_eq!(checkout.called(), &BUILT[..1]);
    // another toolchain
    let rt = RT.replace("kit-7", "kit-8");
    write_program(Path::new(&checkout.folder.path("stand-ins/rt")), &rt);
    assert_eq!(library().status, Some(0));
    assert_eq!(checkout.called(), &BUILT[..1]);
    let identity = fs::read_to_string(checkout.path("target/staticlib/identity.txt")).unwrap();
    assert!(identity.starts_with("toolchain kit-8 logic 0123\n"));
}

/// The tests have the tools and a current library, wherever they are started from.
#[test]
fn the_tests_have_a_current_library() {
    let checkout = Checkout::new();
    let test = || {
        ran(checkout
            .command("host/test", "rt-cargo")
            .args(["--test", "a b"]))
    };
    let root = checkout.root.display();
    let tested = format!("cargo test --release --offline --test a b in {root}/host\n");
    assert_eq!(test().status, Some(0));
    let record = checkout.record();
    assert!(record.starts_with("install-tools\nrt lib "), "{record}");
    assert!(
        record.ends_with(&format!("rt lib in {root}/crates/exports\n{tested}")),
        "{record}"
    );
    assert_eq!(test().status, Some(0));
    assert_eq!(checkout.record(), format!("install-tools\n{tested}"));
    checkout.write("crates/text/src/lib.rt", "new");
    assert_eq!(test().status, Some(0));
    assert_eq!(checkout.called(), ["rt lib", "cargo test"]);
}

/// All tests of the checkout: where the library fails, what it said is shown, and counted once. A must-fail edit that is
/// bad counts as failed.
#[test]
fn all_tests_tell_of_what_fails() {
    let checkout = Checkout::new();
    let all = |prover: &str| {
        ran(checkout
            .command(".ci/run", "rt-cargo")
            .env("PROVER", prover))
    };
    let good = all("");
    assert_eq!(good.status, Some(0), "{}", good.err);
    assert!(good.out.ends_with("\n7 passed, 0 failed\n"), "{}", good.out);
    // the library is built beside the first tests
    let called = checkout.called();
    assert_eq!(called[0], "rt ci");
    assert!(called.iter().any(|call| call == "rt lib"));
    assert_eq!(called.len(), 4, "{called:?}");
    let bad = all("bad");
    assert_eq!(bad.status, Some(1));
    assert!(bad.out.ends_with("\n7 passed, 1 failed\n"), "{}", bad.out);
    let failed = all("fails");
    assert_eq!(failed.status, Some(1));
    assert!(
        failed.out.contains("\nfn definition::all: not proved"),
        "{}",
        failed.out
    );
    assert!(
        failed.out.ends_with("\n5 passed, 1 failed\n"),
        "{}",
        failed.out
    );
}
