//! The command run in tests: its results, and solvers that are shell scripts.

use super::solvers::Folder;
use std::fs;
use std::io::Write;
use std::os::unix::fs::PermissionsExt;
use std::os::unix::process::ExitStatusExt;
use std::process::{Command, Output, Stdio};
use std::thread;
use std::time::Duration;

pub const COMMAND: &str = env!("CARGO_BIN_EXE_sirgholyn");

pub struct Ran {
    /// The exit status, or minus the signal.
    pub status: i32,
    pub out: String,
    pub err: String,
}

impl From<Output> for Ran {
    fn from(output: Output) -> Ran {
        let status = output.status;
        Ran {
            status: status.code().unwrap_or(-status.signal().unwrap_or(0)),
            out: String::from_utf8(output.stdout).unwrap(),
            err: String::from_utf8(output.stderr).unwrap(),
        }
    }
}

pub fn run_with(words: &[&str], input: &[u8]) -> Ran {
    let mut child = Command::new(COMMAND)
        .args(words)
        .stdin(Stdio::piped())
        .stdout(Stdio::piped())
        .stderr(Stdio::piped())
        .spawn()
        .unwrap();
    // the command may end without reading
    let _ = child.stdin.take().unwrap().write_all(input);
    child.wait_with_output().unwrap().into()
}

pub fn run(words: &[&str]) -> Ran {
    run_with(words, b"")
}

/// Runs a shell script, in which `$SIRGHOLYN` is the command and the words are `$1`, `$2`, ...
pub fn shell(script: &str, words: &[&str]) -> Ran {
    let mut command = Command::new("sh");
    command.args(["-c", script, "sh"]).args(words);
    command.env("SIRGHOLYN", COMMAND).stdin(Stdio::null());
    command.output().unwrap().into()
}

/// The command failed with a status and a message, and printed nothing.
#[track_caller]
pub fn expect_failure(ran: &Ran, status: i32, said: &str) {
    expect_message(ran, status, said);
    assert_eq!(ran.out, "");
}

#[track_caller]
pub fn expect_message(ran: &Ran, status: i32, said: &str) {
    assert_eq!(ran.status, status, "{}{}", ran.out, ran.err);
    assert!(
        ran.err.starts_with("sirgholyn: ") && ran.err.contains(said),
        "{said:?} is not said: {:?}",
        ran.err
    );
}

/// A program that is a shell script.
pub fn script(folder: &Folder, name: &str, lines: &str) -> String {
    let path = folder.write(name, format!("#!/bin/sh\n{lines}\n").as_bytes());
    fs::set_permissions(&path, fs::Permissions::from_mode(0o755)).unwrap();
    path
}

pub fn example(name: &str) -> String {
    format!("{}/../../examples/{name}", env!("CARGO_MANIFEST_DIR"))
}

/// Waits until a file is there, up to a minute.
pub fn wait_for(path: &str) {
    for _ in 0..6_000 {
        if fs::exists(path).unwrap() {
            return;
        }
        thread::sleep(Duration::from_millis(10));
    }
    panic!("{path} does not appear");
}
