//! The command: `reencode`, `sizes`, `walk-back`, `carry-forward`, `read-back` and `solve` over files.

mod args;
mod cleanup;
mod commands;
mod failure;
mod files;
mod keeper;
mod lock;
mod outputs;
mod solve;
mod solver;
mod system;
mod words;

use args::Args;
use failure::Failure;
use sirgholyn::calls;
use std::ffi::OsString;
use std::process::ExitCode;

fn main() -> ExitCode {
    let words: Vec<OsString> = std::env::args_os().skip(1).collect();
    let work = || {
        cleanup::begin();
        run(&words)
    };
    let ended = cleanup::prepare().and_then(|()| calls::on_large_stack(work));
    // a signal that has come decides how the command ends
    let _from_now_on = cleanup::hold_signals();
    match ended.unwrap_or_else(|error| Err(Failure::no_process(error))) {
        Ok(status) => ExitCode::from(status),
        Err(failure) => {
            files::say(format!("sirgholyn: {}", failure.message));
            ExitCode::from(failure.status)
        }
    }
}

/// Runs one command; the answer is its exit status.
fn run(words: &[OsString]) -> Result<u8, Failure> {
    let Some((command, rest)) = words.split_first() else {
        return Err(Failure::usage(
            "which command? `sirgholyn --help` lists them",
        ));
    };
    let command = files::shown_name(command);
    if let Some(text) = words::help(&command, rest) {
        return print(text);
    }
    if command == "--version" {
        return print(VERSION);
    }
    let Some(known) = words::of_command(&command) else {
        return Err(Failure::usage(format!(
            "there is no command `{command}`; `sirgholyn --help` lists them"
        )));
    };
    let args = Args::read(rest, &known)?;
    match command.as_str() {
        "solve" => solve::solve(&args),
        "reencode" => commands::reencode(&args),
        "sizes" => commands::sizes(&args),
        "walk-back" => commands::walk_back(&args),
        "carry-forward" => commands::carry_forward(&args),
        _ => commands::read_back(&args),
    }
}

fn print(text: &str) -> Result<u8, Failure> {
    files::print(text.as_bytes())?;
    Ok(0)
}

/// The version, and the identities of the toolchain and of the library that the command was built with.
const VERSION: &str = concat!(
    "sirgholyn ",
    env!("CARGO_PKG_VERSION"),
    "\ntoolchain ",
    env!("SIRGHOLYN_TOOLCHAIN_ID"),
    "\nlibrary ",
    env!("SIRGHOLYN_LIBRARY_ID"),
    "\n"
);
