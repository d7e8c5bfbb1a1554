//! The commands' words and their help, as the files in `words/` have them. The script at the root reads the same files.

use std::ffi::OsString;

const COMMANDS: &str = include_str!("../../../words/commands.txt");

/// What has to follow an option.
#[derive(Debug, Clone, Copy, PartialEq, Eq)]
pub enum Follows {
    Nothing,
    Number,
    /// A number above 0.
    Seconds,
    /// One of some words, parted by `|`.
    OneOf(&'static str),
    Anything,
}

/// A command's files, in order, and its options.
pub struct CommandWords {
    pub files: Vec<&'static str>,
    pub options: Vec<(&'static str, Follows)>,
}

/// What the table says of a command, if there is such a command.
pub fn of_command(command: &str) -> Option<CommandWords> {
    let mut lines = COMMANDS.lines().filter(|line| !line.starts_with('#'));
    let head = lines.find(|line| line.split(' ').next() == Some(command) && !command.is_empty())?;
    Some(CommandWords {
        files: head.split(' ').skip(1).collect(),
        options: lines.map_while(option).collect(),
    })
}

/// An option's line: two blanks, its name, what follows it.
fn option(line: &'static str) -> Option<(&'static str, Follows)> {
    let line = line.strip_prefix("  ")?;
    Some(match line.split_once(' ') {
        None => (line, Follows::Nothing),
        Some((name, "N")) => (name, Follows::Number),
        Some((name, "SECONDS")) => (name, Follows::Seconds),
        Some((name, words)) if words.contains('|') => (name, Follows::OneOf(words)),
        Some((name, _)) => (name, Follows::Anything),
    })
}

/// The help that the words ask for, if they do.
pub fn help(command: &str, rest: &[OsString]) -> Option<&'static str> {
    if matches!(command, "--help" | "-h" | "help") {
        let named = rest.first().and_then(|word| word.to_str());
        return Some(named.and_then(help_of).unwrap_or(HELP));
    }
    let mut options = rest.iter().take_while(|word| *word != "--");
    let asked = options.any(|word| word == "--help" || word == "-h");
    help_of(command).filter(|_| asked)
}

const HELP: &str = include_str!("../../../words/help.txt");

fn help_of(command: &str) -> Option<&'static str> {
    match command {
        "solve" => Some(include_str!("../../../words/solve.txt")),
        "reencode" => Some(include_str!("../../../words/reencode.txt")),
        "sizes" => Some(include_str!("../../../words/sizes.txt")),
        "walk-back" => Some(include_str!("../../../words/walk-back.txt")),
        "carry-forward" => Some(include_str!("../../../words/carry-forward.txt")),
        "read-back" => Some(include_str!("../../../words/read-back.txt")),
        _ => None,
    }
}
