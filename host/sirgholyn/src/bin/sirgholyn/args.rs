//! The words after a command: its files and its options, held to the table of `words`.

use crate::failure::Failure;
use crate::words::{CommandWords, Follows};
use sirgholyn::limits::MOST_NAME_SHOWN;
use sirgholyn::shown::shown;
use sirgholyn::{Arrangement, Form, Settings};
use std::ffi::{OsStr, OsString};
use std::os::unix::ffi::{OsStrExt, OsStringExt};

pub struct Args {
    files: Vec<OsString>,
    options: Vec<(&'static str, OsString)>,
}

impl Args {
    /// Reads the words; the first that is wrong decides.
    pub fn read(words: &[OsString], known: &CommandWords) -> Result<Args, Failure> {
        let mut args = Args {
            files: Vec::new(),
            options: Vec::new(),
        };
        let mut words = words.iter();
        while let Some(word) = words.next() {
            if word == "--" {
                args.files.extend(words.by_ref().cloned());
            } else if word.as_bytes().starts_with(b"-") && word != "-" {
                let (name, value) = read_option(word, &mut words, known)?;
                args.add_option(name, value)?;
            } else {
                args.files.push(word.clone());
            }
        }
        args.expect_files(&known.files)?;
        Ok(args)
    }

    fn add_option(&mut self, name: &'static str, value: OsString) -> Result<(), Failure> {
        if self.has(name) {
            return Err(Failure::usage(format!("`{name}` stands twice")));
        }
        self.options.push((name, value));
        Ok(())
    }

    fn expect_files(&self, wanted: &[&str]) -> Result<(), Failure> {
        if self.files.len() != wanted.len() {
            return Err(Failure::usage(format!(
                "wanted: {}; found {} file names",
                wanted.join(" "),
                self.files.len()
            )));
        }
        if self.files.iter().filter(|name| *name == "-").count() > 1 {
            return Err(Failure::usage("standard input can be read once only"));
        }
        Ok(())
    }

    pub fn file(&self, index: usize) -> &OsStr {
        &self.files[index]
    }

    pub fn has(&self, name: &str) -> bool {
        self.value(name).is_some()
    }

    pub fn value(&self, name: &str) -> Option<&OsStr> {
        self.options
            .iter()
            .find(|(found, _)| *found == name)
            .map(|(_, value)| value.as_os_str())
    }

    /// The number after an option; all were read as numbers.
    pub fn number(&self, name: &str) -> Option<usize> {
        self.value(name).and_then(number)
    }

    /// The settings: the form that is named, or else the other, and the step. A step too large for 32 bits stays one
    /// that the library refuses.
    pub fn settings(&self, unnamed: Form, arrangement: Arrangement) -> Settings {
        let form = match self.value("--form").and_then(OsStr::to_str) {
            Some("counter") => Form::Counter,
            Some(_) => Form::Order,
            None => unnamed,
        };
        let step = self.number("--step").unwrap_or(1);
        Settings::new(form, arrangement).with_step(u32::try_from(step).unwrap_or(u32::MAX))
    }
}

/// An option's name and its value: `--name value`, `--name=value`, or `--name` alone.
fn read_option<'a>(
    word: &OsStr,
    words: &mut impl Iterator<Item = &'a OsString>,
    known: &CommandWords,
) -> Result<(&'static str, OsString), Failure> {
    let bytes = word.as_bytes();
    let (name, joined) = match bytes.iter().position(|&byte| byte == b'=') {
        Some(at) => (
            &bytes[..at],
            Some(OsString::from_vec(bytes[at + 1..].to_vec())),
        ),
        None => (bytes, None),
    };
    let &(name, follows) = known
        .options
        .iter()
        .find(|(known, _)| known.as_bytes() == name)
        .ok_or_else(|| {
            Failure::usage(format!(
                "there is no option `{}` here",
                shown(name, MOST_NAME_SHOWN)
            ))
        })?;
    let value = match (follows, joined) {
        (Follows::Nothing, None) => return Ok((name, OsString::new())),
        (Follows::Nothing, Some(_)) => {
            return Err(Failure::usage(format!("`{name}` takes no value")))
        }
        (_, Some(value)) => value,
        (_, None) => match words.next() {
            Some(value) => value.clone(),
            None => return Err(Failure::usage(format!("`{name}` wants a value"))),
        },
    };
    match complaint(&value, follows) {
        Some(wanted) => Err(Failure::usage(format!("`{name}` wants {wanted}"))),
        None => Ok((name, value)),
    }
}

/// What an option wants, where its value is something else.
fn complaint(value: &OsStr, follows: Follows) -> Option<String> {
    match follows {
        Follows::Number if number(value).is_none() => Some("a number".into()),
        Follows::Seconds if number(value).is_none_or(|seconds| seconds == 0) => {
            Some("a number of seconds".into())
        }
        Follows::OneOf(words) if !words.split('|').any(|word| value == word) => {
            Some(format!("`{}`", words.replace('|', "` or `")))
        }
        _ => None,
    }
}

fn number(value: &OsStr) -> Option<usize> {
    let digits = value.to_str()?;
    let plain = digits.bytes().all(|byte| byte.is_ascii_digit());
    digits.parse().ok().filter(|_| plain)
}
