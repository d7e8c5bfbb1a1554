//! Rows put before the checker: a repository of their own, with a copy of the definition.

use crate::antt;
use crate::rows::Row;
use std::path::{Path, PathBuf};
use std::process::{self, Command};
use std::sync::atomic::{AtomicUsize, Ordering};
use std::{env, fs};

const DEFINITION: &str = concat!(env!("CARGO_MANIFEST_DIR"), "/../../crates/definition");

pub struct Verdict {
    pub proved: bool,
    pub messages: String,
}

/// Has the checker compute the rows, each a theorem under its name.
pub fn check(rows: &[(String, Row)]) -> Verdict {
    let repository = Repository::new();
    repository.write("crates.txt", "definition:\nrows: definition\n");
    for part in ["src", "specs"] {
        let from = Path::new(DEFINITION).join(part);
        repository.copy(&from, &format!("crates/definition/{part}"));
    }
    repository.write("crates/rows/src/lib.rt", "// The rows stand in specs/.\n");
    repository.write("crates/rows/specs/Lib.antt", antt::LIB);
    repository.write("crates/rows/specs/Given.antt", antt::GIVEN);
    repository.write("crates/rows/specs/Rows.antt", &antt::theorems(rows));

    let output = Command::new("rt")
        .arg("check")
        .current_dir(repository.0.join("crates/rows"))
        .output()
        .unwrap_or_else(|error| panic!("rt check: {error} (the test needs the toolchain)"));
    let bytes = [output.stdout, output.stderr].concat();
    let messages = String::from_utf8_lossy(&bytes).into_owned();
    let is_said = |line: &str| line.starts_with("logic=proved ");
    Verdict {
        proved: output.status.success() && messages.lines().any(is_said),
        messages,
    }
}

/// A folder that is removed in the end.
struct Repository(PathBuf);

impl Repository {
    fn new() -> Repository {
        static NEXT: AtomicUsize = AtomicUsize::new(0);
        let own = NEXT.fetch_add(1, Ordering::Relaxed);
        let path = env::temp_dir().join(format!("sirgholyn-rows-{}-{own}", process::id()));
        fs::create_dir(&path).unwrap();
        Repository(path)
    }

    fn write(&self, name: &str, text: &str) {
        let path = self.0.join(name);
        fs::create_dir_all(path.parent().unwrap()).unwrap();
        fs::write(path, text).unwrap();
    }

    /// The files of a folder that holds no other.
    fn copy(&self, from: &Path, to: &str) {
        for file in fs::read_dir(from).unwrap() {
            let file = file.unwrap().path();
            let name = file.file_name().unwrap().to_string_lossy();
            self.write(&format!("{to}/{name}"), &fs::read_to_string(&file).unwrap());
        }
    }
}

impl Drop for Repository {
    fn drop(&mut self) {
        let _ = fs::remove_dir_all(&self.0);
    }
}
