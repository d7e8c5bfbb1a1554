//! A copy of the scripts with stand-ins for rt and cargo, which write down how they are called.

use crate::common::solvers::Folder;
use std::collections::BTreeMap;
use std::fs::{self, Permissions};
use std::os::unix::fs::{symlink, MetadataExt, PermissionsExt};
use std::os::unix::process::ExitStatusExt;
use std::path::{Path, PathBuf};
use std::process::{Command, Output, Stdio};
use std::time::SystemTime;

/// All that the scripts use, beside rt and cargo.
const TOOLS: &str =
    "awk bash cat chmod cut dirname env find flock grep head mkdir mkfifo mktemp mv nproc od \
    readlink rm rmdir sed setpriv setsid sh sha256sum sleep sort tail tee touch";

pub const CRATES: &str = "\
# ---- what is promised
definition:
theorems: definition text
# bytes to words
text: definition
exports staticlib: definition text # the calls
";

/// Proves all crates, unless $PROVER says what else. `slow` begins with the archive and has a child.
pub const RT: &str = r#"#!/bin/sh
cat
[ "$1" = version ] && echo 'kit-7 logic 0123' && exit
echo "rt $* in $PWD" >>"$RECORD"
case $1-${PROVER:-} in
ci-bad)
  echo 'rt: ok; handles allowed: none; must-fail edits: 2 refused, 1 bad; every proof was done in this run'
  echo '3 passed, 0 failed' ;;
ci-*)
  rm -rf target
  mkdir target
  echo 'rt: ok; handles allowed: none; must-fail edits: 3 refused; every proof was done in this run'
  echo '3 passed, 0 failed' ;;
lib-fails)
  echo 'rt: chose --jobs 2 for definition'
  echo 'fn definition::all: not proved: wrong'
  echo 'rt: the library definition did not build, so nothing above it was checked' >&2
  exit 1 ;;
lib-half)
  mkdir -p out
  echo half >out/libexports.a
  exit 2 ;;
lib-slow)
  mkdir -p out
  echo half >out/libexports.a
  sleep 100 &
  echo "slow $$ $!" >>"$RECORD"
  wait ;;
lib-waits)
  echo waiting >>"$RECORD"
  until [ -f "$RECORD.go" ] || [ ! -f "$RECORD" ]; do sleep 0.05; done
  mkdir -p out
  echo archive >out/libexports.a ;;
lib-edited)
  sleep 0.05
  echo edited >../text/src/lib.rt
  mkdir -p out
  echo archive >out/libexports.a ;;
*)
  for name in definition text exports; do
    echo "rt: chose --jobs 2 for $name"
    echo "fn $name::all: proved"
  done
  mkdir -p out
  echo archive >out/libexports.a ;;
esac
"#;

/// Makes the program: one that tells where it runs, its words and its input.
const CARGO: &str = r#"#!/bin/sh
cat
echo "cargo $* in $PWD" >>"$RECORD"
env | sed -n -e '/^CARGO_/p' -e '/^RUST/p' -e '/^SIRGHOLYN/p' >>"$RECORD"
case ${BUILDER:-} in
fails)
  echo 'error: linker `cc` not found' >&2
  exit 101 ;;
slow)
  sleep 100 &
  echo "slow $$ $!" >>"$RECORD"
  wait ;;
esac
while [ $# -gt 0 ]; do
  [ "$1" != --target-dir ] || target=$2
  shift
done
[ -n "${target:-}" ] || { echo 'test result: ok. 2 passed; 0 failed; 0 ignored'; exit; }
mkdir -p "$target/release"
cat >"$target/release/sirgholyn" <<'END'
#!/bin/sh
echo "in $PWD" "${RUSTFLAGS:-}"
for word; do echo "word $word"; done
cat
exit 10
END
chmod +x "$target/release/sirgholyn"
"#;

pub struct Ran {
    pub status: Option<i32>,
    pub signal: Option<i32>,
    pub out: String,
    pub err: String,
}

impl From<Output> for Ran {
    fn from(output: Output) -> Ran {
        Ran {
            status: output.status.code(),
            signal: output.status.signal(),
            out: String::from_utf8(output.stdout).unwrap(),
            err: String::from_utf8(output.stderr).unwrap(),
        }
    }
}

pub fn ran(command: &mut Command) -> Ran {
    command.output().unwrap().into()
}

/// The checkout that is tested.
pub fn root() -> PathBuf {
    fs::canonicalize(concat!(env!("CARGO_MANIFEST_DIR"), "/../..")).unwrap()
}

pub fn write_program(path: &Path, text: &str) {
    fs::write(path, text).unwrap();
    fs::set_permissions(path, Permissions::from_mode(0o755)).unwrap();
}

/// Copies a file, or a folder without `target`.
pub fn copy(from: &Path, to: &Path) {
    if !from.is_dir() {
        fs::create_dir_all(to.parent().unwrap()).unwrap();
        fs::copy(from, to).unwrap();
        return;
    }
    for entry in fs::read_dir(from).unwrap() {
        let name = entry.unwrap().file_name();
        if name != "target" {
            copy(&from.join(&name), &to.join(&name));
        }
    }
}

/// A checkout of its own, of which nothing is built; folders for tools, the stand-ins and their record beside
/// it.
pub struct Checkout {
    pub folder: Folder,
    pub root: PathBuf,
}

impl Checkout {
    pub fn new() -> Checkout {
        let folder = Folder::new();
        let made = Checkout {
            root: PathBuf::from(folder.path("a check-out's $HOME")),
            folder,
        };
        for name in [
            ".ci/run",
            "sirgholyn",
            "host/building",
            "host/command",
            "host/library",
            "host/test",
            "host/words",
            "host/sirgholyn/Cargo.toml",
            "host/sirgholyn/words",
        ] {
            copy(&root().join(name), &made.path(name));
        }
        made.write("TOOLCHAIN", "kit-6 logic 0122\n");
        made.write("crates.txt", CRATES);
        made.write("crates/text/src/lib.rt", "");
        made.write("crates/text/src/removed.rt", "");
        made.write("crates/exports/src/lib.rt", "");
        made.write("host/sirgholyn/src/lib.rs", "");
        made.write("host/sirgholyn/src/removed.rs", "");
        write_program(
            &made.path("host/install-tools"),
            "#!/bin/sh\necho install-tools >>\"$RECORD\"\n",
        );
        for folder in ["tools", "stand-ins", "caller"] {
            fs::create_dir(made.folder.path(folder)).unwrap();
        }
        for tool in TOOLS.split_whitespace() {
            let path = std::env::var("PATH").unwrap();
            let mut places = path.split(':').map(|place| Path::new(place).join(tool));
            if let Some(found) = places.find(|place| place.is_file()) {
                symlink(found, made.folder.path(&format!("tools/{tool}"))).unwrap();
            }
        }
        write_program(Path::new(&made.folder.path("stand-ins/rt")), RT);
        write_program(Path::new(&made.folder.path("stand-ins/cargo")), CARGO);
        made
    }

    /// A checkout of which all is built.
    pub fn built() -> Checkout {
        let made = Checkout::new();
        let ran = made.run(&["solve", "x"]);
        assert_eq!(ran.status, Some(10), "{}", ran.err);
        assert_eq!(made.called(), BUILT);
        made
    }

    pub fn path(&self, name: &str) -> PathBuf {
        self.root.join(name)
    }

    pub fn write(&self, name: &str, text: &str) {
        let path = self.path(name);
        fs::create_dir_all(path.parent().unwrap()).unwrap();
        fs::write(path, text).unwrap();
    }

    pub fn has(&self, name: &str) -> bool {
        self.path(name).symlink_metadata().is_ok()
    }

    /// The script or another program of the checkout, in the caller's folder; nothing is in PATH but the tools
    /// and the stand-ins that are named.
    pub fn command(&self, program: &str, stand_ins: &str) -> Command {
        let mut command = Command::new(self.path(program));
        self.prepare(&mut command, stand_ins);
        command
    }

    pub fn prepare(&self, command: &mut Command, stand_ins: &str) {
        let tools = self.folder.path("tools");
        let mut path = tools.clone();
        if !stand_ins.is_empty() {
            let chosen = self.folder.path(&format!("only-{stand_ins}"));
            let _ = fs::create_dir(&chosen);
            for name in stand_ins.split('-') {
                let _ = symlink(
                    self.folder.path(&format!("stand-ins/{name}")),
                    Path::new(&chosen).join(name),
                );
            }
            path = format!("{chosen}:{tools}");
        }
        command
            .env_clear()
            .env("PATH", path)
            .env("RECORD", self.folder.path("record"))
            .current_dir(self.folder.path("caller"))
            .stdin(Stdio::null());
    }

    pub fn script(&self, words: &[&str]) -> Command {
        let mut command = self.command("sirgholyn", "rt-cargo");
        command.args(words);
        command
    }

    pub fn run(&self, words: &[&str]) -> Ran {
        ran(&mut self.script(words))
    }

    /// What the stand-ins have written down since this was last asked.
    pub fn record(&self) -> String {
        let path = self.folder.path("record");
        let record = fs::read_to_string(&path).unwrap_or_default();
        let _ = fs::remove_file(path);
        record
    }

    /// The first two words of each call.
    pub fn called(&self) -> Vec<String> {
        let record = self.record();
        let calls = record.lines().filter(|line| line.contains(" in /"));
        calls
            .map(|line| line.split(' ').take(2).collect::<Vec<_>>().join(" "))
            .collect()
    }

    /// Every file and folder of the checkout, with what a write would change.
    pub fn listing(&self) -> BTreeMap<PathBuf, (SystemTime, u64, u32)> {
        let mut found = BTreeMap::new();
        let mut folders = vec![self.root.clone()];
        while let Some(folder) = folders.pop() {
            for entry in fs::read_dir(&folder).unwrap() {
                let path = entry.unwrap().path();
                let known = path.symlink_metadata().unwrap();
                if known.is_dir() {
                    folders.push(path.clone());
                }
                found.insert(path, (known.modified().unwrap(), known.len(), known.mode()));
            }
        }
        found
    }

    /// Lets everybody read the checkout, and nobody write it; or its owner write it again.
    pub fn set_writable(&self, writable: bool) {
        let all = PathBuf::from(self.folder.path(""));
        let steps = match writable {
            true => vec![("u+w", &self.root)],
            false => vec![("a+rX", &all), ("a-w", &self.root)],
        };
        for (mode, folder) in steps {
            let mut chmod = Command::new("chmod");
            let status = chmod.args(["-R", mode]).arg(folder).status();
            assert!(status.unwrap().success());
        }
    }
}

impl Drop for Checkout {
    fn drop(&mut self) {
        self.set_writable(true);
    }
}

pub const BUILT: [&str; 2] = ["rt lib", "cargo build"];

/// The words of a command that is to be run by somebody whom permissions hold.
pub fn unprivileged() -> &'static [&'static str] {
    let root = fs::metadata("/proc/self").unwrap().uid() == 0;
    match root {
        true => &[
            "setpriv",
            "--reuid=65534",
            "--regid=65534",
            "--clear-groups",
        ],
        false => &[],
    }
}
