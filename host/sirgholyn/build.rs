//! Links the proved static library, and hands on what `--version` tells of it. It stands where
//! `host/library` puts it, or in the folder that the environment variable SIRGHOLYN_LIB names.

use std::path::{Path, PathBuf};
use std::{env, fs};

fn main() {
    println!("cargo:rerun-if-env-changed=SIRGHOLYN_LIB");
    let folder = match env::var_os("SIRGHOLYN_LIB") {
        Some(named) if !named.is_empty() => PathBuf::from(named),
        _ => PathBuf::from("../../target/staticlib"),
    };
    let archive = folder.join("libexports.a");
    println!("cargo:rerun-if-changed={}", archive.display());
    let Ok(found) =
        fs::canonicalize(&folder).and_then(|found| fs::metadata(&archive).map(|_| found))
    else {
        eprintln!("there is no {}: `host/library` makes it", archive.display());
        std::process::exit(1);
    };
    println!("cargo:rustc-link-search=native={}", found.display());
    println!("cargo:rustc-link-lib=static=exports");
    identity(&folder.join("identity.txt"));
}

/// What `host/library` has written of the toolchain and the archive: SIRGHOLYN_TOOLCHAIN_ID and
/// SIRGHOLYN_LIBRARY_ID, or `unknown`.
fn identity(file: &Path) {
    // a file that is missing would count as changed each time
    if file.exists() {
        println!("cargo:rerun-if-changed={}", file.display());
    }
    let text = fs::read_to_string(file).unwrap_or_default();
    for (variable, word) in [
        ("SIRGHOLYN_TOOLCHAIN_ID", "toolchain "),
        ("SIRGHOLYN_LIBRARY_ID", "library "),
    ] {
        let known = text.lines().find_map(|line| line.strip_prefix(word));
        println!("cargo:rustc-env={variable}={}", known.unwrap_or("unknown"));
    }
}
