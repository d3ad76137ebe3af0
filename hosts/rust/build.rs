// SPDX-License-Identifier: Apache-2.0
//! Links the proved library from the folder that `OTEL_C_DIR` names, or else from `bin/` at the top of the repository,
//! or else from where it is installed, as `pkg-config` says.

use std::env;
use std::path::{Path, PathBuf};
use std::process::{exit, Command};

const FOLDER: &str = "OTEL_C_DIR";
const LIBRARY: &str = "libotel_c.a";
const OF_REPOSITORY: &str = "../../bin";
const WAYS: &str = "\
Unpack a release, and let OTEL_C_DIR name its folder lib/, or install it, so that pkg-config knows otel_c.
Or build it: `./run --build c` at the top of the repository proves it and makes it in bin/, in some 30 minutes.";

fn main() {
    for variable in [FOLDER, "PKG_CONFIG", "PKG_CONFIG_PATH"] {
        println!("cargo:rerun-if-env-changed={variable}");
    }
    // Cargo runs this program in the package's own folder.
    let named = env::var_os(FOLDER).filter(|it| !it.is_empty()).map(PathBuf::from);
    let folder = named.clone().unwrap_or_else(|| OF_REPOSITORY.into());
    let folder = std::path::absolute(&folder).unwrap_or(folder);
    println!("cargo:rerun-if-changed={}", folder.join(LIBRARY).display());
    if has_library(&folder) {
        link(&[folder]);
    } else if let Some(folders) = installed().filter(|_| named.is_none()) {
        link(&folders);
    } else {
        eprintln!("there is no {}\n{WAYS}", folder.join(LIBRARY).display());
        exit(1);
    }
}

fn has_library(folder: &Path) -> bool {
    folder.join(LIBRARY).is_file()
}

/// Links the static library where one of the folders has it, or else the shared one.
fn link(folders: &[PathBuf]) {
    for folder in folders {
        println!("cargo:rustc-link-search=native={}", folder.display());
    }
    let kind = if folders.iter().any(|it| has_library(it)) { "static=" } else { "" };
    println!("cargo:rustc-link-lib={kind}otel_c");
}

/// The folders of the library that is installed.
fn installed() -> Option<Vec<PathBuf>> {
    let program = env::var_os("PKG_CONFIG").unwrap_or_else(|| "pkg-config".into());
    let mut command = Command::new(program);
    // The system's own folders are to be named too, so that the static library is found there.
    command.args(["--libs", "otel_c"]).env("PKG_CONFIG_ALLOW_SYSTEM_LIBS", "1");
    let said = command.output().ok().filter(|it| it.status.success())?;
    let words = words_of(&String::from_utf8(said.stdout).ok()?);
    Some(words.iter().filter_map(|it| it.strip_prefix("-L")).map(PathBuf::from).collect())
}

/// The words of a line, in which a backslash stands before a space that is a part of one.
fn words_of(line: &str) -> Vec<String> {
    let (mut words, mut letters) = (vec![String::new()], line.chars());
    while let Some(letter) = letters.next() {
        match letter {
            '\\' => words.last_mut().unwrap().extend(letters.next()),
            _ if letter.is_whitespace() => words.push(String::new()),
            _ => words.last_mut().unwrap().push(letter),
        }
    }
    words
}
