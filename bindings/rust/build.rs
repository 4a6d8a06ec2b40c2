//! Finds libcba.a: in the folder that CBA_LIB_DIR names, else where pkg-config has it, else in the repository, where
//! `tools/build library cba` writes it. In the repository this crate's version must be the one in the file VERSION.

use std::env::{var, var_os};
use std::fs::read_to_string;
use std::path::{Path, PathBuf};
use std::process::{exit, Command};

const FILE: &str = "libcba.a";

fn main() {
    for name in [
        "CBA_LIB_DIR",
        "PKG_CONFIG",
        "PKG_CONFIG_PATH",
        "PKG_CONFIG_LIBDIR",
    ] {
        println!("cargo:rerun-if-env-changed={name}");
    }
    check_version();
    let folder = folder();
    println!("cargo:rerun-if-changed={}", folder.join(FILE).display());
    println!("cargo:rustc-link-search=native={}", folder.display());
    println!("cargo:rustc-link-lib=static=cba");
}

/// Cargo.toml cannot take its version from another file. A copy of this crate that stands elsewhere has no such file,
/// and nothing to be held to.
fn check_version() {
    let file = root().join("VERSION");
    let Ok(version) = read_to_string(&file) else {
        return;
    };
    println!("cargo:rerun-if-changed={}", file.display());
    let (version, own) = (version.trim_end(), var("CARGO_PKG_VERSION"));
    if own.as_deref() != Ok(version) {
        wrong(&format!(
            "Cargo.toml has version {}, and {} has {version}",
            own.unwrap_or_default(),
            file.display()
        ));
    }
}

/// The repository's folder, where this crate is in it.
fn root() -> PathBuf {
    Path::new(&var_os("CARGO_MANIFEST_DIR").unwrap_or_default()).join("../..")
}

/// A folder that is named is the one that is meant: where it has no library, no other is taken.
fn folder() -> PathBuf {
    if let Some(named) = var_os("CBA_LIB_DIR") {
        let named = PathBuf::from(named);
        return found(&named)
            .unwrap_or_else(|| wrong(&format!("CBA_LIB_DIR is {named:?}, and has no {FILE}")));
    }
    let nowhere = || {
        wrong("no libcba.a: ./install PREFIX and set PKG_CONFIG_PATH, or set CBA_LIB_DIR to its folder")
    };
    installed().or_else(in_repository).unwrap_or_else(nowhere)
}

fn found(folder: &Path) -> Option<PathBuf> {
    folder.join(FILE).is_file().then(|| folder.into())
}

fn installed() -> Option<PathBuf> {
    let program = var_os("PKG_CONFIG").unwrap_or_else(|| "pkg-config".into());
    let run = Command::new(program)
        .args(["--variable=libdir", "cba"])
        .output()
        .ok()?;
    let folder = String::from_utf8(run.stdout).ok()?;
    found(Path::new(folder.trim_end_matches('\n'))).filter(|_| run.status.success())
}

fn in_repository() -> Option<PathBuf> {
    found(&root().join("target/staticlib"))
}

fn wrong(why: &str) -> ! {
    eprintln!("cba: {why}");
    exit(1)
}
