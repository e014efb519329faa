//! For build scripts: links a proved crate of this repository.

use std::env;
use std::fs;
use std::path::{Path, PathBuf};
use std::process::{Command, exit};

/// Links the archive of the proved crate `name`: the one that the environment variable `variable` names, or else one that
/// `tools/native` builds here, which proves the crate first. Answers where the archive stands.
pub fn link(name: &str, variable: &str) -> PathBuf {
    println!("cargo::rerun-if-env-changed={variable}");
    let out = PathBuf::from(env::var_os("OUT_DIR").expect("cargo sets OUT_DIR"));
    let archive = out.join(format!("lib{name}.a"));
    match env::var_os(variable).map(PathBuf::from) {
        Some(given) => {
            println!("cargo::rerun-if-changed={}", given.display());
            if let Err(error) = fs::copy(&given, &archive) {
                fail(&format!("{variable} names {}: {error}", given.display()));
            }
        }
        None => build(name, variable, &archive),
    }
    println!("cargo::rustc-link-search=native={}", out.display());
    println!("cargo::rustc-link-lib=static={name}");
    archive
}

fn build(name: &str, variable: &str, archive: &Path) {
    if env::var_os("HOST") != env::var_os("TARGET") {
        fail(&format!("tools/native builds for this machine alone: name an archive for the target by {variable}"));
    }
    let root = root();
    for part in ["crates", "crates.txt", "tools/native"] {
        println!("cargo::rerun-if-changed={}", root.join(part).display());
    }
    match Command::new(root.join("tools/native")).arg(name).arg(archive).output() {
        Err(error) => fail(&format!("{}: {error}", root.join("tools/native").display())),
        Ok(run) if !run.status.success() => {
            let said = [run.stdout, run.stderr].concat();
            let said = String::from_utf8_lossy(&said);
            fail(&format!(
                "{said}tools/native {name} failed; to link an archive made elsewhere, name it by {variable}"
            ));
        }
        Ok(_) => {}
    }
}

/// Ends the build with these words.
fn fail(words: &str) -> ! {
    words.lines().for_each(|line| println!("cargo::error={line}"));
    exit(1)
}

/// The repository: the nearest folder above the package that has a crates.txt.
fn root() -> PathBuf {
    let package = PathBuf::from(env::var_os("CARGO_MANIFEST_DIR").expect("cargo sets CARGO_MANIFEST_DIR"));
    match package.ancestors().find(|folder| folder.join("crates.txt").is_file()) {
        Some(root) => root.to_path_buf(),
        None => fail("no crates.txt above the package: the proved crates stand in its repository"),
    }
}
