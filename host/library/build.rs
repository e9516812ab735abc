//! Finds the proved static library and links it.

use std::path::{Path, PathBuf};
use std::{env, fs};

const VARIABLE: &str = "TSCONFIG_QUESTIONS_LIB";
const FILE: &str = "libquestions.a";

fn main() {
    println!("cargo:rerun-if-env-changed={VARIABLE}");
    if let Err(sentence) = link() {
        eprintln!("{sentence}");
        std::process::exit(1);
    }
}

/// The archive is copied under a name of its own, so that what the variable names may be called anything.
fn link() -> Result<(), String> {
    let archive = archive()?;
    println!("cargo:rerun-if-changed={}", archive.display());
    let folder = PathBuf::from(variable("OUT_DIR")?);
    fs::copy(&archive, folder.join("libtsconfig_questions_proved.a"))
        .map_err(|error| format!("The library {} cannot be copied: {error}.", archive.display()))?;
    println!("cargo:rustc-link-search=native={}", folder.display());
    println!("cargo:rustc-link-lib=static=tsconfig_questions_proved");
    Ok(())
}

/// The file that the variable names, or that file in the folder that it names; without it the one that `host/staticlib.sh` makes in this repository.
fn archive() -> Result<PathBuf, String> {
    let file = match env::var_os(VARIABLE).filter(|place| !place.is_empty()) {
        None => Path::new(&variable("CARGO_MANIFEST_DIR")?).join("../../target/staticlib").join(FILE),
        Some(place) if Path::new(&place).is_dir() => Path::new(&place).join(FILE),
        Some(place) => PathBuf::from(place),
    };
    if file.is_file() {
        return Ok(file);
    }
    Err(format!(
        "The proved library is not at {}. Run host/staticlib.sh in the repository, or name the library's file or folder in the variable {VARIABLE}.",
        file.display()
    ))
}

fn variable(name: &str) -> Result<String, String> {
    env::var(name).map_err(|_| format!("Cargo does not give the variable {name} to the build script."))
}
