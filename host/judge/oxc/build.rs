//! Lays out the tree that is compiled: the ten files of the crate, copied from the folder that the
//! variable OXC_SRC names, and the stubs beside them. Each of the ten is held against SHA256SUMS
//! after it was copied, and the build ends here if one of them differs.

use std::{
    env, fs,
    path::{Path, PathBuf},
    process::Command,
};

const STUBS: [&str; 11] = [
    "alias.rs",
    "cache/mod.rs",
    "cache/hasher.rs",
    "cache/cached_meta.rs",
    "cache/thread_local.rs",
    "context.rs",
    "dts_resolver.rs",
    "file_url.rs",
    "node_path.rs",
    "package_json.rs",
    "resolution.rs",
];

fn main() {
    let here = PathBuf::from(env::var("CARGO_MANIFEST_DIR").unwrap());
    let project = here.parent().unwrap().to_path_buf();
    let source = match env::var_os("OXC_SRC") {
        Some(given) => project.join(given),
        None => project.join("../../../shared/docs/src"),
    };
    let sums = project.join("SHA256SUMS");
    let tree = here.join("tree");
    println!("cargo:rerun-if-env-changed=OXC_SRC");
    println!("cargo:rerun-if-changed={}", sums.display());
    println!("cargo:rerun-if-changed={}", here.join("build.rs").display());

    fs::create_dir_all(tree.join("cache")).unwrap();
    let listed = fs::read_to_string(&sums).expect("SHA256SUMS can be read");
    let names: Vec<&str> = listed
        .lines()
        .filter_map(|line| line.split("  ").nth(1))
        .collect();
    assert_eq!(names.len(), 10, "SHA256SUMS names ten files");
    for name in names {
        copy(&source.join(name), &tree.join(name));
    }
    let held = Command::new("sha256sum")
        .arg("--check")
        .arg("--strict")
        .arg("--quiet")
        .arg(&sums)
        .current_dir(&tree)
        .status()
        .expect("sha256sum can be run");
    if !held.success() {
        fs::remove_dir_all(&tree).unwrap();
        panic!(
            "a file of {} is not the one that SHA256SUMS lists",
            source.display()
        );
    }
    for name in STUBS {
        copy(&here.join("stubs").join(name), &tree.join(name));
    }
}

/// Copies a file unless the same bytes stand there already. Both sides are watched, so that a file
/// altered in the tree is put right by the next build.
fn copy(from: &Path, to: &Path) {
    println!("cargo:rerun-if-changed={}", from.display());
    println!("cargo:rerun-if-changed={}", to.display());
    let bytes = fs::read(from)
        .unwrap_or_else(|error| panic!("{}: {error} (is OXC_SRC set?)", from.display()));
    if fs::read(to).ok().as_ref() != Some(&bytes) {
        fs::write(to, bytes).unwrap();
    }
}
