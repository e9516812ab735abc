//! The names of flags and text options, whose order gives the ids.

use std::path::{Path, PathBuf};
use std::{env, fs};

use tsconfig_questions::{FLAGS, TEXT_OPTIONS};

fn package(file: &str) -> PathBuf {
    Path::new(env!("CARGO_MANIFEST_DIR")).join(file)
}

fn between<'a>(source: &'a str, start: &str, end: &str) -> &'a str {
    let rest = source.split_once(start).unwrap_or_else(|| panic!("`{start}` is not there")).1;
    rest.split_once(end).unwrap_or_else(|| panic!("`{end}` is not there")).0
}

/// The judge writes the options by these names into the JSON that the crate reads, so its answers hold them.
#[test]
fn the_names_are_those_that_the_judge_gives_to_the_crate() {
    let source = fs::read_to_string(package("../judge/src/files.rs")).unwrap();
    let names = |list: &str| -> Vec<&str> {
        let items = between(&source, &format!("const {list}: [&str; "), "];").split_once('[').unwrap().1;
        items.split('"').skip(1).step_by(2).collect()
    };
    assert_eq!(names("FLAGS"), FLAGS);
    assert_eq!(names("TEXTS"), TEXT_OPTIONS);
}

fn camel_case(name: &str) -> String {
    let mut words = name.split('_');
    let first = words.next().unwrap_or_default().to_owned();
    words.fold(first, |name, word| name + &word[..1].to_uppercase() + &word[1..])
}

/// This needs the crate's `tsconfig.rs`, in the folder that `OXC_SRC` names or in the one beside the repository; elsewhere it holds nothing.
#[test]
fn the_order_is_that_of_the_crate() {
    let folder = env::var_os("OXC_SRC").map_or_else(|| package("../../../shared/docs/src"), PathBuf::from);
    let Ok(source) = fs::read_to_string(folder.join("tsconfig.rs")) else {
        return;
    };
    let fields = between(&source, "pub struct CompilerOptions {", "\n}");
    let names = |kind: &str| -> Vec<String> {
        let named = fields.lines().filter_map(|line| line.trim().strip_prefix("pub ")?.strip_suffix(kind));
        named.map(camel_case).collect()
    };
    assert_eq!(names(": Option<bool>,"), FLAGS);
    assert_eq!(names(": Option<String>,"), TEXT_OPTIONS);
}
