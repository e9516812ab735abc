//! The tool `book`, run as a program.

use std::io::Write;
use std::path::{Path, PathBuf};
use std::process::{Command, Output, Stdio};
use std::{env, fs, process};

/// A folder that is removed after the test.
struct Folder(PathBuf);

impl Folder {
    fn new(name: &str) -> Self {
        let path = env::temp_dir().join(format!("tsconfig-questions-{name}-{}", process::id()));
        fs::create_dir_all(&path).unwrap();
        Self(path)
    }

    fn file(&self, name: &str, text: &str) -> PathBuf {
        let path = self.0.join(name);
        fs::write(&path, text).unwrap();
        path
    }
}

impl Drop for Folder {
    fn drop(&mut self) {
        let _ = fs::remove_dir_all(&self.0);
    }
}

fn run(words: &[&Path], input: &str) -> Output {
    let program = env!("CARGO_BIN_EXE_book");
    let piped = || Stdio::piped();
    let mut child = Command::new(program).args(words).stdin(piped()).stdout(piped()).stderr(piped()).spawn().unwrap();
    child.stdin.take().unwrap().write_all(input.as_bytes()).unwrap();
    child.wait_with_output().unwrap()
}

/// What is written by a run that succeeds.
fn written(words: &[&Path], input: &str) -> String {
    let output = run(words, input);
    assert_eq!((output.status.code(), String::from_utf8_lossy(&output.stderr).as_ref()), (Some(0), ""));
    String::from_utf8(output.stdout).unwrap()
}

/// The sentence of a run that fails.
fn error(words: &[&Path]) -> String {
    let output = run(words, "");
    assert_eq!(output.status.code(), Some(1));
    String::from_utf8(output.stderr).unwrap()
}

fn stations() -> PathBuf {
    Path::new(env!("CARGO_MANIFEST_DIR")).join("examples/stations.book")
}

#[test]
fn pack_and_unpack() {
    let folder = Folder::new("pack");
    let packed = folder.0.join("new/folder");
    assert_eq!(written(&["pack".as_ref(), &stations(), &packed], ""), "");
    let worked = Path::new(env!("CARGO_MANIFEST_DIR")).join("../../crates/ask/data");
    for file in ["book.cmd", "book.txt"] {
        assert_eq!(fs::read(packed.join(file)).unwrap(), fs::read(worked.join(file)).unwrap());
    }
    let form = fs::read_to_string(stations()).unwrap();
    let without_comment = form.split_once('\n').unwrap().1;
    assert_eq!(written(&["unpack".as_ref(), &packed], ""), without_comment);
}

#[test]
fn ask_by_words_and_by_lines() {
    let answers = "owner 1 1\ncandidates 1\n/t/filt/band\nrefused 8 65535\n";
    let lines = ["O /t/st/src/a.ts", "C /t/st\t@f/band", "B /t/bay"];
    let stations = stations();
    let mut words: Vec<&Path> = vec!["ask".as_ref(), &stations];
    assert_eq!(written(&words, &lines.join("\n")), answers);
    assert_eq!(written(&words, &(lines.join("\n") + "\n")), answers);
    assert_eq!(written(&words, ""), "");
    words.extend(lines.map(Path::new));
    assert_eq!(written(&words, ""), answers);
}

#[test]
fn errors_are_sentences() {
    let folder = Folder::new("errors");
    let bad = folder.file("bad.book", "record /p/tsconfig.json\ninclude a**\n");
    let told = error(&["pack".as_ref(), &bad, &folder.0]);
    let sentence = "line 2: `include` `a**` of record 0 has two adjacent stars that are not a whole component.";
    assert_eq!(told, format!("{}, {sentence}\n", bad.display()));

    let missing = folder.0.join("missing");
    let cannot_be_read = |file: &Path| format!("The file {} cannot be read: No such file or directory (os error 2).\n", file.display());
    assert_eq!(error(&["ask".as_ref(), &missing]), cannot_be_read(&missing));
    assert_eq!(error(&["unpack".as_ref(), &missing]), cannot_be_read(&missing.join("book.cmd")));
    let below_a_file = bad.join("folder");
    assert!(
        error(&["pack".as_ref(), &stations(), &below_a_file])
            .starts_with(&format!("The folder {} cannot be made: ", below_a_file.display()))
    );
    assert!(error(&["ask".as_ref(), &stations(), "X /p".as_ref()]).starts_with("`X /p` is no question.\n"));
    assert!(error(&["pack".as_ref(), &stations()]).starts_with("These words are not known.\nbook pack FILE DIR "));
    assert!(error(&[]).starts_with("These words are not known.\n"));
}
