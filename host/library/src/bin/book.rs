//! Books between their text form and their two files, and questions about them.

#![deny(unsafe_code)]

use std::ffi::OsString;
use std::io::{self, Read, Write};
use std::os::unix::ffi::OsStrExt;
use std::path::Path;
use std::process::ExitCode;
use std::{env, fs};

use tsconfig_questions::{Book, BookBuf, answer_line, form};

const USAGE: &str = "\
book pack FILE DIR       writes a book in text form as DIR/book.cmd and DIR/book.txt
book unpack DIR          writes DIR/book.cmd and DIR/book.txt in text form to standard output
book ask FILE [LINE..]   answers question lines (of standard input where none is given) about a book in text form:
                         `B path`, `O path`, `C path TAB specifier`, `T path TAB directory TAB specifier`
";

fn main() -> ExitCode {
    let words: Vec<OsString> = env::args_os().skip(1).collect();
    let done = match words.as_slice() {
        [word, file, folder] if word == "pack" => pack(file.as_ref(), folder.as_ref()),
        [word, folder] if word == "unpack" => unpack(folder.as_ref()),
        [word, file, lines @ ..] if word == "ask" => ask(file.as_ref(), lines),
        _ => Err(format!("These words are not known.\n{USAGE}")),
    };
    match done {
        Ok(()) => ExitCode::SUCCESS,
        Err(sentence) => {
            // Nothing is left to tell where this fails too.
            let _ = writeln!(io::stderr(), "{}", sentence.trim_end());
            ExitCode::FAILURE
        }
    }
}

fn pack(file: &Path, folder: &Path) -> Result<(), String> {
    let book = read_form(file)?;
    fs::create_dir_all(folder).map_err(|error| format!("The folder {} cannot be made: {error}.", folder.display()))?;
    write_file(&folder.join("book.cmd"), &book.commands)?;
    write_file(&folder.join("book.txt"), &book.text)
}

fn unpack(folder: &Path) -> Result<(), String> {
    let commands = read_file(&folder.join("book.cmd"))?;
    let text = read_file(&folder.join("book.txt"))?;
    say(form::print(Book { commands: &commands, text: &text }).as_bytes())
}

fn ask(file: &Path, lines: &[OsString]) -> Result<(), String> {
    let book = read_form(file)?;
    if !lines.is_empty() {
        return lines.iter().try_for_each(|line| answer(&book, line.as_bytes()));
    }
    let mut input = vec![];
    io::stdin().read_to_end(&mut input).map_err(|error| format!("Standard input cannot be read: {error}."))?;
    let input = input.strip_suffix(b"\n").unwrap_or(&input);
    let mut lines = input.split(|byte| *byte == b'\n').filter(|_| !input.is_empty());
    lines.try_for_each(|line| answer(&book, line))
}

fn answer(book: &BookBuf, line: &[u8]) -> Result<(), String> {
    match answer_line(book.book(), line) {
        Some(Ok(lines)) => say(&lines),
        Some(Err(error)) => Err(format!("The question `{}` has no answer: {error}.", line.escape_ascii())),
        None => Err(format!("`{}` is no question.\n{USAGE}", line.escape_ascii())),
    }
}

fn read_form(file: &Path) -> Result<BookBuf, String> {
    form::parse(read_file(file)?).map_err(|error| format!("{}, {error}.", file.display()))
}

fn read_file(file: &Path) -> Result<Vec<u8>, String> {
    fs::read(file).map_err(|error| format!("The file {} cannot be read: {error}.", file.display()))
}

fn write_file(file: &Path, bytes: &[u8]) -> Result<(), String> {
    fs::write(file, bytes).map_err(|error| format!("The file {} cannot be written: {error}.", file.display()))
}

fn say(bytes: &[u8]) -> Result<(), String> {
    io::stdout().write_all(bytes).map_err(|error| format!("Standard output cannot be written: {error}."))
}
