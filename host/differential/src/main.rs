//! The library's answers held against the crate's: see README.md.

mod hold;
mod library;
mod outcome;
mod run;
mod sample;
mod show;
mod shrink;
mod tally;
mod wrong;

use std::process::ExitCode;

use library::Asker;
use run::Run;
use sample::Sample;
use wrong::Wrong;

const USAGE: &str = "differential SEED CASES [--first NUMBER] [--only LETTERS] [--wrong NAME]
differential sample SEED BOOKS FILE [--only LETTERS]";

struct Arguments {
    plain: Vec<String>,
    first: u64,
    letters: String,
    wrong: Option<Wrong>,
}

fn number(text: &str) -> Result<u64, String> {
    text.parse().map_err(|_| format!("\"{text}\" is not a number."))
}

fn arguments() -> Result<Arguments, String> {
    let mut given = Arguments { plain: vec![], first: 0, letters: "BOCT".to_string(), wrong: None };
    let mut words = std::env::args().skip(1);
    while let Some(word) = words.next() {
        match word.as_str() {
            "--first" => given.first = number(&words.next().unwrap_or_default())?,
            "--only" => given.letters = words.next().unwrap_or_default(),
            "--wrong" => {
                let wrong = Wrong::named(&words.next().unwrap_or_default());
                let names: Vec<&str> = Wrong::names().collect();
                given.wrong = Some(wrong.ok_or_else(|| format!("The wrong libraries are {}.", names.join(", ")))?);
            }
            _ => given.plain.push(word),
        }
    }
    Ok(given)
}

fn write_sample(seed: u64, books: u64, file: &str, letters: &str) -> Result<(), String> {
    let sample = Sample::make(seed, books, letters)?;
    std::fs::write(file, &sample.bytes).map_err(|error| format!("{file} cannot be written: {error}."))?;
    println!("{}\n{} books, {} questions, {} bytes", sample.tally, sample.books, sample.questions, sample.bytes.len());
    Ok(())
}

/// True where nothing is at fault.
fn run() -> Result<bool, String> {
    let given = arguments()?;
    let plain: Vec<&str> = given.plain.iter().map(String::as_str).collect();
    match plain[..] {
        ["sample", seed, books, file] => write_sample(number(seed)?, number(books)?, file, &given.letters).map(|()| true),
        [seed, cases] => {
            let asker = Asker::new(given.wrong);
            Ok(Run::new(number(seed)?, given.first, number(cases)?, given.letters, asker).run())
        }
        _ => Err(USAGE.to_string()),
    }
}

fn main() -> ExitCode {
    // A panic of the crate is told as a mismatch.
    std::panic::set_hook(Box::new(|_| {}));
    match run() {
        Ok(true) => ExitCode::SUCCESS,
        Ok(false) => ExitCode::FAILURE,
        Err(sentence) => {
            eprintln!("{sentence}");
            ExitCode::from(2)
        }
    }
}
