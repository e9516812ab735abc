//! The judge: answers the questions of document 01 about a book by running the crate.
//!
//!     judge                     book.cmd and book.txt here, questions on standard input
//!     judge --many FOLDER..     for each folder: its book, its `questions`, into `answers` beside them
//!     judge --many -            the same, folders named line by line on standard input
//!     judge --stores FOLDER..   where one resolver for the whole walk answers another owner
//!     judge --json              the JSON texts that are made from the book here
//!
//! Ends with 0; with 2 where the judge contradicted itself; with 1 where a file could not be read.

use std::{
    env, fs,
    io::{self, BufRead, Read, Write},
    panic::{self, AssertUnwindSafe},
    path::Path,
    process::ExitCode,
};

use judge::{answer::Book, book, files};

fn open(folder: &Path) -> io::Result<Book> {
    let read = |name: &str| {
        fs::read(folder.join(name))
            .map_err(|error| io::Error::other(format!("{}/{name}: {error}", folder.display())))
    };
    Ok(Book::new(&read("book.cmd")?, &read("book.txt")?))
}

/// The lines of a text; what follows the last line end is a line only if it is not empty.
fn lines(text: &[u8]) -> impl Iterator<Item = &[u8]> {
    text.strip_suffix(b"\n")
        .unwrap_or(text)
        .split(|byte| *byte == b'\n')
        .filter(move |_| !text.is_empty())
}

/// One answer; a panic inside the crate is an answer too, and not one to stand by.
fn answered(book: &Book, line: &[u8]) -> (String, bool) {
    panic::catch_unwind(AssertUnwindSafe(|| book.answer(line)))
        .unwrap_or_else(|_| ("judge panicked\n".to_string(), false))
}

struct Count {
    books: usize,
    questions: usize,
    wrong: usize,
}

fn many(folder: &Path, count: &mut Count) -> io::Result<()> {
    let book = open(folder)?;
    let questions = fs::read(folder.join("questions"))?;
    let mut out = String::new();
    for line in lines(&questions) {
        let (text, sound) = answered(&book, line);
        out.push_str(&text);
        count.questions += 1;
        if !sound {
            count.wrong += 1;
            eprint!(
                "{}: {}: {text}",
                folder.display(),
                String::from_utf8_lossy(line)
            );
        }
    }
    count.books += 1;
    fs::write(folder.join("answers"), out)
}

fn stores(folder: &Path, count: &mut Count) -> io::Result<()> {
    let book = open(folder)?;
    let questions = fs::read(folder.join("questions"))?;
    for line in lines(&questions) {
        let Some(one) = book.answer_by_one(line) else {
            continue;
        };
        count.questions += 1;
        let (fresh, _) = answered(&book, line);
        let same = fresh == one || (fresh.starts_with("refused") && one.starts_with("error"));
        if !same {
            let line = String::from_utf8_lossy(line);
            print!(
                "{}: {line}: fresh {}, one {one}",
                folder.display(),
                fresh.trim_end()
            );
        }
    }
    count.books += 1;
    Ok(())
}

fn run() -> io::Result<bool> {
    let arguments: Vec<String> = env::args().skip(1).collect();
    let mut count = Count {
        books: 0,
        questions: 0,
        wrong: 0,
    };
    match arguments.first().map(String::as_str) {
        None => {
            let book = open(Path::new("."))?;
            let mut questions = vec![];
            io::stdin().read_to_end(&mut questions)?;
            let mut out = io::stdout().lock();
            for line in lines(&questions) {
                let (text, sound) = answered(&book, line);
                out.write_all(text.as_bytes())?;
                count.wrong += usize::from(!sound);
            }
            out.flush()?;
        }
        Some("--json") => {
            let commands = fs::read("book.cmd")?;
            let text = fs::read("book.txt")?;
            match book::read(&commands, &text) {
                Err(refusal) => println!("refused {} {}", refusal.number, refusal.place),
                Ok(records) => {
                    for record in &records {
                        println!("{} {}", record.path, files::json(record));
                    }
                }
            }
        }
        Some(mode @ ("--many" | "--stores")) => {
            let named: Vec<String> = if arguments[1..] == ["-"] {
                io::stdin().lock().lines().collect::<io::Result<_>>()?
            } else {
                arguments[1..].to_vec()
            };
            for folder in &named {
                let folder = Path::new(folder);
                if mode == "--many" {
                    many(folder, &mut count)?
                } else {
                    stores(folder, &mut count)?
                }
            }
            eprintln!(
                "{} books, {} questions, {} contradictions",
                count.books, count.questions, count.wrong
            );
        }
        Some(other) => return Err(io::Error::other(format!("unknown argument {other}"))),
    }
    Ok(count.wrong == 0)
}

fn main() -> ExitCode {
    match run() {
        Ok(true) => ExitCode::SUCCESS,
        Ok(false) => ExitCode::from(2),
        Err(error) => {
            eprintln!("judge: {error}");
            ExitCode::from(1)
        }
    }
}
