//! The crate and the library on the same books: see README.md.

mod asked;
mod clock;
mod files;
mod floor;
mod measure;

use std::path::Path;
use std::process::{Command, ExitCode};

use asked::{Book, Line, fresh_answers, library_answers};
use measure::{Measured, measure, measure_whole};

const BOOKS: [&str; 11] = ["typical", "led", "layered", "workspace", "limits", "led-limits", "laden", "wide", "ladder", "rungs", "hostile"];
const GROWTH: [usize; 7] = [1, 2, 4, 8, 16, 32, 64];
const USAGE: &str = "bench FOLDER ROUNDS";

/// Callgrind's count of instructions for one call of a function, which another run of this program makes.
fn instructions(function: &str, folder: &Path, book: &str, line: &Line) -> Result<String, String> {
    let this = std::env::current_exe().map_err(|error| error.to_string())?;
    let run = Command::new("valgrind")
        .args(["--tool=callgrind", &format!("--toggle-collect={function}"), "--callgrind-out-file=/dev/null"])
        .arg(this)
        .args(["--once", function])
        .arg(folder)
        .args([book, &line.text()])
        .output()
        .map_err(|error| format!("valgrind cannot be run: {error}."))?;
    let told = String::from_utf8_lossy(&run.stderr).into_owned();
    let count = told.lines().find_map(|line| line.split_once("Collected : "));
    let count = count.ok_or_else(|| format!("callgrind counted nothing: {told}"))?;
    Ok(with_commas(count.1.trim()))
}

fn with_commas(digits: &str) -> String {
    let mut out = String::new();
    for (at, digit) in digits.chars().enumerate() {
        if at > 0 && (digits.len() - at).is_multiple_of(3) {
            out.push(',');
        }
        out.push(digit);
    }
    out
}

fn micro(nanoseconds: f64) -> String {
    if nanoseconds < 1000.0 { format!("{:.2}", nanoseconds / 1000.0) } else { format!("{:.1}", nanoseconds / 1000.0) }
}

fn cells(measured: &Measured) -> String {
    let Measured { library, fresh, warm } = measured;
    let ratio = fresh.over(library);
    format!(
        "{} / {} | {} / {} | {:.1}, {:.1} ({:.1} to {:.1}) | {} / {}",
        micro(library.least()),
        micro(library.median()),
        micro(fresh.least()),
        micro(fresh.median()),
        fresh.least() / library.least(),
        ratio.median(),
        ratio.least(),
        ratio.most(),
        micro(warm.least()),
        micro(warm.median())
    )
}

fn whole(folder: &Path, rounds: usize) -> Result<(), String> {
    println!(
        "\n| book | configs | library's check, us | crate, every config loaded, us | ratio | a bare pass, us |\n|---|---|---|---|---|---|"
    );
    for name in BOOKS {
        let (book, _) = Book::open(folder, name)?;
        let [check, load, bare] = measure_whole(&book, rounds);
        println!(
            "| {name} | {} | {} / {} | {} / {} | {:.1}, {:.1} | {} / {} |",
            book.configs.len(),
            micro(check.least()),
            micro(check.median()),
            micro(load.least()),
            micro(load.median()),
            load.least() / check.least(),
            load.over(&check).median(),
            micro(bare.least()),
            micro(bare.median())
        );
    }
    Ok(())
}

/// One row of a table: what is asked, instructions, and times.
fn row(folder: &Path, name: &str, book: &Book, line: &Line, rounds: usize) -> Result<String, String> {
    let [library, fresh] = ["library_answers", "fresh_answers"].map(|function| instructions(function, folder, name, line));
    Ok(format!("{}, {} | {}", library?, fresh?, cells(&measure(book, line, rounds))))
}

const HEAD: &str = "question | instructions: library, fresh | library, us | fresh, us | fresh / library | warm, us |";

fn books(folder: &Path, rounds: usize) -> Result<(), String> {
    println!("| book | {HEAD}\n|---|---|---|---|---|---|---|");
    for name in BOOKS {
        let (book, lines) = Book::open(folder, name)?;
        for line in &lines {
            println!("| {name} | `{}` | {} |", line.short(), row(folder, name, &book, line, rounds)?);
        }
    }
    Ok(())
}

fn growth(folder: &Path, rounds: usize) -> Result<(), String> {
    println!("\n| records | {HEAD}\n|---|---|---|---|---|---|---|");
    for count in GROWTH {
        let name = format!("records-{count}");
        let (book, lines) = Book::open(folder, &name)?;
        for letter in ['B', 'O', 'C', 'T'] {
            let line = lines.iter().find(|line| line.letter == letter).expect("each kind is asked");
            println!("| {count} | {letter} | {} |", row(folder, &name, &book, line, rounds)?);
        }
    }
    Ok(())
}

/// One call of a function, for callgrind.
fn once(function: &str, folder: &str, name: &str, line: &str) -> Result<(), String> {
    let (book, _) = Book::open(Path::new(folder), name)?;
    let line = Line::parse(line)?;
    match function {
        "library_answers" => drop(library_answers(&book, &line, &mut Box::new([0; 1 << 18]))),
        _ => drop(fresh_answers(&book, &line)),
    }
    Ok(())
}

fn run(words: &[&str]) -> Result<(), String> {
    match words {
        ["--once", function, folder, name, line] => once(function, folder, name, line),
        [folder, rounds] => {
            let rounds = rounds.parse().map_err(|_| USAGE.to_string())?;
            books(Path::new(folder), rounds)?;
            whole(Path::new(folder), rounds)?;
            growth(Path::new(folder), rounds)
        }
        _ => Err(USAGE.to_string()),
    }
}

fn main() -> ExitCode {
    let words: Vec<String> = std::env::args().skip(1).collect();
    let words: Vec<&str> = words.iter().map(String::as_str).collect();
    match run(&words) {
        Ok(()) => ExitCode::SUCCESS,
        Err(sentence) => {
            eprintln!("{sentence}");
            ExitCode::FAILURE
        }
    }
}
