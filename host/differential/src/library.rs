//! The proved library asked, with an output that has a pattern in it and around it.

use generator::{Bytes, Question};
use tsconfig_questions::ffi::{self, Numbers};
use tsconfig_questions::{Book, answer_line, form};

use crate::outcome::Outcome;
use crate::wrong::Wrong;

/// Bytes before and behind the output that is lent.
const MARGIN: usize = 64;

/// Asks, and looks after what lies around the answer.
pub struct Asker {
    buffer: Vec<u8>,
    wrong: Option<Wrong>,
}

/// A byte that depends on its place.
fn pattern(at: usize) -> u8 {
    (at * 31 + at / 256 + 7) as u8
}

fn ask(book: &Bytes, question: &Question, out: &mut [u8]) -> Numbers {
    let Bytes { commands, text } = book;
    match question {
        Question::Build { path } => ffi::build(commands, text, path, out),
        Question::Owner { path } => ffi::owner(commands, text, path),
        Question::Candidates { path, specifier } => ffi::candidates(commands, text, path, specifier, out),
        Question::Tries { path, directory, specifier } => ffi::tries(commands, text, path, directory, specifier, out),
    }
}

impl Asker {
    pub fn new(wrong: Option<Wrong>) -> Self {
        Self { buffer: vec![], wrong }
    }

    /// The outcome with `room` bytes of output, or a sentence on bytes that were not left as they were.
    pub fn ask(&mut self, book: &Bytes, question: &Question, room: usize) -> Result<Outcome, String> {
        let end = MARGIN + room;
        self.buffer.clear();
        self.buffer.extend((0..end + MARGIN).map(pattern));
        let numbers = match self.wrong {
            None => ask(book, question, &mut self.buffer[MARGIN..end]),
            Some(wrong) => wrong.ask(book, question, &mut self.buffer[MARGIN..], room, ask),
        };
        let Numbers { number, place, first, second, bytes } = numbers;
        let written = usize::try_from(bytes).unwrap_or(usize::MAX);
        if written > room {
            return Err(format!("The library says that it wrote {bytes} bytes to an output of {room}."));
        }
        let answer = MARGIN..MARGIN + written;
        let touched = (0..self.buffer.len()).find(|at| !answer.contains(at) && self.buffer[*at] != pattern(*at));
        if let Some(at) = touched {
            return Err(format!(
                "The library changed byte {} of an output of {room}, and its answer has {written}.",
                at as isize - MARGIN as isize
            ));
        }
        Ok(Outcome { numbers: [number, place, first, second, bytes], output: self.buffer[answer].to_vec() })
    }
}

/// What the library's safe functions print for a question, where its line can be read back.
pub fn printed(book: &Bytes, question: &Question) -> Option<Result<Vec<u8>, String>> {
    if question.fields().iter().any(|field| field.contains(&b'\t')) {
        return None;
    }
    let Bytes { commands, text } = book;
    let answer = answer_line(Book { commands, text }, &question.line())?;
    Some(answer.map_err(|error| format!("The safe function ends in an error: {error}.")))
}

/// The book that is read back from its text form.
pub fn reread(book: &Bytes) -> Result<Bytes, String> {
    let Bytes { commands, text } = book;
    let buf = form::parse(form::print(Book { commands, text })).map_err(|error| error.to_string())?;
    let again = buf.book();
    Ok(Bytes { commands: again.commands.to_vec(), text: again.text.to_vec() })
}
