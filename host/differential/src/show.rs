//! A mismatch as it is printed.

use generator::Bytes;
use tsconfig_questions::{Book, form};

use crate::hold::Mismatch;
use crate::outcome::Outcome;
use crate::shrink::Found;

fn outcome(outcome: &Result<Outcome, String>) -> String {
    match outcome {
        Ok(outcome) => outcome.to_string(),
        Err(sentence) => sentence.clone(),
    }
}

/// The book in its text form, the question's line, how much output was lent, and both answers: the five numbers and the bytes written.
pub fn mismatch(found: &Found, mismatch: &Mismatch) -> String {
    let Bytes { commands, text } = &found.book;
    format!(
        "{}question: {}\noutput:   {:?}\njudge:    {}\nlibrary:  {}\n",
        form::print(Book { commands, text }),
        found.question.line().escape_ascii(),
        found.room,
        outcome(&mismatch.judge),
        outcome(&mismatch.library)
    )
}
