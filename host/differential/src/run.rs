//! Many cases held against the judge.

use generator::{Case, Question, Random};
use judge::answer::Book;

use crate::hold::{Mismatch, Room, hold};
use crate::library::{self, Asker};
use crate::outcome::{Outcome, judged};
use crate::show;
use crate::shrink::{Found, shrink};
use crate::tally::Tally;

/// Mismatches that are made small and printed; the others are counted.
const SHOWN: u64 = 5;

/// From this many cases on, every answer and every refusal must have come up.
const ENOUGH: u64 = 5000;

pub struct Run {
    pub seed: u64,
    pub first: u64,
    pub cases: u64,
    pub letters: String,
    pub asker: Asker,
    tally: Tally,
    questions: u64,
    mismatches: u64,
}

impl Run {
    pub fn new(seed: u64, first: u64, cases: u64, letters: String, asker: Asker) -> Self {
        Self { seed, first, cases, letters, asker, tally: Tally::default(), questions: 0, mismatches: 0 }
    }

    fn met(&mut self, number: u64, found: Found, mismatch: Mismatch) {
        self.mismatches += 1;
        if self.mismatches > SHOWN {
            return;
        }
        println!("mismatch in case {number} of seed {}:\n{}", self.seed, show::mismatch(&found, &mismatch));
        let (small, mismatch) = shrink(&mut self.asker, found, mismatch);
        println!("made small:\n{}", show::mismatch(&small, &mismatch));
    }

    fn question(&mut self, number: u64, case: &Case, judge: &Book, question: &Question, rooms: &[Room]) {
        let answer = judged(judge, question);
        if let Ok(answer) = &answer {
            self.safe(number, case, question, answer);
        }
        for room in rooms {
            self.questions += 1;
            match hold(&mut self.asker, &answer, &case.book, question, *room) {
                Ok(outcome) => self.tally.count(question, &outcome),
                Err(mismatch) => {
                    let found = Found { book: case.book.clone(), question: question.clone(), room: *room };
                    self.met(number, found, *mismatch);
                }
            }
        }
    }

    fn fault(&mut self, number: u64, sentence: &str) {
        self.mismatches += 1;
        println!("Case {number} of seed {}: {sentence}", self.seed);
    }

    /// The safe functions answer as the judge does, in lines.
    fn safe(&mut self, number: u64, case: &Case, question: &Question, answer: &Outcome) {
        let lines = Ok(answer.lines(question.letter()));
        if let Some(printed) = library::printed(&case.book, question)
            && printed != lines
        {
            self.fault(number, &format!("{}: the safe function answers {printed:?}, the judge {lines:?}.", question.line().escape_ascii()));
        }
    }

    /// The text form of the book gives its records back; that of a refused one gives its bytes back.
    fn form(&mut self, number: u64, case: &Case, judge: &Book) {
        let fault = match (library::reread(&case.book), judge.records()) {
            (Ok(again), Ok(records)) if Book::new(&again.commands, &again.text).records() == Ok(records) => return,
            (Ok(again), Err(_)) if again == case.book => return,
            (Ok(_), _) => "another book is read back from its text form.".to_string(),
            (Err(error), _) => format!("its text form is not read: {error}."),
        };
        self.fault(number, &fault);
    }

    fn case(&mut self, number: u64) {
        let case = generator::case(self.seed, number);
        let kept = case.book.clone();
        let judge = Book::new(&case.book.commands, &case.book.text);
        self.form(number, &case, &judge);
        let mut random = Random::new(!self.seed, number);
        for question in &case.questions {
            if self.letters.contains(question.letter() as char) {
                let rooms = Room::pick(&mut random, question);
                self.question(number, &case, &judge, question, &rooms);
            }
        }
        if kept != case.book {
            self.fault(number, "the library altered the book.");
        }
    }

    /// Runs all cases and prints what came up; true where nothing is at fault.
    pub fn run(mut self) -> bool {
        for number in self.first..self.first + self.cases {
            self.case(number);
        }
        println!("{}", self.tally);
        let missing = self.tally.missing(&self.letters);
        if !missing.is_empty() {
            println!("never came up: {}", missing.join(", "));
        }
        println!("seed {}: {} cases, {} questions, {} mismatches", self.seed, self.cases, self.questions, self.mismatches);
        self.mismatches == 0 && (missing.is_empty() || self.cases < ENOUGH)
    }
}
