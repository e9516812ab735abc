//! Books, questions and the judge's answers in one file, to be replayed where no Rust is at hand. README.md has the format.

use generator::{Bytes, Case, Question, Random};
use judge::answer::Book;

use crate::hold::Room;
use crate::outcome::{Outcome, judged};
use crate::tally::Tally;

/// Larger books are taken only for an answer that has not come up yet.
const USUAL: usize = 3000;
const LONGEST_OUTPUT: usize = 4000;

/// How many cases more are looked through for answers that have not come up.
const SEARCH: u64 = 100_000;

pub struct Sample {
    pub bytes: Vec<u8>,
    pub books: u64,
    pub questions: u64,
    pub tally: Tally,
    letters: String,
}

struct Answered<'a> {
    question: &'a Question,
    room: usize,
    outcome: Outcome,
}

fn answered<'a>(case: &'a Case, random: &mut Random, letters: &str) -> Result<Vec<Answered<'a>>, String> {
    let judge = Book::new(&case.book.commands, &case.book.text);
    let mut answers = vec![];
    for question in case.questions.iter().filter(|question| letters.contains(question.letter() as char)) {
        let outcome = judged(&judge, question)?;
        let room = Room::pick(random, question).last().unwrap().bytes(outcome.output.len());
        answers.push(Answered { question, room, outcome: outcome.within(room) });
    }
    answers.retain(|answer| answer.outcome.output.len() <= LONGEST_OUTPUT && answer.room <= LONGEST_OUTPUT);
    Ok(answers)
}

fn put_string(to: &mut Vec<u8>, bytes: &[u8]) {
    to.extend((bytes.len() as u16).to_le_bytes());
    to.extend(bytes);
}

/// A question with its answer, without the letter.
fn body(answer: &Answered) -> Vec<u8> {
    let Answered { question, room, outcome } = answer;
    let mut body = vec![];
    question.fields().iter().for_each(|field| put_string(&mut body, field));
    body.extend((*room as u16).to_le_bytes());
    outcome.numbers.iter().for_each(|number| body.extend((*number as u32).to_le_bytes()));
    body.extend(&outcome.output);
    body
}

impl Sample {
    fn put(&mut self, book: &Bytes, answers: &[Answered]) {
        let mut entry = vec![];
        put_string(&mut entry, &book.commands);
        put_string(&mut entry, &book.text);
        for answer in answers {
            entry.push(answer.question.letter());
            put_string(&mut entry, &body(answer));
            self.tally.count(answer.question, &answer.outcome);
        }
        self.bytes.extend((entry.len() as u32).to_le_bytes());
        self.bytes.extend(entry);
        self.books += 1;
        self.questions += answers.len() as u64;
    }

    fn take(&mut self, seed: u64, number: u64, is_usual: bool) -> Result<(), String> {
        let case = generator::case(seed, number);
        let Bytes { commands, text } = &case.book;
        let is_small = commands.len() + text.len() <= USUAL;
        if commands.len() > 65_535 || text.len() > 65_535 || (is_usual && !is_small) {
            return Ok(());
        }
        let mut answers = answered(&case, &mut Random::new(!seed, number), &self.letters)?;
        if !is_usual {
            answers.retain(|answer| self.tally.is_new(answer.question, &answer.outcome));
            answers.truncate(4);
        }
        if !answers.is_empty() {
            self.put(&case.book, &answers);
        }
        Ok(())
    }

    /// This many books of a seed, and as many more as it takes for every answer and refusal to come up.
    pub fn make(seed: u64, books: u64, letters: &str) -> Result<Self, String> {
        let mut sample = Self { bytes: vec![], books: 0, questions: 0, tally: Tally::default(), letters: letters.to_string() };
        let mut number = 0;
        while sample.books < books {
            sample.take(seed, number, true)?;
            number += 1;
        }
        let end = number + SEARCH;
        while !sample.tally.missing(letters).is_empty() && number < end {
            sample.take(seed, number, false)?;
            number += 1;
        }
        match sample.tally.missing(letters) {
            missing if missing.is_empty() => Ok(sample),
            missing => Err(format!("Never came up: {}.", missing.join(", "))),
        }
    }
}

#[cfg(test)]
mod tests {
    use super::*;

    /// Reads a sample back, as a program that replays it would.
    struct Reader<'a>(&'a [u8]);

    impl<'a> Reader<'a> {
        fn number(&mut self, width: usize) -> usize {
            let bytes = self.bytes(width);
            bytes.iter().rev().fold(0, |number, byte| number * 256 + usize::from(*byte))
        }

        fn bytes(&mut self, length: usize) -> &'a [u8] {
            let (bytes, rest) = self.0.split_at(length);
            self.0 = rest;
            bytes
        }

        fn string(&mut self) -> Vec<u8> {
            let length = self.number(2);
            self.bytes(length).to_vec()
        }
    }

    fn question(letter: u8, reader: &mut Reader) -> Question {
        match letter {
            b'B' => Question::Build { path: reader.string() },
            b'O' => Question::Owner { path: reader.string() },
            b'C' => Question::Candidates { path: reader.string(), specifier: reader.string() },
            _ => Question::Tries { path: reader.string(), directory: reader.string(), specifier: reader.string() },
        }
    }

    #[test]
    fn what_is_read_back_is_what_the_judge_answers() {
        let sample = Sample::make(5, 30, "BOCT").unwrap();
        let mut reader = Reader(&sample.bytes);
        let mut asked = 0;
        while !reader.0.is_empty() {
            let length = reader.number(4);
            let mut entry = Reader(reader.bytes(length));
            let (commands, text) = (entry.string(), entry.string());
            let judge = Book::new(&commands, &text);
            while !entry.0.is_empty() {
                let letter = entry.number(1) as u8;
                let body = entry.string();
                let mut body = Reader(&body);
                let question = question(letter, &mut body);
                let room = body.number(2);
                let numbers = [0; 5].map(|_: u8| body.number(4) as u64);
                let outcome = Outcome { numbers, output: body.0.to_vec() };
                assert!(judged(&judge, &question).unwrap().within(room) == outcome);
                asked += 1;
            }
        }
        assert_eq!(asked, sample.questions);
        assert!(asked > 200);
    }
}
