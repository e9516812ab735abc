//! One question asked both ways, with several sizes of output.

use generator::{Bytes, Question, Random};
use judge::answer::Book;

use crate::library::Asker;
use crate::outcome::{Outcome, judged};

/// How much output is lent, measured on the judge's answer.
#[derive(Clone, Copy, Debug)]
pub enum Room {
    /// This many bytes more than the answer has.
    More(usize),
    /// This many bytes fewer, where there are as many.
    Fewer(usize),
    /// None at all.
    Nothing,
}

impl Room {
    pub fn bytes(self, need: usize) -> usize {
        match self {
            Self::More(more) => need + more,
            Self::Fewer(fewer) => need.saturating_sub(fewer),
            Self::Nothing => 0,
        }
    }

    /// The sizes that a question is asked with: always one that is large enough, often the exact one and one byte less.
    pub fn pick(random: &mut Random, question: &Question) -> Vec<Self> {
        let mut rooms = vec![Self::More(random.below(100))];
        if matches!(question, Question::Owner { .. }) {
            return rooms;
        }
        if random.chance(25) {
            rooms.extend([Self::More(0), Self::Fewer(1)]);
        }
        if random.chance(5) {
            rooms.extend([Self::Nothing, Self::Fewer(2 + random.below(20))]);
        }
        rooms
    }
}

/// Two outcomes that ought to be the same; a sentence stands for one that could not be had.
pub struct Mismatch {
    pub judge: Result<Outcome, String>,
    pub library: Result<Outcome, String>,
}

impl Mismatch {
    /// What stays while a mismatch is made small: the refusals' numbers.
    pub fn kind(&self) -> [Option<u64>; 2] {
        [&self.judge, &self.library].map(|outcome| outcome.as_ref().ok().map(|outcome| outcome.numbers[0]))
    }
}

/// The outcome that both give for this question with this much output.
pub fn hold(
    asker: &mut Asker,
    judge: &Result<Outcome, String>,
    book: &Bytes,
    question: &Question,
    room: Room,
) -> Result<Outcome, Box<Mismatch>> {
    let need = judge.as_ref().map_or(4096, |outcome| outcome.output.len());
    let bytes = room.bytes(need);
    let judge = judge.as_ref().map(|outcome| outcome.within(bytes)).map_err(String::clone);
    let library = asker.ask(book, question, bytes);
    match (&judge, &library) {
        (Ok(judge), Ok(library)) if judge == library => Ok(judge.clone()),
        _ => Err(Box::new(Mismatch { judge, library })),
    }
}

/// The mismatch of one question about a book, if there is one.
pub fn differs(asker: &mut Asker, book: &Bytes, question: &Question, room: Room) -> Option<Mismatch> {
    let judge = judged(&Book::new(&book.commands, &book.text), question);
    hold(asker, &judge, book, question, room).err().map(|mismatch| *mismatch)
}
