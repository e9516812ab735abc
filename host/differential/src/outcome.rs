//! What a question ends in, in the same form for the library and for the judge.

use std::fmt;
use std::panic::{AssertUnwindSafe, catch_unwind};

use generator::Question;
use judge::answer::{self, Book, Reply, Stop};

/// What owner answers twice where there is none.
const NOBODY: u64 = 65_535;

/// The five numbers, in the order number, place, first, second, bytes; and the bytes written.
#[derive(Clone, PartialEq, Eq)]
pub struct Outcome {
    pub numbers: [u64; 5],
    pub output: Vec<u8>,
}

impl Outcome {
    pub fn refused(number: u64, place: u64) -> Self {
        Self { numbers: [number, place, 0, 0, 0], output: vec![] }
    }

    fn answered(first: usize, second: usize, output: Vec<u8>) -> Self {
        Self { numbers: [0, 0, first as u64, second as u64, output.len() as u64], output }
    }

    /// What it is where the output lent has this many bytes.
    pub fn within(&self, room: usize) -> Self {
        if self.output.len() > room { Self::refused(13, self.output.len() as u64) } else { self.clone() }
    }

    /// The lines that a program prints for it.
    pub fn lines(&self, letter: u8) -> Vec<u8> {
        let [number, place, first, second, _] = self.numbers;
        let mut lines = match (number, letter) {
            (0, b'B') => format!("built {first} {second}\n"),
            (0, b'O') if first == NOBODY => "owner none\n".to_string(),
            (0, b'O') => format!("owner {first} {second}\n"),
            (0, b'C') => format!("candidates {first}\n"),
            (0, _) => format!("tries {first}\n"),
            _ => format!("refused {number} {place}\n"),
        }
        .into_bytes();
        if letter == b'B' {
            lines.extend(&self.output);
            return lines;
        }
        let mut rest = &self.output[..];
        while let Some((length, after)) = rest.split_first_chunk::<2>() {
            let (path, after) = after.split_at(usize::from(u16::from_le_bytes(*length)));
            lines.extend(path);
            lines.push(b'\n');
            rest = after;
        }
        lines
    }

    fn of(reply: &Reply) -> Self {
        let paths = |paths: &[std::path::PathBuf]| {
            let mut output = vec![];
            for path in paths {
                let bytes = path.as_os_str().as_encoded_bytes();
                output.extend((bytes.len() as u16).to_le_bytes());
                output.extend(bytes);
            }
            Self::answered(paths.len(), 0, output)
        };
        match reply {
            Reply::Built { record, merges, listing } => Self::answered(*record, *merges, listing.as_bytes().to_vec()),
            Reply::Owner(None) => Self { numbers: [0, 0, NOBODY, NOBODY, 0], output: vec![] },
            Reply::Owner(Some((found, solution))) => Self::answered(*found, *solution, vec![]),
            Reply::Candidates(found) | Reply::Tries(found) => paths(found),
        }
    }
}

impl fmt::Display for Outcome {
    fn fmt(&self, f: &mut fmt::Formatter<'_>) -> fmt::Result {
        write!(f, "{:?} \"{}\"", self.numbers, self.output.escape_ascii())
    }
}

fn asked(question: &Question) -> answer::Question<'_> {
    match question {
        Question::Build { path } => answer::Question::Build(path),
        Question::Owner { path } => answer::Question::Owner(path),
        Question::Candidates { path, specifier } => answer::Question::Candidates(path, specifier),
        Question::Tries { path, directory, specifier } => answer::Question::Tries(path, directory, specifier),
    }
}

/// The judge's outcome with as much room as it needs, or a sentence on why it does not stand by one.
pub fn judged(book: &Book, question: &Question) -> Result<Outcome, String> {
    match catch_unwind(AssertUnwindSafe(|| book.ask(asked(question)))) {
        Ok(Ok(reply)) => Ok(Outcome::of(&reply)),
        Ok(Err(Stop::Refused(refusal))) => Ok(Outcome::refused(refusal.number.into(), refusal.place as u64)),
        Ok(Err(Stop::Disagrees(what))) => Err(format!("The judge contradicts itself: {what}.")),
        Err(_) => Err("The crate panicked.".to_string()),
    }
}
