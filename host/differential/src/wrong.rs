//! Wrong libraries, made from the right one: the runner must find each of them out.

use generator::{Bytes, Command, Question, book};
use tsconfig_questions::ffi::Numbers;

#[derive(Clone, Copy, PartialEq, Eq)]
pub enum Wrong {
    /// Extends entries are merged first to last.
    FirstToLast,
    /// The last parent is merged and the rest are skipped.
    LastParentOnly,
    /// A key without targets is passed over in the mapping.
    KeysWithTargetsOnly,
    /// Extensions are tested before `files`.
    ExtensionsFirst,
    /// `files` is compared by text.
    FilesByText,
    /// The config that was found is taken for the solution.
    NoSolution,
    /// The last root dir is looked at and the rest are skipped.
    LastRootDirOnly,
    /// The place of 2 is one byte too far.
    LatePlace,
    /// One byte more is written than the answer has.
    WritesBehind,
    /// 13 is answered one byte too late, with nothing written.
    LateThirteen,
}

type Ask = fn(&Bytes, &Question, &mut [u8]) -> Numbers;

const ALL: [(&str, Wrong, &str); 10] = [
    ("first-to-last", Wrong::FirstToLast, "BOCT"),
    ("last-parent-only", Wrong::LastParentOnly, "BOCT"),
    ("keys-with-targets-only", Wrong::KeysWithTargetsOnly, "CT"),
    ("extensions-first", Wrong::ExtensionsFirst, "O"),
    ("files-by-text", Wrong::FilesByText, "O"),
    ("no-solution", Wrong::NoSolution, "O"),
    ("last-root-dir-only", Wrong::LastRootDirOnly, "T"),
    ("late-place", Wrong::LatePlace, "BOCT"),
    ("writes-behind", Wrong::WritesBehind, "BCT"),
    ("late-thirteen", Wrong::LateThirteen, "BCT"),
];

const EXTENSIONS: [&[u8]; 4] = [b".ts", b".tsx", b".mts", b".cts"];

fn is_normal(string: &[u8]) -> bool {
    let parts: [&[u8]; 3] = [b"//", b"/./", b"/../"];
    let ends: [&[u8]; 3] = [b"/", b"/.", b"/.."];
    !parts.iter().any(|part| string.windows(part.len()).any(|window| window == *part)) && !ends.iter().any(|end| string.ends_with(end))
}

/// The record with the last of its commands of a kind alone.
fn keep_last(record: &mut Vec<Command>, code: u8) {
    let last = record.iter().rposition(|command| command.code == code);
    let mut at = 0..;
    record.retain(|command| {
        let at = at.next();
        command.code != code || at == last
    });
}

impl Wrong {
    pub fn names() -> impl Iterator<Item = &'static str> {
        ALL.iter().map(|(name, ..)| *name)
    }

    pub fn named(name: &str) -> Option<Self> {
        ALL.iter().find(|(other, ..)| *other == name).map(|(_, wrong, _)| *wrong)
    }

    /// Is it wrong in questions of this kind?
    fn concerns(self, question: &Question) -> bool {
        let (.., letters) = ALL.iter().find(|(_, wrong, _)| *wrong == self).unwrap();
        letters.contains(question.letter() as char)
    }

    /// Asks wrongly. The output lent is the first `room` bytes of `out`.
    pub fn ask(self, book: &Bytes, question: &Question, out: &mut [u8], room: usize, ask: Ask) -> Numbers {
        match self {
            _ if !self.concerns(question) => ask(book, question, &mut out[..room]),
            Self::WritesBehind => {
                let numbers = ask(book, question, &mut out[..room]);
                out[numbers.bytes as usize] ^= u8::from(numbers.number == 0);
                numbers
            }
            Self::LatePlace => {
                let numbers = ask(book, question, &mut out[..room]);
                if numbers.number == 2 { Numbers { place: numbers.place + 1, ..numbers } } else { numbers }
            }
            Self::LateThirteen => {
                let numbers = ask(book, question, &mut out[..room]);
                if (numbers.number, numbers.place) == (13, room as u64 + 1) { Numbers { number: 0, place: 0, ..numbers } } else { numbers }
            }
            _ => {
                let anything = Question::Owner { path: vec![] };
                let is_refused = ask(book, &anything, &mut []).number != 7;
                let altered = Bytes::write(&self.altered(book.read().0), book::Layout::EndToEnd);
                ask(if is_refused { book } else { &altered }, question, &mut out[..room])
            }
        }
    }

    /// The commands of a book for which the right library answers as the wrong one would for the book itself.
    fn altered(self, commands: Vec<Command>) -> Vec<Command> {
        let mut records: Vec<Vec<Command>> = vec![];
        for command in commands {
            if command.code == book::BEGIN || records.is_empty() {
                records.push(vec![]);
            }
            records.last_mut().unwrap().push(command);
        }
        records.into_iter().flat_map(|record| self.altered_record(record)).collect()
    }

    fn altered_record(self, mut record: Vec<Command>) -> Vec<Command> {
        let entries: Vec<usize> = (0..record.len()).filter(|at| record[*at].code == book::EXTENDS).collect();
        match self {
            Self::FirstToLast => {
                for (one, other) in entries.iter().zip(entries.iter().rev()).take(entries.len() / 2) {
                    record.swap(*one, *other);
                }
            }
            Self::LastParentOnly => keep_last(&mut record, book::EXTENDS),
            Self::LastRootDirOnly => keep_last(&mut record, book::ROOT_DIR),
            Self::KeysWithTargetsOnly => {
                let codes: Vec<u8> = record.iter().map(|command| command.code).collect();
                let mut at = 0..;
                record.retain(|command| {
                    let at: usize = at.next().unwrap();
                    command.code != book::KEY || codes.get(at + 1) == Some(&book::TARGET)
                });
            }
            Self::ExtensionsFirst => record.retain(|command| {
                let string = command.string.as_deref().unwrap_or_default();
                command.code != book::FILE || EXTENSIONS.iter().any(|extension| string.ends_with(extension))
            }),
            Self::FilesByText => {
                record.retain(|command| command.code != book::FILE || is_normal(command.string.as_deref().unwrap_or_default()))
            }
            Self::NoSolution => record.retain(|command| command.code != book::REFERENCE),
            Self::LatePlace | Self::WritesBehind | Self::LateThirteen => {}
        }
        record
    }
}
