//! What stands in the place of an answer.

use std::fmt;

/// The place of refusal 8 where the asked path itself is no config.
pub const ASKED_PATH: u64 = 65_535;

/// A question that was refused: the number in the table of refusals, and the place that goes with it.
///
/// `Display` says in a sentence what number and place mean.
///
/// ```
/// use tsconfig_questions::Refusal;
///
/// let refusal = Refusal { number: 9, place: 2 };
/// assert_eq!(refusal.to_string(), "record 2 extends itself, by way of what it extends (refusal 9)");
/// ```
#[derive(Clone, Copy, Debug, PartialEq, Eq, Hash)]
pub struct Refusal {
    /// 1 to 13.
    pub number: u64,
    /// A command's offset for 2 to 6, a record's number for 8 to 12 (65,535 for the asked path), the bytes needed for 13, otherwise 0.
    pub place: u64,
}

impl fmt::Display for Refusal {
    fn fmt(&self, f: &mut fmt::Formatter<'_>) -> fmt::Result {
        let place = self.place;
        match self.number {
            1 => write!(f, "the book is too large: its commands are over 32,768 bytes or its text is over 65,535"),
            2 => write!(f, "the commands at offset {place} are no command, are cut short, or leave a record open"),
            3 => write!(f, "the command at offset {place} is out of order, is repeated, or has an id or value out of range"),
            4 => write!(f, "the string of the command at offset {place} breaks its rule or leaves the text"),
            5 => write!(f, "the command at offset {place} is one more than there may be"),
            6 => write!(
                f,
                "the command at offset {place} gives a path or a key that was given before, or a path above or below another record's"
            ),
            7 => {
                write!(f, "a path that was asked is not normal or holds `?` or `#`, or a path or the specifier breaks the rule of strings")
            }
            8 if place == ASKED_PATH => write!(f, "the asked path means no config of the book"),
            8 => write!(f, "record {place} extends or references a config that is not in the book"),
            9 => write!(f, "record {place} extends itself, by way of what it extends"),
            10 => write!(f, "record {place} references itself"),
            11 => write!(f, "record {place} has an empty extends entry"),
            12 => write!(f, "record {place} has an extends entry that starts with neither `/` nor `.`"),
            13 => write!(f, "the answer is {place} bytes long, which is more than the output that was lent"),
            _ => write!(f, "the refusal has no meaning in the table, at place {place}"),
        }?;
        write!(f, " (refusal {})", self.number)
    }
}

impl std::error::Error for Refusal {}

/// Why there is no answer.
///
/// Only `Refused` is ever met with the proved library: the others are what this crate says in the place of a panic.
#[derive(Clone, Copy, Debug, PartialEq, Eq)]
pub enum Error {
    /// The question was refused.
    Refused(Refusal),
    /// There is no memory for this many bytes of output.
    NoMemory(u64),
    /// The library's numbers or its output do not have the form that it promises.
    Malformed,
}

impl fmt::Display for Error {
    fn fmt(&self, f: &mut fmt::Formatter<'_>) -> fmt::Result {
        match self {
            Self::Refused(refusal) => refusal.fmt(f),
            Self::NoMemory(bytes) => write!(f, "there is no memory for an output of {bytes} bytes"),
            Self::Malformed => write!(f, "the linked library does not answer in the form that it promises"),
        }
    }
}

impl std::error::Error for Error {
    fn source(&self) -> Option<&(dyn std::error::Error + 'static)> {
        match self {
            Self::Refused(refusal) => Some(refusal),
            Self::NoMemory(_) | Self::Malformed => None,
        }
    }
}
