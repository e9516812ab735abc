//! The rules that a book's strings keep, and the book's limits.

use crate::command::Field;

pub const MOST_COMMANDS: usize = 32_768;
pub const MOST_TEXT: usize = 65_535;
pub const MOST_RECORDS: usize = 64;
pub const LONGEST_STRING: usize = 512;

/// How a string breaks its rule.
#[derive(Clone, Copy, Debug, PartialEq, Eq)]
pub enum StringFault {
    TooLong(usize),
    /// Not hexadecimal 20 to 7E, or a backslash.
    Byte(u8),
    NotNormal,
    Root,
    PathByte(u8),
    PatternByte(u8),
    Stars,
}

/// The first rule that the string of a command breaks.
pub fn string_fault(field: Field, string: &[u8]) -> Option<StringFault> {
    if string.len() > LONGEST_STRING {
        return Some(StringFault::TooLong(string.len()));
    }
    let odd = |byte: &&u8| !(0x20..=0x7e).contains(*byte) || **byte == b'\\';
    if let Some(byte) = string.iter().find(odd) {
        return Some(StringFault::Byte(*byte));
    }
    match field {
        Field::Begin => record_path_fault(string),
        Field::Extends | Field::Reference if string.starts_with(b"/") => normal_fault(string),
        Field::IncludeItem | Field::ExcludeItem => pattern_fault(string),
        _ => None,
    }
}

fn record_path_fault(path: &[u8]) -> Option<StringFault> {
    if path == b"/" {
        return Some(StringFault::Root);
    }
    match path.iter().find(|byte| b"*?{}[]!#".contains(byte)) {
        Some(byte) => Some(StringFault::PathByte(*byte)),
        None => normal_fault(path),
    }
}

fn normal_fault(path: &[u8]) -> Option<StringFault> {
    let named = |piece: &[u8]| !matches!(piece, b"" | b"." | b"..");
    let normal = match path.strip_prefix(b"/") {
        Some(b"") => true,
        Some(rest) => rest.split(|byte| *byte == b'/').all(named),
        None => false,
    };
    (!normal).then_some(StringFault::NotNormal)
}

fn pattern_fault(pattern: &[u8]) -> Option<StringFault> {
    let pattern = pattern.strip_prefix(b"${configDir}").unwrap_or(pattern);
    if let Some(byte) = pattern.iter().find(|byte| b"{}[]!".contains(byte)) {
        return Some(StringFault::PatternByte(*byte));
    }
    let apart = |piece: &[u8]| piece == b"**" || !piece.windows(2).any(|two| two == b"**");
    let kept = pattern.split(|byte| *byte == b'/').all(apart);
    (!kept).then_some(StringFault::Stars)
}

/// Whether `path` lies under `ancestor` and is another.
pub fn lies_under(path: &[u8], ancestor: &[u8]) -> bool {
    path.strip_prefix(ancestor).is_some_and(|rest| rest.starts_with(b"/"))
}
