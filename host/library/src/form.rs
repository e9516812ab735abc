//! The text form of a book, for people to read and write.
//!
//! A line is one field. Its first word says which; indentation means nothing.
//!
//! ```text
//! # The filters that all stations share.
//! record /t/base.json
//!   paths
//!     key @f/*
//!       target filt/*
//!
//! record /t/st/tsconfig.json
//!   extends ../base.json
//!   include src
//!   flag strict true
//!   text jsx react
//! ```
//!
//! | line | what it says |
//! |---|---|
//! | `record PATH` | a record begins, and the one before ends |
//! | `files`, `include`, `exclude`, `rootDirs`, `paths` | the list is present, perhaps empty |
//! | `files STRING`, `include STRING`, `exclude STRING`, `rootDirs STRING` | an item of the list, which is present by that alone |
//! | `key STRING`, `target STRING` | a key of `paths`, which is present by that alone, and a target of the key just above |
//! | `extends STRING`, `reference STRING` | one entry |
//! | `baseUrl STRING`, `outDir STRING`, `declarationDir STRING` | the field |
//! | `flag NAME true`, `flag NAME false`, `text NAME STRING` | an option, by its name in tsconfig.json or its id |
//! | `# ..`, an empty line | nothing |
//!
//! A string stands as it is up to the end of its line. In double quotes, which are not part of it, stands one that is empty, begins or ends with
//! a blank, or begins with a quote. There are no escapes: no string may have a backslash or a line end.
//!
//! A book that the questions refuse has a raw form, in hexadecimal, that gives any two slices back as they are:
//!
//! ```text
//! raw
//! commands 0100000c0014
//! text 2f742f626173652e6a736f6e
//! ```

use std::fmt;

use crate::builder::{BookBuf, BookBuilder, OptionKey};
use crate::command::{Command, Field, Operands};
use crate::error::Error;
use crate::questions::{Book, owner};
use crate::rules::MOST_TEXT;

/// A line that is not in the form, or breaks a rule of books. Its `Display` is a sentence.
#[derive(Clone, Debug, PartialEq, Eq)]
pub struct FormError {
    /// The line's number, from 1 on.
    pub line: usize,
    sentence: String,
}

impl fmt::Display for FormError {
    fn fmt(&self, f: &mut fmt::Formatter<'_>) -> fmt::Result {
        write!(f, "line {}: {}", self.line, self.sentence)
    }
}

impl std::error::Error for FormError {}

/// Reads a book in its text form.
///
/// ```
/// use tsconfig_questions::{form, owner, Owner};
///
/// let book = form::parse("record /p/tsconfig.json\n  include src\n").unwrap();
/// assert_eq!(owner(book.book(), b"/p/src/a.ts"), Ok(Some(Owner { found: 0, solution: 0 })));
///
/// let error = form::parse("record /p/tsconfig.json\n  include a**\n").unwrap_err();
/// assert_eq!(
///     error.to_string(),
///     "line 2: `include` `a**` of record 0 has two adjacent stars that are not a whole component"
/// );
/// ```
pub fn parse(form: impl AsRef<[u8]>) -> Result<BookBuf, FormError> {
    let mut lines = meaningful_lines(form.as_ref()).peekable();
    if lines.peek().is_some_and(|(_, line)| *line == b"raw") {
        return parse_raw(lines.skip(1));
    }
    let mut builder = BookBuilder::new();
    for (number, line) in lines {
        parse_line(&mut builder, line).map_err(|sentence| FormError { line: number, sentence })?;
    }
    Ok(builder.finish())
}

/// The lines that are neither empty nor comments, with their numbers, without the blanks around them.
fn meaningful_lines(form: &[u8]) -> impl Iterator<Item = (usize, &[u8])> {
    let lines = form.split(|byte| *byte == b'\n').map(<[u8]>::trim_ascii);
    (1..).zip(lines).filter(|(_, line)| !line.is_empty() && !line.starts_with(b"#"))
}

/// The first word of a line, and what follows it.
fn first_word(line: &[u8]) -> (&[u8], &[u8]) {
    let end = line.iter().position(u8::is_ascii_whitespace).unwrap_or(line.len());
    let (word, rest) = line.split_at_checked(end).unwrap_or((line, b""));
    (word, rest.trim_ascii())
}

fn parse_line(builder: &mut BookBuilder, line: &[u8]) -> Result<(), String> {
    let (word, rest) = first_word(line);
    let Some(field) = field_of(word, rest) else {
        return Err(unknown(word, rest));
    };
    let done = match field.operands() {
        Operands::Nothing => builder.push(&Command::plain(field)),
        Operands::String if field == Field::Begin => builder.begin(string(rest)?),
        Operands::String => builder.item(&Command::with(field, string(rest)?)),
        Operands::IdAndValue => {
            let (name, value) = first_word(rest);
            builder.flag(option_key(&name.escape_ascii().to_string()), truth(value)?)
        }
        Operands::IdAndString => {
            let (name, value) = first_word(rest);
            builder.text_option(option_key(&name.escape_ascii().to_string()), string(value)?)
        }
    };
    done.map(|_| ()).map_err(|error| error.to_string())
}

/// The field that a word means: a list where nothing follows, its item where something does.
fn field_of(word: &[u8], rest: &[u8]) -> Option<Field> {
    let meant = |field: &Field| field.word().as_bytes() == word && *field != Field::End;
    let fits = |field: &Field| (field.operands() == Operands::Nothing) == rest.is_empty();
    Field::ALL.into_iter().filter(meant).find(fits)
}

fn unknown(word: &[u8], rest: &[u8]) -> String {
    let word = word.escape_ascii();
    let known = Field::ALL.into_iter().find(|field| *field != Field::End && field.word() == word.to_string());
    match known {
        None => format!("`{word}` begins no line of a book"),
        Some(_) if rest.is_empty() => format!("`{word}` needs a value (\"\" is the empty string)"),
        Some(_) => format!("`{word}` stands alone in its line"),
    }
}

fn option_key(name: &str) -> OptionKey<'_> {
    match name.parse() {
        Ok(id) if !name.starts_with('+') => OptionKey::Id(id),
        _ => OptionKey::Name(name),
    }
}

fn truth(value: &[u8]) -> Result<bool, String> {
    match value {
        b"true" => Ok(true),
        b"false" => Ok(false),
        _ => Err(format!("a flag is `true` or `false`, and not `{}`", value.escape_ascii())),
    }
}

fn string(value: &[u8]) -> Result<&[u8], String> {
    match value {
        [b'"', string @ .., b'"'] => Ok(string),
        [b'"', ..] => Err("a string that begins with a quote ends with one".to_owned()),
        [] => Err("a value is missing (\"\" is the empty string)".to_owned()),
        string => Ok(string),
    }
}

fn parse_raw<'a>(lines: impl Iterator<Item = (usize, &'a [u8])>) -> Result<BookBuf, FormError> {
    let mut book = BookBuf::default();
    for (number, line) in lines {
        let (word, rest) = first_word(line);
        let error = |sentence: &str| FormError { line: number, sentence: sentence.to_owned() };
        let bytes = hex_bytes(rest).ok_or_else(|| error("bytes are written as pairs of hexadecimal digits"))?;
        match word {
            b"commands" => book.commands.extend(bytes),
            b"text" => book.text.extend(bytes),
            _ => return Err(error("a line of a raw book begins with `commands` or `text`")),
        }
    }
    Ok(book)
}

fn hex_bytes(digits: &[u8]) -> Option<Vec<u8>> {
    let digit = |byte: &u8| char::from(*byte).to_digit(16).and_then(|digit| u8::try_from(digit).ok());
    let pair = |two: &[u8]| match two {
        [high, low] => Some(digit(high)? * 16 + digit(low)?),
        _ => None,
    };
    digits.chunks(2).map(pair).collect()
}

/// Writes a book in its text form: `parse` gives a book with the same commands and strings in the same order. A book that is refused, or whose
/// strings share text in a way that the form cannot keep within a book's limits, is written raw; `parse` then gives the very same bytes.
///
/// ```
/// use tsconfig_questions::{form, Book, BookBuf};
///
/// let lines = "record /p/tsconfig.json\n  include src\n  flag strict true\n";
/// assert_eq!(form::print(form::parse(lines).unwrap().book()), lines);
///
/// let refused = BookBuf { commands: vec![0xff], text: vec![] };
/// assert_eq!(form::parse(form::print(refused.book())), Ok(refused));
/// ```
pub fn print(book: Book<'_>) -> String {
    match commands_of(book) {
        Some(commands) if book.text.len() <= MOST_TEXT && can_be_built(&commands) => print_lines(&commands),
        _ => print_raw(book),
    }
}

fn commands_of(book: Book<'_>) -> Option<Vec<Command<'_>>> {
    let mut commands = vec![];
    let mut at = 0;
    while at < book.commands.len() {
        let (command, next) = Command::read(book, at)?;
        commands.push(command);
        at = next;
    }
    Some(commands)
}

fn can_be_built(commands: &[Command<'_>]) -> bool {
    let mut builder = BookBuilder::new();
    let closed = commands.last().is_none_or(|last| last.field == Field::End);
    closed && commands.iter().all(|command| builder.push(command).is_ok())
}

fn print_lines(commands: &[Command<'_>]) -> String {
    let mut form = String::new();
    let following = commands.iter().skip(1).map(Some).chain([None]);
    for (command, next) in commands.iter().zip(following) {
        let by_its_item = next.is_some_and(|next| next.field.opener() == Some(command.field));
        if command.field == Field::End || (by_its_item && command.field != Field::Paths) {
            continue;
        }
        if command.field == Field::Begin && !form.is_empty() {
            form.push('\n');
        }
        form.push_str(indentation(command.field));
        form.push_str(&line_of(command));
        form.push('\n');
    }
    form
}

fn indentation(field: Field) -> &'static str {
    match field {
        Field::Begin => "",
        Field::Key => "    ",
        Field::Target => "      ",
        _ => "  ",
    }
}

fn line_of(command: &Command<'_>) -> String {
    let word = command.field.word();
    let name = command.name().map_or_else(|| command.id.to_string(), str::to_owned);
    match command.field.operands() {
        Operands::Nothing => word.to_owned(),
        Operands::String => format!("{word} {}", quoted(command.string)),
        Operands::IdAndValue => format!("{word} {name} {}", command.value != 0),
        Operands::IdAndString => format!("{word} {name} {}", quoted(command.string)),
    }
}

/// The bytes of an accepted book's string are ASCII and need no escape; those of a refused one are shown in a comment only.
fn quoted(string: &[u8]) -> String {
    let bare = !string.is_empty() && !string.starts_with(b"\"") && string.trim_ascii() == string;
    let shown: String = string.iter().map(|byte| shown(*byte)).collect();
    if bare { shown } else { format!("\"{shown}\"") }
}

fn shown(byte: u8) -> char {
    match byte {
        0x20..=0x7e => char::from(byte),
        _ => '\u{fffd}',
    }
}

fn print_raw(book: Book<'_>) -> String {
    let mut form = format!("# {}.\n", reason(book));
    let mut at = 0;
    while let Some((command, next)) = Command::read(book, at) {
        form.push_str(&format!("# {at:>5} {}\n", line_of(&command)));
        at = next;
    }
    form.push_str("raw\n");
    for (word, bytes) in [("commands", book.commands), ("text", book.text)] {
        for row in bytes.chunks(32) {
            let digits: String = row.iter().map(|byte| format!("{byte:02x}")).collect();
            form.push_str(&format!("{word} {digits}\n"));
        }
    }
    form
}

/// Why a book is written raw.
fn reason(book: Book<'_>) -> String {
    match owner(book, b"/") {
        Err(Error::Refused(refusal)) if refusal.number <= 6 => refusal.to_string(),
        _ => "the strings of this book share text in a way that the text form does not keep".to_owned(),
    }
}
