//! Commands with their strings, and the two slices that they are written to and read from.

use crate::random::Random;

pub const BEGIN: u8 = 0x01;
pub const FILES: u8 = 0x02;
pub const FILE: u8 = 0x03;
pub const INCLUDE: u8 = 0x04;
pub const INCLUDED: u8 = 0x05;
pub const EXCLUDE: u8 = 0x06;
pub const EXCLUDED: u8 = 0x07;
pub const EXTENDS: u8 = 0x08;
pub const BASE_URL: u8 = 0x09;
pub const PATHS: u8 = 0x0a;
pub const KEY: u8 = 0x0b;
pub const TARGET: u8 = 0x0c;
pub const REFERENCE: u8 = 0x0d;
pub const ROOT_DIRS: u8 = 0x0e;
pub const ROOT_DIR: u8 = 0x0f;
pub const OUT_DIR: u8 = 0x10;
pub const DECLARATION_DIR: u8 = 0x11;
pub const FLAG: u8 = 0x12;
pub const TEXT: u8 = 0x13;
pub const END: u8 = 0x14;

/// A command: its byte, the operands that are no string, and its string.
#[derive(Clone, Debug, PartialEq, Eq)]
pub struct Command {
    pub code: u8,
    pub small: Vec<u8>,
    pub string: Option<Vec<u8>>,
}

impl Command {
    pub fn lone(code: u8) -> Self {
        Self { code, small: vec![], string: None }
    }

    pub fn with(code: u8, string: impl Into<Vec<u8>>) -> Self {
        Self { code, small: vec![], string: Some(string.into()) }
    }

    pub fn flag(id: u8, value: u8) -> Self {
        Self { code: FLAG, small: vec![id, value], string: None }
    }

    pub fn text(id: u8, string: impl Into<Vec<u8>>) -> Self {
        Self { code: TEXT, small: vec![id], string: Some(string.into()) }
    }
}

/// How many bytes of operands a known command has before its string, and whether it has one.
pub fn operands(code: u8) -> Option<(usize, bool)> {
    match code {
        FILES | INCLUDE | EXCLUDE | PATHS | ROOT_DIRS | END => Some((0, false)),
        FLAG => Some((2, false)),
        TEXT => Some((1, true)),
        BEGIN..=DECLARATION_DIR => Some((0, true)),
        _ => None,
    }
}

/// A book as it is lent.
#[derive(Clone, Debug, Default, PartialEq, Eq)]
pub struct Bytes {
    pub commands: Vec<u8>,
    pub text: Vec<u8>,
}

/// Where the strings stand in the text.
#[derive(Clone, Copy, PartialEq, Eq)]
pub enum Layout {
    EndToEnd,
    /// A string that stands in the text already, or a part of one, is not written again.
    Shared,
    /// Bytes that no rule allows between the strings.
    Spread,
}

impl Layout {
    /// Strings are shared where the text would grow too long otherwise.
    pub fn pick(random: &mut Random, commands: &[Command]) -> Self {
        let strings = commands.iter().filter_map(|command| command.string.as_ref());
        let length: usize = strings.map(Vec::len).sum();
        match random.below(10) {
            _ if length > 50_000 => Self::Shared,
            0..=5 => Self::EndToEnd,
            6..=7 => Self::Shared,
            _ => Self::Spread,
        }
    }
}

fn found(text: &[u8], string: &[u8]) -> Option<usize> {
    if string.is_empty() {
        return None;
    }
    text.windows(string.len()).position(|part| part == string)
}

impl Bytes {
    /// The commands as bytes. Starts and lengths are cut to two bytes each, so a text that grows too long gives a damaged book.
    pub fn write(commands: &[Command], layout: Layout) -> Self {
        let mut book = Self::default();
        for command in commands {
            book.commands.push(command.code);
            book.commands.extend(&command.small);
            if let Some(string) = &command.string {
                let start = book.place(string, layout);
                book.commands.extend((start as u16).to_le_bytes());
                book.commands.extend((string.len() as u16).to_le_bytes());
            }
        }
        book
    }

    fn place(&mut self, string: &[u8], layout: Layout) -> usize {
        if layout == Layout::Shared
            && let Some(start) = found(&self.text, string)
        {
            return start;
        }
        if layout == Layout::Spread {
            self.text.extend([0, 0xff, b'\\'].iter().take(string.len() % 4));
        }
        self.text.extend(string);
        self.text.len() - string.len()
    }

    /// The commands up to the first that cannot be read, and where that one stands.
    pub fn read(&self) -> (Vec<Command>, usize) {
        let mut commands = vec![];
        let mut at = 0;
        while let Some((command, width)) = self.command(at) {
            commands.push(command);
            at += width;
        }
        (commands, at)
    }

    fn command(&self, at: usize) -> Option<(Command, usize)> {
        let code = *self.commands.get(at)?;
        let (small, has_string) = operands(code)?;
        let width = 1 + small + if has_string { 4 } else { 0 };
        let given = self.commands.get(at + 1..at + width)?;
        let string = match has_string {
            true => {
                let number = |at: usize| usize::from(u16::from_le_bytes([given[at], given[at + 1]]));
                let (start, length) = (number(small), number(small + 2));
                Some(self.text.get(start..start + length)?.to_vec())
            }
            false => None,
        };
        Some((Command { code, small: given[..small].to_vec(), string }, width))
    }
}

#[cfg(test)]
mod tests {
    use super::*;

    #[test]
    fn what_is_written_is_read() {
        let commands = vec![
            Command::with(BEGIN, "/p/tsconfig.json"),
            Command::lone(INCLUDE),
            Command::with(INCLUDED, "p"),
            Command::flag(8, 1),
            Command::text(3, "react"),
            Command::with(BASE_URL, ""),
            Command::lone(END),
        ];
        for layout in [Layout::EndToEnd, Layout::Shared, Layout::Spread] {
            let book = Bytes::write(&commands, layout);
            assert_eq!(book.read(), (commands.clone(), book.commands.len()));
        }
        let shared = Bytes::write(&commands, Layout::Shared);
        assert_eq!(shared.text, b"/p/tsconfig.jsonreact");
    }

    #[test]
    fn reading_stops_at_what_is_no_command() {
        let mut book = Bytes::write(&[Command::lone(END), Command::with(BEGIN, "/p")], Layout::EndToEnd);
        book.commands.pop();
        assert_eq!(book.read(), (vec![Command::lone(END)], 1));
    }
}
