//! Books made for tests: commands at random, and their bytes by an encoder of its own.

use std::collections::HashMap;

use crate::builder::{BookBuf, BookBuilder};
use crate::command::{Command, Field, Operands};

/// Numbers at random, the same for the same seed.
pub struct Random(u64);

impl Random {
    pub fn new(seed: u64) -> Self {
        Self(seed.wrapping_mul(0x9e37_79b9_7f4a_7c15) ^ 0x2545_f491_4f6c_dd1d)
    }

    pub fn below(&mut self, end: usize) -> usize {
        self.0 ^= self.0 << 13;
        self.0 ^= self.0 >> 7;
        self.0 ^= self.0 << 17;
        (self.0 >> 11) as usize % end
    }

    fn pick<'a>(&mut self, words: &[&'a str]) -> &'a str {
        words[self.below(words.len())]
    }

    fn joined(&mut self, words: &[&str]) -> String {
        let count = 1 + self.below(3);
        let pieces: Vec<&str> = (0..count).map(|_| self.pick(words)).collect();
        pieces.join("/")
    }
}

/// A command that owns its string.
#[derive(Clone, Debug, PartialEq, Eq)]
pub struct Made {
    pub field: Field,
    pub id: u8,
    pub value: u8,
    pub string: Vec<u8>,
}

impl Made {
    pub fn plain(field: Field) -> Self {
        Self::with(field, "")
    }

    pub fn with(field: Field, string: impl AsRef<[u8]>) -> Self {
        Self { field, id: 0, value: 0, string: string.as_ref().to_vec() }
    }

    pub fn lent(&self) -> Command<'_> {
        Command { field: self.field, id: self.id, value: self.value, string: &self.string }
    }
}

const PATH_WORDS: [&str; 14] = ["a", "b", "c", "d e", "tsconfig.json", "base.json", "x.json", "a.b", ".", "..", "", "a*", "{", "#"];
const LIST_WORDS: [&str; 14] = ["**", "*", "src", "a*.ts", "?x", "", ".", "..", "a**", "***", "${configDir}", "[a]", "!b", "m"];
const OTHER_WORDS: [&str; 12] = ["lib", "@f", "*", "", " a", "b ", "\"", "\"q\"", "#x", "true", "..", "é\\\t"];

fn string(random: &mut Random, field: Field) -> String {
    match field {
        Field::Begin if random.below(20) != 0 => format!("/{}", random.joined(&PATH_WORDS)),
        Field::Begin => random.joined(&PATH_WORDS),
        Field::IncludeItem | Field::ExcludeItem => random.joined(&LIST_WORDS),
        Field::Extends | Field::Reference if random.below(2) == 0 => format!("/{}", random.joined(&PATH_WORDS)),
        _ => random.joined(&OTHER_WORDS),
    }
}

/// A command, which in half of the cases is again of the field that came last.
fn command(random: &mut Random, last: Field) -> Made {
    let any = Field::ALL[random.below(Field::ALL.len())];
    let field = if random.below(2) == 0 { last } else { any };
    let (id, value) = match field {
        Field::Flag => (random.below(12) as u8, random.below(21) as u8 / 10),
        Field::Text => (random.below(8) as u8, 0),
        _ => (0, 0),
    };
    match field.operands() {
        Operands::Nothing | Operands::IdAndValue => Made { id, value, ..Made::plain(field) },
        Operands::String | Operands::IdAndString => Made { id, value, ..Made::with(field, string(random, field)) },
    }
}

/// Commands of which at most the last breaks a rule, by the builder. Without a broken one the last record is ended.
pub fn commands(random: &mut Random) -> Vec<Made> {
    let mut builder = BookBuilder::new();
    let mut commands = vec![];
    for _ in 0..1 + random.below(300) {
        let last = commands.last().map_or(Field::Begin, |last: &Made| last.field);
        let command = command(random, last);
        if command.field == Field::End && random.below(3) != 0 {
            continue;
        }
        let refusal = builder.push(&command.lent()).err().map(|error| error.number());
        let rarity = match refusal {
            Some(3) => 400,
            Some(4 | 5) => 20,
            _ => 1,
        };
        if random.below(rarity) != 0 {
            continue;
        }
        commands.push(command);
        if refusal.is_some() {
            return commands;
        }
    }
    if commands.last().is_some_and(|last| last.field != Field::End) {
        commands.push(Made::plain(Field::End));
    }
    commands
}

/// The bytes of commands. The same string is written once; the text begins with a few bytes that no string needs.
pub fn encode(commands: &[Made]) -> BookBuf {
    let mut book = BookBuf { commands: vec![], text: b"\n?".to_vec() };
    let mut places: HashMap<&[u8], usize> = HashMap::new();
    for command in commands {
        book.commands.push(command.field as u8);
        let start = *places.entry(&command.string).or_insert_with(|| {
            book.text.extend(&command.string);
            book.text.len() - command.string.len()
        });
        let [low, high] = (start as u16).to_le_bytes();
        let [len_low, len_high] = (command.string.len() as u16).to_le_bytes();
        match command.field.operands() {
            Operands::Nothing => {}
            Operands::IdAndValue => book.commands.extend([command.id, command.value]),
            Operands::String => book.commands.extend([low, high, len_low, len_high]),
            Operands::IdAndString => book.commands.extend([command.id, low, high, len_low, len_high]),
        }
    }
    book
}

/// The commands of a book that is accepted, by a reader of its own.
pub fn decode(book: &BookBuf) -> Vec<Made> {
    let mut commands = vec![];
    let mut rest = book.commands.as_slice();
    while let [byte, operands @ ..] = rest {
        let field = Field::ALL[usize::from(*byte) - 1];
        let word = |at: usize| usize::from(operands[at]) + 256 * usize::from(operands[at + 1]);
        let text = |at: usize| &book.text[word(at)..word(at) + word(at + 2)];
        let (command, width) = match byte {
            0x02 | 0x04 | 0x06 | 0x0a | 0x0e | 0x14 => (Made::plain(field), 0),
            0x12 => (Made { id: operands[0], value: operands[1], ..Made::plain(field) }, 2),
            0x13 => (Made { id: operands[0], ..Made::with(field, text(1)) }, 5),
            _ => (Made::with(field, text(0)), 4),
        };
        commands.push(command);
        rest = &operands[width..];
    }
    commands
}
