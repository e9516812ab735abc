//! Every slice at each length around its limit. Which number is answered there is known.

use generator::{Bytes, Command, Question, book};

use crate::call::Calls;
use crate::kinds::{LONGEST, MOST_COMMANDS, MOST_TEXT};

const COMMANDS: [usize; 6] = [0, 12, MOST_COMMANDS - 1, MOST_COMMANDS, MOST_COMMANDS + 1, MOST_COMMANDS + 2];
const TEXTS: [usize; 6] = [64, 65, MOST_TEXT - 1, MOST_TEXT, MOST_TEXT + 1, MOST_TEXT + 2];
const FIELDS: [usize; 6] = [0, 1, LONGEST - 1, LONGEST, LONGEST + 1, LONGEST + 2];

const CONFIG: &str = "/p/tsconfig.json";

/// Accepted commands of exactly this many bytes: full records, and a last one that is filled up with files and empty lists.
fn commands(length: usize) -> Vec<Command> {
    let mut commands = vec![];
    let mut left = length;
    let mut number = 0;
    while left > 0 {
        let path = if number == 0 { CONFIG.to_string() } else { format!("/r{number}") };
        commands.push(Command::with(book::BEGIN, path));
        // BEGIN and END take 6 bytes, a list 1, a flag 3, an item 5.
        let fill = if left < 950 { left } else { 600 } - 6;
        commands.extend(filling(fill));
        commands.push(Command::lone(book::END));
        left -= fill + 6;
        number += 1;
    }
    commands
}

/// Commands inside a record that take exactly this many bytes: at most 963.
fn filling(bytes: usize) -> Vec<Command> {
    let lists = [(book::FILES, book::FILE), (book::INCLUDE, book::INCLUDED), (book::EXCLUDE, book::EXCLUDED)];
    let mut commands = vec![];
    let mut left = bytes;
    for (list, item) in lists {
        if left == 0 {
            break;
        }
        commands.push(Command::lone(list));
        left -= 1;
        for _ in 0..64.min(left / 5) {
            commands.push(Command::with(item, "x"));
            left -= 5;
        }
    }
    if left >= 3 {
        commands.push(Command::flag(0, 1));
        left -= 3;
    }
    for list in [book::PATHS, book::ROOT_DIRS] {
        if left > 0 {
            commands.push(Command::lone(list));
            left -= 1;
        }
    }
    assert_eq!(left, 0, "{bytes} bytes can be filled");
    commands
}

fn sized_book(commands_length: usize, text_length: usize) -> Bytes {
    let mut book = Bytes::write(&commands(commands_length), book::Layout::Shared);
    assert_eq!(book.commands.len(), commands_length, "commands of this length");
    book.text.resize(text_length.max(book.text.len()), b' ');
    book
}

/// A normal path, or a specifier, of this many bytes.
fn path(length: usize) -> Vec<u8> {
    let mut path = vec![b'a'; length];
    path.iter_mut().take(1).for_each(|byte| *byte = b'/');
    path
}

/// Is the number that is answered the one that these sizes lead to?
fn is_right(number: u64, book: &Bytes, question: &Question) -> bool {
    let fields = question.fields();
    let (paths, specifier) = match question.letter() {
        b'B' | b'O' => (&fields[..], None),
        _ => (&fields[..fields.len() - 1], fields.last()),
    };
    let too_long = |field: &&[u8]| field.len() > LONGEST;
    if book.commands.len() > MOST_COMMANDS || book.text.len() > MOST_TEXT {
        number == 1
    } else if paths.iter().any(|path| path.is_empty() || too_long(path)) || specifier.is_some_and(too_long) {
        number == 7
    } else {
        matches!(number, 0 | 8)
    }
}

fn ask(calls: &mut Calls, book: &Bytes, question: &Question) {
    let outcome = calls.question(book, question, 70_000);
    if !is_right(outcome.numbers.number, book, question) {
        let lengths: Vec<usize> = question.fields().iter().map(|field| field.len()).collect();
        calls.fault(&format!(
            "commands of {}, text of {} and fields of {lengths:?} bytes are answered {:?}.",
            book.commands.len(),
            book.text.len(),
            outcome.numbers
        ));
    }
}

/// Sizes of the book, with questions that are accepted.
fn books(calls: &mut Calls) {
    for commands in COMMANDS {
        for text in TEXTS {
            let book = sized_book(commands, text);
            for asked in [CONFIG.as_bytes().to_vec(), path(LONGEST), path(LONGEST + 1)] {
                let name = path(LONGEST);
                ask(calls, &book, &Question::Build { path: asked.clone() });
                ask(calls, &book, &Question::Owner { path: asked.clone() });
                ask(calls, &book, &Question::Candidates { path: asked.clone(), specifier: name.clone() });
                ask(calls, &book, &Question::Tries { path: asked.clone(), directory: name.clone(), specifier: name });
            }
        }
    }
}

/// Sizes of what is asked.
fn fields(calls: &mut Calls) {
    let book = sized_book(12, 64);
    for one in FIELDS.map(path) {
        ask(calls, &book, &Question::Build { path: one.clone() });
        ask(calls, &book, &Question::Owner { path: one.clone() });
        for other in FIELDS.map(path) {
            ask(calls, &book, &Question::Candidates { path: one.clone(), specifier: other.clone() });
            for third in FIELDS.map(path) {
                ask(calls, &book, &Question::Tries { path: one.clone(), directory: other.clone(), specifier: third });
            }
        }
    }
}

pub fn sizes(calls: &mut Calls) {
    books(calls);
    fields(calls);
}
