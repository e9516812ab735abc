//! A mismatch made smaller while it stays one.

use generator::{Bytes, Command, Question, book};

use crate::hold::{Mismatch, Room, differs};
use crate::library::Asker;

/// A question that is answered in two ways.
#[derive(Clone)]
pub struct Found {
    pub book: Bytes,
    pub question: Question,
    pub room: Room,
}

/// The items without those that can be left out: larger parts are tried first, then single items.
fn thin<T: Clone>(mut items: Vec<T>, keeps: &mut dyn FnMut(&[T]) -> bool) -> Vec<T> {
    let mut size = items.len();
    while size > 0 {
        let mut at = 0;
        while at < items.len() {
            let end = (at + size).min(items.len());
            let fewer = [&items[..at], &items[end..]].concat();
            if keeps(&fewer) {
                items = fewer;
            } else {
                at = end;
            }
        }
        size /= 2;
    }
    items
}

fn written(commands: &[Command]) -> Bytes {
    Bytes::write(commands, book::Layout::EndToEnd)
}

fn records(commands: &[Command]) -> Vec<Vec<Command>> {
    let mut records: Vec<Vec<Command>> = vec![];
    for command in commands {
        if command.code == book::BEGIN || records.is_empty() {
            records.push(vec![]);
        }
        records.last_mut().unwrap().push(command.clone());
    }
    records
}

struct Shrinker<'a> {
    asker: &'a mut Asker,
    found: Found,
    mismatch: Mismatch,
}

impl Shrinker<'_> {
    /// Takes what is found next where it is a mismatch of the same kind.
    fn takes(&mut self, next: Found) -> bool {
        match differs(self.asker, &next.book, &next.question, next.room) {
            Some(mismatch) if mismatch.kind() == self.mismatch.kind() => {
                (self.found, self.mismatch) = (next, mismatch);
                true
            }
            _ => false,
        }
    }

    fn takes_book(&mut self, book: Bytes) -> bool {
        self.takes(Found { book, ..self.found.clone() })
    }

    /// Leaves out records, commands and parts of strings.
    fn commands(&mut self, commands: Vec<Command>) {
        let whole = thin(records(&commands), &mut |fewer| self.takes_book(written(&fewer.concat())));
        let mut commands = thin(whole.concat(), &mut |fewer| self.takes_book(written(fewer)));
        for at in 0..commands.len() {
            let Some(string) = commands[at].string.clone() else { continue };
            let shorter = thin(string, &mut |bytes| {
                let mut next = commands.clone();
                next[at].string = Some(bytes.to_vec());
                self.takes_book(written(&next))
            });
            commands[at].string = Some(shorter);
        }
    }

    /// Leaves out one record, with a name in another that leads past it.
    fn links(&mut self) -> bool {
        let all = records(&self.found.book.read().0);
        let paths: Vec<Vec<u8>> = all.iter().filter_map(|record| record[0].string.clone()).collect();
        for left_out in 0..all.len() {
            let mut left = all.clone();
            left.remove(left_out);
            let commands = left.concat();
            let names = (0..commands.len()).filter(|at| matches!(commands[*at].code, book::EXTENDS | book::REFERENCE));
            for (at, path) in names.flat_map(|at| paths.iter().map(move |path| (at, path))) {
                let mut next = commands.clone();
                next[at].string = Some(path.clone());
                if self.takes_book(written(&next)) {
                    return true;
                }
            }
        }
        false
    }

    /// Leaves out bytes, for a book that is not made of whole commands.
    fn bytes(&mut self) {
        let text = self.found.book.text.clone();
        let commands =
            thin(self.found.book.commands.clone(), &mut |fewer| self.takes_book(Bytes { commands: fewer.to_vec(), text: text.clone() }));
        thin(text, &mut |fewer| self.takes_book(Bytes { commands: commands.clone(), text: fewer.to_vec() }));
    }

    fn question(&mut self) {
        for at in 0..self.found.question.fields().len() {
            let field = self.found.question.fields()[at].to_vec();
            thin(field, &mut |fewer| {
                let mut next = self.found.clone();
                *next.question.fields_mut()[at] = fewer.to_vec();
                self.takes(next)
            });
        }
    }

    fn size(&self) -> usize {
        let Bytes { commands, text } = &self.found.book;
        commands.len() + text.len() + self.found.question.line().len()
    }
}

/// The smallest mismatch that leaving out leads to.
pub fn shrink(asker: &mut Asker, found: Found, mismatch: Mismatch) -> (Found, Mismatch) {
    let mut shrinker = Shrinker { asker, found, mismatch };
    loop {
        let before = shrinker.size();
        let (commands, end) = shrinker.found.book.read();
        let whole = end == shrinker.found.book.commands.len();
        if whole && shrinker.takes_book(written(&commands)) {
            shrinker.commands(commands);
            while shrinker.links() {}
        } else {
            shrinker.bytes();
        }
        shrinker.question();
        if shrinker.size() >= before {
            return (shrinker.found, shrinker.mismatch);
        }
    }
}

#[cfg(test)]
mod tests {
    use super::*;
    use crate::wrong::Wrong;

    /// The first mismatch of a wrong library, made small.
    fn smallest(name: &str) -> Found {
        let mut asker = Asker::new(Wrong::named(name));
        let rooms = [Room::More(9), Room::Fewer(1)];
        for number in 0..2000 {
            let case = generator::case(1, number);
            for question in &case.questions {
                for room in rooms {
                    if let Some(mismatch) = differs(&mut asker, &case.book, question, room) {
                        let found = Found { book: case.book, question: question.clone(), room };
                        return shrink(&mut asker, found, mismatch).0;
                    }
                }
            }
        }
        panic!("no mismatch of {name} was found");
    }

    #[test]
    fn every_wrong_library_is_found_out_by_a_small_book() {
        for name in Wrong::names() {
            let found = smallest(name);
            let (commands, _) = found.book.read();
            assert!(commands.len() <= 9, "{name}: {commands:?}");
        }
    }

    #[test]
    fn nothing_can_be_left_out_of_what_is_left() {
        let left = thin((0..100).collect(), &mut |items: &[i32]| items.contains(&3) && items.contains(&77));
        assert_eq!(left, [3, 77]);
    }
}
