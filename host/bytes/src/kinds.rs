//! What is lent: noise, damaged books, sizes around each limit, outputs around what is needed, one slice for everything.

use generator::{Bytes, Command, Question, Random, book};

use crate::call::{Calls, Outcome, call};

pub const MOST_COMMANDS: usize = 32_768;
pub const MOST_TEXT: usize = 65_535;
pub const LONGEST: usize = 512;

/// Output enough for nearly every answer of the books here.
const ENOUGH: usize = 8192;

const LETTERS: &[u8] = b"BOCT";

fn question(letter: u8, mut field: impl FnMut() -> Vec<u8>) -> Question {
    match letter {
        b'B' => Question::Build { path: field() },
        b'O' => Question::Owner { path: field() },
        b'C' => Question::Candidates { path: field(), specifier: field() },
        _ => Question::Tries { path: field(), directory: field(), specifier: field() },
    }
}

fn noise(random: &mut Random, most: usize) -> Vec<u8> {
    let kind = random.below(4);
    let length = random.below(most + 1);
    let byte = |random: &mut Random| match kind {
        0 => random.byte(),
        1 => random.below(0x16) as u8,
        2 => *random.pick(b"/.*?ab$"),
        _ => 0x20 + random.below(0x5f) as u8,
    };
    (0..length).map(|_| byte(random)).collect()
}

/// Bytes that are nothing at all.
pub fn random_bytes(calls: &mut Calls, random: &mut Random) {
    let book = Bytes { commands: noise(random, 60), text: noise(random, 200) };
    let asked = question(*random.pick(LETTERS), || noise(random, 40));
    calls.question(&book, &asked, random.below(100));
}

/// A book with some of its bytes changed, and what is asked about it changed too.
pub fn damaged(calls: &mut Calls, random: &mut Random, seed: u64, number: u64) {
    let mut case = generator::case(seed, number);
    for bytes in [&mut case.book.commands, &mut case.book.text] {
        for _ in 0..random.below(4).min(bytes.len()) {
            let at = random.below(bytes.len());
            bytes[at] = if random.chance(50) { random.byte() } else { bytes[at] ^ (1 << random.below(8)) };
        }
    }
    for mut question in case.questions {
        for field in question.fields_mut() {
            if random.chance(20) && !field.is_empty() {
                let at = random.below(field.len());
                field[at] = random.byte();
            }
        }
        let room = *random.pick(&[0, 1, 20, ENOUGH]);
        calls.question(&case.book, &question, room);
    }
}

/// The outcome where the output has `room` bytes, told from the one where it was large enough.
fn expected(whole: &Outcome, room: usize) -> (u64, u64, u64, Vec<u8>) {
    let need = whole.output.len();
    if whole.numbers.number == 0 && need > room {
        return (13, need as u64, 0, vec![]);
    }
    (whole.numbers.number, whole.numbers.place, whole.numbers.first, whole.output.clone())
}

/// Outputs of every size around the need; of long answers those near both ends.
pub fn rooms(calls: &mut Calls, seed: u64, number: u64) {
    let case = generator::case(seed, number);
    for question in &case.questions {
        let whole = calls.question(&case.book, question, ENOUGH);
        let need = whole.output.len();
        for room in (0..need + 4).filter(|room| *room < 40 || room + 40 > need) {
            let outcome = calls.question(&case.book, question, room);
            let numbers = outcome.numbers;
            if (numbers.number, numbers.place, numbers.first, outcome.output) != expected(&whole, room) {
                calls.fault(&format!("with {room} bytes of output the answer is {numbers:?}, and with enough {:?}.", whole.numbers));
            }
        }
    }
}

/// One slice for everything answers as copies of it do.
pub fn same_slice(calls: &mut Calls, random: &mut Random) {
    let record = Command::with(book::BEGIN, "/p/tsconfig.json");
    let bytes = match random.below(3) {
        0 => noise(random, 600),
        1 => Bytes::write(&[record, Command::lone(book::END)], book::Layout::EndToEnd).commands,
        _ => b"/p/a.ts"[..random.below(8)].to_vec(),
    };
    let letter = *random.pick(LETTERS);
    let book = Bytes { commands: bytes.clone(), text: bytes.clone() };
    let asked = question(letter, || bytes.clone());
    let room = random.below(50);
    let apart = calls.question(&book, &asked, room);
    let fields = vec![&bytes[..]; asked.fields().len()];
    let together = calls.run(letter, bytes.len(), room, |out| call(letter, &bytes, &bytes, &fields, out));
    if apart != together {
        calls.fault(&format!("one slice for everything gives {together:?}, copies of it {apart:?}."));
    }
}
