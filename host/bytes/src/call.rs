//! One call of a C function, with everything around it looked after.

use std::sync::atomic::{AtomicU64, Ordering};
use std::time::{Duration, Instant};

use generator::{Bytes, Question};
use tsconfig_questions::ffi::{self, Numbers};

/// Bytes before and behind the output that is lent.
const MARGIN: usize = 32;

/// Calls begun and calls ended, for the thread that watches.
pub static BEGUN: AtomicU64 = AtomicU64::new(0);
pub static ENDED: AtomicU64 = AtomicU64::new(0);

#[derive(Clone, Debug, PartialEq, Eq)]
pub struct Outcome {
    pub numbers: Numbers,
    pub output: Vec<u8>,
}

/// Faults that are printed; the others are counted.
const SHOWN: u64 = 20;

#[derive(Default)]
pub struct Calls {
    pub count: u64,
    pub refused: [u64; 14],
    pub slowest: Duration,
    pub faults: u64,
    what: String,
}

/// A byte that depends on its place.
fn pattern(at: usize) -> u8 {
    (at * 37 + at / 256 + 11) as u8
}

/// An allocation of its own with exactly these bytes, so that a byte read or written beside it is seen by a memory checker.
fn exact(bytes: &[u8]) -> Box<[u8]> {
    bytes.to_vec().into_boxed_slice()
}

/// Calls the function of a question's letter. `fields` are what is asked, in the order of the question's line.
pub fn call(letter: u8, commands: &[u8], text: &[u8], fields: &[&[u8]], out: &mut [u8]) -> Numbers {
    match (letter, fields) {
        (b'B', [path]) => ffi::build(commands, text, path, out),
        (b'O', [path]) => ffi::owner(commands, text, path),
        (b'C', [path, specifier]) => ffi::candidates(commands, text, path, specifier, out),
        (b'T', [path, directory, specifier]) => ffi::tries(commands, text, path, directory, specifier, out),
        _ => panic!("a question has one of four letters and its fields"),
    }
}

/// Is the output `count` times a length in two bytes and as many bytes?
fn are_paths(mut output: &[u8], count: u64) -> bool {
    for _ in 0..count {
        let Some((length, rest)) = output.split_first_chunk::<2>() else { return false };
        let Some((_, rest)) = rest.split_at_checked(usize::from(u16::from_le_bytes(*length))) else { return false };
        output = rest;
    }
    output.is_empty()
}

/// Have the numbers and the output a form that some answer has?
fn is_formed(outcome: &Outcome, letter: u8, commands: u64, room: u64) -> bool {
    let Numbers { number, place, first, second, bytes } = outcome.numbers;
    let is_record = |number: u64| number < 64;
    if number != 0 {
        let placed = match number {
            1 | 7 => place == 0,
            2..=6 => place <= commands,
            8 => is_record(place) || place == 65_535,
            9..=12 => is_record(place),
            13 => letter != b'O' && place > room,
            _ => false,
        };
        return placed && (first, second, bytes) == (0, 0, 0);
    }
    place == 0
        && match letter {
            b'B' => is_record(first) && outcome.output.ends_with(b"\n"),
            b'O' => bytes == 0 && ((first, second) == (65_535, 65_535) || (is_record(first) && is_record(second))),
            _ => second == 0 && are_paths(&outcome.output, first),
        }
}

impl Calls {
    /// From here on, faults are told as faults of this.
    pub fn now(&mut self, what: String) {
        self.what = what;
    }

    pub fn fault(&mut self, sentence: &str) {
        self.faults += 1;
        if self.faults <= SHOWN {
            println!("{}: {sentence}", self.what);
        }
    }

    /// Runs one call with an output of `room` bytes that has a pattern in it and around it.
    pub fn run(&mut self, letter: u8, commands: usize, room: usize, ask: impl FnOnce(&mut [u8]) -> Numbers) -> Outcome {
        let mut buffer: Vec<u8> = (0..MARGIN + room + MARGIN).map(pattern).collect();
        BEGUN.fetch_add(1, Ordering::SeqCst);
        let before = Instant::now();
        let numbers = ask(&mut buffer[MARGIN..MARGIN + room]);
        self.slowest = self.slowest.max(before.elapsed());
        ENDED.fetch_add(1, Ordering::SeqCst);
        self.count += 1;
        self.refused[(numbers.number as usize).min(13)] += 1;
        let written = (numbers.bytes as usize).min(room);
        let answer = MARGIN..MARGIN + written;
        if (0..buffer.len()).any(|at| !answer.contains(&at) && buffer[at] != pattern(at)) {
            self.fault("bytes outside the answer were changed.");
        }
        let outcome = Outcome { numbers, output: buffer[answer].to_vec() };
        if written as u64 != numbers.bytes || !is_formed(&outcome, letter, commands as u64, room as u64) {
            self.fault(&format!("{numbers:?} with output \"{}\" is no answer.", outcome.output.escape_ascii()));
        }
        outcome
    }

    /// A question about a book, each slice in an allocation of its own; the slices must be left as they are.
    pub fn question(&mut self, book: &Bytes, question: &Question, room: usize) -> Outcome {
        let letter = question.letter();
        let lent = [&[&book.commands[..], &book.text], &question.fields()[..]].concat();
        let own: Vec<Box<[u8]>> = lent.iter().map(|slice| exact(slice)).collect();
        let fields: Vec<&[u8]> = own[2..].iter().map(|field| &field[..]).collect();
        let outcome = self.run(letter, book.commands.len(), room, |out| call(letter, &own[0], &own[1], &fields, out));
        if own.iter().zip(&lent).any(|(own, lent)| own[..] != **lent) {
            self.fault("a slice lent to be read was changed.");
        }
        outcome
    }
}

#[cfg(test)]
mod tests {
    use super::*;

    const NONE: Numbers = Numbers { number: 0, place: 0, first: 0, second: 0, bytes: 0 };

    /// How many faults are found in a call of a library that does this to an output of 8 bytes.
    fn faults(letter: u8, wrong: impl FnOnce(&mut [u8]) -> Numbers) -> u64 {
        let mut calls = Calls::default();
        calls.run(letter, 100, 8, wrong);
        calls.faults
    }

    #[test]
    fn an_answer_is_no_fault() {
        assert_eq!(faults(b'C', |_| NONE), 0);
        assert_eq!(faults(b'O', |_| Numbers { first: 65_535, second: 65_535, ..NONE }), 0);
        assert_eq!(faults(b'B', |_| Numbers { number: 13, place: 9, ..NONE }), 0);
        let one_path = |out: &mut [u8]| {
            out[..3].copy_from_slice(&[1, 0, b'x']);
            Numbers { first: 1, bytes: 3, ..NONE }
        };
        assert_eq!(faults(b'C', one_path), 0);
    }

    #[test]
    fn bytes_outside_the_answer_are_looked_at() {
        let behind = |out: &mut [u8]| {
            out[0] ^= 1;
            NONE
        };
        assert_eq!(faults(b'C', behind), 1);
        let refused = |out: &mut [u8]| {
            out[7] ^= 1;
            Numbers { number: 9, place: 3, ..NONE }
        };
        assert_eq!(faults(b'C', refused), 1);
    }

    #[test]
    fn numbers_that_no_answer_has_are_found() {
        assert_eq!(faults(b'C', |_| Numbers { bytes: 9, ..NONE }), 1);
        assert_eq!(faults(b'C', |_| Numbers { first: 1, ..NONE }), 1);
        assert_eq!(faults(b'C', |_| Numbers { number: 14, ..NONE }), 1);
        assert_eq!(faults(b'C', |_| Numbers { number: 2, place: 101, ..NONE }), 1);
        assert_eq!(faults(b'C', |_| Numbers { number: 13, place: 8, ..NONE }), 1);
        assert_eq!(faults(b'C', |_| Numbers { number: 7, first: 1, ..NONE }), 1);
        assert_eq!(faults(b'O', |_| Numbers { first: 65_535, second: 0, ..NONE }), 1);
    }
}
