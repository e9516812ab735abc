//! Times of three ways to answer a question, taken in turn.

use std::hint::black_box;
use std::time::Duration;

use crate::asked::{Book, Line, crate_answers, crate_loads_all, fresh_answers, library_answers};
use crate::clock;
use crate::floor::bare_pass;

/// How long one way is measured in a round.
const ROUND: Duration = Duration::from_millis(4);

/// Nanoseconds a call, one figure a round.
pub struct Times(Vec<f64>);

impl Times {
    pub fn least(&self) -> f64 {
        self.0.iter().copied().fold(f64::INFINITY, f64::min)
    }

    pub fn median(&self) -> f64 {
        let mut sorted = self.0.clone();
        sorted.sort_by(f64::total_cmp);
        sorted[sorted.len() / 2]
    }

    /// In each round, how many times as long as the other.
    pub fn over(&self, other: &Self) -> Self {
        Self(self.0.iter().zip(&other.0).map(|(one, other)| one / other).collect())
    }

    pub fn most(&self) -> f64 {
        self.0.iter().copied().fold(0.0, f64::max)
    }
}

/// A way to answer, and how often it is called in a round.
struct Way<'a> {
    call: Box<dyn FnMut() + 'a>,
    calls: u32,
    times: Times,
}

impl<'a> Way<'a> {
    fn new(mut call: impl FnMut() + 'a) -> Self {
        let end = clock::now() + ROUND;
        let mut calls = 0;
        while clock::now() < end {
            call();
            calls += 1;
        }
        Self { call: Box::new(call), calls, times: Times(vec![]) }
    }

    fn round(&mut self) {
        let before = clock::now();
        for _ in 0..self.calls {
            (self.call)();
        }
        self.times.0.push((clock::now() - before).as_nanos() as f64 / f64::from(self.calls));
    }
}

pub struct Measured {
    pub library: Times,
    /// A resolver made for the question, and dropped after it.
    pub fresh: Times,
    /// A resolver that has answered the question before.
    pub warm: Times,
}

/// The library's check of a book, which each question begins with; the crate's load of all the book's configs; and the least that a check must do.
pub fn measure_whole(book: &Book, rounds: usize) -> [Times; 3] {
    let mut out = Box::new([0; 1 << 18]);
    let line = Line::refused();
    assert_eq!(library_answers(book, &line, &mut out), 7, "the book is accepted");
    let mut ways = [
        Way::new(|| {
            library_answers(book, &line, &mut out);
        }),
        Way::new(|| {
            crate_loads_all(&book.fresh(), book);
        }),
        Way::new(|| {
            assert!(black_box(bare_pass(black_box(&book.commands), black_box(&book.text))));
        }),
    ];
    for _ in 0..rounds {
        ways.iter_mut().for_each(Way::round);
    }
    ways.map(|way| way.times)
}

pub fn measure(book: &Book, line: &Line, rounds: usize) -> Measured {
    let mut out = Box::new([0; 1 << 18]);
    let kept = book.fresh();
    assert_eq!(library_answers(book, line, &mut out), 0, "the question is answered");
    let mut ways = [
        Way::new(|| {
            library_answers(book, line, &mut out);
        }),
        Way::new(|| {
            fresh_answers(book, line);
        }),
        Way::new(|| {
            crate_answers(&kept, line);
        }),
    ];
    for _ in 0..rounds {
        ways.iter_mut().for_each(Way::round);
    }
    let [library, fresh, warm] = ways.map(|way| way.times);
    Measured { library, fresh, warm }
}
