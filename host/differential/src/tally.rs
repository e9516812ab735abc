//! How often each answer and each refusal came up, for each kind of question.

use std::fmt;

use generator::Question;

use crate::outcome::Outcome;

const NAMES: [&str; 20] = [
    "refused 1",
    "refused 2",
    "refused 3",
    "refused 4",
    "refused 5",
    "refused 6",
    "refused 7",
    "refused 8",
    "refused 9",
    "refused 10",
    "refused 11",
    "refused 12",
    "refused 13",
    "built, no merges",
    "built, merges",
    "owner none",
    "owner, itself the solution",
    "owner, a reference the solution",
    "no paths",
    "paths",
];

/// Which rows can come up, as columns B, O, C, T.
const POSSIBLE: [&str; 20] = [
    "BOCT", "BOCT", "BOCT", "BOCT", "BOCT", "BOCT", "BOCT", "BOCT", "BOCT", "BOCT", "BOCT", "BOCT", "BCT", "B", "B", "O", "O", "O", "CT",
    "CT",
];

const LETTERS: [u8; 4] = *b"BOCT";

#[derive(Default)]
pub struct Tally {
    counts: [[u64; 4]; 20],
}

fn row(letter: u8, numbers: [u64; 5]) -> usize {
    match (letter, numbers) {
        (_, [number @ 1..=13, ..]) => number as usize - 1,
        (b'B', [_, _, _, 0, _]) => 13,
        (b'B', _) => 14,
        (b'O', [_, _, 65_535, ..]) => 15,
        (b'O', [_, _, found, solution, _]) if found == solution => 16,
        (b'O', _) => 17,
        (_, [_, _, 0, ..]) => 18,
        _ => 19,
    }
}

impl Tally {
    pub fn count(&mut self, question: &Question, outcome: &Outcome) {
        let letter = question.letter();
        let column = LETTERS.iter().position(|other| *other == letter).unwrap();
        self.counts[row(letter, outcome.numbers)][column] += 1;
    }

    /// Has this answer not come up for this kind of question?
    pub fn is_new(&self, question: &Question, outcome: &Outcome) -> bool {
        let letter = question.letter();
        let column = LETTERS.iter().position(|other| *other == letter).unwrap();
        self.counts[row(letter, outcome.numbers)][column] == 0
    }

    /// What can come up for one of these kinds of questions and never did.
    pub fn missing(&self, letters: &str) -> Vec<String> {
        let mut missing = vec![];
        for (row, name) in NAMES.iter().enumerate() {
            for (column, letter) in LETTERS.iter().enumerate() {
                let letter = *letter as char;
                if letters.contains(letter) && POSSIBLE[row].contains(letter) && self.counts[row][column] == 0 {
                    missing.push(format!("{letter} {name}"));
                }
            }
        }
        missing
    }
}

impl fmt::Display for Tally {
    fn fmt(&self, f: &mut fmt::Formatter<'_>) -> fmt::Result {
        writeln!(f, "| answered | B | O | C | T |\n|---|---|---|---|---|")?;
        for (name, counts) in NAMES.iter().zip(&self.counts) {
            let cells: Vec<String> = counts.iter().map(u64::to_string).collect();
            writeln!(f, "| {name} | {} |", cells.join(" | "))?;
        }
        Ok(())
    }
}

#[cfg(test)]
mod tests {
    use super::*;

    #[test]
    fn what_never_came_up_is_named() {
        let mut tally = Tally::default();
        let question = Question::Owner { path: b"/".to_vec() };
        assert_eq!(tally.missing("O").len(), 15);
        tally.count(&question, &Outcome::refused(9, 1));
        assert_eq!(tally.missing("O").len(), 14);
        assert!(!tally.missing("O").contains(&"O refused 9".to_string()));
    }
}
