//! Books and questions that lean towards the edges of document 01, the same for the same seed. Case number i of a seed
//! does not depend on the cases before it. Most books are small and accepted; some are damaged or break a rule.

pub mod book;
mod damage;
mod graphs;
mod questions;
mod random;
mod records;
mod words;

pub use book::{Bytes, Command};
pub use questions::Question;
pub use random::Random;

use graphs::Shape;

/// A book and what is asked about it.
#[derive(Clone, Debug)]
pub struct Case {
    pub book: Bytes,
    pub questions: Vec<Question>,
}

/// The case with this number, of this seed.
pub fn case(seed: u64, number: u64) -> Case {
    let mut random = Random::new(seed, number);
    let shape = Shape::pick(&mut random);
    let records = graphs::records(&mut random, shape);
    let questions = questions::about(&mut random, &records);
    let mixed = random.chance(30);
    let mut commands: Vec<Command> = Vec::new();
    for record in &records {
        commands.extend(record.commands(&mut random, mixed));
    }
    let layout = book::Layout::pick(&mut random, &commands);
    let book = damage::written(&mut random, commands, layout);
    Case { book, questions }
}

#[cfg(test)]
mod tests {
    use super::case;

    #[test]
    fn a_case_depends_on_its_seed_and_number_alone() {
        let shown = |seed, number| format!("{:?}", case(seed, number));
        let later = shown(1, 7);
        shown(1, 6);
        assert_eq!(shown(1, 7), later);
        assert_ne!(shown(2, 7), later);
        assert_ne!(shown(1, 8), later);
    }
}
