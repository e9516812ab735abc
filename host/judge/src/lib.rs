//! The crate run over a file system made from a book: see README.md.

pub mod answer;
pub mod book;
pub mod files;
mod walk;
