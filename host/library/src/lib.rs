//! Which tsconfig owns a file, what that config is once merged with the configs it extends, and which paths a specifier stands for.
//!
//! The questions are asked about a [`Book`]: configs that are already parsed, as two byte slices. They are answered by functions written in
//! Rattle and proved; this crate links them and makes them safe to call from Rust. Nothing here panics.
//!
//! ```
//! use tsconfig_questions::{build, candidates, owner, BookBuilder, Owner};
//!
//! # fn main() -> Result<(), Box<dyn std::error::Error>> {
//! let mut builder = BookBuilder::new();
//! builder.begin("/t/base.json")?.key("@f/*", ["filt/*"])?;
//! builder.begin("/t/st/tsconfig.json")?.extends("../base.json")?.include(["src"])?;
//! let book = builder.finish();
//!
//! assert_eq!(owner(book.book(), b"/t/st/src/a.ts")?, Some(Owner { found: 1, solution: 1 }));
//! assert_eq!(candidates(book.book(), b"/t/st", b"@f/band")?, [b"/t/filt/band"]);
//! let built = build(book.book(), b"/t/st")?;
//! assert_eq!(built.listing, b"include=/t/st/src\nbase=/t\nkey=@f/*\ntarget=/t/filt/*\n");
//! # Ok(())
//! # }
//! ```
//!
//! A book is made by [`BookBuilder`], read from its text form by [`form::parse`], or lent as it stands in two files.

#![deny(unsafe_code)]
#![cfg_attr(
    not(test),
    deny(clippy::unwrap_used, clippy::expect_used, clippy::panic, clippy::unreachable, clippy::indexing_slicing, clippy::string_slice)
)]

#[cfg(test)]
mod agreement;
mod builder;
mod command;
mod error;
#[allow(unsafe_code)]
#[doc(hidden)]
pub mod ffi;
pub mod form;
mod lines;
#[cfg(test)]
mod made;
mod questions;
#[cfg(test)]
mod round_trips;
mod rules;

pub use builder::{BookBuf, BookBuilder, BuildError, OptionKey};
pub use command::{FLAGS, TEXT_OPTIONS};
pub use error::{ASKED_PATH, Error, Refusal};
pub use lines::answer_line;
pub use questions::{Book, Built, Owner, Paths, build, build_into, candidates, candidates_into, owner, tries, tries_into};
