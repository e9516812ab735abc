//! Question lines, and their answers as lines.

use crate::error::Error;
use crate::questions::{Book, build, candidates, owner, tries};

/// The answer to a question line, as the program of the questions writes it: lines, each ended by a newline. A refusal is the line `refused` with
/// its number and place. `None` for a line of no known form.
///
/// A line is `B path`, `O path`, `C path TAB specifier` or `T path TAB directory TAB specifier`.
///
/// ```
/// use tsconfig_questions::{answer_line, form};
///
/// let book = form::parse("record /p/tsconfig.json\n baseUrl src\n").unwrap();
/// let answer = answer_line(book.book(), b"C /p\tm").unwrap();
/// assert_eq!(answer, Ok(b"candidates 1\n/p/src/m\n".to_vec()));
/// assert_eq!(answer_line(book.book(), b"X /p"), None);
/// ```
pub fn answer_line(book: Book<'_>, line: &[u8]) -> Option<Result<Vec<u8>, Error>> {
    let (letter, fields) = line.split_first_chunk::<2>()?;
    let answer = match letter {
        b"B " => answer_build(book, fields),
        b"O " => answer_owner(book, fields),
        b"C " => {
            let (config, specifier) = split_at_tab(fields)?;
            candidates(book, config, specifier).map(|paths| list("candidates", &paths))
        }
        b"T " => {
            let (config, rest) = split_at_tab(fields)?;
            let (directory, specifier) = split_at_tab(rest)?;
            tries(book, config, directory, specifier).map(|paths| list("tries", &paths))
        }
        _ => return None,
    };
    Some(match answer {
        Err(Error::Refused(refusal)) => Ok(format!("refused {} {}\n", refusal.number, refusal.place).into_bytes()),
        other => other,
    })
}

fn split_at_tab(fields: &[u8]) -> Option<(&[u8], &[u8])> {
    let at = fields.iter().position(|byte| *byte == b'\t')?;
    let (first, rest) = fields.split_at_checked(at)?;
    Some((first, rest.get(1..)?))
}

fn answer_build(book: Book<'_>, path: &[u8]) -> Result<Vec<u8>, Error> {
    let built = build(book, path)?;
    let mut lines = format!("built {} {}\n", built.record, built.merges).into_bytes();
    lines.extend(built.listing);
    Ok(lines)
}

fn answer_owner(book: Book<'_>, path: &[u8]) -> Result<Vec<u8>, Error> {
    let line = match owner(book, path)? {
        Some(owner) => format!("owner {} {}\n", owner.found, owner.solution),
        None => "owner none\n".to_owned(),
    };
    Ok(line.into_bytes())
}

fn list(word: &str, paths: &[Vec<u8>]) -> Vec<u8> {
    let mut lines = format!("{word} {}\n", paths.len()).into_bytes();
    for path in paths {
        lines.extend(path);
        lines.push(b'\n');
    }
    lines
}
