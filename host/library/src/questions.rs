//! One safe function a question.

use crate::command::{Command, Field};
use crate::error::{Error, Refusal};
use crate::ffi::{self, Numbers};

/// What owner gives for both records where there is none.
const NOBODY: u64 = 65_535;

/// The output that is lent at first: most answers fit.
const FIRST_OUTPUT: usize = 4096;

const TOO_LITTLE_OUTPUT: u64 = 13;

/// A book: the configs to ask about. Any bytes may be lent; each question checks them first.
#[derive(Clone, Copy, Debug, PartialEq, Eq)]
pub struct Book<'a> {
    /// The records, as commands.
    pub commands: &'a [u8],
    /// The bytes that the commands' strings are parts of.
    pub text: &'a [u8],
}

impl<'a> Book<'a> {
    /// The path of a record by its number, as the answers and refusals give it. `None` where there is no such record.
    ///
    /// ```
    /// # use tsconfig_questions::{form, owner};
    /// let book = form::parse("record /a/tsconfig.json\nrecord /b/tsconfig.json\n").unwrap();
    /// let owner = owner(book.book(), b"/b/x.ts").unwrap().unwrap();
    /// assert_eq!(book.book().path_of(owner.found), Some(b"/b/tsconfig.json".as_slice()));
    /// assert_eq!(book.book().path_of(2), None);
    /// ```
    pub fn path_of(self, record: u64) -> Option<&'a [u8]> {
        let mut left = record;
        let mut at = 0;
        loop {
            let (command, next) = Command::read(self, at)?;
            if command.field == Field::Begin {
                if left == 0 {
                    return Some(command.string);
                }
                left -= 1;
            }
            at = next;
        }
    }
}

/// A config that was built: `B` is how its listing is held, `Vec<u8>` or `&[u8]`.
#[derive(Clone, Debug, PartialEq, Eq)]
pub struct Built<B> {
    /// The number of the record that the asked path means.
    pub record: u64,
    /// How many merges the load made.
    pub merges: u64,
    /// The config's lines, each ended by a newline.
    pub listing: B,
}

impl<B: AsRef<[u8]>> Built<B> {
    /// The lines of the listing, without their newlines: each a name alone, or a name, `=` and a value.
    pub fn lines(&self) -> impl Iterator<Item = &[u8]> {
        let listing = self.listing.as_ref();
        let listing = listing.strip_suffix(b"\n").unwrap_or(listing);
        listing.split(|byte| *byte == b'\n').filter(|line| !line.is_empty())
    }
}

/// The owner of a file.
#[derive(Clone, Copy, Debug, PartialEq, Eq)]
pub struct Owner {
    /// The number of the record that the walk up the folders found.
    pub found: u64,
    /// The number of that record or of the reference of it that claims the file.
    pub solution: u64,
}

/// Paths in order, read from the output that was lent for them.
#[derive(Clone, Debug, PartialEq, Eq)]
pub struct Paths<'a> {
    rest: &'a [u8],
    count: usize,
}

impl<'a> Paths<'a> {
    /// Each path is its length in two bytes, low byte first, and its bytes. `None` where the bytes are not `count` such paths.
    fn read(bytes: &'a [u8], count: u64) -> Option<Self> {
        let paths = Self { rest: bytes, count: usize::try_from(count).ok()? };
        let mut left = paths.clone();
        for _ in 0..paths.count {
            left.next()?;
        }
        left.rest.is_empty().then_some(paths)
    }
}

impl<'a> Iterator for Paths<'a> {
    type Item = &'a [u8];

    fn next(&mut self) -> Option<&'a [u8]> {
        let (length, rest) = self.rest.split_first_chunk::<2>()?;
        let (path, rest) = rest.split_at_checked(usize::from(u16::from_le_bytes(*length)))?;
        self.rest = rest;
        self.count = self.count.saturating_sub(1);
        Some(path)
    }

    fn size_hint(&self) -> (usize, Option<usize>) {
        (self.count, Some(self.count))
    }
}

impl ExactSizeIterator for Paths<'_> {}

fn answered(numbers: Numbers) -> Result<Numbers, Error> {
    if numbers.number == 0 {
        return Ok(numbers);
    }
    Err(Error::Refused(Refusal { number: numbers.number, place: numbers.place }))
}

/// The bytes of `out` that an answer says are written.
fn written(out: &[u8], numbers: Numbers) -> Result<&[u8], Error> {
    let bytes = usize::try_from(numbers.bytes).map_err(|_| Error::Malformed)?;
    out.get(..bytes).ok_or(Error::Malformed)
}

/// Asks with an output that is lent, and once more with one that is large enough where the first was not.
fn with_output(ask: impl Fn(&mut [u8]) -> Numbers) -> Result<(Numbers, Vec<u8>), Error> {
    let mut out = output(FIRST_OUTPUT as u64)?;
    let mut numbers = ask(&mut out);
    if numbers.number == TOO_LITTLE_OUTPUT {
        out = output(numbers.place)?;
        numbers = ask(&mut out);
        if numbers.number == TOO_LITTLE_OUTPUT {
            return Err(Error::Malformed);
        }
    }
    let bytes = written(&out, answered(numbers)?)?.len();
    out.truncate(bytes);
    Ok((numbers, out))
}

fn output(bytes: u64) -> Result<Vec<u8>, Error> {
    let size = usize::try_from(bytes).map_err(|_| Error::NoMemory(bytes))?;
    let mut out = Vec::new();
    out.try_reserve_exact(size).map_err(|_| Error::NoMemory(bytes))?;
    out.resize(size, 0);
    Ok(out)
}

fn owned(bytes: &[u8], count: u64) -> Result<Vec<Vec<u8>>, Error> {
    let paths = Paths::read(bytes, count).ok_or(Error::Malformed)?;
    Ok(paths.map(<[u8]>::to_vec).collect())
}

/// The config that a path means, merged with what it extends and built.
///
/// ```
/// # use tsconfig_questions::{build, Book};
/// let book = Book {
///     commands: b"\x01\x00\x00\x10\x00\x04\x05\x10\x00\x03\x00\x14",
///     text: b"/p/tsconfig.jsonsrc",
/// };
/// let built = build(book, b"/p").unwrap();
/// assert_eq!((built.record, built.merges), (0, 0));
/// assert_eq!(built.listing, b"include=/p/src\nbase=/p\n");
/// ```
pub fn build(book: Book<'_>, path: &[u8]) -> Result<Built<Vec<u8>>, Error> {
    let (numbers, listing) = with_output(|out| ffi::build(book.commands, book.text, path, out))?;
    Ok(Built { record: numbers.first, merges: numbers.second, listing })
}

/// As [`build`], with the listing written to `out`. Where it is refused, by 13 if `out` is too short, `out` is as it was.
///
/// ```
/// # use tsconfig_questions::{build_into, Book, Error};
/// let book = Book { commands: b"\x01\x00\x00\x10\x00\x14", text: b"/p/tsconfig.json" };
/// let mut out = [0; 100];
/// assert_eq!(build_into(book, b"/p", &mut out).unwrap().listing, b"base=/p\n");
///
/// let Err(Error::Refused(refusal)) = build_into(book, b"/p", &mut out[..7]) else { panic!() };
/// assert_eq!((refusal.number, refusal.place), (13, 8));
/// ```
pub fn build_into<'o>(book: Book<'_>, path: &[u8], out: &'o mut [u8]) -> Result<Built<&'o [u8]>, Error> {
    let numbers = answered(ffi::build(book.commands, book.text, path, out))?;
    let listing = written(out, numbers)?;
    Ok(Built { record: numbers.first, merges: numbers.second, listing })
}

/// The config that owns a file, and its solution: the reference that claims the file where there is one, else the config itself.
///
/// ```
/// # use tsconfig_questions::{owner, Book, Owner};
/// let book = Book {
///     commands: b"\x01\x00\x00\x10\x00\x04\x05\x10\x00\x03\x00\x14",
///     text: b"/p/tsconfig.jsonsrc",
/// };
/// assert_eq!(owner(book, b"/p/src/a.ts"), Ok(Some(Owner { found: 0, solution: 0 })));
/// assert_eq!(owner(book, b"/p/test/a.ts"), Ok(None));
/// ```
pub fn owner(book: Book<'_>, path: &[u8]) -> Result<Option<Owner>, Error> {
    let numbers = answered(ffi::owner(book.commands, book.text, path))?;
    match (numbers.first, numbers.second) {
        (NOBODY, NOBODY) => Ok(None),
        (found, solution) => Ok(Some(Owner { found, solution })),
    }
}

/// The paths that a specifier is mapped to by the config that `config` means, in order.
///
/// ```
/// # use tsconfig_questions::{candidates, Book};
/// let book = Book { commands: b"\x01\x00\x00\x10\x00\x09\x10\x00\x03\x00\x14", text: b"/p/tsconfig.jsonsrc" };
/// assert_eq!(candidates(book, b"/p", b"m"), Ok(vec![b"/p/src/m".to_vec()]));
/// ```
pub fn candidates(book: Book<'_>, config: &[u8], specifier: &[u8]) -> Result<Vec<Vec<u8>>, Error> {
    let (numbers, bytes) = with_output(|out| ffi::candidates(book.commands, book.text, config, specifier, out))?;
    owned(&bytes, numbers.first)
}

/// As [`candidates`], with the paths written to `out`. Where it is refused, by 13 if `out` is too short, `out` is as it was.
///
/// ```
/// # use tsconfig_questions::{candidates_into, Book};
/// let book = Book { commands: b"\x01\x00\x00\x10\x00\x09\x10\x00\x03\x00\x14", text: b"/p/tsconfig.jsonsrc" };
/// let mut out = [0; 100];
/// let mut paths = candidates_into(book, b"/p", b"m", &mut out).unwrap();
/// assert_eq!(paths.next(), Some(b"/p/src/m".as_slice()));
/// assert_eq!(paths.next(), None);
/// ```
pub fn candidates_into<'o>(book: Book<'_>, config: &[u8], specifier: &[u8], out: &'o mut [u8]) -> Result<Paths<'o>, Error> {
    let numbers = answered(ffi::candidates(book.commands, book.text, config, specifier, out))?;
    Paths::read(written(out, numbers)?, numbers.first).ok_or(Error::Malformed)
}

/// The paths that would be tested for a specifier that stands in a file of `directory`, in order, as if that directory alone existed. There are
/// none inside `node_modules`.
///
/// ```
/// # use tsconfig_questions::{form, tries};
/// let book = form::parse("record /p/tsconfig.json\n rootDirs src\n rootDirs gen\n").unwrap();
/// let paths = tries(book.book(), b"/p", b"/p/src/view", b"./m").unwrap();
/// assert_eq!(paths, [b"/p/src/view/m", b"/p/gen/view/m"]);
/// ```
pub fn tries(book: Book<'_>, config: &[u8], directory: &[u8], specifier: &[u8]) -> Result<Vec<Vec<u8>>, Error> {
    let (numbers, bytes) = with_output(|out| ffi::tries(book.commands, book.text, config, directory, specifier, out))?;
    owned(&bytes, numbers.first)
}

/// As [`tries`], with the paths written to `out`. Where it is refused, by 13 if `out` is too short, `out` is as it was.
///
/// ```
/// # use tsconfig_questions::{form, tries_into};
/// let book = form::parse("record /p/tsconfig.json\n baseUrl lib\n").unwrap();
/// let mut out = [0; 100];
/// let mut paths = tries_into(book.book(), b"/p", b"/p/src", b"m", &mut out).unwrap();
/// assert_eq!(paths.next(), Some(b"/p/lib/m".as_slice()));
/// ```
pub fn tries_into<'o>(book: Book<'_>, config: &[u8], directory: &[u8], specifier: &[u8], out: &'o mut [u8]) -> Result<Paths<'o>, Error> {
    let numbers = answered(ffi::tries(book.commands, book.text, config, directory, specifier, out))?;
    Paths::read(written(out, numbers)?, numbers.first).ok_or(Error::Malformed)
}

#[cfg(test)]
mod tests {
    use super::*;

    fn all(bytes: &[u8], count: u64) -> Option<Vec<&[u8]>> {
        Paths::read(bytes, count).map(Iterator::collect)
    }

    #[test]
    fn paths_are_read_as_they_were_laid_out() {
        assert_eq!(all(b"", 0), Some(vec![]));
        assert_eq!(all(b"\x02\x00/a\x00\x00", 2), Some(vec![b"/a".as_slice(), b""]));
        let long = [b"\x2c\x01".as_slice(), &[b'a'; 300]].concat();
        assert_eq!(all(&long, 1), Some(vec![&long[2..]]));
        assert_eq!(Paths::read(&long, 1).map(|paths| paths.len()), Some(1));
    }

    #[test]
    fn bytes_that_are_no_such_paths() {
        for (bytes, count) in
            [(b"".as_slice(), 1), (b"\x02\x00/a", 0), (b"\x02\x00/a", 2), (b"\x02\x00/", 1), (b"\x02", 1), (b"", u64::MAX)]
        {
            assert_eq!(all(bytes, count), None, "{bytes:?} {count}");
        }
    }

    fn numbers(number: u64, place: u64, bytes: u64) -> Numbers {
        Numbers { number, place, first: 0, second: 0, bytes }
    }

    #[test]
    fn numbers_that_no_function_gives() {
        assert_eq!(with_output(|_| numbers(0, 0, u64::MAX)), Err(Error::Malformed));
        assert_eq!(with_output(|_| numbers(13, 5000, 0)), Err(Error::Malformed));
        assert_eq!(with_output(|_| numbers(13, u64::MAX, 0)), Err(Error::NoMemory(u64::MAX)));
        let told = Refusal { number: 99, place: 1 }.to_string();
        assert_eq!(told, "the refusal has no meaning in the table, at place 1 (refusal 99)");
    }

    #[test]
    fn a_second_output_has_the_bytes_needed() {
        let ask = |out: &mut [u8]| if out.len() < 5000 { numbers(13, 5000, 0) } else { numbers(0, 0, out.len() as u64) };
        assert_eq!(with_output(ask).map(|(_, out)| out.len()), Ok(5000));
    }
}
