//! A book made field by field.

use std::collections::{HashMap, HashSet};
use std::fmt;

use crate::command::{Command, Field};
use crate::questions::Book;
use crate::rules::{self, MOST_COMMANDS, MOST_RECORDS, MOST_TEXT, StringFault};

/// A book that owns its bytes.
#[derive(Clone, Debug, Default, PartialEq, Eq)]
pub struct BookBuf {
    /// The records, as commands: the file `book.cmd`.
    pub commands: Vec<u8>,
    /// The bytes that the commands' strings are parts of: the file `book.txt`.
    pub text: Vec<u8>,
}

impl BookBuf {
    /// The book, lent.
    ///
    /// ```
    /// # use tsconfig_questions::{owner, BookBuf};
    /// let empty = BookBuf::default();
    /// assert_eq!(owner(empty.book(), b"/a.ts"), Ok(None));
    /// ```
    pub fn book(&self) -> Book<'_> {
        Book { commands: &self.commands, text: &self.text }
    }
}

/// Names a flag or a text option, by its id or by its name in tsconfig.json.
#[derive(Clone, Copy, Debug, PartialEq, Eq)]
pub enum OptionKey<'a> {
    /// 0 to 10 for flags, 0 to 6 for text options.
    Id(u8),
    /// One of [`FLAGS`](crate::FLAGS) or [`TEXT_OPTIONS`](crate::TEXT_OPTIONS).
    Name(&'a str),
}

impl From<u8> for OptionKey<'_> {
    fn from(id: u8) -> Self {
        Self::Id(id)
    }
}

impl<'a> From<&'a str> for OptionKey<'a> {
    fn from(name: &'a str) -> Self {
        Self::Name(name)
    }
}

/// Which rule of books was broken.
#[derive(Clone, Debug, PartialEq, Eq)]
enum Rule {
    NoRecord,
    InRecord,
    Twice,
    NoList,
    NoKey,
    NoSuchOption(String),
    String(StringFault),
    TooMany(usize),
    PathOf(usize),
    AncestorOf(usize),
    Under(usize),
    KeyTwice,
    CommandsFull,
    TextFull,
}

/// A field that would break a rule of books. Its `Display` is a sentence that names the record and the field.
#[derive(Clone, Debug, PartialEq, Eq)]
pub struct BuildError {
    record: usize,
    field: Field,
    value: Vec<u8>,
    rule: Rule,
}

impl BuildError {
    /// The number of the record that the field was for.
    pub fn record(&self) -> usize {
        self.record
    }

    /// The refusal that a book with this field would be answered with: 1, 3, 4, 5 or 6.
    ///
    /// ```
    /// # use tsconfig_questions::BookBuilder;
    /// let error = BookBuilder::new().begin("tsconfig.json").unwrap_err();
    /// assert_eq!(error.number(), 4);
    /// ```
    pub fn number(&self) -> u64 {
        match self.rule {
            Rule::CommandsFull | Rule::TextFull => 1,
            Rule::NoRecord | Rule::InRecord | Rule::Twice => 3,
            Rule::NoList | Rule::NoKey | Rule::NoSuchOption(_) => 3,
            Rule::String(_) => 4,
            Rule::TooMany(_) => 5,
            Rule::PathOf(_) | Rule::AncestorOf(_) | Rule::Under(_) | Rule::KeyTwice => 6,
        }
    }

    fn subject(&self) -> String {
        let word = self.field.word();
        let value = String::from_utf8_lossy(&self.value);
        let record = match self.rule {
            Rule::NoRecord => String::new(),
            _ => format!(" of record {}", self.record),
        };
        match self.field {
            Field::Begin => format!("the path `{value}`{record}"),
            _ if self.value.is_empty() => format!("`{word}`{record}"),
            _ => format!("`{word}` `{value}`{record}"),
        }
    }
}

impl fmt::Display for BuildError {
    fn fmt(&self, f: &mut fmt::Formatter<'_>) -> fmt::Result {
        let subject = self.subject();
        match &self.rule {
            Rule::NoRecord => write!(f, "{subject} stands outside a record"),
            Rule::InRecord => write!(f, "{subject} stands inside another record"),
            Rule::Twice => write!(f, "{subject} is given a second time"),
            Rule::NoList => write!(f, "{subject} is an item of a list that is not there"),
            Rule::NoKey => write!(f, "{subject} stands neither after a key nor after another target of a key"),
            Rule::NoSuchOption(name) => write!(f, "{subject} names `{name}`, and there is no such option"),
            Rule::String(fault) => write_string_fault(f, &subject, *fault),
            Rule::TooMany(most) => write!(f, "{subject} is one too many: there may be {most}"),
            Rule::PathOf(other) => write!(f, "{subject} is the path of record {other} too"),
            Rule::AncestorOf(other) => write!(f, "{subject} lies above the path of record {other}"),
            Rule::Under(other) => write!(f, "{subject} lies under the path of record {other}"),
            Rule::KeyTwice => write!(f, "{subject} is a key that the record has already"),
            Rule::CommandsFull => write!(f, "{subject} does not fit: a book has at most {MOST_COMMANDS} bytes of commands"),
            Rule::TextFull => write!(f, "{subject} does not fit: a book has at most {MOST_TEXT} bytes of text"),
        }
    }
}

fn write_string_fault(f: &mut fmt::Formatter<'_>, subject: &str, fault: StringFault) -> fmt::Result {
    match fault {
        StringFault::TooLong(length) => {
            write!(f, "{subject} is {length} bytes long, and a string has at most {}", rules::LONGEST_STRING)
        }
        StringFault::Byte(byte) => write!(f, "{subject} holds the byte {byte:02X}, which no string may have"),
        StringFault::NotNormal => {
            write!(f, "{subject} is not a normal path: one starts with `/` and has no empty, `.` or `..` component and no final `/`")
        }
        StringFault::Root => write!(f, "{subject} is the root folder, which is no config"),
        StringFault::PathByte(byte) => {
            write!(f, "{subject} holds `{}`, and a record's path has none of `* ? {{ }} [ ] ! #`", char::from(byte))
        }
        StringFault::PatternByte(byte) => {
            write!(f, "{subject} holds `{}`, and a pattern has none of `{{ }} [ ] !`", char::from(byte))
        }
        StringFault::Stars => write!(f, "{subject} has two adjacent stars that are not a whole component"),
    }
}

impl std::error::Error for BuildError {}

/// What the record that is open has so far.
#[derive(Clone, Debug)]
struct OpenRecord {
    counts: HashMap<(Field, u8), usize>,
    keys: HashSet<Vec<u8>>,
    last: Field,
}

impl OpenRecord {
    fn count(&self, field: Field, id: u8) -> usize {
        self.counts.get(&(field, id)).copied().unwrap_or(0)
    }
}

/// Makes a book field by field, with the limits and rules that the questions check.
///
/// A call that breaks a rule is an error and adds nothing. A string that already stands in the text is shared.
///
/// ```
/// use tsconfig_questions::{candidates, BookBuilder, BuildError};
///
/// fn make() -> Result<(), BuildError> {
///     let mut builder = BookBuilder::new();
///     builder.begin("/t/base.json")?.key("@f/*", ["filt/*"])?;
///     builder.begin("/t/st/tsconfig.json")?.extends("../base.json")?.include(["src"])?;
///     let book = builder.finish();
///     let paths = candidates(book.book(), b"/t/st", b"@f/band");
///     assert_eq!(paths, Ok(vec![b"/t/filt/band".to_vec()]));
///     Ok(())
/// }
/// # make().unwrap();
/// ```
#[derive(Clone, Debug, Default)]
pub struct BookBuilder {
    commands: Vec<u8>,
    text: Vec<u8>,
    places: HashMap<Vec<u8>, u16>,
    paths: Vec<Vec<u8>>,
    open: Option<OpenRecord>,
}

type Done<'b> = Result<&'b mut BookBuilder, BuildError>;

impl BookBuilder {
    /// A book without records.
    ///
    /// ```
    /// # use tsconfig_questions::{BookBuf, BookBuilder};
    /// assert_eq!(BookBuilder::new().finish(), BookBuf::default());
    /// ```
    pub fn new() -> Self {
        Self::default()
    }

    /// Begins a record by its path, and ends the one before.
    ///
    /// ```
    /// # use tsconfig_questions::BookBuilder;
    /// let mut builder = BookBuilder::new();
    /// builder.begin("/a/tsconfig.json").unwrap().begin("/b/tsconfig.json").unwrap();
    /// let error = builder.begin("/b/tsconfig.json/c").unwrap_err();
    /// assert_eq!(error.to_string(), "the path `/b/tsconfig.json/c` of record 2 lies under the path of record 1");
    /// ```
    pub fn begin(&mut self, path: impl AsRef<[u8]>) -> Done<'_> {
        self.whole(|builder| {
            if builder.open.take().is_some() {
                builder.commands.push(Field::End as u8);
            }
            builder.push(&Command::with(Field::Begin, path.as_ref())).map(drop)
        })
    }

    /// Makes `files` present with these items, perhaps none.
    ///
    /// ```
    /// # use tsconfig_questions::{build, BookBuilder};
    /// let mut builder = BookBuilder::new();
    /// builder.begin("/p/tsconfig.json").unwrap().files(["a.ts", "b.ts"]).unwrap();
    /// let built = build(builder.finish().book(), b"/p").unwrap();
    /// assert_eq!(built.listing, b"files=/p/a.ts\nfiles=/p/b.ts\nbase=/p\n");
    /// ```
    pub fn files(&mut self, items: impl IntoIterator<Item = impl AsRef<[u8]>>) -> Done<'_> {
        self.list(Field::Files, Field::FilesItem, items)
    }

    /// Makes `include` present with these items, perhaps none.
    ///
    /// ```
    /// # use tsconfig_questions::{owner, BookBuilder};
    /// let mut builder = BookBuilder::new();
    /// builder.begin("/p/tsconfig.json").unwrap().include(["src/**/*.ts"]).unwrap();
    /// assert!(owner(builder.finish().book(), b"/p/src/m/a.ts").unwrap().is_some());
    /// ```
    pub fn include(&mut self, items: impl IntoIterator<Item = impl AsRef<[u8]>>) -> Done<'_> {
        self.list(Field::Include, Field::IncludeItem, items)
    }

    /// Makes `exclude` present with these items, perhaps none.
    ///
    /// ```
    /// # use tsconfig_questions::{owner, BookBuilder};
    /// let mut builder = BookBuilder::new();
    /// builder.begin("/p/tsconfig.json").unwrap().exclude(["gen"]).unwrap();
    /// assert_eq!(owner(builder.finish().book(), b"/p/gen/a.ts"), Ok(None));
    /// ```
    pub fn exclude(&mut self, items: impl IntoIterator<Item = impl AsRef<[u8]>>) -> Done<'_> {
        self.list(Field::Exclude, Field::ExcludeItem, items)
    }

    /// Adds an extends entry. Entries are merged last to first.
    ///
    /// ```
    /// # use tsconfig_questions::{build, BookBuilder};
    /// let mut builder = BookBuilder::new();
    /// builder.begin("/p/base.json").unwrap().base_url("lib").unwrap();
    /// builder.begin("/p/tsconfig.json").unwrap().extends("./base.json").unwrap();
    /// let built = build(builder.finish().book(), b"/p").unwrap();
    /// assert_eq!((built.record, built.merges), (1, 1));
    /// ```
    pub fn extends(&mut self, entry: impl AsRef<[u8]>) -> Done<'_> {
        self.push(&Command::with(Field::Extends, entry.as_ref()))
    }

    /// Sets `baseUrl`.
    ///
    /// ```
    /// # use tsconfig_questions::{candidates, BookBuilder};
    /// let mut builder = BookBuilder::new();
    /// builder.begin("/p/tsconfig.json").unwrap().base_url("lib").unwrap();
    /// let paths = candidates(builder.finish().book(), b"/p", b"m");
    /// assert_eq!(paths, Ok(vec![b"/p/lib/m".to_vec()]));
    /// ```
    pub fn base_url(&mut self, folder: impl AsRef<[u8]>) -> Done<'_> {
        self.push(&Command::with(Field::BaseUrl, folder.as_ref()))
    }

    /// Makes `paths` present, without keys as yet.
    ///
    /// ```
    /// # use tsconfig_questions::{build, BookBuilder};
    /// let mut builder = BookBuilder::new();
    /// builder.begin("/p/tsconfig.json").unwrap().paths().unwrap();
    /// let built = build(builder.finish().book(), b"/p").unwrap();
    /// assert_eq!(built.listing, b"base=/p\npaths\n");
    /// ```
    pub fn paths(&mut self) -> Done<'_> {
        self.push(&Command::plain(Field::Paths))
    }

    /// Adds a key with its targets to `paths`, and makes `paths` present where it is not.
    ///
    /// ```
    /// # use tsconfig_questions::{candidates, BookBuilder};
    /// let mut builder = BookBuilder::new();
    /// builder.begin("/p/tsconfig.json").unwrap().key("~/*", ["src/*", "gen/*"]).unwrap();
    /// let paths = candidates(builder.finish().book(), b"/p", b"~/m");
    /// assert_eq!(paths, Ok(vec![b"/p/src/m".to_vec(), b"/p/gen/m".to_vec()]));
    /// ```
    pub fn key(&mut self, key: impl AsRef<[u8]>, targets: impl IntoIterator<Item = impl AsRef<[u8]>>) -> Done<'_> {
        self.whole(|builder| {
            builder.item(&Command::with(Field::Key, key.as_ref()))?;
            let mut targets = targets.into_iter();
            targets.try_for_each(|target| builder.push(&Command::with(Field::Target, target.as_ref())).map(drop))
        })
    }

    /// Adds a reference.
    ///
    /// ```
    /// # use tsconfig_questions::{owner, BookBuilder, Owner};
    /// let mut builder = BookBuilder::new();
    /// builder.begin("/p/tsconfig.json").unwrap().files([""; 0]).unwrap().reference("./app.json").unwrap();
    /// builder.begin("/p/app.json").unwrap().include(["src"]).unwrap();
    /// let answer = owner(builder.finish().book(), b"/p/src/a.ts");
    /// assert_eq!(answer, Ok(Some(Owner { found: 0, solution: 1 })));
    /// ```
    pub fn reference(&mut self, path: impl AsRef<[u8]>) -> Done<'_> {
        self.push(&Command::with(Field::Reference, path.as_ref()))
    }

    /// Makes `rootDirs` present with these items, perhaps none.
    ///
    /// ```
    /// # use tsconfig_questions::{build, BookBuilder};
    /// let mut builder = BookBuilder::new();
    /// builder.begin("/p/tsconfig.json").unwrap().root_dirs(["src", "gen"]).unwrap();
    /// let built = build(builder.finish().book(), b"/p").unwrap();
    /// assert_eq!(built.listing, b"base=/p\nrootDir=/p/src\nrootDir=/p/gen\n");
    /// ```
    pub fn root_dirs(&mut self, items: impl IntoIterator<Item = impl AsRef<[u8]>>) -> Done<'_> {
        self.list(Field::RootDirs, Field::RootDirsItem, items)
    }

    /// Sets `outDir`.
    ///
    /// ```
    /// # use tsconfig_questions::{build, BookBuilder};
    /// let mut builder = BookBuilder::new();
    /// builder.begin("/p/tsconfig.json").unwrap().out_dir("dist").unwrap();
    /// let built = build(builder.finish().book(), b"/p").unwrap();
    /// assert_eq!(built.listing, b"base=/p\noutDir=/p/dist\n");
    /// ```
    pub fn out_dir(&mut self, folder: impl AsRef<[u8]>) -> Done<'_> {
        self.push(&Command::with(Field::OutDir, folder.as_ref()))
    }

    /// Sets `declarationDir`.
    ///
    /// ```
    /// # use tsconfig_questions::{build, BookBuilder};
    /// let mut builder = BookBuilder::new();
    /// builder.begin("/p/tsconfig.json").unwrap().declaration_dir("types").unwrap();
    /// let built = build(builder.finish().book(), b"/p").unwrap();
    /// assert_eq!(built.listing, b"base=/p\ndeclarationDir=/p/types\n");
    /// ```
    pub fn declaration_dir(&mut self, folder: impl AsRef<[u8]>) -> Done<'_> {
        self.push(&Command::with(Field::DeclarationDir, folder.as_ref()))
    }

    /// Sets a flag, by its id or its name.
    ///
    /// ```
    /// # use tsconfig_questions::{build, BookBuilder};
    /// let mut builder = BookBuilder::new();
    /// builder.begin("/p/tsconfig.json").unwrap().flag("strict", true).unwrap().flag(8, false).unwrap();
    /// let built = build(builder.finish().book(), b"/p").unwrap();
    /// assert_eq!(built.listing, b"base=/p\nflag 2=1\nflag 8=0\n");
    /// ```
    pub fn flag<'k>(&mut self, flag: impl Into<OptionKey<'k>>, value: bool) -> Done<'_> {
        let id = self.id(Field::Flag, flag.into())?;
        self.push(&Command { field: Field::Flag, id, value: value.into(), string: b"" })
    }

    /// Sets a text option, by its id or its name.
    ///
    /// ```
    /// # use tsconfig_questions::{build, BookBuilder};
    /// let mut builder = BookBuilder::new();
    /// builder.begin("/p/tsconfig.json").unwrap().text_option("jsx", "react").unwrap();
    /// let built = build(builder.finish().book(), b"/p").unwrap();
    /// assert_eq!(built.listing, b"base=/p\ntext 0=react\n");
    /// ```
    pub fn text_option<'k>(&mut self, option: impl Into<OptionKey<'k>>, text: impl AsRef<[u8]>) -> Done<'_> {
        let id = self.id(Field::Text, option.into())?;
        self.push(&Command { field: Field::Text, id, value: 0, string: text.as_ref() })
    }

    /// Ends the last record, and gives the book.
    ///
    /// ```
    /// # use tsconfig_questions::BookBuilder;
    /// let mut builder = BookBuilder::new();
    /// builder.begin("/p/tsconfig.json").unwrap();
    /// let book = builder.finish();
    /// assert_eq!(book.commands, b"\x01\x00\x00\x10\x00\x14");
    /// assert_eq!(book.text, b"/p/tsconfig.json");
    /// ```
    pub fn finish(mut self) -> BookBuf {
        if self.open.is_some() {
            self.commands.push(Field::End as u8);
        }
        BookBuf { commands: self.commands, text: self.text }
    }

    fn list(&mut self, list: Field, item: Field, items: impl IntoIterator<Item = impl AsRef<[u8]>>) -> Done<'_> {
        self.whole(|builder| {
            builder.push(&Command::plain(list))?;
            items.into_iter().try_for_each(|string| builder.push(&Command::with(item, string.as_ref())).map(drop))
        })
    }

    /// Adds an item of a list, and makes the list present where it is not.
    pub(crate) fn item(&mut self, command: &Command<'_>) -> Done<'_> {
        let missing = |list: &Field| self.open.as_ref().is_some_and(|open| open.count(*list, 0) == 0);
        let Some(list) = command.field.opener().filter(missing) else {
            return self.push(command);
        };
        self.whole(|builder| builder.push(&Command::plain(list))?.push(command).map(drop))
    }

    /// Does what it is told, or nothing of it where there is an error.
    fn whole(&mut self, act: impl FnOnce(&mut Self) -> Result<(), BuildError>) -> Done<'_> {
        let (commands, text, open) = (self.commands.len(), self.text.len(), self.open.clone());
        if let Err(error) = act(self) {
            self.commands.truncate(commands);
            self.text.truncate(text);
            self.places.retain(|string, start| usize::from(*start) + string.len() <= text);
            self.open = open;
            return Err(error);
        }
        Ok(self)
    }

    /// The id of a flag or text option.
    pub(crate) fn id(&self, field: Field, key: OptionKey<'_>) -> Result<u8, BuildError> {
        let name = match key {
            OptionKey::Id(id) => return Ok(id),
            OptionKey::Name(name) => name,
        };
        let found = field.names().iter().position(|known| *known == name);
        let error = || self.error(&Command::plain(field), Rule::NoSuchOption(name.to_owned()));
        found.and_then(|id| u8::try_from(id).ok()).ok_or_else(error)
    }

    /// Adds a command, or says which rule it breaks: of several the one with the lowest number of refusal, but 1 last.
    pub(crate) fn push(&mut self, command: &Command<'_>) -> Done<'_> {
        if let Some(rule) = self.broken_rule(command) {
            return Err(self.error(command, rule));
        }
        let width = 1 + command.field.operands().width();
        let closing = usize::from(command.field != Field::End);
        if self.commands.len() + width + closing > MOST_COMMANDS {
            return Err(self.error(command, Rule::CommandsFull));
        }
        let Some(start) = self.place(command.string) else {
            return Err(self.error(command, Rule::TextFull));
        };
        self.write(command, start);
        self.count(command);
        Ok(self)
    }

    fn error(&self, command: &Command<'_>, rule: Rule) -> BuildError {
        let current = self.paths.len().saturating_sub(1);
        let record = if command.field == Field::Begin { self.paths.len() } else { current };
        let value = match (&rule, command.name()) {
            (Rule::NoSuchOption(_), _) => vec![],
            (_, Some(name)) => name.as_bytes().to_vec(),
            (_, None) => command.string.to_vec(),
        };
        BuildError { record, field: command.field, value, rule }
    }

    fn broken_rule(&self, command: &Command<'_>) -> Option<Rule> {
        let string_rule = || rules::string_fault(command.field, command.string).map(Rule::String);
        match (&self.open, command.field) {
            (None, Field::Begin) => string_rule().or_else(|| self.record_rule(command.string)),
            (None, _) => Some(Rule::NoRecord),
            (Some(_), Field::Begin) => Some(Rule::InRecord),
            (Some(open), _) => {
                order_rule(open, command).or_else(string_rule).or_else(|| count_rule(open, command)).or_else(|| key_rule(open, command))
            }
        }
    }

    fn record_rule(&self, path: &[u8]) -> Option<Rule> {
        if self.paths.len() >= MOST_RECORDS {
            return Some(Rule::TooMany(MOST_RECORDS));
        }
        self.paths.iter().enumerate().find_map(|(number, other)| {
            if path == other {
                Some(Rule::PathOf(number))
            } else if rules::lies_under(other, path) {
                Some(Rule::AncestorOf(number))
            } else {
                rules::lies_under(path, other).then_some(Rule::Under(number))
            }
        })
    }

    /// Where a string stands in the text. It is put at the end where it stands nowhere; `None` where it does not fit there.
    fn place(&mut self, string: &[u8]) -> Option<u16> {
        if string.is_empty() {
            return Some(0);
        }
        if let Some(start) = self.places.get(string) {
            return Some(*start);
        }
        let found = self.text.windows(string.len()).position(|part| part == string);
        let start = found.unwrap_or(self.text.len());
        if found.is_none() {
            if start + string.len() > MOST_TEXT {
                return None;
            }
            self.text.extend_from_slice(string);
        }
        let start = u16::try_from(start).ok()?;
        self.places.insert(string.to_vec(), start);
        Some(start)
    }

    fn write(&mut self, command: &Command<'_>, start: u16) {
        use crate::command::Operands;
        let [start_low, start_high] = start.to_le_bytes();
        // No string is longer than 512 bytes.
        let [length_low, length_high] = (command.string.len() as u16).to_le_bytes();
        let span = [start_low, start_high, length_low, length_high];
        self.commands.push(command.field as u8);
        match command.field.operands() {
            Operands::Nothing => {}
            Operands::String => self.commands.extend(span),
            Operands::IdAndValue => self.commands.extend([command.id, command.value]),
            Operands::IdAndString => {
                self.commands.push(command.id);
                self.commands.extend(span);
            }
        }
    }

    fn count(&mut self, command: &Command<'_>) {
        match (&mut self.open, command.field) {
            (open, Field::Begin) => {
                self.paths.push(command.string.to_vec());
                *open = Some(OpenRecord { counts: HashMap::new(), keys: HashSet::new(), last: Field::Begin });
            }
            (open, Field::End) => *open = None,
            (Some(open), field) => {
                *open.counts.entry((field, command.id)).or_insert(0) += 1;
                if field == Field::Key {
                    open.keys.insert(command.string.to_vec());
                    open.counts.remove(&(Field::Target, 0));
                }
                open.last = field;
            }
            (None, _) => {}
        }
    }
}

/// Refusal 3.
fn order_rule(open: &OpenRecord, command: &Command<'_>) -> Option<Rule> {
    let field = command.field;
    let ids = field.names().len();
    if ids != 0 && usize::from(command.id) >= ids {
        return Some(Rule::NoSuchOption(command.id.to_string()));
    }
    if command.value > 1 {
        return Some(Rule::NoSuchOption(command.value.to_string()));
    }
    if field.opener().is_some_and(|list| open.count(list, 0) == 0) {
        return Some(Rule::NoList);
    }
    if field.most().is_none() && open.count(field, command.id) != 0 {
        return Some(Rule::Twice);
    }
    let follows = matches!(open.last, Field::Key | Field::Target);
    (field == Field::Target && !follows).then_some(Rule::NoKey)
}

/// Refusal 5.
fn count_rule(open: &OpenRecord, command: &Command<'_>) -> Option<Rule> {
    let most = command.field.most()?;
    (open.count(command.field, 0) >= most).then_some(Rule::TooMany(most))
}

/// Refusal 6.
fn key_rule(open: &OpenRecord, command: &Command<'_>) -> Option<Rule> {
    let again = command.field == Field::Key && open.keys.contains(command.string);
    again.then_some(Rule::KeyTwice)
}
