//! A question about a book, asked of the crate and of the library.

use std::fs;
use std::hint::black_box;
use std::path::Path;

use oxc_resolver::{ResolveOptions, ResolverGeneric, TsconfigDiscovery};
use tsconfig_questions::ffi::{self, Numbers};

use crate::files::Texts;

pub type Resolver = ResolverGeneric<Texts>;

/// A book, and the same configs as JSON texts in a file system.
pub struct Book {
    pub commands: Vec<u8>,
    pub text: Vec<u8>,
    /// The path of each config.
    pub configs: Vec<String>,
    files: Texts,
}

impl Book {
    pub fn open(folder: &Path, name: &str) -> Result<(Self, Vec<Line>), String> {
        let read = |end: &str| {
            let file = folder.join(format!("{name}.{end}"));
            fs::read(&file).map_err(|error| format!("{} cannot be read: {error}.", file.display()))
        };
        let (commands, text) = (read("cmd")?, read("txt")?);
        let records = judge::book::read(&commands, &text).map_err(|refusal| format!("The book {name} is refused: {refusal:?}."))?;
        let files = Texts::of(&records);
        let asked = String::from_utf8(read("ask")?).map_err(|_| format!("The questions of {name} are not text."))?;
        let mut lines: Vec<Line> = asked.lines().map(Line::parse).collect::<Result<_, _>>()?;
        let tries: Vec<Line> = lines.iter().filter_map(Line::as_tries).collect();
        lines.extend(tries);
        let configs = records.iter().map(|record| record.path.clone()).collect();
        Ok((Self { commands, text, configs, files }, lines))
    }

    /// A resolver that has answered nothing yet. The paths that are tried are tested as themselves alone.
    pub fn fresh(&self) -> Resolver {
        let options = ResolveOptions {
            tsconfig: Some(TsconfigDiscovery::Auto),
            node_path: false,
            extensions: vec![],
            main_files: vec![],
            ..ResolveOptions::default()
        };
        Resolver::new_with_file_system(self.files.clone(), options)
    }
}

/// A question line, cut into its fields.
pub struct Line {
    pub letter: char,
    pub fields: Vec<String>,
}

impl Line {
    /// A question that is refused by 7, after the check of the book.
    pub fn refused() -> Self {
        Self { letter: 'O', fields: vec![String::new()] }
    }

    pub fn parse(line: &str) -> Result<Self, String> {
        let (letter, fields) = line.split_once(' ').ok_or_else(|| format!("{line} is no question."))?;
        let fields: Vec<String> = fields.split('\t').map(str::to_string).collect();
        match (letter, fields.len()) {
            ("B" | "O", 1) | ("C", 2) | ("T", 3) => Ok(Self { letter: letter.chars().next().unwrap(), fields }),
            _ => Err(format!("{line} is no question.")),
        }
    }

    /// The tries of the specifier whose candidates are asked, from a folder of the config.
    fn as_tries(&self) -> Option<Self> {
        if self.letter != 'C' {
            return None;
        }
        let folder = self.fields[0].rsplit_once('/')?.0;
        Some(Self { letter: 'T', fields: vec![self.fields[0].clone(), format!("{folder}/src"), self.fields[1].clone()] })
    }

    /// The letter, and the path or specifier that is asked.
    pub fn short(&self) -> String {
        let asked = self.fields.last().unwrap();
        let start: String = asked.chars().take(40).collect();
        format!("{} {start}{}", self.letter, if asked.len() > 40 { ".." } else { "" })
    }

    pub fn text(&self) -> String {
        format!("{} {}", self.letter, self.fields.join("\t"))
    }
}

/// The crate's answer by this resolver: how many things it names.
pub fn crate_answers(resolver: &Resolver, line: &Line) -> usize {
    let load = || resolver.resolve_tsconfig(&line.fields[0]).expect("the config loads");
    match line.letter {
        'B' => black_box(load()).references.len() + 1,
        'O' => black_box(resolver.find_tsconfig(&line.fields[0]).expect("the configs load")).iter().count(),
        'C' => black_box(load().resolve_path_alias_or_base_url(&line.fields[1])).len(),
        _ => {
            let config = load();
            let tested = resolver.judged_tests(Path::new(&line.fields[1]), &line.fields[2], &config);
            black_box(tested.expect("nothing is at fault").0).len()
        }
    }
}

/// The crate's answer by a resolver made for it. It is called by its name under callgrind.
#[unsafe(no_mangle)]
#[inline(never)]
pub extern "C" fn fresh_answers(book: &Book, line: &Line) -> usize {
    crate_answers(&book.fresh(), line)
}

/// Every config of the book loaded by this resolver, whether a question needs it or not.
pub fn crate_loads_all(resolver: &Resolver, book: &Book) -> usize {
    book.configs.iter().filter(|path| black_box(resolver.resolve_tsconfig(path)).is_ok()).count()
}

/// The library's answer. It is called by its name under callgrind.
#[unsafe(no_mangle)]
#[inline(never)]
pub extern "C" fn library_answers(book: &Book, line: &Line, out: &mut [u8; 1 << 18]) -> u64 {
    let field = |at: usize| line.fields[at].as_bytes();
    let (commands, text) = (&book.commands, &book.text);
    let numbers = match line.letter {
        'B' => ffi::build(commands, text, field(0), out),
        'O' => ffi::owner(commands, text, field(0)),
        'C' => ffi::candidates(commands, text, field(0), field(1), out),
        _ => ffi::tries(commands, text, field(0), field(1), field(2), out),
    };
    let Numbers { number, .. } = black_box(numbers);
    number
}
