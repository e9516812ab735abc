//! Questions and their answers in the words of document 01, "A program's whole output".

use std::{
    fmt::Write,
    path::{Path, PathBuf},
    sync::Arc,
};

use oxc_resolver::{
    ResolveError, ResolveOptions, ResolverGeneric, SpecifierError, TsConfig, TsconfigDiscovery,
};

use crate::{
    book::{self, Record, Refusal, refused},
    files::{BookFiles, Files, OneFolder},
    walk::{self, Walk},
};

/// A folder's book: its records and the files made from them, or its refusal.
pub struct Book {
    read: Result<(Vec<Record>, Arc<Files>), Refusal>,
}

/// Why a question has no answer: it is refused, or the judge contradicts itself.
pub enum Stop {
    Refused(Refusal),
    Disagrees(String),
}

impl From<Refusal> for Stop {
    fn from(refusal: Refusal) -> Self {
        Self::Refused(refusal)
    }
}

pub type Answer<T> = Result<T, Stop>;

/// What is asked, in the fields of a question line.
#[derive(Clone, Copy)]
pub enum Question<'a> {
    Build(&'a [u8]),
    Owner(&'a [u8]),
    Candidates(&'a [u8], &'a [u8]),
    Tries(&'a [u8], &'a [u8], &'a [u8]),
}

impl<'a> Question<'a> {
    pub fn parse(line: &'a [u8]) -> Option<Self> {
        let rest = line.get(2..).filter(|_| line[1] == b' ')?;
        let mut fields = rest.splitn(if line[0] == b'T' { 3 } else { 2 }, |byte| *byte == b'\t');
        Some(match line[0] {
            b'B' => Self::Build(rest),
            b'O' => Self::Owner(rest),
            b'C' => Self::Candidates(fields.next()?, fields.next()?),
            b'T' => Self::Tries(fields.next()?, fields.next()?, fields.next()?),
            _ => return None,
        })
    }
}

/// An asked path by rule 7.
fn asked(path: &[u8]) -> Answer<&str> {
    if !book::plain(path) || !book::normal(path) || path.iter().any(|byte| b"?#".contains(byte)) {
        return Ok(refused(7, 0)?);
    }
    Ok(std::str::from_utf8(path).expect("a plain string is ASCII"))
}

/// A specifier by rule 7.
fn specifier(text: &[u8]) -> Answer<&str> {
    if !book::plain(text) {
        return Ok(refused(7, 0)?);
    }
    Ok(std::str::from_utf8(text).expect("a plain string is ASCII"))
}

fn disagrees<T>(what: String) -> Answer<T> {
    Err(Stop::Disagrees(what))
}

fn options() -> ResolveOptions {
    ResolveOptions {
        tsconfig: Some(TsconfigDiscovery::Auto),
        node_path: false,
        ..ResolveOptions::default()
    }
}

fn text(path: &Path) -> &str {
    path.to_str().expect("a book's strings are ASCII")
}

/// One accepted book.
struct Loader<'a> {
    records: &'a [Record],
    files: &'a Arc<Files>,
}

type Resolver = ResolverGeneric<BookFiles>;

impl Loader<'_> {
    fn fresh(&self) -> (BookFiles, Resolver) {
        let files = BookFiles::over(self.files);
        (
            files.clone(),
            Resolver::new_with_file_system(files, options()),
        )
    }

    fn number(&self, path: &Path) -> usize {
        let found = self
            .records
            .iter()
            .position(|record| Path::new(&record.path) == path);
        found.unwrap_or_else(|| panic!("a config that is no record: {}", path.display()))
    }

    /// The crate's load of one config, by a fresh resolver, held against the walk.
    fn load(&self, path: &str) -> Answer<Arc<TsConfig>> {
        let (files, resolver) = self.fresh();
        let loaded = resolver.resolve_tsconfig(path);
        let walked = Walk::new(self.records).asked(path);
        let error = match (loaded, &walked) {
            (Ok(config), Ok(record)) if self.number(config.path()) == *record => {
                return Ok(config);
            }
            (Ok(config), Ok(record)) => {
                return disagrees(format!("crate loads {:?}, walk {record}", config.path()));
            }
            (Ok(config), Err(met)) => {
                return disagrees(format!(
                    "crate loads {:?}, walk {:?}",
                    config.path(),
                    met.refusal
                ));
            }
            (Err(error), _) => error,
        };
        let met = match walked {
            Ok(record) => return disagrees(format!("crate says {error}, walk loads {record}")),
            Err(met) => met,
        };
        // The crate's word first; the walk fills in what it does not say.
        let said = match &error {
            ResolveError::TsconfigNotFound(path) => {
                if met.missing.as_deref() != Some(text(path)) {
                    return disagrees(format!("crate misses {path:?}, walk {:?}", met.refusal));
                }
                Refusal {
                    number: 8,
                    place: met.refusal.place,
                }
            }
            ResolveError::TsconfigCircularExtend(chain) => Refusal {
                number: 9,
                place: self.number(chain.paths().last().unwrap()),
            },
            ResolveError::TsconfigSelfReference(path) => Refusal {
                number: 10,
                place: self.number(path),
            },
            ResolveError::Specifier(SpecifierError::Empty(_)) => {
                // The entries of a config are read right after the config itself.
                let last = files
                    .last_read
                    .lock()
                    .unwrap()
                    .clone()
                    .expect("a config was read");
                let place = self.number(&last);
                let entry = self.records[place]
                    .extends
                    .iter()
                    .find(|e| !e.starts_with(['/', '.']));
                let number = if entry.is_some_and(String::is_empty) {
                    11
                } else {
                    12
                };
                Refusal { number, place }
            }
            other => return disagrees(format!("crate says {other}, walk {:?}", met.refusal)),
        };
        if said != met.refusal {
            return disagrees(format!(
                "crate says {said:?} ({error}), walk {:?}",
                met.refusal
            ));
        }
        Ok(Err(said)?)
    }

    /// `find_tsconfig_auto` and `resolve_tsconfig_solution`, each config on the walk loaded by the
    /// loader that is handed over.
    fn owner(
        &self,
        path: &Path,
        mut load: impl FnMut(&Path) -> Answer<Arc<TsConfig>>,
    ) -> Answer<Option<(Arc<TsConfig>, Arc<TsConfig>)>> {
        let (_, resolver) = self.fresh();
        if resolver.judged_inside_node_modules(path) {
            return Ok(None);
        }
        for folder in path.ancestors() {
            let config_path = folder.join("tsconfig.json");
            if !resolver.judged_is_file(&config_path) {
                continue;
            }
            let config = load(&config_path)?;
            if config.judged_claims(path) {
                let solution = config.judged_solution(path);
                return Ok(Some((config, solution)));
            }
        }
        Ok(None)
    }

    /// The walk by a single resolver for all its configs, as the crate itself goes, and the crate's
    /// own answer beside it. They must agree, or the walk above is not the crate's.
    fn owner_by_one(&self, path: &Path) -> Answer<Option<(usize, usize)>> {
        let (_, one) = self.fresh();
        let walked = self.owner(path, |config| {
            one.resolve_tsconfig(config)
                .map_err(|error| Stop::Disagrees(error.to_string()))
        });
        let (_, other) = self.fresh();
        let found = other.find_tsconfig(path);
        match (walked, found) {
            (Ok(Some((config, solution))), Ok(Some(theirs)))
                if solution.path() == theirs.path() =>
            {
                Ok(Some((
                    self.number(config.path()),
                    self.number(solution.path()),
                )))
            }
            (Ok(None), Ok(None)) => Ok(None),
            (Err(Stop::Disagrees(ours)), Err(theirs)) if ours == theirs.to_string() => {
                disagrees(ours)
            }
            (ours, theirs) => panic!(
                "{}: the walk by one resolver ({}) is not the crate's ({:?})",
                path.display(),
                if ours.is_ok() { "ends" } else { "stops" },
                theirs.map(|config| config.map(|config| config.path().to_path_buf()))
            ),
        }
    }

    /// The paths that `resolve_tsconfig_compiler_options` tests, as if the folder alone existed.
    fn tries(&self, config: &TsConfig, folder: &Path, specifier: &str) -> Vec<PathBuf> {
        let resolver = ResolverGeneric::new_with_file_system(
            OneFolder(folder.to_path_buf()),
            ResolveOptions {
                extensions: vec![],
                main_files: vec![],
                ..options()
            },
        );
        let (tested, found) = resolver
            .judged_tests(folder, specifier, config)
            .expect("nothing is there that could be at fault");
        assert_eq!(found, None, "nothing is there to be found");
        // Each try is reported as a missing file, and once more as a missing folder if it is none.
        let mut tries = vec![];
        let mut tested = tested.into_iter();
        while let Some(path) = tested.next() {
            if path != folder {
                let again = tested.next();
                assert_eq!(
                    again.as_ref().map(|again| again.as_os_str()),
                    Some(path.as_os_str()),
                    "a try is tested as a file and as a folder"
                );
            }
            tries.push(path);
        }
        tries
    }
}

fn row(out: &mut String, name: &str, value: &Path) {
    writeln!(out, "{name}={}", text(value)).unwrap();
}

fn rows(out: &mut String, name: &str, items: Option<&[PathBuf]>) {
    match items {
        None => {}
        Some([]) => writeln!(out, "{name}").unwrap(),
        Some(items) => items.iter().for_each(|item| row(out, name, item)),
    }
}

fn listing(config: &TsConfig) -> String {
    let options = &config.compiler_options;
    let mut out = String::new();
    rows(&mut out, "files", config.files.as_deref());
    rows(&mut out, "include", config.include.as_deref());
    rows(&mut out, "exclude", config.exclude.as_deref());
    if let Some(base_url) = &options.base_url {
        row(&mut out, "baseUrl", base_url);
    }
    row(&mut out, "base", config.judged_paths_base());
    if let Some(paths) = &options.paths {
        if paths.is_empty() {
            out.push_str("paths\n");
        }
        for (key, targets) in paths {
            writeln!(out, "key={key}").unwrap();
            targets
                .iter()
                .for_each(|target| row(&mut out, "target", target));
        }
    }
    config
        .references
        .iter()
        .for_each(|reference| row(&mut out, "reference", &reference.path));
    rows(&mut out, "rootDir", options.root_dirs.as_deref());
    if let Some(out_dir) = &options.out_dir {
        row(&mut out, "outDir", out_dir);
    }
    if let Some(declaration_dir) = &options.declaration_dir {
        row(&mut out, "declarationDir", declaration_dir);
    }
    let flags = [
        options.experimental_decorators,
        options.emit_decorator_metadata,
        options.strict,
        options.strict_null_checks,
        options.use_define_for_class_fields,
        options.rewrite_relative_import_extensions,
        options.verbatim_module_syntax,
        options.preserve_value_imports,
        options.allow_js,
        options.resolve_json_module,
        options.check_js,
    ];
    for (id, flag) in flags.into_iter().enumerate() {
        if let Some(flag) = flag {
            writeln!(out, "flag {id}={}", u8::from(flag)).unwrap();
        }
    }
    let texts = [
        &options.jsx,
        &options.jsx_factory,
        &options.jsx_fragment_factory,
        &options.jsx_import_source,
        &options.imports_not_used_as_values,
        &options.target,
        &options.module,
    ];
    for (id, value) in texts.into_iter().enumerate() {
        if let Some(value) = value {
            writeln!(out, "text {id}={value}").unwrap();
        }
    }
    out
}

/// An answer that is no refusal.
pub enum Reply {
    Built {
        record: usize,
        merges: usize,
        listing: String,
    },
    Owner(Option<(usize, usize)>),
    Candidates(Vec<PathBuf>),
    Tries(Vec<PathBuf>),
}

impl Reply {
    /// The lines that a program prints.
    pub fn text(&self) -> String {
        match self {
            Self::Built {
                record,
                merges,
                listing,
            } => format!("built {record} {merges}\n{listing}"),
            Self::Owner(None) => "owner none\n".to_string(),
            Self::Owner(Some((found, solution))) => format!("owner {found} {solution}\n"),
            Self::Candidates(paths) => listed("candidates", paths),
            Self::Tries(paths) => listed("tries", paths),
        }
    }
}

fn listed(name: &str, paths: &[PathBuf]) -> String {
    let mut out = format!("{name} {}\n", paths.len());
    paths
        .iter()
        .for_each(|path| writeln!(out, "{}", text(path)).unwrap());
    out
}

impl Book {
    pub fn new(commands: &[u8], text: &[u8]) -> Self {
        let read = book::read(commands, text);
        Self {
            read: read.map(|records| {
                let files = Arc::new(Files::new(&records));
                (records, files)
            }),
        }
    }

    /// The answer to one question, by fresh resolvers.
    pub fn ask(&self, question: Question) -> Answer<Reply> {
        let (records, files) = match &self.read {
            Ok((records, files)) => (records, files),
            Err(refusal) => return Err(Stop::Refused(*refusal)),
        };
        let loader = Loader { records, files };
        match question {
            Question::Build(path) => {
                let config = loader.load(asked(path)?)?;
                let record = loader.number(config.path());
                Ok(Reply::Built {
                    record,
                    merges: walk::merges(records, record),
                    listing: listing(&config),
                })
            }
            Question::Owner(path) => {
                let path = Path::new(asked(path)?);
                let owner = loader.owner(path, |config| loader.load(text(config)))?;
                Ok(Reply::Owner(owner.map(|(config, solution)| {
                    (
                        loader.number(config.path()),
                        loader.number(solution.path()),
                    )
                })))
            }
            Question::Candidates(path, name) => {
                let (path, name) = (asked(path)?, specifier(name)?);
                let config = loader.load(path)?;
                Ok(Reply::Candidates(
                    config.resolve_path_alias_or_base_url(name),
                ))
            }
            Question::Tries(path, folder, name) => {
                let (path, folder, name) = (asked(path)?, asked(folder)?, specifier(name)?);
                let config = loader.load(path)?;
                Ok(Reply::Tries(loader.tries(
                    &config,
                    Path::new(folder),
                    name,
                )))
            }
        }
    }

    /// The records of an accepted book.
    pub fn records(&self) -> Result<&[Record], Refusal> {
        match &self.read {
            Ok((records, _)) => Ok(records),
            Err(refusal) => Err(*refusal),
        }
    }

    /// The answer's text, and whether the judge stands by it.
    pub fn answer(&self, line: &[u8]) -> (String, bool) {
        let Some(question) = Question::parse(line) else {
            return ("unknown\n".to_string(), true);
        };
        match self.ask(question) {
            Ok(reply) => (reply.text(), true),
            Err(Stop::Refused(Refusal { number, place })) => {
                (format!("refused {number} {place}\n"), true)
            }
            Err(Stop::Disagrees(what)) => (format!("judge disagrees: {what}\n"), false),
        }
    }

    /// For a question `O`: what the crate answers with one resolver for the whole walk. `None` for
    /// other questions and for those that are refused before any load.
    pub fn answer_by_one(&self, line: &[u8]) -> Option<String> {
        let Ok((records, files)) = &self.read else {
            return None;
        };
        let Some(Question::Owner(path)) = Question::parse(line) else {
            return None;
        };
        let path = Path::new(asked(path).ok()?);
        Some(match (Loader { records, files }).owner_by_one(path) {
            Ok(owner) => Reply::Owner(owner).text(),
            Err(Stop::Disagrees(error)) => format!("error {error}\n"),
            Err(Stop::Refused(_)) => unreachable!("one resolver's errors are not numbered"),
        })
    }
}
