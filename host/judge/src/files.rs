//! File systems for the crate to run over: one made from a book, and one with a single folder.

use std::{
    collections::{HashMap, HashSet},
    io,
    path::{Path, PathBuf},
    sync::{Arc, Mutex},
};

use oxc_resolver::{FileMetadata, FileSystem, ResolveError};

use crate::book::Record;

/// Each record as JSON text at its path; the folders are the proper ancestors of those paths.
pub struct Files {
    texts: HashMap<PathBuf, String>,
    folders: HashSet<PathBuf>,
}

impl Files {
    pub fn new(records: &[Record]) -> Self {
        let mut files = Self {
            texts: HashMap::new(),
            folders: HashSet::new(),
        };
        for record in records {
            let path = PathBuf::from(&record.path);
            files
                .folders
                .extend(path.ancestors().skip(1).map(Path::to_path_buf));
            files.texts.insert(path, json(record));
        }
        files
    }
}

fn quoted(text: &str) -> String {
    // A book's strings hold neither backslashes nor control bytes.
    format!("\"{}\"", text.replace('"', "\\\""))
}

fn list(items: &[String]) -> String {
    format!(
        "[{}]",
        items
            .iter()
            .map(|item| quoted(item))
            .collect::<Vec<_>>()
            .join(",")
    )
}

const FLAGS: [&str; 11] = [
    "experimentalDecorators",
    "emitDecoratorMetadata",
    "strict",
    "strictNullChecks",
    "useDefineForClassFields",
    "rewriteRelativeImportExtensions",
    "verbatimModuleSyntax",
    "preserveValueImports",
    "allowJs",
    "resolveJsonModule",
    "checkJs",
];

const TEXTS: [&str; 7] = [
    "jsx",
    "jsxFactory",
    "jsxFragmentFactory",
    "jsxImportSource",
    "importsNotUsedAsValues",
    "target",
    "module",
];

/// A record as JSON. An extends entry that 12 refuses is written as an empty one: the crate then
/// stops at it, in its own order, and does not look for a package.
pub fn json(record: &Record) -> String {
    let mut members: Vec<String> = vec![];
    let mut options: Vec<String> = vec![];
    for (name, items) in [
        ("files", &record.files),
        ("include", &record.include),
        ("exclude", &record.exclude),
    ] {
        if let Some(items) = items {
            members.push(format!("\"{name}\":{}", list(items)));
        }
    }
    let extends: Vec<String> = record
        .extends
        .iter()
        .map(|entry| {
            if entry.starts_with(['/', '.']) {
                entry.clone()
            } else {
                String::new()
            }
        })
        .collect();
    match &extends[..] {
        [] => {}
        [one] => members.push(format!("\"extends\":{}", quoted(one))),
        more => members.push(format!("\"extends\":{}", list(more))),
    }
    if !record.references.is_empty() {
        let items: Vec<String> = record
            .references
            .iter()
            .map(|path| format!("{{\"path\":{}}}", quoted(path)))
            .collect();
        members.push(format!("\"references\":[{}]", items.join(",")));
    }
    if let Some(paths) = &record.paths {
        let keys: Vec<String> = paths
            .iter()
            .map(|(key, targets)| format!("{}:{}", quoted(key), list(targets)))
            .collect();
        options.push(format!("\"paths\":{{{}}}", keys.join(",")));
    }
    if let Some(items) = &record.root_dirs {
        options.push(format!("\"rootDirs\":{}", list(items)));
    }
    for (name, value) in [
        ("baseUrl", &record.base_url),
        ("outDir", &record.out_dir),
        ("declarationDir", &record.declaration_dir),
    ] {
        if let Some(value) = value {
            options.push(format!("\"{name}\":{}", quoted(value)));
        }
    }
    for (name, value) in FLAGS.iter().zip(&record.flags) {
        if let Some(value) = value {
            options.push(format!("\"{name}\":{value}"));
        }
    }
    for (name, value) in TEXTS.iter().zip(&record.texts) {
        if let Some(value) = value {
            options.push(format!("\"{name}\":{}", quoted(value)));
        }
    }
    if !options.is_empty() {
        members.push(format!("\"compilerOptions\":{{{}}}", options.join(",")));
    }
    format!("{{{}}}", members.join(","))
}

fn missing<T>() -> io::Result<T> {
    Err(io::Error::from(io::ErrorKind::NotFound))
}

/// What one resolver sees of the book, with a note of the last config it read.
#[derive(Clone)]
pub struct BookFiles {
    files: Arc<Files>,
    pub last_read: Arc<Mutex<Option<PathBuf>>>,
}

impl BookFiles {
    pub fn over(files: &Arc<Files>) -> Self {
        Self {
            files: Arc::clone(files),
            last_read: Arc::default(),
        }
    }
}

impl FileSystem for BookFiles {
    fn new() -> Self {
        Self::over(&Arc::new(Files::new(&[])))
    }

    fn read(&self, path: &Path) -> io::Result<Vec<u8>> {
        self.read_to_string(path).map(String::into_bytes)
    }

    fn read_to_string(&self, path: &Path) -> io::Result<String> {
        let Some(text) = self.files.texts.get(path) else {
            return missing();
        };
        *self.last_read.lock().unwrap() = Some(path.to_path_buf());
        Ok(text.clone())
    }

    fn metadata(&self, path: &Path) -> io::Result<FileMetadata> {
        if self.files.texts.contains_key(path) {
            Ok(FileMetadata::new(true, false, false))
        } else if self.files.folders.contains(path) {
            Ok(FileMetadata::new(false, true, false))
        } else {
            missing()
        }
    }

    fn symlink_metadata(&self, path: &Path) -> io::Result<FileMetadata> {
        self.metadata(path)
    }

    fn read_link(&self, _path: &Path) -> Result<PathBuf, ResolveError> {
        Err(io::Error::from(io::ErrorKind::NotFound).into())
    }

    fn canonicalize(&self, path: &Path) -> io::Result<PathBuf> {
        self.metadata(path).map(|_| path.to_path_buf())
    }
}

/// A file system where one folder alone exists.
#[derive(Clone)]
pub struct OneFolder(pub PathBuf);

impl FileSystem for OneFolder {
    fn new() -> Self {
        Self(PathBuf::from("/"))
    }

    fn read(&self, _path: &Path) -> io::Result<Vec<u8>> {
        missing()
    }

    fn read_to_string(&self, _path: &Path) -> io::Result<String> {
        missing()
    }

    fn metadata(&self, path: &Path) -> io::Result<FileMetadata> {
        if path == self.0 {
            Ok(FileMetadata::new(false, true, false))
        } else {
            missing()
        }
    }

    fn symlink_metadata(&self, path: &Path) -> io::Result<FileMetadata> {
        self.metadata(path)
    }

    fn read_link(&self, _path: &Path) -> Result<PathBuf, ResolveError> {
        Err(io::Error::from(io::ErrorKind::NotFound).into())
    }

    fn canonicalize(&self, path: &Path) -> io::Result<PathBuf> {
        self.metadata(path).map(|_| path.to_path_buf())
    }
}
