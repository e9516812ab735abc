//! A file system of texts in memory for the crate: no locks, and nothing noted.

use std::collections::{HashMap, HashSet};
use std::io;
use std::path::{Path, PathBuf};
use std::sync::Arc;

use judge::book::Record;
use oxc_resolver::{FileMetadata, FileSystem, ResolveError};

#[derive(Clone, Default)]
pub struct Texts {
    texts: Arc<HashMap<PathBuf, String>>,
    folders: Arc<HashSet<PathBuf>>,
}

impl Texts {
    pub fn of(records: &[Record]) -> Self {
        let mut texts = HashMap::new();
        let mut folders = HashSet::new();
        for record in records {
            let path = PathBuf::from(&record.path);
            folders.extend(path.ancestors().skip(1).map(Path::to_path_buf));
            texts.insert(path, judge::files::json(record));
        }
        Self { texts: Arc::new(texts), folders: Arc::new(folders) }
    }
}

fn missing<T>() -> io::Result<T> {
    Err(io::Error::from(io::ErrorKind::NotFound))
}

impl FileSystem for Texts {
    fn new() -> Self {
        Self::default()
    }

    fn read(&self, path: &Path) -> io::Result<Vec<u8>> {
        self.read_to_string(path).map(String::into_bytes)
    }

    fn read_to_string(&self, path: &Path) -> io::Result<String> {
        self.texts.get(path).cloned().map_or_else(missing, Ok)
    }

    fn metadata(&self, path: &Path) -> io::Result<FileMetadata> {
        if self.texts.contains_key(path) {
            Ok(FileMetadata::new(true, false, false))
        } else if self.folders.contains(path) {
            Ok(FileMetadata::new(false, true, false))
        } else {
            missing()
        }
    }

    fn symlink_metadata(&self, path: &Path) -> io::Result<FileMetadata> {
        self.metadata(path)
    }

    fn read_link(&self, _path: &Path) -> Result<PathBuf, ResolveError> {
        Err(io::Error::from(io::ErrorKind::NotFound).into())
    }

    fn canonicalize(&self, path: &Path) -> io::Result<PathBuf> {
        self.metadata(path).map(|_| path.to_path_buf())
    }
}
