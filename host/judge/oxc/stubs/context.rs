//! Stub: what a resolution carries along. `tested` is the judge's own: where it is set, each path
//! that `Cache::is_file` and `Cache::is_dir` report to the context is put down in order.

use std::path::{Path, PathBuf};

use crate::ResolveError;

#[derive(Default)]
pub struct ResolveContext {
    pub fully_specified: bool,
    pub resolve_file: bool,
    pub query: Option<String>,
    pub fragment: Option<String>,
    pub file_dependencies: Option<Vec<PathBuf>>,
    pub missing_dependencies: Option<Vec<PathBuf>>,
    pub resolving_alias: Option<String>,
    pub tested: Option<Vec<PathBuf>>,
    pub depth: u8,
}

impl ResolveContext {
    pub fn with_fully_specified(&mut self, yes: bool) {
        self.fully_specified = yes;
    }

    pub fn with_query_fragment(&mut self, query: Option<&str>, fragment: Option<&str>) {
        if let Some(query) = query {
            self.query = Some(query.to_string());
        }
        if let Some(fragment) = fragment {
            self.fragment = Some(fragment.to_string());
        }
    }

    pub fn init_file_dependencies(&mut self) {
        self.file_dependencies = Some(vec![]);
        self.missing_dependencies = Some(vec![]);
    }

    pub fn add_file_dependency(&mut self, path: &Path) {
        if let Some(paths) = &mut self.file_dependencies {
            paths.push(path.to_path_buf());
        }
        self.put_down(path);
    }

    pub fn add_missing_dependency(&mut self, path: &Path) {
        if let Some(paths) = &mut self.missing_dependencies {
            paths.push(path.to_path_buf());
        }
        self.put_down(path);
    }

    fn put_down(&mut self, path: &Path) {
        if let Some(paths) = &mut self.tested {
            paths.push(path.to_path_buf());
        }
    }

    pub fn with_resolving_alias(&mut self, alias: String) {
        self.resolving_alias = Some(alias);
    }

    pub fn test_for_infinite_recursion(&mut self) -> Result<(), ResolveError> {
        self.depth += 1;
        if self.depth > 64 {
            Err(ResolveError::Recursion)
        } else {
            Ok(())
        }
    }
}
