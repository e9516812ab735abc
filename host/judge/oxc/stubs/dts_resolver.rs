//! Stub, and the judge's way into the crate: a module of the crate's own tree, so that it can call
//! what the crate keeps to itself. Nothing is decided here; each function hands on one of the
//! crate's, or, for the tries, puts down the paths that the crate's function tests.

use std::{
    path::{Path, PathBuf},
    sync::Arc,
};

use crate::{Ctx, FileSystem, ResolveError, ResolverImpl, TsConfig};

impl TsConfig {
    pub fn judged_paths_base(&self) -> &Path {
        &self.compiler_options.paths_base
    }

    pub fn judged_claims(&self, path: &Path) -> bool {
        self.claims_ownership_of(path)
    }

    pub fn judged_solution(self: &Arc<Self>, path: &Path) -> Arc<Self> {
        Self::resolve_tsconfig_solution(Arc::clone(self), path)
    }
}

impl ResolverImpl {
    /// Is the path inside `node_modules`, by the crate's cached path?
    pub fn judged_inside_node_modules(&self, path: &Path) -> bool {
        self.cache.value(path).inside_node_modules()
    }

    /// Is the path a file, by the crate's cache?
    pub fn judged_is_file(&self, path: &Path) -> bool {
        self.is_file(&self.cache.value(path), &mut Ctx::default())
    }

    /// Runs `resolve_tsconfig_compiler_options` and gives the paths that it tested, as the context
    /// was told of them, with what it found. This resolver has no extensions and no main files, so
    /// that each path is tested as itself alone.
    pub fn judged_tests(
        &self,
        directory: &Path,
        specifier: &str,
        tsconfig: &TsConfig,
    ) -> Result<(Vec<PathBuf>, Option<PathBuf>), ResolveError> {
        let mut ctx = Ctx {
            tested: Some(vec![]),
            ..Ctx::default()
        };
        let directory = self.cache.value(directory);
        let found = self.resolve_tsconfig_compiler_options(
            &directory,
            specifier,
            Some(tsconfig),
            &mut ctx,
        )?;
        Ok((
            ctx.tested.take().unwrap(),
            found.map(|path| path.to_path_buf()),
        ))
    }
}
