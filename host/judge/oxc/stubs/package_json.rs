//! Stub: types for `package.json`, which no question of the judge reads. Should one be read after
//! all, the judge stops.

use std::{
    iter,
    marker::PhantomData,
    path::{Path, PathBuf},
};

use crate::{FileSystem, JSONError, ResolveError};

pub struct PackageJson {
    pub path: PathBuf,
}

#[derive(Clone, Copy, Debug, PartialEq, Eq)]
pub enum PackageType {
    CommonJs,
    Module,
}

#[derive(Clone, Copy, Debug, PartialEq, Eq)]
pub enum SideEffects {}

#[derive(Clone, Copy, Debug, PartialEq, Eq)]
pub enum ImportsExportsKind {
    String,
    Array,
    Map,
    Invalid,
}

#[derive(Clone, Copy)]
pub struct ImportsExportsEntry<'a>(PhantomData<&'a ()>);

#[derive(Clone, Copy)]
pub struct ImportsExportsArray<'a>(PhantomData<&'a ()>);

#[derive(Clone, Copy)]
pub struct ImportsExportsMap<'a>(PhantomData<&'a ()>);

impl PackageJson {
    pub fn parse(
        _fs: &dyn FileSystem,
        path: PathBuf,
        _real_path: PathBuf,
        _bytes: Vec<u8>,
    ) -> Result<Self, JSONError> {
        panic!("a package.json is read: {}", path.display())
    }

    pub fn path(&self) -> &Path {
        &self.path
    }

    pub fn directory(&self) -> &Path {
        self.path.parent().unwrap()
    }

    pub fn name(&self) -> Option<&str> {
        None
    }

    pub fn r#type(&self) -> Option<PackageType> {
        None
    }

    pub fn main_fields<'a>(&'a self, _names: &'a [String]) -> impl Iterator<Item = &'a str> + 'a {
        iter::empty()
    }

    pub fn exports_fields<'a>(
        &'a self,
        _names: &'a [Vec<String>],
    ) -> impl Iterator<Item = ImportsExportsEntry<'a>> + 'a {
        iter::empty()
    }

    pub fn imports_fields<'a>(
        &'a self,
        _names: &'a [Vec<String>],
    ) -> impl Iterator<Item = ImportsExportsMap<'a>> + 'a {
        iter::empty()
    }

    pub fn resolve_browser_field<'a>(
        &'a self,
        _path: &Path,
        _specifier: Option<&str>,
        _names: &'a [Vec<String>],
    ) -> Result<Option<&'a str>, ResolveError> {
        Ok(None)
    }
}

impl<'a> ImportsExportsEntry<'a> {
    pub fn kind(&self) -> ImportsExportsKind {
        ImportsExportsKind::Invalid
    }

    pub fn as_string(&self) -> Option<&'a str> {
        None
    }

    pub fn as_array(&self) -> Option<ImportsExportsArray<'a>> {
        None
    }

    pub fn as_map(&self) -> Option<ImportsExportsMap<'a>> {
        None
    }
}

impl<'a> ImportsExportsArray<'a> {
    pub fn len(&self) -> usize {
        0
    }

    pub fn is_empty(&self) -> bool {
        true
    }

    pub fn iter(&self) -> impl Iterator<Item = ImportsExportsEntry<'a>> + 'a {
        iter::empty()
    }
}

impl<'a> ImportsExportsMap<'a> {
    pub fn keys(&self) -> impl Iterator<Item = &'a str> + 'a {
        iter::empty()
    }

    pub fn get(&self, _key: &str) -> Option<ImportsExportsEntry<'a>> {
        None
    }

    pub fn iter(&self) -> impl Iterator<Item = (&'a str, ImportsExportsEntry<'a>)> + 'a {
        iter::empty()
    }
}
