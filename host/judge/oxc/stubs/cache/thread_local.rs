//! Stub: the path that the cached path's functions write into.

use std::{cell::RefCell, path::PathBuf};

thread_local! {
    pub static SCRATCH_PATH: RefCell<PathBuf> = RefCell::new(PathBuf::with_capacity(256));
}
