//! Stub: joins the two files of the cache that are the crate's own with three small ones.

mod cache_impl;
mod cached_meta;
mod cached_path;
mod hasher;
mod thread_local;

pub use cache_impl::Cache;
pub use cached_path::CachedPath;
