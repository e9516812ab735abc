//! Stub: a path's metadata, asked of the file system once, for the link and for what it leads to.

use once_cell::sync::OnceCell;

use crate::FileMetadata;

#[derive(Default)]
pub struct CachedMeta {
    link: OnceCell<Option<FileMetadata>>,
    followed: OnceCell<Option<FileMetadata>>,
}

impl CachedMeta {
    pub fn new() -> Self {
        Self::default()
    }

    pub fn link_or_init(&self, ask: impl FnOnce() -> Option<FileMetadata>) -> Option<FileMetadata> {
        *self.link.get_or_init(ask)
    }

    pub fn followed_or_init(
        &self,
        ask: impl FnOnce() -> Option<FileMetadata>,
    ) -> Option<FileMetadata> {
        *self.followed.get_or_init(ask)
    }
}
