//! Stub: the variable NODE_PATH is not read.

pub struct NodePath;

impl NodePath {
    pub fn build() -> &'static [String] {
        &[]
    }
}
