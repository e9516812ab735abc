//! Stands in for `compact_str`: the same text in a plain `String`.

#[derive(Clone, Debug, PartialEq, Eq, Hash)]
pub struct CompactString(String);

impl CompactString {
    pub fn new(text: &str) -> Self {
        Self(text.to_string())
    }

    pub fn as_str(&self) -> &str {
        &self.0
    }

    pub fn len(&self) -> usize {
        self.0.len()
    }

    pub fn is_empty(&self) -> bool {
        self.0.is_empty()
    }
}
