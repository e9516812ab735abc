//! Stands in for `simdutf8`: the standard library's test.

pub mod basic {
    pub fn from_utf8(bytes: &[u8]) -> Result<&str, std::str::Utf8Error> {
        std::str::from_utf8(bytes)
    }
}
