//! Stands in for `json-strip-comments`. The judge writes its JSON itself, without comments or
//! trailing commas, so there is nothing to strip.

pub fn strip_slice(_json: &mut [u8]) -> Result<(), std::io::Error> {
    Ok(())
}
