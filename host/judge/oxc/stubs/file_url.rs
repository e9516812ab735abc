//! Stub: no `file:` address is ever resolved.

use std::borrow::Cow;

use crate::ResolveError;

pub fn resolve_file_protocol(specifier: &str) -> Result<Cow<'_, str>, ResolveError> {
    Ok(Cow::Borrowed(specifier))
}
