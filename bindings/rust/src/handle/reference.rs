//! References from generated texts to their maps, and paths between files.

use super::Handle;
use crate::errors::Result;
use crate::ffi;

/// A reference as it is in its text.
pub(crate) struct Reference {
    pub url: String,
    pub is_legacy: bool,
}

pub(crate) fn locate_reference(text: &[u8]) -> Result<Option<Reference>> {
    let mut is_legacy = false;
    // SAFETY: the slice is where it says.
    let url = Handle::fill_if_any(|url, error| unsafe {
        ffi::sm_locate_reference(text.as_ptr(), text.len(), url, &mut is_legacy, error)
    })?;
    Ok(url.map(|url| Reference {
        url: url.made_text().to_owned(),
        is_legacy,
    }))
}

/// A call that makes a text of two texts, each with its length.
type MakeText = unsafe extern "C" fn(
    *const u8,
    usize,
    *const u8,
    usize,
    *mut ffi::Handle,
    *mut ffi::Error,
) -> ffi::Code;

fn make_text_of(call: MakeText, first: &str, second: &str) -> Result<Option<String>> {
    // Both may be the same text, but arguments must not overlap.
    let second = second.to_owned();
    let (at, length) = (second.as_ptr(), second.len());
    // SAFETY: the texts are where they say.
    Handle::fill_text_if_any(|result, error| unsafe {
        call(first.as_ptr(), first.len(), at, length, result, error)
    })
}

/// The URL that a reference leads to from the URL of its text.
pub(crate) fn resolve(url: &str, base: &str) -> Result<Option<String>> {
    make_text_of(ffi::sm_resolve, url, base)
}

/// The path that a reference leads to from the path of its text.
pub(crate) fn resolve_path(url: &str, base: &str) -> Result<Option<String>> {
    make_text_of(ffi::sm_resolve_path, url, base)
}

/// The path from the folder of a file to another file, if both paths are as
/// [`make_relative_path`](crate::make_relative_path) asks.
pub(crate) fn relative_path(base: &str, target: &str) -> Result<String> {
    Ok(make_text_of(ffi::sm_relative_path, base, target)?.unwrap_or_default())
}
