//! Whether bytes are a map, and which map a generated text refers to.

use std::io::{BufRead, BufReader, Read};
use std::path::{Path, PathBuf};

use crate::decoder::decode_data_url;
use crate::errors::Result;
use crate::handle::{self, Reference};
use crate::types::DecodedMap;
use crate::utils::{must, read_all};

/// A reference from a generated text to its map.
#[derive(PartialEq, Eq, Debug)]
pub enum SourceMapRef {
    /// Of a comment that begins with `//#`.
    Ref(String),
    /// Of a comment that begins with `//@`.
    LegacyRef(String),
}

impl SourceMapRef {
    /// Returns the reference as it is in its text.
    pub fn get_url(&self) -> &str {
        match self {
            SourceMapRef::Ref(url) | SourceMapRef::LegacyRef(url) => url,
        }
    }

    /// Returns the URL that the reference leads to from the URL of its text. Returns
    /// none if the reference begins with `data:`, in lower case, or if `minified_url`
    /// or the reference is rejected as a URL. May also return none if `minified_url`
    /// and the reference together have 2^28 bytes or more. Escapes that parsing adds to
    /// `minified_url` count too.
    pub fn resolve(&self, minified_url: &str) -> Option<String> {
        must(handle::resolve(self.get_url(), minified_url))
    }

    /// Returns the path that the reference leads to from the path of its text.
    /// Returns none if the reference is a `data:` URL or leads to no path of a file.
    /// Returns none if `minified_path` is not UTF-8 or does not begin with `/`. May
    /// also return none if the `file` URL of `minified_path`, with its escapes and each
    /// `..`, and the reference together have 2^28 bytes or more.
    pub fn resolve_path(&self, minified_path: &Path) -> Option<PathBuf> {
        resolve_path(self.get_url(), minified_path)
    }

    /// Returns the map in a reference that begins with `data:`, in lower case. Returns
    /// none of any other reference.
    pub fn get_embedded_sourcemap(&self) -> Result<Option<DecodedMap>> {
        let url = self.get_url();
        if url.starts_with("data:") {
            decode_data_url(url).map(Some)
        } else {
            Ok(None)
        }
    }
}

/// The path that a reference leads to from the path `base`. None if `base` is not
/// UTF-8, or if the reference leads to no path.
pub(crate) fn resolve_path(reference: &str, base: &Path) -> Option<PathBuf> {
    must(handle::resolve_path(reference, base.to_str()?)).map(PathBuf::from)
}

/// Reads a generated text up to its first reference, and returns that, as
/// [`locate_sourcemap_reference_slice`] does. What is after the line of the reference
/// may be read in part.
pub fn locate_sourcemap_reference<R: Read>(rdr: R) -> Result<Option<SourceMapRef>> {
    let mut text = BufReader::new(rdr);
    let mut line = Vec::new();
    while text.read_until(b'\n', &mut line)? != 0 {
        let found = locate_sourcemap_reference_slice(&line)?;
        if found.is_some() {
            return Ok(found);
        }
        line.clear();
    }
    Ok(None)
}

/// Returns the first reference to a map in a generated text. A reference is a line
/// that begins with `//# sourceMappingURL=` or `//@ sourceMappingURL=`. Only a line
/// feed ends a line here. Fails with [`Error::Io`](crate::Error::Io) if a line is not
/// UTF-8, and no line before it has a reference.
///
/// ```
/// use sourcemap::{locate_sourcemap_reference_slice, SourceMapRef};
/// let found = locate_sourcemap_reference_slice(b"f();\n//# sourceMappingURL=a.js.map\n");
/// assert_eq!(found.unwrap(), Some(SourceMapRef::Ref("a.js.map".into())));
/// ```
pub fn locate_sourcemap_reference_slice(slice: &[u8]) -> Result<Option<SourceMapRef>> {
    let found = handle::locate_reference(slice)?;
    Ok(found.map(|Reference { url, is_legacy }| match is_legacy {
        true => SourceMapRef::LegacyRef(url),
        false => SourceMapRef::Ref(url),
    }))
}

/// Returns whether a reader yields a map. A reader that fails yields none.
pub fn is_sourcemap<R: Read>(rdr: R) -> bool {
    read_all(rdr).is_ok_and(|bytes| is_sourcemap_slice(&bytes))
}

/// Returns whether bytes are a map, by the keys and the version of their JSON value.
pub fn is_sourcemap_slice(slice: &[u8]) -> bool {
    handle::is_source_map(slice).unwrap_or(false)
}
