//! Paths, and what several modules use.

use std::io::{Read, Write};

use crate::errors::Result;
use crate::handle;

/// Returns the path that leads from the folder of a file to another file, as from a
/// generated text to its map. Both `/` and `\` separate the parts of a path. Both
/// paths must start from the same folder, and no part of the folder of `base` may be
/// `.` or `..`. Otherwise the path may lead to another file.
///
/// ```
/// use sourcemap::make_relative_path;
/// assert_eq!(make_relative_path("/foo/bar/baz.js", "/foo/baz.map"), "../baz.map");
/// ```
pub fn make_relative_path(base: &str, target: &str) -> String {
    must(handle::relative_path(base, target))
}

/// Reads a reader to its end.
pub(crate) fn read_all<R: Read>(mut rdr: R) -> Result<Vec<u8>> {
    let mut bytes = Vec::new();
    rdr.read_to_end(&mut bytes)?;
    Ok(bytes)
}

pub(crate) fn write_all<W: Write>(mut w: W, text: &str) -> Result<()> {
    Ok(w.write_all(text.as_bytes())?)
}

/// The value of a result, in calls whose signature has no error. Panics with the
/// error, which is mostly that memory ran out.
#[track_caller]
pub(crate) fn must<T>(result: Result<T>) -> T {
    match result {
        Ok(value) => value,
        Err(error) => panic!("sourcemap: {error}"),
    }
}
