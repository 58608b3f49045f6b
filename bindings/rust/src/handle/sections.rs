//! Index maps that are made of sections.

use super::{check, optional, texts_of, Handle, MapHandle};
use crate::errors::Result;
use crate::ffi;

/// The sections of an index map that is being made.
pub(crate) struct SectionsHandle(Handle);

impl SectionsHandle {
    pub fn new() -> Result<SectionsHandle> {
        // SAFETY: it is a handle.
        Handle::fill(|sections, error| unsafe { ffi::sm_sections_new(sections, error) })
            .map(SectionsHandle)
    }

    /// Adds a section that begins at this line and column, with a copy of the
    /// map.
    pub fn add(
        &mut self,
        (line, column): (u32, u32),
        url: Option<&str>,
        map: Option<&MapHandle>,
    ) -> Result<()> {
        let (has_url, at, length) = optional(url);
        let none = Handle::empty();
        let taken = map.map(|map| map.0.take());
        let map_at = taken.as_ref().map_or(none.at(), |map| map.at());
        // SAFETY: the text is where it says, and both are handles, not the same.
        check(|error| unsafe {
            ffi::sm_sections_add(
                self.0.at(),
                line,
                column,
                has_url,
                at,
                length,
                map.is_some(),
                map_at,
                error,
            )
        })
    }

    /// The index map of these sections, and of the lists of a RAM bundle.
    pub fn finish(
        self,
        file: Option<&str>,
        offsets: Option<&[Option<u32>]>,
        paths: Option<&[String]>,
    ) -> Result<MapHandle> {
        let (has_file, at, length) = optional(file);
        let lines: Vec<u32> = offsets
            .unwrap_or_default()
            .iter()
            .map(|line| line.unwrap_or(ffi::SM_NONE))
            .collect();
        let texts = texts_of(paths.unwrap_or_default());
        // SAFETY: the lists and texts are where they say, and both are handles,
        // not the same.
        MapHandle::fill(|map, error| unsafe {
            ffi::sm_sections_finish(
                self.0.at(),
                map,
                has_file,
                at,
                length,
                offsets.is_some(),
                lines.as_ptr(),
                lines.len(),
                paths.is_some(),
                texts.as_ptr(),
                texts.len(),
                error,
            )
        })
    }
}
