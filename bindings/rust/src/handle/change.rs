//! Maps: what changes them. A call that fails leaves the map as it was.

use super::{check, check_if_any, optional, texts_of, MapHandle};
use crate::debug_id::DebugId;
use crate::errors::{Error, Result};
use crate::ffi;

impl MapHandle {
    fn change(
        &mut self,
        call: impl FnOnce(*mut ffi::Handle, *mut ffi::Error) -> ffi::Code,
    ) -> Result<()> {
        self.0.change(|map| check(|error| call(map, error)))
    }

    /// Makes a change of a source, and returns whether the source exists.
    fn change_source(
        &mut self,
        call: impl FnOnce(*mut ffi::Handle, *mut ffi::Error) -> ffi::Code,
    ) -> Result<bool> {
        self.0.change(|map| check_if_any(|error| call(map, error)))
    }

    pub fn rewrite(
        &mut self,
        with_names: bool,
        with_contents: bool,
        prefixes: &[&str],
    ) -> Result<()> {
        let texts = texts_of(prefixes);
        // SAFETY: the texts are where they say.
        self.change(|map, error| unsafe {
            ffi::sm_rewrite(
                map,
                with_names,
                with_contents,
                texts.as_ptr(),
                texts.len(),
                error,
            )
        })
    }

    pub fn flatten(&mut self) -> Result<()> {
        // SAFETY: it is a handle.
        self.change(|map, error| unsafe { ffi::sm_flatten(map, error) })
    }

    pub fn compose(&mut self, adjustment: &MapHandle) -> Result<()> {
        // SAFETY: both are handles. One is borrowed mutably, so they differ.
        self.change(|map, error| unsafe { ffi::sm_compose(map, adjustment.0.take().at(), error) })
    }

    /// Moves the sections of an index map further down. Returns false, with nothing
    /// changed, if one would pass the last line.
    pub fn shift(&mut self, lines: u32) -> Result<bool> {
        let mut error = ffi::Error::NONE;
        // SAFETY: it is a handle.
        let shift = |map| unsafe { ffi::sm_shift(map, lines, &mut error) };
        match self.0.change(shift) {
            ffi::SM_OK => Ok(true),
            ffi::SM_PAST_LIMIT => Ok(false),
            code => Err(Error::of_call(code, &error)),
        }
    }

    pub fn set_file(&mut self, file: Option<&str>) -> Result<()> {
        let (present, at, length) = optional(file);
        // SAFETY: the text is where it says.
        self.change(|map, error| unsafe { ffi::sm_set_file(map, present, at, length, error) })
    }

    pub fn set_source_root(&mut self, root: Option<&str>) -> Result<()> {
        let (present, at, length) = optional(root);
        // SAFETY: the text is where it says.
        self.change(|map, error| unsafe {
            ffi::sm_set_source_root(map, present, at, length, error)
        })
    }

    pub fn set_debug_id(&mut self, id: Option<DebugId>) -> Result<()> {
        let bytes = id.unwrap_or_default();
        // SAFETY: the id is a value of this function.
        self.change(|map, error| unsafe { ffi::sm_set_debug_id(map, id.is_some(), &bytes, error) })
    }

    pub fn set_source(&mut self, id: u32, text: &str) -> Result<bool> {
        // SAFETY: the text is where it says.
        self.change_source(|map, error| unsafe {
            ffi::sm_set_source(map, id, text.as_ptr(), text.len(), error)
        })
    }

    pub fn set_contents(&mut self, id: u32, contents: Option<&str>) -> Result<bool> {
        let (present, at, length) = optional(contents);
        // SAFETY: the text is where it says.
        self.change_source(|map, error| unsafe {
            ffi::sm_set_contents(map, id, present, at, length, error)
        })
    }

    pub fn ignore_source(&mut self, id: u32) -> Result<bool> {
        // SAFETY: it is a handle.
        self.change_source(|map, error| unsafe { ffi::sm_ignore_source(map, id, error) })
    }

    pub fn remove_names(&mut self) -> Result<()> {
        // SAFETY: it is a handle.
        self.change(|map, error| unsafe { ffi::sm_remove_names(map, error) })
    }
}
