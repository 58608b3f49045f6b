//! Maps that are being built.

use std::sync::{Mutex, PoisonError};

use super::{check, check_if_any, optional, texts_of, Handle, MapHandle};
use crate::debug_id::DebugId;
use crate::errors::{Error, Result};
use crate::ffi;
use crate::types::RawToken;

/// A map that is being built. The lock is for the one call that does not change it.
pub(crate) struct BuilderHandle(Handle, Mutex<()>);

// SAFETY: the calls that borrow the handle immutably take the lock.
unsafe impl Sync for BuilderHandle {}

impl BuilderHandle {
    pub fn new() -> Result<BuilderHandle> {
        let (present, at, length) = optional(None);
        // SAFETY: the text is where it says.
        Handle::fill(|builder, error| unsafe {
            ffi::sm_builder_new(builder, present, at, length, error)
        })
        .map(|handle| BuilderHandle(handle, Mutex::default()))
    }

    pub fn set_source_root(&mut self, root: Option<&str>) -> Result<()> {
        let (present, at, length) = optional(root);
        // SAFETY: the text is where it says.
        check(|error| unsafe {
            ffi::sm_builder_set_source_root(self.0.at(), present, at, length, error)
        })
    }

    pub fn set_debug_id(&mut self, id: Option<DebugId>) -> Result<()> {
        let bytes = id.unwrap_or_default();
        // SAFETY: the id is a value of this function.
        check(|error| unsafe {
            ffi::sm_builder_set_debug_id(self.0.at(), id.is_some(), &bytes, error)
        })
    }

    /// The id of a source. Equal texts have one id.
    pub fn add_source(&mut self, text: &str) -> Result<u32> {
        let mut id = 0;
        // SAFETY: the text is where it says.
        check(|error| unsafe {
            ffi::sm_builder_add_source(self.0.at(), text.as_ptr(), text.len(), &mut id, error)
        })?;
        Ok(id)
    }

    /// The id of a name. Equal texts have one id.
    pub fn add_name(&mut self, text: &str) -> Result<u32> {
        let mut id = 0;
        // SAFETY: the text is where it says.
        check(|error| unsafe {
            ffi::sm_builder_add_name(self.0.at(), text.as_ptr(), text.len(), &mut id, error)
        })?;
        Ok(id)
    }

    pub fn source(&self, id: u32) -> Option<&str> {
        let _alone = self.1.lock().unwrap_or_else(PoisonError::into_inner);
        // SAFETY: the text is in the builder.
        unsafe {
            self.0
                .text(|builder, text| ffi::sm_builder_source(builder, id, text))
        }
    }

    /// Sets the text of a source, and returns whether the source exists.
    pub fn set_source(&mut self, id: u32, source: &str) -> Result<bool> {
        // SAFETY: the text is where it says.
        check_if_any(|error| unsafe {
            ffi::sm_builder_set_source(self.0.at(), id, source.as_ptr(), source.len(), error)
        })
    }

    pub fn strip_prefixes<S: AsRef<str>>(&mut self, prefixes: &[S]) -> Result<()> {
        let texts = texts_of(prefixes);
        // SAFETY: the texts are where they say.
        check(|error| unsafe {
            ffi::sm_builder_strip_prefixes(self.0.at(), texts.as_ptr(), texts.len(), error)
        })
    }

    pub fn set_contents(&mut self, id: u32, contents: &str) -> Result<()> {
        let (present, at, length) = optional(Some(contents));
        // SAFETY: the text is where it says.
        check(|error| unsafe {
            ffi::sm_builder_set_contents(self.0.at(), id, present, at, length, error)
        })
    }

    /// Adds tokens. If memory runs out, those that were not added stay in the list.
    pub fn add_tokens(&mut self, tokens: &mut Vec<RawToken>) -> Result<()> {
        let mut error = ffi::Error::NONE;
        // SAFETY: the list is where it says.
        let added = unsafe {
            ffi::sm_builder_add_tokens(self.0.at(), tokens.as_ptr(), tokens.len(), &mut error)
        };
        tokens.drain(..added);
        if tokens.is_empty() {
            Ok(())
        } else {
            Err(Error::of_call(error.code, &error))
        }
    }

    pub fn finish(self) -> Result<MapHandle> {
        // SAFETY: both are handles, and not the same.
        MapHandle::fill(|map, error| unsafe { ffi::sm_builder_finish(self.0.at(), map, error) })
    }
}
