//! RAM bundles.

use super::shared::Shared;
use super::{as_text, check, check_if_any, Handle, MapHandle};
use crate::errors::Result;
use crate::ffi;

/// An indexed RAM bundle.
pub(crate) struct BundleHandle(Shared);

/// What makes the maps of the modules of a RAM bundle.
pub(crate) struct SplitHandle(Handle);

// SAFETY: each call borrows the handle mutably.
unsafe impl Sync for SplitHandle {}

impl BundleHandle {
    pub fn open(bytes: &[u8]) -> Result<BundleHandle> {
        // SAFETY: the slice is where it says.
        Shared::fill(|bundle, error| unsafe {
            ffi::sm_bundle_open(bundle, bytes.as_ptr(), bytes.len(), error)
        })
        .map(BundleHandle)
    }

    /// Another value with the same bundle, without a copy.
    pub fn share(&self) -> Result<BundleHandle> {
        self.0.share().map(BundleHandle)
    }

    pub fn module_count(&self) -> usize {
        let mut modules = 0;
        // SAFETY: it is a handle. It holds a bundle, so the call writes the count.
        unsafe { ffi::sm_bundle_count(self.0.take().at(), &mut modules) };
        modules
    }

    pub fn startup_code(&self) -> Result<&[u8]> {
        let bundle = self.0.take();
        let mut bytes = ffi::Text::EMPTY;
        // SAFETY: it is a handle.
        check(|error| unsafe { ffi::sm_bundle_startup(bundle.at(), &mut bytes, error) })?;
        // SAFETY: the bytes are in the bundle, which never changes.
        Ok(unsafe { bytes.bytes() })
    }

    pub fn module(&self, id: usize) -> Result<Option<&[u8]>> {
        let bundle = self.0.take();
        let mut bytes = ffi::Text::EMPTY;
        // SAFETY: it is a handle.
        let is_there = check_if_any(|error| unsafe {
            ffi::sm_bundle_module(bundle.at(), id, &mut bytes, error)
        })?;
        // SAFETY: the bytes are in the bundle, which never changes.
        Ok(is_there.then(|| unsafe { bytes.bytes() }))
    }
}

impl SplitHandle {
    pub fn open(index: &MapHandle) -> Result<SplitHandle> {
        // SAFETY: both are handles, and not the same.
        Handle::fill(|split, error| unsafe {
            ffi::sm_split_open(split, index.0.take().at(), error)
        })
        .map(SplitHandle)
    }

    /// The text and the map of a module, if the module is there and not skipped.
    pub fn module<'a>(
        &mut self,
        bundle: &'a BundleHandle,
        id: usize,
    ) -> Result<Option<(&'a str, MapHandle)>> {
        // SAFETY: all are handles, and no two the same.
        let map = Handle::fill_if_any(|map, error| unsafe {
            ffi::sm_split_map(self.0.at(), bundle.0.take().at(), id, map, error)
        })?;
        let Some(map) = map else {
            return Ok(None);
        };
        let text = bundle.module(id)?.unwrap_or_default();
        // SAFETY: the text of a module that has a map is UTF-8.
        let text = unsafe { as_text(text) };
        Ok(Some((text, MapHandle(Shared::of(map)?))))
    }
}
