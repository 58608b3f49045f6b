//! Handles of the library, and its calls as safe functions.
//!
//! This module keeps to what `sourcemap.h` asks of a caller. A handle is used by one
//! call at a time: it is not `Sync`, the library does not call Rust code, and a value that
//! threads share gives each call a handle that no other call has (see `shared`). A
//! text that points into a handle is borrowed from it. A function that changes a
//! handle borrows the handle mutably. A pointer is never null, not even that of an
//! empty slice.

mod build;
mod bundle;
mod change;
pub(crate) mod compiled;
mod debug_id;
mod map;
mod reference;
mod report;
mod sections;
mod segment;
mod shared;
mod span;
mod view;

use std::cell::UnsafeCell;
use std::slice;
use std::str;
use std::sync::Once;

pub(crate) use self::build::BuilderHandle;
pub(crate) use self::bundle::{BundleHandle, SplitHandle};
pub(crate) use self::debug_id::{debug_id_text, parse_debug_id};
pub(crate) use self::map::{is_source_map, Kind, MapHandle};
pub(crate) use self::reference::{
    locate_reference, relative_path, resolve, resolve_path, Reference,
};
pub(crate) use self::report::ReportHandle;
pub(crate) use self::sections::SectionsHandle;
pub(crate) use self::segment::{parse_segment, write_segment};
pub(crate) use self::view::ViewHandle;

use crate::errors::{Error, Result};
use crate::ffi;

/// What the library keeps in memory. It is closed when it is dropped.
struct Handle(UnsafeCell<ffi::Handle>);

// SAFETY: the header allows a handle to move to another thread, and each of several
// handles that share a map to be used by another thread.
unsafe impl Send for Handle {}

impl Handle {
    fn empty() -> Handle {
        check_interface();
        Handle(UnsafeCell::new(ffi::Handle::EMPTY))
    }

    /// The address that calls take. The cell makes it mutable: calls that leave
    /// a handle as it is take it by mutable pointer too.
    #[inline]
    fn at(&self) -> *mut ffi::Handle {
        self.0.get()
    }

    /// A handle that a call fills.
    fn fill(call: impl FnOnce(*mut ffi::Handle, *mut ffi::Error) -> ffi::Code) -> Result<Handle> {
        let handle = Handle::empty();
        check(|error| call(handle.at(), error))?;
        Ok(handle)
    }

    /// A handle that a call fills, or none if there is nothing to fill it with.
    fn fill_if_any(
        call: impl FnOnce(*mut ffi::Handle, *mut ffi::Error) -> ffi::Code,
    ) -> Result<Option<Handle>> {
        let handle = Handle::empty();
        let is_there = check_if_any(|error| call(handle.at(), error))?;
        Ok(is_there.then_some(handle))
    }

    /// The text that a call makes.
    fn fill_text(
        call: impl FnOnce(*mut ffi::Handle, *mut ffi::Error) -> ffi::Code,
    ) -> Result<String> {
        Ok(Handle::fill(call)?.made_text().to_owned())
    }

    /// The text that a call makes, or none if there is nothing to make it of.
    fn fill_text_if_any(
        call: impl FnOnce(*mut ffi::Handle, *mut ffi::Error) -> ffi::Code,
    ) -> Result<Option<String>> {
        Ok(Handle::fill_if_any(call)?.map(|text| text.made_text().to_owned()))
    }

    /// The text that a call points to in this handle.
    ///
    /// # Safety
    ///
    /// As of [`lent_text`].
    unsafe fn text(
        &self,
        ask: impl FnOnce(*mut ffi::Handle, *mut ffi::Text) -> ffi::Code,
    ) -> Option<&str> {
        // SAFETY: what this function asks of its caller. The handle does not change while
        // it is borrowed.
        unsafe { lent_text(|text| ask(self.at(), text)) }
    }

    /// The bytes of a handle that a call filled with some.
    fn made_bytes(&self) -> &[u8] {
        let mut bytes = ffi::Text::EMPTY;
        // SAFETY: it is a handle. It does not change while it is borrowed, so neither do its bytes.
        unsafe {
            ffi::sm_bytes_text(self.at(), &mut bytes);
            bytes.bytes()
        }
    }

    /// The text of a handle that a call filled with one.
    fn made_text(&self) -> &str {
        // SAFETY: the calls that make texts make UTF-8.
        unsafe { self.text(|bytes, text| ffi::sm_bytes_text(bytes, text)) }.unwrap_or_default()
    }
}

impl Drop for Handle {
    fn drop(&mut self) {
        // SAFETY: the handle is not used afterwards.
        unsafe { ffi::sm_close(self.at()) }
    }
}

/// The text that a call points to.
///
/// # Safety
///
/// If the call succeeds, it points to UTF-8 that lives as long as `'a`, unchanged.
#[inline]
unsafe fn lent_text<'a>(ask: impl FnOnce(*mut ffi::Text) -> ffi::Code) -> Option<&'a str> {
    let mut text = ffi::Text::EMPTY;
    match ask(&mut text) {
        // SAFETY: what this function asks of its caller.
        ffi::SM_OK => Some(unsafe { as_text(text.bytes()) }),
        _ => None,
    }
}

impl ffi::Text {
    /// # Safety
    ///
    /// What the text points to lives as long as `'a`, unchanged.
    unsafe fn bytes<'a>(&self) -> &'a [u8] {
        if self.length == 0 {
            return &[];
        }
        // SAFETY: the library wrote where the text is and how long.
        unsafe { slice::from_raw_parts(self.at, self.length) }
    }
}

/// # Safety
///
/// The bytes are UTF-8, as all texts of the library are.
unsafe fn as_text(bytes: &[u8]) -> &str {
    debug_assert!(str::from_utf8(bytes).is_ok());
    // SAFETY: what this function asks of its caller.
    unsafe { str::from_utf8_unchecked(bytes) }
}

/// Panics unless the linked library has the interface that `ffi` declares.
fn check_interface() {
    static CHECKED: Once = Once::new();
    CHECKED.call_once(|| {
        // SAFETY: the call takes nothing.
        let linked = unsafe { ffi::sm_interface() };
        assert_eq!(
            linked,
            ffi::SM_INTERFACE,
            "interface of the linked library sourcemap"
        );
    });
}

/// Makes a call, and returns its error.
fn check(call: impl FnOnce(*mut ffi::Error) -> ffi::Code) -> Result<()> {
    let mut error = ffi::Error::NONE;
    match call(&mut error) {
        ffi::SM_OK => Ok(()),
        code => Err(Error::of_call(code, &error)),
    }
}

/// Makes a call. Returns true if it succeeds, false if it returns `SM_ABSENT`, else
/// its error.
fn check_if_any(call: impl FnOnce(*mut ffi::Error) -> ffi::Code) -> Result<bool> {
    let mut error = ffi::Error::NONE;
    match call(&mut error) {
        ffi::SM_OK => Ok(true),
        ffi::SM_ABSENT => Ok(false),
        code => Err(Error::of_call(code, &error)),
    }
}

/// Texts as a call takes them. They point to the texts of the caller.
fn texts_of<S: AsRef<str>>(texts: &[S]) -> Vec<ffi::Text> {
    texts
        .iter()
        .map(|text| ffi::Text::of(text.as_ref().as_bytes()))
        .collect()
}

/// The arguments of a text that can be absent.
fn optional(text: Option<&str>) -> (bool, *const u8, usize) {
    let bytes = text.unwrap_or_default().as_bytes();
    (text.is_some(), bytes.as_ptr(), bytes.len())
}
