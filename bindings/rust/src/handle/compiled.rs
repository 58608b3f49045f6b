//! Calls on the bytes of compiled maps. They take no handle: the library reads the bytes and
//! writes nothing but the answer, so any number of threads may make them at once.

use super::{as_text, check_interface};
use crate::debug_id::DebugId;
use crate::ffi;
use crate::types::RawToken;

/// The text that a call writes, or its error.
type Text<'a> = Result<Option<&'a str>, ffi::Code>;

/// Checks the header of bytes.
pub(crate) fn check(bytes: &[u8]) -> ffi::Code {
    check_interface();
    // SAFETY: the slice is where it says.
    unsafe { ffi::sm_compiled_check(bytes.as_ptr(), bytes.len()) }
}

/// Checks all bytes.
pub(crate) fn verify(bytes: &[u8]) -> ffi::Code {
    // SAFETY: the slice is where it says.
    unsafe { ffi::sm_compiled_verify(bytes.as_ptr(), bytes.len()) }
}

pub(crate) fn counts(bytes: &[u8]) -> ffi::Counts {
    let mut counts = ffi::Counts::default();
    // SAFETY: the slice is where it says.
    unsafe { ffi::sm_compiled_count(bytes.as_ptr(), bytes.len(), &mut counts) };
    counts
}

pub(crate) fn debug_id(bytes: &[u8]) -> Option<DebugId> {
    let mut id = DebugId::nil();
    // SAFETY: the slice is where it says.
    let code = unsafe { ffi::sm_compiled_debug_id(bytes.as_ptr(), bytes.len(), &mut id) };
    (code == ffi::SM_OK).then_some(id)
}

/// The closest token, with the original column of the position looked up.
#[inline]
pub(crate) fn lookup(bytes: &[u8], line: u32, column: u32) -> Option<RawToken> {
    let mut found = ffi::Found::NONE;
    // SAFETY: the slice is where it says, and the answer begins as zeros.
    let code =
        unsafe { ffi::sm_compiled_lookup(bytes.as_ptr(), bytes.len(), line, column, &mut found) };
    (code == ffi::SM_OK).then_some(found.token)
}

/// The text that a call points to in these bytes.
#[inline]
fn text(bytes: &[u8], ask: impl FnOnce(*const u8, usize, *mut ffi::Text) -> ffi::Code) -> Text<'_> {
    let mut text = ffi::Text::EMPTY;
    match ask(bytes.as_ptr(), bytes.len(), &mut text) {
        // SAFETY: the text is in the bytes, and the library found it to be UTF-8.
        ffi::SM_OK => Ok(Some(unsafe { as_text(text.bytes()) })),
        ffi::SM_ABSENT => Ok(None),
        code => Err(code),
    }
}

pub(crate) fn source(bytes: &[u8], id: u32) -> Text<'_> {
    // SAFETY: the slice is where it says.
    text(bytes, |at, length, text| unsafe {
        ffi::sm_compiled_source(at, length, id, text)
    })
}

pub(crate) fn name(bytes: &[u8], id: u32) -> Text<'_> {
    // SAFETY: the slice is where it says.
    text(bytes, |at, length, text| unsafe {
        ffi::sm_compiled_name(at, length, id, text)
    })
}

pub(crate) fn contents(bytes: &[u8], id: u32) -> Text<'_> {
    // SAFETY: the slice is where it says.
    text(bytes, |at, length, text| unsafe {
        ffi::sm_compiled_contents(at, length, id, text)
    })
}

pub(crate) fn file(bytes: &[u8]) -> Text<'_> {
    // SAFETY: the slice is where it says.
    text(bytes, |at, length, text| unsafe {
        ffi::sm_compiled_file(at, length, text)
    })
}

/// The scope of the closest token.
pub(crate) fn scope(bytes: &[u8], (line, column): (u32, u32)) -> Text<'_> {
    // SAFETY: the slice is where it says.
    text(bytes, |at, length, text| unsafe {
        ffi::sm_compiled_scope(at, length, line, column, text)
    })
}
