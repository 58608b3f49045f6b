//! Texts of debug ids.

use super::{check_interface, Handle};
use crate::debug_id::DebugId;
use crate::errors::Result;
use crate::ffi;

pub(crate) fn debug_id_text(id: &DebugId) -> Result<String> {
    // SAFETY: the id is a value of the caller.
    Handle::fill_text(|text, error| unsafe { ffi::sm_debug_id_text(id, text, error) })
}

pub(crate) fn parse_debug_id(text: &str) -> Option<DebugId> {
    check_interface();
    let mut id = DebugId::nil();
    // SAFETY: the text is where it says, and the id begins as zeros.
    let code = unsafe { ffi::sm_parse_debug_id(text.as_ptr(), text.len(), &mut id) };
    (code == ffi::SM_OK).then_some(id)
}
