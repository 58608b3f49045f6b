//! Debug ids.

use std::error;
use std::fmt;
use std::str::FromStr;

use crate::handle;
use crate::utils::must;

/// The id of a generated text and its map, a UUID without an appendix.
///
/// It prints hyphenated in lower case, and is parsed with or without hyphens.
#[repr(C)]
#[derive(Clone, Copy, Default, PartialEq, Eq, PartialOrd, Ord, Hash)]
pub struct DebugId {
    bytes: [u8; 16],
}

/// The error of parsing a text that is no debug id.
#[derive(Clone, Copy, Debug, PartialEq, Eq)]
pub struct ParseDebugIdError;

impl DebugId {
    /// Returns the id of zeros.
    pub const fn nil() -> DebugId {
        DebugId { bytes: [0; 16] }
    }

    /// Returns the id of these bytes, in the order in which they are printed.
    pub const fn from_bytes(bytes: [u8; 16]) -> DebugId {
        DebugId { bytes }
    }

    /// Returns the bytes of the UUID, in the order in which they are printed.
    pub const fn as_bytes(&self) -> &[u8; 16] {
        &self.bytes
    }

    /// Returns whether all bytes are zero.
    pub fn is_nil(&self) -> bool {
        self.bytes == [0; 16]
    }
}

impl FromStr for DebugId {
    type Err = ParseDebugIdError;

    fn from_str(text: &str) -> Result<DebugId, ParseDebugIdError> {
        handle::parse_debug_id(text).ok_or(ParseDebugIdError)
    }
}

impl fmt::Display for DebugId {
    fn fmt(&self, f: &mut fmt::Formatter<'_>) -> fmt::Result {
        f.write_str(&must(handle::debug_id_text(self)))
    }
}

impl fmt::Debug for DebugId {
    fn fmt(&self, f: &mut fmt::Formatter<'_>) -> fmt::Result {
        write!(f, "DebugId({self})")
    }
}

impl From<[u8; 16]> for DebugId {
    fn from(bytes: [u8; 16]) -> DebugId {
        DebugId::from_bytes(bytes)
    }
}

impl fmt::Display for ParseDebugIdError {
    fn fmt(&self, f: &mut fmt::Formatter<'_>) -> fmt::Result {
        f.write_str("invalid debug identifier")
    }
}

impl error::Error for ParseDebugIdError {}
