//! Maps from their texts.

use std::io::Read;

use crate::errors::Result;
use crate::handle::MapHandle;
use crate::types::DecodedMap;
use crate::utils::read_all;

/// Reads a map of any kind from its JSON text, after a junk header if there is
/// one. The reader is read to its end.
pub fn decode<R: Read>(rdr: R) -> Result<DecodedMap> {
    decode_slice(&read_all(rdr)?)
}

/// Reads a map of any kind from its JSON text, after a junk header if there is
/// one.
///
/// ```
/// use sourcemap::{decode_slice, DecodedMap};
/// let map = decode_slice(br#"{"version":3,"sections":[]}"#).unwrap();
/// assert!(matches!(map, DecodedMap::Index(_)));
/// ```
pub fn decode_slice(slice: &[u8]) -> Result<DecodedMap> {
    Ok(DecodedMap::of_handle(MapHandle::open(slice)?))
}

/// Reads a map of any kind from a `data:` URL of base64. The URL begins with
/// `data:application/json;base64,`. Before `;base64,` it may have `;charset=utf-8` or
/// `;charset=utf8`. All of this is in lower case. The base64 is the standard encoding
/// of some bytes: padded, and without white space. Any other text is
/// [`Error::InvalidDataUrl`](crate::Error::InvalidDataUrl).
pub fn decode_data_url(url: &str) -> Result<DecodedMap> {
    Ok(DecodedMap::of_handle(MapHandle::open_url(url)?))
}
