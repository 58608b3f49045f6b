//! Why a call failed.

use std::error;
use std::fmt;
use std::io;
use std::str;
use std::string;

use crate::ffi;

/// The result of the calls that can fail.
pub type Result<T> = std::result::Result<T, Error>;

/// Why a call failed.
#[derive(Debug)]
pub enum Error {
    /// A reader, a writer or a file failed, the current folder is unknown, a junk
    /// header is malformed, or a line of a generated text is not UTF-8.
    Io(io::Error),
    /// A range passes the end of a RAM bundle.
    Scroll(RangeError),
    /// Bytes that should be text are not UTF-8.
    Utf8(str::Utf8Error),
    /// The text can't be read as the JSON of a source map.
    BadJson(JsonError),
    /// A segment ends within a number.
    VlqLeftover,
    /// A segment has no number.
    VlqNoValues,
    /// A number of a segment is too large, or has more than 13 digits.
    VlqOverflow,
    /// A segment has this many numbers. Only 1, 4 and 5 are valid. A count above
    /// 4294967295 is given as 4294967295.
    BadSegmentSize(u32),
    /// A segment names a source of this id, which does not exist.
    BadSourceReference(u32),
    /// A segment names a name of this id, which does not exist.
    BadNameReference(u32),
    /// The map is of another kind than the call takes, or exceeds a limit: a count
    /// of items, a line or a column would exceed 4294967295.
    IncompatibleSourceMap,
    /// A text is no data URL of the form that
    /// [`decode_data_url`](crate::decode_data_url) reads.
    InvalidDataUrl,
    /// An index map can't become one regular map, for this reason.
    CannotFlatten(String),
    /// A RAM bundle does not begin with its magic number.
    InvalidRamBundleMagic,
    /// The number of the module is past the last number of an indexed RAM bundle, or
    /// the name of a file in the folder of modules is not valid, as
    /// [`parse_unbundle_from_path`](crate::ram_bundle::RamBundle::parse_unbundle_from_path)
    /// says.
    InvalidRamBundleIndex,
    /// The entry of a module in a RAM bundle is malformed, a module is invalid as
    /// [`split_ram_bundle`](crate::ram_bundle::split_ram_bundle) says, or a bundle
    /// of files is too large to be split.
    InvalidRamBundleEntry,
    /// The path is not that of the startup file of a bundle of files, or the index
    /// map of a RAM bundle has no `x_facebook_offsets`.
    NotARamBundle,
    /// No call returns this error.
    InvalidRangeMappingIndex(Base64Error),
    /// A byte of a segment or of range mappings is no base64 digit. The value of
    /// this byte is the number of the character.
    InvalidBase64(char),
    /// Memory ran out. A map that the call borrows is unchanged, and the call may be
    /// made again. A map that it takes by value is dropped.
    OutOfMemory,
}

/// What is wrong with a JSON text.
#[derive(Clone, Copy, Debug, PartialEq, Eq)]
pub enum JsonError {
    /// The text is not JSON or not UTF-8, has more than 127 levels, has a number too
    /// large for an `f64`, or escapes one half of a surrogate pair without the other.
    Parse,
    /// The text is JSON, but no object, or a field has the wrong type or an invalid
    /// value, or a required field is missing. A debug id is invalid if it is no UUID. A
    /// version, an id, a line or a column is invalid if it is no whole number from 0 to
    /// 4294967295.
    Shape,
}

/// A range of a RAM bundle that passes its end.
#[derive(Clone, Copy, Debug, PartialEq, Eq)]
pub struct RangeError {
    /// Where the range begins.
    pub start: u64,
    /// How many bytes it should have.
    pub size: u64,
    /// How many bytes the bundle has.
    pub len: u64,
}

/// A byte of a base64 text that is no digit.
#[derive(Clone, Copy, Debug, PartialEq, Eq)]
pub struct Base64Error {
    /// The index of the byte.
    pub at: u64,
}

/// What the printed text of [`Error::CannotFlatten`] begins with.
const CANNOT_FLATTEN: &str = "cannot flatten the indexed sourcemap: ";

impl Error {
    /// The error of a library call that returned this code.
    pub(crate) fn of_call(code: ffi::Code, error: &ffi::Error) -> Error {
        match code {
            // This package passes texts that are UTF-8, so SM_UTF8 does not occur.
            ffi::SM_IO | ffi::SM_UTF8 => Error::Io(invalid_data(error)),
            ffi::SM_RANGE => Error::Scroll(RangeError {
                start: error.start,
                size: error.size,
                len: error.length,
            }),
            ffi::SM_BAD_JSON if error.number == 0 => Error::BadJson(JsonError::Parse),
            ffi::SM_BAD_JSON => Error::BadJson(JsonError::Shape),
            ffi::SM_VLQ_LEFTOVER => Error::VlqLeftover,
            ffi::SM_VLQ_NO_VALUES => Error::VlqNoValues,
            ffi::SM_VLQ_OVERFLOW => Error::VlqOverflow,
            ffi::SM_BAD_SEGMENT_SIZE => Error::BadSegmentSize(error.number),
            ffi::SM_BAD_SOURCE_REFERENCE => Error::BadSourceReference(error.number),
            ffi::SM_BAD_NAME_REFERENCE => Error::BadNameReference(error.number),
            ffi::SM_INVALID_DATA_URL => Error::InvalidDataUrl,
            ffi::SM_CANNOT_FLATTEN => Error::CannotFlatten(reason(error)),
            ffi::SM_INVALID_BUNDLE_MAGIC => Error::InvalidRamBundleMagic,
            ffi::SM_INVALID_BUNDLE_INDEX => Error::InvalidRamBundleIndex,
            ffi::SM_INVALID_BUNDLE_ENTRY => Error::InvalidRamBundleEntry,
            ffi::SM_NOT_A_BUNDLE => Error::NotARamBundle,
            ffi::SM_INVALID_BASE64 => Error::InvalidBase64(character(error.number)),
            ffi::SM_OUT_OF_MEMORY => Error::OutOfMemory,
            _ => Error::IncompatibleSourceMap,
        }
    }
}

/// The printed text of an error. If the library cut it within a character, that
/// character is omitted.
fn message(error: &ffi::Error) -> String {
    let length = error.text_length.min(ffi::SM_ERROR_TEXT - 1);
    let mut chunks = error.text[..length].utf8_chunks();
    chunks
        .next()
        .map(|chunk| chunk.valid().to_owned())
        .unwrap_or_default()
}

fn invalid_data(error: &ffi::Error) -> io::Error {
    io::Error::new(io::ErrorKind::InvalidData, message(error))
}

fn reason(error: &ffi::Error) -> String {
    let message = message(error);
    match message.strip_prefix(CANNOT_FLATTEN) {
        Some(reason) => reason.to_owned(),
        None => message,
    }
}

fn character(number: u32) -> char {
    char::from_u32(number).unwrap_or(char::REPLACEMENT_CHARACTER)
}

impl From<io::Error> for Error {
    fn from(error: io::Error) -> Error {
        match error.kind() {
            io::ErrorKind::OutOfMemory => Error::OutOfMemory,
            _ => Error::Io(error),
        }
    }
}

impl From<string::FromUtf8Error> for Error {
    fn from(error: string::FromUtf8Error) -> Error {
        Error::Utf8(error.utf8_error())
    }
}

impl From<str::Utf8Error> for Error {
    fn from(error: str::Utf8Error) -> Error {
        Error::Utf8(error)
    }
}

impl From<RangeError> for Error {
    fn from(error: RangeError) -> Error {
        Error::Scroll(error)
    }
}

impl From<JsonError> for Error {
    fn from(error: JsonError) -> Error {
        Error::BadJson(error)
    }
}

impl From<Base64Error> for Error {
    fn from(error: Base64Error) -> Error {
        Error::InvalidRangeMappingIndex(error)
    }
}

impl error::Error for Error {
    fn source(&self) -> Option<&(dyn error::Error + 'static)> {
        match self {
            Error::Io(error) => Some(error),
            Error::Scroll(error) => Some(error),
            Error::Utf8(error) => Some(error),
            Error::BadJson(error) => Some(error),
            Error::InvalidRangeMappingIndex(error) => Some(error),
            _ => None,
        }
    }
}

impl JsonError {
    /// Returns whether this is [`JsonError::Parse`].
    pub fn is_syntax(&self) -> bool {
        *self == JsonError::Parse
    }

    /// Returns whether this is [`JsonError::Shape`].
    pub fn is_data(&self) -> bool {
        *self == JsonError::Shape
    }
}

impl error::Error for JsonError {}
impl error::Error for RangeError {}
impl error::Error for Base64Error {}

impl fmt::Display for Error {
    fn fmt(&self, f: &mut fmt::Formatter<'_>) -> fmt::Result {
        match self {
            Error::Io(error) => write!(f, "{error}"),
            Error::Scroll(error) => write!(f, "parse error: {error}"),
            Error::Utf8(error) => write!(f, "{error}"),
            Error::BadJson(error) => write!(f, "bad json: {error}"),
            Error::VlqLeftover => f.write_str("leftover cur/shift in vlq decode"),
            Error::VlqNoValues => f.write_str("vlq decode did not produce any values"),
            Error::VlqOverflow => f.write_str("vlq decode caused an overflow"),
            Error::BadSegmentSize(size) => write!(f, "got {size} segments, expected 4 or 5"),
            Error::BadSourceReference(id) => write!(f, "bad reference to source #{id}"),
            Error::BadNameReference(id) => write!(f, "bad reference to name #{id}"),
            Error::IncompatibleSourceMap => {
                f.write_str("encountered incompatible sourcemap format")
            }
            Error::InvalidDataUrl => f.write_str("the provided data URL is invalid"),
            Error::CannotFlatten(reason) => write!(f, "{CANNOT_FLATTEN}{reason}"),
            Error::InvalidRamBundleMagic => f.write_str("invalid magic number for ram bundle"),
            Error::InvalidRamBundleIndex => f.write_str("invalid module index in ram bundle"),
            Error::InvalidRamBundleEntry => f.write_str("invalid ram bundle module entry"),
            Error::NotARamBundle => f.write_str("not a ram bundle"),
            Error::InvalidRangeMappingIndex(error) => {
                write!(f, "invalid range mapping index: {error}")
            }
            Error::InvalidBase64(character) => write!(f, "invalid base64 character: {character}"),
            Error::OutOfMemory => f.write_str("out of memory"),
        }
    }
}

impl fmt::Display for JsonError {
    fn fmt(&self, f: &mut fmt::Formatter<'_>) -> fmt::Result {
        f.write_str(match self {
            JsonError::Parse => "the text is not JSON",
            JsonError::Shape => "a field has the wrong type",
        })
    }
}

impl fmt::Display for RangeError {
    fn fmt(&self, f: &mut fmt::Formatter<'_>) -> fmt::Result {
        write!(f, "{}+{} past {}", self.start, self.size, self.len)
    }
}

impl fmt::Display for Base64Error {
    fn fmt(&self, f: &mut fmt::Formatter<'_>) -> fmt::Result {
        write!(f, "bad base64 at {}", self.at)
    }
}
