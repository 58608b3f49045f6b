//! Compiled maps.

use std::error;
use std::fmt;

use crate::debug_id::DebugId;
use crate::ffi;
use crate::handle::compiled as calls;
use crate::types::RawToken;

/// Whether a compiled map has the contents of its sources.
#[derive(Clone, Copy, Debug, PartialEq, Eq)]
pub enum WithContents {
    /// It has all contents that the map has.
    Yes,
    /// It has no contents.
    No,
}

/// A compiled map: the bytes of a file that [`DecodedMap::compile`](crate::DecodedMap::compile)
/// made, looked up where they lie, for example in mapped memory.
///
/// No call decodes, allocates or locks. A map is a borrow of its bytes: it is `Copy`, and any
/// number of threads may ask it at once.
///
/// ```
/// use sourcemap::{CompiledMap, SourceMap, WithContents};
/// # let json = br#"{"version":3,"sources":["a.js"],"names":["f"],"mappings":"AAAA,GAAGA"}"#;
/// let file = SourceMap::from_slice(json).unwrap().compile(WithContents::No).unwrap();
/// let map = CompiledMap::parse(&file).unwrap();
/// let token = map.lookup_token(0, 5).unwrap();
/// assert_eq!(token.get_src(), (0, 3));
/// assert_eq!(token.get_source(), Ok(Some("a.js")));
/// assert_eq!(token.get_name(), Ok(Some("f")));
/// ```
///
/// [`parse`](CompiledMap::parse) looks at the header alone. Bytes behind it may be damaged: no
/// call reads outside of them, but answers may be wrong, and a text may be an error.
/// [`verify`](CompiledMap::verify) reads all bytes; ask it once of a file of an origin that you
/// do not trust.
#[derive(Clone, Copy)]
pub struct CompiledMap<'a> {
    bytes: &'a [u8],
}

/// A token of a compiled map.
#[derive(Clone, Copy)]
pub struct CompiledToken<'a> {
    map: CompiledMap<'a>,
    answer: RawToken,
    /// The position that was looked up.
    position: (u32, u32),
}

/// Why bytes are no compiled map, or a text of a compiled map cannot be read.
#[derive(Clone, Copy, Debug, PartialEq, Eq)]
pub enum CompiledMapError {
    /// There are fewer than 64 bytes, or fewer than the header says.
    Truncated,
    /// The bytes do not begin as a compiled map does.
    WrongMagic,
    /// The version of the format, which this library does not read.
    WrongVersion(u32),
    /// There are more bytes than the header says, or the tables pass the end.
    WrongExtent,
    /// A token is before the token ahead of it.
    OutOfOrder,
    /// A text ends before its start, or after the end of the file.
    TextOutside,
    /// A text is not UTF-8.
    InvalidUtf8,
}

/// A text that may be missing, or an error of the file.
type Text<'a> = Result<Option<&'a str>, CompiledMapError>;

impl CompiledMapError {
    /// The error of a call on these bytes.
    fn of_code(code: ffi::Code, bytes: &[u8]) -> CompiledMapError {
        match code {
            ffi::SM_COMPILED_TRUNCATED => CompiledMapError::Truncated,
            ffi::SM_COMPILED_MAGIC => CompiledMapError::WrongMagic,
            ffi::SM_COMPILED_VERSION => CompiledMapError::WrongVersion(version(bytes)),
            ffi::SM_COMPILED_EXTENT => CompiledMapError::WrongExtent,
            ffi::SM_COMPILED_ORDER => CompiledMapError::OutOfOrder,
            ffi::SM_COMPILED_TEXT => CompiledMapError::TextOutside,
            _ => CompiledMapError::InvalidUtf8,
        }
    }
}

/// The version in a header that begins with the magic number.
fn version(bytes: &[u8]) -> u32 {
    u32::from_le_bytes([bytes[4], bytes[5], bytes[6], bytes[7]])
}

impl<'a> CompiledMap<'a> {
    /// Returns the compiled map that these bytes are. Only the header is read, so the time is the
    /// same for any map. The error is [`CompiledMapError::Truncated`],
    /// [`WrongMagic`](CompiledMapError::WrongMagic),
    /// [`WrongVersion`](CompiledMapError::WrongVersion) or
    /// [`WrongExtent`](CompiledMapError::WrongExtent).
    pub fn parse(bytes: &'a [u8]) -> Result<CompiledMap<'a>, CompiledMapError> {
        match calls::check(bytes) {
            ffi::SM_OK => Ok(CompiledMap { bytes }),
            code => Err(CompiledMapError::of_code(code, bytes)),
        }
    }

    /// Reads the whole map. Returns [`CompiledMapError::OutOfOrder`] if its tokens are not sorted,
    /// else [`TextOutside`](CompiledMapError::TextOutside) or
    /// [`InvalidUtf8`](CompiledMapError::InvalidUtf8) if a text cannot be read. After `Ok` a
    /// lookup finds the closest token, and no call returns an error.
    pub fn verify(&self) -> Result<(), CompiledMapError> {
        match calls::verify(self.bytes) {
            ffi::SM_OK => Ok(()),
            code => Err(CompiledMapError::of_code(code, self.bytes)),
        }
    }

    /// Returns the number of tokens.
    pub fn token_count(&self) -> u32 {
        calls::counts(self.bytes).tokens
    }

    /// Returns the number of sources. Their ids are the numbers below it.
    pub fn source_count(&self) -> u32 {
        calls::counts(self.bytes).sources
    }

    /// Returns the number of names. Their ids are the numbers below it.
    pub fn name_count(&self) -> u32 {
        calls::counts(self.bytes).names
    }

    /// Returns the closest token to a generated position: the first one at the position, else the
    /// last one before it, on whichever line. If the map is damaged and its tokens are not sorted,
    /// it is another token next to the position.
    #[inline]
    pub fn lookup_token(&self, line: u32, col: u32) -> Option<CompiledToken<'a>> {
        let answer = calls::lookup(self.bytes, line, col)?;
        Some(CompiledToken {
            map: *self,
            answer,
            position: (line, col),
        })
    }

    /// Returns the source of this id, resolved against the source root of the map that was
    /// compiled.
    pub fn source(&self, id: u32) -> Text<'a> {
        self.text(calls::source(self.bytes, id))
    }

    /// Returns the name of this id.
    pub fn name(&self, id: u32) -> Text<'a> {
        self.text(calls::name(self.bytes, id))
    }

    /// Returns the contents of the source of this id.
    pub fn source_contents(&self, id: u32) -> Text<'a> {
        self.text(calls::contents(self.bytes, id))
    }

    /// Returns the name of the generated file.
    pub fn file(&self) -> Text<'a> {
        self.text(calls::file(self.bytes))
    }

    /// Returns the debug id.
    pub fn debug_id(&self) -> Option<DebugId> {
        calls::debug_id(self.bytes)
    }

    fn text(&self, text: Result<Option<&'a str>, ffi::Code>) -> Text<'a> {
        text.map_err(|code| CompiledMapError::of_code(code, self.bytes))
    }
}

impl<'a> CompiledToken<'a> {
    /// Returns the map of the token.
    pub fn compiled_map(&self) -> CompiledMap<'a> {
        self.map
    }

    /// Returns the line of the generated text.
    pub fn get_dst_line(&self) -> u32 {
        self.answer.dst_line
    }

    /// Returns the column of the generated text.
    pub fn get_dst_col(&self) -> u32 {
        self.answer.dst_col
    }

    /// Returns the line and the column of the generated text.
    pub fn get_dst(&self) -> (u32, u32) {
        self.answer.dst()
    }

    /// Returns the original line; `!0` if the token has no source, as in a decoded map.
    pub fn get_src_line(&self) -> u32 {
        self.answer.src_line
    }

    /// Returns the original column; `!0` if the token has no source, as in a decoded map. For a
    /// range token on the line that was looked up, the distance in columns to that position is
    /// added. The sum stops at 4294967295.
    pub fn get_src_col(&self) -> u32 {
        self.answer.src_col
    }

    /// Returns the original line and column.
    pub fn get_src(&self) -> (u32, u32) {
        (self.get_src_line(), self.get_src_col())
    }

    /// Returns the id of the source, or `!0` without an id.
    pub fn get_src_id(&self) -> u32 {
        self.answer.src_id
    }

    /// Returns whether the token has a source id.
    pub fn has_source(&self) -> bool {
        self.get_src_id() != !0
    }

    /// Returns the source, resolved.
    pub fn get_source(&self) -> Text<'a> {
        self.map.source(self.get_src_id())
    }

    /// Returns the id of the name, or `!0` without an id.
    pub fn get_name_id(&self) -> u32 {
        self.answer.name_id
    }

    /// Returns whether the map has a name of the token's id.
    pub fn has_name(&self) -> bool {
        self.get_name_id() < self.map.name_count()
    }

    /// Returns the name.
    pub fn get_name(&self) -> Text<'a> {
        self.map.name(self.get_name_id())
    }

    /// Returns the name of the function that contains the token's original position. Only maps that
    /// were compiled of a [`SourceMapHermes`](crate::SourceMapHermes) have such names.
    pub fn get_scope(&self) -> Text<'a> {
        self.map.text(calls::scope(self.map.bytes, self.position))
    }

    /// Returns whether the token maps a range.
    pub fn is_range(&self) -> bool {
        self.answer.is_range
    }
}

impl fmt::Debug for CompiledMap<'_> {
    fn fmt(&self, f: &mut fmt::Formatter<'_>) -> fmt::Result {
        let tokens = self.token_count();
        write!(f, "<CompiledMap of {tokens} tokens>")
    }
}

impl fmt::Debug for CompiledToken<'_> {
    fn fmt(&self, f: &mut fmt::Formatter<'_>) -> fmt::Result {
        f.debug_struct("CompiledToken")
            .field("dst", &self.get_dst())
            .field("source", &self.get_source())
            .field("src", &self.get_src())
            .field("name", &self.get_name())
            .finish()
    }
}

impl fmt::Display for CompiledMapError {
    fn fmt(&self, f: &mut fmt::Formatter<'_>) -> fmt::Result {
        f.write_str(match self {
            CompiledMapError::Truncated => "the compiled map is truncated",
            CompiledMapError::WrongMagic => "not a compiled map",
            CompiledMapError::WrongVersion(version) => {
                return write!(f, "unknown version of a compiled map: {version}");
            }
            CompiledMapError::WrongExtent => "a table of the compiled map has a wrong extent",
            CompiledMapError::OutOfOrder => "the compiled map is out of order",
            CompiledMapError::TextOutside => "a text passes the end of the compiled map",
            CompiledMapError::InvalidUtf8 => "a text of the compiled map is not UTF-8",
        })
    }
}

impl error::Error for CompiledMapError {}
