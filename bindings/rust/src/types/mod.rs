//! Maps, their tokens and sections, and how they are rewritten.

mod decoded;
mod index;
mod iter;
mod map;
mod options;
mod token;

pub use self::decoded::DecodedMap;
pub use self::index::{SourceMapIndex, SourceMapSection, SourceMapSectionIter};
pub use self::iter::{NameIter, SourceContentsIter, SourceIter, TokenIter};
pub use self::map::SourceMap;
pub use self::options::RewriteOptions;
pub use self::token::{RawToken, Token};
