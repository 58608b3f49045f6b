//! JavaScript source maps, by a library whose every function is proved.
//!
//! The names, signatures and modules are those of the crate `sourcemap` 9.3.2.
//! `README.md` lists what differs.
//!
//! ```
//! let json = br#"{"version":3,"sources":["coolstuff.js"],"names":["x","alert"],
//!     "mappings":"AAAA,GAAIA,GAAI,EACR,IAAIA,GAAK,EAAG,CACVC,MAAM"}"#;
//! let map = sourcemap::SourceMap::from_slice(json).unwrap();
//! let token = map.lookup_token(0, 5).unwrap();
//! assert_eq!(token.to_string(), "coolstuff.js:0:4 name=x");
//! ```
//!
//! Lines and columns count from 0. Columns count UTF-16 units.
//!
//! # Threads
//!
//! Maps, builders, views and bundles are `Send` and `Sync`; so are tokens and iterators. A
//! [`CompiledMap`] has no handle, so what follows does not concern it.
//! An `Arc<DecodedMap>` serves a pool of threads. A call takes a handle of the library
//! that no other call has; a lookup that one of the thread's last answers still answers takes
//! none. Where calls meet, the value gets a further handle: at most one for each call at a
//! time, which copies nothing and stays until the value is changed or dropped. So calls do
//! not wait for one another, but in three cases. What is read at first use, such as a section
//! of an index map, is read by one thread, and others that need it wait. While one thread
//! makes a handle, another that needs a new one waits. If memory runs out, calls that meet
//! may wait.
//!
//! A clone of a map, a view or an indexed RAM bundle shares what it holds, and copies
//! nothing. There are two exceptions: the [`SourceMap`] in a [`SourceMapHermes`], whose
//! clone may copy the map, without scopes; and the parts of a [`SourceMapIndex`] that were
//! read. Builders have no clone.
//!
//! # Panics
//!
//! If the library runs out of memory, calls that do not return a [`Result`] panic.
//! Only [`is_sourcemap`], [`is_sourcemap_slice`] and
//! [`ram_bundle::is_ram_bundle_slice`] return false then, and do not panic. A call
//! that returns a [`Result`] panics too if memory runs out while it makes a view,
//! builds an index map, copies the map in a Hermes map, or loads contents from files.

#![deny(unsafe_code)]
#![warn(missing_docs)]

pub use crate::builder::SourceMapBuilder;
pub use crate::check::{
    check, source_files, CheckOptions, Finding, FindingPosition, Report, Severity,
};
pub use crate::compiled::{CompiledMap, CompiledMapError, CompiledToken, WithContents};
pub use crate::debug_id::{DebugId, ParseDebugIdError};
pub use crate::decoder::{decode, decode_data_url, decode_slice};
pub use crate::detector::{
    is_sourcemap, is_sourcemap_slice, locate_sourcemap_reference, locate_sourcemap_reference_slice,
    SourceMapRef,
};
pub use crate::errors::{Base64Error, Error, JsonError, RangeError, Result};
pub use crate::hermes::SourceMapHermes;
pub use crate::sourceview::SourceView;
pub use crate::types::{
    DecodedMap, NameIter, RawToken, RewriteOptions, SourceContentsIter, SourceIter, SourceMap,
    SourceMapIndex, SourceMapSection, SourceMapSectionIter, Token, TokenIter,
};
pub use crate::utils::make_relative_path;

mod builder;
mod check;
mod compiled;
mod debug_id;
mod decoder;
mod detector;
mod errors;
#[allow(unsafe_code)]
mod ffi;
#[allow(unsafe_code)]
mod handle;
#[allow(unsafe_code)]
mod helgrind;
mod hermes;
mod local;
mod once;
pub mod ram_bundle;
mod sourceview;
mod types;
mod utils;
pub mod vlq;

#[cfg(doctest)]
#[doc = include_str!("../README.md")]
struct Readme;
