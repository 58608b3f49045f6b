//! Maps of any kind.

use std::io::{Read, Write};

use crate::compiled::WithContents;
use crate::debug_id::DebugId;
use crate::decoder::decode;
use crate::errors::Result;
use crate::handle::{Kind, MapHandle};
use crate::hermes::SourceMapHermes;
use crate::sourceview::SourceView;
use crate::types::{SourceMap, SourceMapIndex, Token};

/// A map of any kind.
#[derive(Debug, Clone)]
pub enum DecodedMap {
    /// A regular map.
    Regular(SourceMap),
    /// An index map.
    Index(SourceMapIndex),
    /// A Hermes map.
    Hermes(SourceMapHermes),
}

impl DecodedMap {
    pub(crate) fn of_handle(handle: MapHandle) -> DecodedMap {
        match handle.kind() {
            Kind::Regular => DecodedMap::Regular(SourceMap::of_handle(handle)),
            Kind::Index => DecodedMap::Index(SourceMapIndex::of_handle(handle)),
            Kind::Hermes => DecodedMap::Hermes(SourceMapHermes::of_handle(handle)),
        }
    }

    pub(crate) fn handle(&self) -> &MapHandle {
        match self {
            DecodedMap::Regular(sm) => sm.regular_handle(),
            DecodedMap::Index(smi) => smi.handle(),
            DecodedMap::Hermes(smh) => smh.handle(),
        }
    }

    /// Reads a map, as [`decode`] does.
    pub fn from_reader<R: Read>(rdr: R) -> Result<DecodedMap> {
        decode(rdr)
    }

    /// Writes the map as JSON.
    pub fn to_writer<W: Write>(&self, w: W) -> Result<()> {
        match self {
            DecodedMap::Regular(sm) => sm.to_writer(w),
            DecodedMap::Index(smi) => smi.to_writer(w),
            DecodedMap::Hermes(smh) => smh.to_writer(w),
        }
    }

    /// Returns the bytes of the compiled map, which [`CompiledMap::parse`](crate::CompiledMap::parse)
    /// takes. It has the tokens, the resolved sources, the names, the file name, the debug id, the
    /// contents if they are wanted, and the scopes of a Hermes map. It has no ignore list. An index
    /// map is compiled as [`SourceMapIndex::flatten`] flattens it, with its errors. Equal maps give
    /// equal bytes. Fails with
    /// [`Error::IncompatibleSourceMap`](crate::Error::IncompatibleSourceMap) if there would be 2^32
    /// bytes or more.
    pub fn compile(&self, contents: WithContents) -> Result<Vec<u8>> {
        self.handle().compiled(contents == WithContents::Yes)
    }

    /// Returns the closest token to a generated position. In an index map, a section
    /// without a map answers nothing. If the sections of an index map are not in order
    /// at every level, the result may be the wrong token, or none.
    #[inline]
    pub fn lookup_token(&self, line: u32, col: u32) -> Option<Token<'_>> {
        let sm = match self {
            DecodedMap::Regular(sm) => sm,
            DecodedMap::Hermes(smh) => smh,
            DecodedMap::Index(smi) => return smi.lookup_token(line, col),
        };
        sm.lookup_token(line, col)
    }

    /// Returns the original name of the function at a generated position. A Hermes
    /// map has such names itself, for positions on line 0, and returns none for
    /// other lines. Other maps guess the name from the minified name and the
    /// generated text, and return none if one of these is missing. The name may be
    /// wrong or missing if sections of an index map are not in order at every level,
    /// or if functions of a source in a Hermes map are not in order.
    pub fn get_original_function_name(
        &self,
        line: u32,
        col: u32,
        minified_name: Option<&str>,
        source_view: Option<&SourceView>,
    ) -> Option<&str> {
        match self {
            DecodedMap::Regular(sm) => {
                sm.get_original_function_name(line, col, minified_name?, source_view?)
            }
            DecodedMap::Index(smi) => {
                smi.get_original_function_name(line, col, minified_name?, source_view?)
            }
            DecodedMap::Hermes(smh) if line == 0 => smh.get_original_function_name(col),
            DecodedMap::Hermes(_) => None,
        }
    }

    /// Returns the debug id.
    pub fn debug_id(&self) -> Option<DebugId> {
        match self {
            DecodedMap::Regular(sm) => sm.get_debug_id(),
            DecodedMap::Index(smi) => smi.debug_id(),
            DecodedMap::Hermes(smh) => smh.get_debug_id(),
        }
    }

    /// Sets or removes the debug id.
    pub fn set_debug_id(&mut self, debug_id: Option<DebugId>) {
        match self {
            DecodedMap::Regular(sm) => sm.set_debug_id(debug_id),
            DecodedMap::Index(smi) => smi.set_debug_id(debug_id),
            DecodedMap::Hermes(smh) => smh.set_debug_id(debug_id),
        }
    }
}

/// Maps are equal if they are of one kind and hold the same.
impl PartialEq for DecodedMap {
    fn eq(&self, other: &DecodedMap) -> bool {
        self.handle() == other.handle()
    }
}
