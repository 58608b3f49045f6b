//! Hermes maps.

use std::fmt;
use std::io::{Read, Write};
use std::ops::{Deref, DerefMut};

use crate::compiled::WithContents;
use crate::decoder::{decode, decode_slice};
use crate::errors::{Error, Result};
use crate::handle::MapHandle;
use crate::types::{DecodedMap, RewriteOptions, SourceMap, Token};
use crate::utils::{must, write_all};

/// A map of React Native's Hermes engine, with the scopes of its sources.
///
/// It dereferences to its [`SourceMap`], which has no scopes. Some calls need this
/// [`SourceMap`] as a regular map. They clone, compare or write it alone, ask for a
/// function name in it, or pass it as an adjustment. [`SourceMapHermes::rewrite`] is
/// such a call if it loads contents. The first such call copies the map without
/// scopes. A change of the map drops that copy.
pub struct SourceMapHermes {
    sm: SourceMap,
}

impl SourceMapHermes {
    pub(crate) fn of_handle(handle: MapHandle) -> SourceMapHermes {
        SourceMapHermes {
            sm: SourceMap::of_handle(handle),
        }
    }

    /// Reads a Hermes map from its JSON text. A map of another kind is
    /// [`Error::IncompatibleSourceMap`].
    pub fn from_reader<R: Read>(rdr: R) -> Result<Self> {
        SourceMapHermes::of_decoded(decode(rdr)?)
    }

    /// Reads a Hermes map from its JSON text, as
    /// [`SourceMapHermes::from_reader`] does.
    pub fn from_slice(slice: &[u8]) -> Result<Self> {
        SourceMapHermes::of_decoded(decode_slice(slice)?)
    }

    fn of_decoded(map: DecodedMap) -> Result<SourceMapHermes> {
        match map {
            DecodedMap::Hermes(smh) => Ok(smh),
            _ => Err(Error::IncompatibleSourceMap),
        }
    }

    /// Writes the map as JSON.
    pub fn to_writer<W: Write>(&self, w: W) -> Result<()> {
        self.handle().with_json(|text| write_all(w, text))?
    }

    /// Returns the bytes of the compiled map, as [`DecodedMap::compile`] does, with the scope of each
    /// token.
    pub fn compile(&self, contents: WithContents) -> Result<Vec<u8>> {
        self.handle().compiled(contents == WithContents::Yes)
    }

    /// Returns the name of the function at an offset of the bytecode. The offset is
    /// a column of generated line 0. The closest token to it leads to an original
    /// position, and the function there has the name. Returns none if there is no
    /// such token, function or name. If the functions of the token's source are not
    /// in order, the result is unspecified.
    pub fn get_original_function_name(&self, bytecode_offset: u32) -> Option<&str> {
        self.handle().hermes_function_name(bytecode_offset)
    }

    /// Returns the name of the function that contains the token's original position. Its
    /// source counts by its id. If the functions of the source are not in order, the
    /// result is unspecified.
    pub fn get_scope_for_token(&self, token: Token<'_>) -> Option<&str> {
        self.handle().scope_for(token.get_src_id(), token.get_src())
    }

    /// Rewrites the map, as [`SourceMap::rewrite`] does, with its scopes. If several
    /// sources resolve to one text, only one of them keeps its scopes: the source of
    /// the first token that uses one of these sources.
    pub fn rewrite(self, options: &RewriteOptions<'_>) -> Result<Self> {
        Ok(SourceMapHermes {
            sm: self.sm.rewrite(options)?,
        })
    }
}

impl Clone for SourceMapHermes {
    fn clone(&self) -> SourceMapHermes {
        SourceMapHermes::of_handle(must(self.handle().share()))
    }
}

impl Deref for SourceMapHermes {
    type Target = SourceMap;

    fn deref(&self) -> &SourceMap {
        &self.sm
    }
}

impl DerefMut for SourceMapHermes {
    fn deref_mut(&mut self) -> &mut SourceMap {
        &mut self.sm
    }
}

/// Hermes maps are equal if they hold the same, scopes included.
impl PartialEq for SourceMapHermes {
    fn eq(&self, other: &SourceMapHermes) -> bool {
        self.handle() == other.handle()
    }
}

impl fmt::Debug for SourceMapHermes {
    fn fmt(&self, f: &mut fmt::Formatter<'_>) -> fmt::Result {
        f.debug_tuple("SourceMapHermes").field(&self.sm).finish()
    }
}
