//! Regular maps.

use std::fmt;
use std::io::{Read, Write};
use std::sync::Arc;

use crate::builder::SourceMapBuilder;
use crate::compiled::WithContents;
use crate::debug_id::DebugId;
use crate::decoder::{decode, decode_slice};
use crate::errors::{Error, Result};
use crate::handle::{Kind, MapHandle};
use crate::local;
use crate::once::Once;
use crate::sourceview::SourceView;
use crate::types::{
    DecodedMap, NameIter, RawToken, RewriteOptions, SourceContentsIter, SourceIter, Token,
    TokenIter,
};
use crate::utils::{must, write_all};

/// A regular map, which has no sections.
///
/// Threads may share it. A clone copies nothing. The exception is the map in a Hermes map:
/// cloning it may copy the map, without scopes.
pub struct SourceMap {
    handle: MapHandle,
    ignored: Once<Box<[u32]>>,
    views: Once<Box<[Once<SourceView>]>>,
    /// If this is the map in a Hermes map: a copy without scopes, made when a call
    /// needs it.
    without_scopes: Once<MapHandle>,
}

impl SourceMap {
    pub(crate) fn of_handle(handle: MapHandle) -> SourceMap {
        SourceMap {
            handle,
            ignored: Once::new(),
            views: Once::new(),
            without_scopes: Once::new(),
        }
    }

    /// The handle, to be changed. Drops what was read from it.
    fn handle_mut(&mut self) -> &mut MapHandle {
        self.ignored.take();
        self.views.take();
        self.without_scopes.take();
        &mut self.handle
    }

    /// The handle of this map as a regular map: without the scopes of a Hermes map.
    pub(crate) fn regular_handle(&self) -> &MapHandle {
        match self.handle.kind() {
            Kind::Regular => &self.handle,
            _ => self
                .without_scopes
                .get_or_init(|| must(self.handle.hermes_map())),
        }
    }

    pub(crate) fn handle(&self) -> &MapHandle {
        &self.handle
    }

    /// Reads a map from its JSON text, after a junk header if there is one. An
    /// index map or a Hermes map is [`Error::IncompatibleSourceMap`].
    ///
    /// ```
    /// use sourcemap::SourceMap;
    /// let json: &[u8] = br#"{"version":3,"sources":["a.js"],"names":[],"mappings":"AAAA"}"#;
    /// let map = SourceMap::from_reader(json).unwrap();
    /// assert_eq!(map.get_source(0), Some("a.js"));
    /// ```
    pub fn from_reader<R: Read>(rdr: R) -> Result<SourceMap> {
        SourceMap::of_decoded(decode(rdr)?)
    }

    /// Reads a map from its JSON text, as [`SourceMap::from_reader`] does.
    pub fn from_slice(slice: &[u8]) -> Result<SourceMap> {
        SourceMap::of_decoded(decode_slice(slice)?)
    }

    fn of_decoded(map: DecodedMap) -> Result<SourceMap> {
        match map {
            DecodedMap::Regular(sm) => Ok(sm),
            _ => Err(Error::IncompatibleSourceMap),
        }
    }

    /// Writes the map as JSON.
    pub fn to_writer<W: Write>(&self, w: W) -> Result<()> {
        self.regular_handle().with_json(|text| write_all(w, text))?
    }

    /// Returns the bytes of the compiled map, as [`DecodedMap::compile`] does.
    pub fn compile(&self, contents: WithContents) -> Result<Vec<u8>> {
        self.regular_handle()
            .compiled(contents == WithContents::Yes)
    }

    /// Returns the map as a `data:` URL.
    pub fn to_data_url(&self) -> Result<String> {
        self.regular_handle().data_url()
    }

    /// Makes a map of its parts. The tokens that you pass may be in any order.
    /// Sources that `sources_content` does not reach have no contents, and contents
    /// past the last source are dropped. Equal names are kept once, with one id;
    /// equal sources are kept apart.
    pub fn new(
        file: Option<Arc<str>>,
        tokens: Vec<RawToken>,
        names: Vec<Arc<str>>,
        sources: Vec<Arc<str>>,
        sources_content: Option<Vec<Option<Arc<str>>>>,
    ) -> SourceMap {
        let contents = sources_content.unwrap_or_default();
        SourceMapBuilder::of_parts(file, &tokens, &names, &sources, contents).into_sourcemap()
    }

    /// Returns the debug id.
    pub fn get_debug_id(&self) -> Option<DebugId> {
        self.handle.debug_id()
    }

    /// Sets or removes the debug id.
    pub fn set_debug_id(&mut self, debug_id: Option<DebugId>) {
        must(self.handle_mut().set_debug_id(debug_id));
    }

    /// Returns the name of the generated file.
    pub fn get_file(&self) -> Option<&str> {
        self.handle.file()
    }

    /// Sets or removes the name of the generated file.
    pub fn set_file<T: Into<Arc<str>>>(&mut self, value: Option<T>) {
        let value = value.map(Into::into);
        must(self.handle_mut().set_file(value.as_deref()));
    }

    /// Returns the source root.
    pub fn get_source_root(&self) -> Option<&str> {
        self.handle.source_root()
    }

    /// Sets or removes the source root, against which sources are resolved.
    pub fn set_source_root<T: Into<Arc<str>>>(&mut self, value: Option<T>) {
        let value = value.map(Into::into);
        must(self.handle_mut().set_source_root(value.as_deref()));
    }

    /// Adds a source to the ignore list. If there is no source of this id, nothing
    /// changes.
    pub fn add_to_ignore_list(&mut self, src_id: u32) {
        must(self.handle_mut().ignore_source(src_id));
    }

    /// Returns the ids of the ignore list, in rising order.
    pub fn ignore_list(&self) -> impl Iterator<Item = &u32> {
        self.ignored
            .get_or_init(|| self.handle.ignore_list())
            .iter()
    }

    /// Returns the token with this number, counted from 0, or none if there is no
    /// such token. A number above 4294967295 gives none.
    pub fn get_token(&self, idx: usize) -> Option<Token<'_>> {
        let raw = self.raw_token(u32::try_from(idx).ok()?)?;
        Some(Token::of_raw(self, raw))
    }

    /// Returns how many tokens there are, but at most 4294967295.
    pub fn get_token_count(&self) -> u32 {
        self.handle.counts().tokens
    }

    /// Returns the tokens, in order.
    pub fn tokens(&self) -> TokenIter<'_> {
        TokenIter::new(self)
    }

    /// Returns the closest token to a generated position: the first one at the
    /// position, else the last one before it, on whichever line. Each thread keeps its last
    /// answers, which makes lookups of positions in rising order quick.
    ///
    /// ```
    /// # let json = br#"{"version":3,"sources":["a.js"],"names":[],"mappings":"AAAA,GAAG"}"#;
    /// let map = sourcemap::SourceMap::from_slice(json).unwrap();
    /// let token = map.lookup_token(0, 5).unwrap();
    /// assert_eq!(token.get_dst(), (0, 3));
    /// assert_eq!(token.to_string(), "a.js:0:3");
    /// ```
    #[inline]
    pub fn lookup_token(&self, line: u32, col: u32) -> Option<Token<'_>> {
        let position = (line, col);
        let answer = self.handle.lookup_kept(position)?;
        Some(Token::of_answer(self, answer, position))
    }

    /// Guesses the original name of the function at a generated position.
    /// `minified_name` is the name of this function in the generated text, and `sv`
    /// is a view of that text. The search begins at the closest token and goes back
    /// over at most 128 tokens, this one included. It stops at the first token for
    /// which the generated text has `minified_name` at the token's position, and
    /// `function` at the position of the token before it. White space before either
    /// word is skipped, but not past the end of the line. Returns the name of the token
    /// at `minified_name`, or none if there is no such token, if it has no name, or if
    /// `minified_name` is no identifier.
    pub fn get_original_function_name(
        &self,
        line: u32,
        col: u32,
        minified_name: &str,
        sv: &SourceView,
    ) -> Option<&str> {
        let handle = self.regular_handle();
        handle.function_name((line, col), minified_name, sv.handle())
    }

    /// Returns how many sources there are.
    pub fn get_source_count(&self) -> u32 {
        self.handle.counts().sources
    }

    /// Returns the source of this id, resolved against the source root.
    pub fn get_source(&self, idx: u32) -> Option<&str> {
        self.handle.source(idx)
    }

    /// Sets the text of a source. This is the text that is then resolved against the
    /// source root.
    ///
    /// # Panics
    ///
    /// If there is no source of this id.
    pub fn set_source(&mut self, idx: u32, value: &str) {
        let is_there = must(self.handle_mut().set_source(idx, value));
        assert!(is_there, "no source has id {idx}");
    }

    /// Returns the sources, resolved against the source root.
    pub fn sources(&self) -> SourceIter<'_> {
        SourceIter::new(self)
    }

    /// Returns the contents of a source with their lines. The first call for a
    /// source copies its contents.
    pub fn get_source_view(&self, idx: u32) -> Option<&SourceView> {
        let contents = self.get_source_contents(idx)?;
        let views = self.views.get_or_init(|| {
            let count = self.get_source_count();
            (0..count).map(|_| Once::new()).collect()
        });
        let view = views.get(idx as usize)?;
        Some(view.get_or_init(|| SourceView::of_text(contents)))
    }

    /// Returns the contents of a source.
    pub fn get_source_contents(&self, idx: u32) -> Option<&str> {
        self.handle.contents(idx)
    }

    /// Sets or removes the contents of a source.
    ///
    /// # Panics
    ///
    /// If there is no source of this id.
    pub fn set_source_contents(&mut self, idx: u32, value: Option<&str>) {
        let is_there = must(self.handle_mut().set_contents(idx, value));
        assert!(is_there, "no source has id {idx}");
    }

    /// Returns the contents of all sources.
    pub fn source_contents(&self) -> SourceContentsIter<'_> {
        SourceContentsIter::new(self)
    }

    /// Returns the names.
    pub fn names(&self) -> NameIter<'_> {
        NameIter::new(self)
    }

    /// Returns how many names there are.
    pub fn get_name_count(&self) -> u32 {
        self.handle.counts().names
    }

    /// Returns whether there are names.
    pub fn has_names(&self) -> bool {
        self.get_name_count() != 0
    }

    /// Returns the name of this id.
    pub fn get_name(&self, idx: u32) -> Option<&str> {
        self.handle.name(idx)
    }

    /// Removes the names. Tokens keep their name ids, and these ids then name
    /// nothing.
    pub fn remove_names(&mut self) {
        must(self.handle_mut().remove_names());
    }

    /// Keeps only the sources and names that tokens use, in the order of their first
    /// use, and the contents of these sources. The sources are resolved against the
    /// source root; the root is removed, and so is the ignore list. The options say
    /// what else is removed, cut or loaded. Fails with [`Error::Io`] if contents are
    /// to be loaded and the current folder is unknown.
    ///
    /// ```
    /// use sourcemap::{RewriteOptions, SourceMap};
    /// # let json = br#"{"version":3,"sources":["a.js"],"names":["x"],"mappings":"AAAAA"}"#;
    /// let map = SourceMap::from_slice(json).unwrap();
    /// let options = RewriteOptions {
    ///     with_names: false,
    ///     ..Default::default()
    /// };
    /// assert!(!map.rewrite(&options).unwrap().has_names());
    /// ```
    pub fn rewrite(mut self, options: &RewriteOptions<'_>) -> Result<SourceMap> {
        let mut with_contents = options.with_source_contents;
        if options.load_local_source_contents {
            local::load_for_rewrite(&mut self, options)?;
            with_contents = true;
        }
        self.handle
            .rewrite(options.with_names, with_contents, options.strip_prefixes)?;
        Ok(SourceMap::of_handle(self.handle))
    }

    /// Adjusts this map to a later step of a tool chain. The input of that step is
    /// the generated text of this map, and `adjustment` is the map of its output.
    /// Afterwards this map answers positions of that output.
    ///
    /// # Panics
    ///
    /// If [`SourceMap::try_adjust_mappings`] fails.
    pub fn adjust_mappings(&mut self, adjustment: &SourceMap) {
        must(self.try_adjust_mappings(adjustment));
    }

    /// Adjusts this map, as [`SourceMap::adjust_mappings`] does. Fails with
    /// [`Error::IncompatibleSourceMap`] if a generated column would exceed
    /// 4294967295, or if this is the map in a Hermes map. A call that fails leaves
    /// this map as it was.
    pub fn try_adjust_mappings(&mut self, adjustment: &SourceMap) -> Result<()> {
        self.handle_mut().compose(adjustment.regular_handle())
    }

    pub(crate) fn read_tokens(&self, first: u32, tokens: &mut [RawToken]) -> usize {
        self.handle.tokens(first, tokens)
    }

    fn raw_tokens(&self) -> Vec<RawToken> {
        self.tokens().map(|token| token.get_raw_token()).collect()
    }

    fn raw_token(&self, index: u32) -> Option<RawToken> {
        let mut token = [RawToken::ZERO];
        (self.read_tokens(index, &mut token) == 1).then(|| token[0])
    }

    /// The text of a token of this map that answers a position.
    pub(crate) fn token_text(&self, token: RawToken, (line, column): (u32, u32)) -> String {
        let text = if self.handle.lookup(line, column) == Some(token) {
            must(self.handle.lookup_text(line, column))
        } else {
            self.later_index(token)
                .and_then(|index| must(self.handle.token_text(index)))
        };
        text.expect("the token is in its map")
    }

    /// The index of a token that is not the first one at its generated position.
    fn later_index(&self, token: RawToken) -> Option<u32> {
        let first = self.handle.lookup_index(token.dst_line, token.dst_col)?;
        (first..=u32::MAX)
            .map_while(|index| Some((index, self.raw_token(index)?)))
            .find_map(|(index, other)| (other == token).then_some(index))
    }

    /// The closest token to a position, with its numbers as they are in the list of
    /// tokens.
    pub(crate) fn closest(&self, (line, column): (u32, u32)) -> Option<RawToken> {
        self.raw_token(self.handle.lookup_index(line, column)?)
    }
}

impl Clone for SourceMap {
    fn clone(&self) -> SourceMap {
        SourceMap::of_handle(must(self.regular_handle().share()))
    }
}

/// Maps are equal if all that they hold is equal. Sources count as they are written,
/// before they are resolved. The order of all lists counts, and so does the length
/// of the list of contents.
impl PartialEq for SourceMap {
    fn eq(&self, other: &SourceMap) -> bool {
        self.regular_handle() == other.regular_handle()
    }
}

impl fmt::Debug for SourceMap {
    fn fmt(&self, f: &mut fmt::Formatter<'_>) -> fmt::Result {
        f.debug_struct("SourceMap")
            .field("file", &self.get_file())
            .field("tokens", &self.raw_tokens())
            .field("names", &self.names().collect::<Vec<_>>())
            .field("source_root", &self.get_source_root())
            .field("sources", &self.sources().collect::<Vec<_>>())
            .field(
                "sources_content",
                &self.source_contents().collect::<Vec<_>>(),
            )
            .field("ignore_list", &self.ignore_list().collect::<Vec<_>>())
            .field("debug_id", &self.get_debug_id())
            .finish()
    }
}
