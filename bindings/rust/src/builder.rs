//! Maps that are put together.

use std::collections::BTreeSet;
use std::fs;
use std::path::Path;
use std::sync::Arc;

use crate::debug_id::DebugId;
use crate::errors::Result;
use crate::handle::BuilderHandle;
use crate::local;
use crate::types::{RawToken, SourceMap, Token};
use crate::utils::must;

/// How many tokens are handed to the library by one call.
const BLOCK: usize = 1024;

/// A map that is being built. Tokens may be added in any order.
///
/// ```
/// let mut builder = sourcemap::SourceMapBuilder::new(Some("out.js"));
/// builder.add(0, 0, 2, 4, Some("a.js"), Some("f"), false);
/// let map = builder.into_sourcemap();
/// assert_eq!(map.lookup_token(0, 9).unwrap().to_string(), "a.js:2:4 name=f");
/// ```
pub struct SourceMapBuilder {
    /// Holds the texts of sources, the ids of sources and names, and the tokens that
    /// are not pending.
    handle: BuilderHandle,
    file: Option<Arc<str>>,
    source_root: Option<Arc<str>>,
    debug_id: Option<DebugId>,
    sources: Vec<Source>,
    ignored: BTreeSet<u32>,
    /// Tokens that the library does not have yet.
    pending: Vec<RawToken>,
}

struct Source {
    /// The text that was added, by which the id is found.
    added: Arc<str>,
    contents: Option<Arc<str>>,
}

impl SourceMapBuilder {
    /// Begins a map of a generated file of this name.
    pub fn new(file: Option<&str>) -> SourceMapBuilder {
        SourceMapBuilder {
            handle: must(BuilderHandle::new()),
            file: file.map(Into::into),
            source_root: None,
            debug_id: None,
            sources: Vec::new(),
            ignored: BTreeSet::new(),
            pending: Vec::new(),
        }
    }

    /// Begins a map that has these sources and tokens.
    pub(crate) fn of_parts(
        file: Option<Arc<str>>,
        tokens: &[RawToken],
        names: &[Arc<str>],
        sources: &[Arc<str>],
        contents: Vec<Option<Arc<str>>>,
    ) -> SourceMapBuilder {
        let mut builder = SourceMapBuilder::new(None);
        builder.file = file;
        for (id, source) in (0..).zip(sources) {
            builder.add_distinct_source(id, source);
        }
        for (source, contents) in builder.sources.iter_mut().zip(contents) {
            source.contents = contents;
        }
        let name_ids: Vec<u32> = names.iter().map(|name| builder.add_name(name)).collect();
        for token in tokens {
            let name_id = name_ids.get(token.name_id as usize).copied();
            builder.add_token_of_ids(RawToken {
                name_id: name_id.unwrap_or(token.name_id),
                ..*token
            });
        }
        builder
    }

    /// Adds a new source, even if a source with the same text was added before. `id`
    /// is the next free id, and the new source gets it.
    fn add_distinct_source(&mut self, id: u32, source: &str) {
        let mut added = source.to_owned();
        while self.add_source(&added) != id {
            added.push('+');
        }
        if added != source {
            self.set_source(id, source);
        }
    }

    /// Sets or removes the debug id.
    pub fn set_debug_id(&mut self, debug_id: Option<DebugId>) {
        self.debug_id = debug_id;
    }

    /// Sets or removes the name of the generated file.
    pub fn set_file<T: Into<Arc<str>>>(&mut self, value: Option<T>) {
        self.file = value.map(Into::into);
    }

    /// Returns the name of the generated file.
    pub fn get_file(&self) -> Option<&str> {
        self.file.as_deref()
    }

    /// Sets or removes the source root, against which sources are resolved.
    pub fn set_source_root<T: Into<Arc<str>>>(&mut self, value: Option<T>) {
        self.source_root = value.map(Into::into);
    }

    /// Returns the source root.
    pub fn get_source_root(&self) -> Option<&str> {
        self.source_root.as_deref()
    }

    /// Adds a source, and returns its id. Equal texts have one id.
    pub fn add_source(&mut self, src: &str) -> u32 {
        let id = must(self.handle.add_source(src));
        if id as usize == self.sources.len() {
            self.sources.push(Source {
                added: src.into(),
                contents: None,
            });
        }
        id
    }

    /// Sets the text of a source. [`SourceMapBuilder::add_source`] still finds the id
    /// by the text that was added, not by this one.
    ///
    /// # Panics
    ///
    /// If there is no source of this id.
    pub fn set_source(&mut self, src_id: u32, src: &str) {
        let is_there = must(self.handle.set_source(src_id, src));
        assert!(is_there, "no source has id {src_id}");
    }

    /// Returns the text of a source.
    pub fn get_source(&self, src_id: u32) -> Option<&str> {
        self.handle.source(src_id)
    }

    /// Adds a source to the ignore list. An id that no source has when the map is made
    /// is left out.
    pub fn add_to_ignore_list(&mut self, src_id: u32) {
        self.ignored.insert(src_id);
    }

    /// Sets or removes the contents of a source.
    ///
    /// # Panics
    ///
    /// If there is no source of this id.
    pub fn set_source_contents(&mut self, src_id: u32, contents: Option<&str>) {
        self.sources[src_id as usize].contents = contents.map(Into::into);
    }

    /// Returns the contents of a source.
    pub fn get_source_contents(&self, src_id: u32) -> Option<&str> {
        self.sources.get(src_id as usize)?.contents.as_deref()
    }

    /// Returns whether a source has contents.
    pub fn has_source_contents(&self, src_id: u32) -> bool {
        self.get_source_contents(src_id).is_some()
    }

    /// For each source without contents, reads its contents from a local file. The
    /// path of the file is the text of the source, as it was added, resolved against
    /// the folder `base_path`. A relative `base_path` counts from the current
    /// folder, and none is the current folder. A source is skipped if it leads to no
    /// path of a file, or if its file can't be read or is not UTF-8. A source without a
    /// path of its own, such as an empty one or `#a`, leads to the folder and is skipped
    /// too. All sources are skipped if the path of the folder is not UTF-8. A source
    /// may also be skipped if the `file` URL of the folder and the source together have
    /// about 2^28 bytes or more. Returns for how many sources it tried to read a file. Fails
    /// with [`Error::Io`](crate::Error::Io) if the current folder is unknown.
    pub fn load_local_source_contents(&mut self, base_path: Option<&Path>) -> Result<usize> {
        let folder = local::folder(base_path)?;
        let mut tried = 0;
        for source in self
            .sources
            .iter_mut()
            .filter(|source| source.contents.is_none())
        {
            if let Some(path) = local::source_path(&folder, &source.added) {
                tried += 1;
                source.contents = fs::read_to_string(path).ok().map(Into::into);
            }
        }
        Ok(tried)
    }

    /// Adds a name, and returns its id. Equal texts have one id.
    pub fn add_name(&mut self, name: &str) -> u32 {
        must(self.handle.add_name(name))
    }

    /// Adds a token by the texts of its source and its name.
    #[allow(clippy::too_many_arguments)]
    pub fn add(
        &mut self,
        dst_line: u32,
        dst_col: u32,
        src_line: u32,
        src_col: u32,
        source: Option<&str>,
        name: Option<&str>,
        is_range: bool,
    ) -> RawToken {
        let source = source.map(|source| self.add_source(source));
        let name = name.map(|name| self.add_name(name));
        self.add_raw(dst_line, dst_col, src_line, src_col, source, name, is_range)
    }

    /// Adds a token by the ids of its source and its name.
    #[allow(clippy::too_many_arguments)]
    pub fn add_raw(
        &mut self,
        dst_line: u32,
        dst_col: u32,
        src_line: u32,
        src_col: u32,
        source: Option<u32>,
        name: Option<u32>,
        is_range: bool,
    ) -> RawToken {
        let token = RawToken {
            dst_line,
            dst_col,
            src_line,
            src_col,
            src_id: source.unwrap_or(!0),
            name_id: name.unwrap_or(!0),
            is_range,
        };
        self.add_token_of_ids(token);
        token
    }

    /// Adds a token of another map, with or without its name. Its source is added as
    /// the other map resolves it against its source root. Its original column is
    /// that of [`Token::get_src_col`].
    pub fn add_token(&mut self, token: &Token<'_>, with_name: bool) -> RawToken {
        let name = token.get_name().filter(|_| with_name);
        self.add(
            token.get_dst_line(),
            token.get_dst_col(),
            token.get_src_line(),
            token.get_src_col(),
            token.get_source(),
            name,
            token.is_range(),
        )
    }

    /// Removes prefixes from sources. If a source begins with several of these
    /// prefixes, only the first of them in the list is removed. A `/` is added to a
    /// prefix that does not end with one. The prefix `~` has no special meaning
    /// here.
    pub fn strip_prefixes<S: AsRef<str>>(&mut self, prefixes: &[S]) {
        must(self.handle.strip_prefixes(prefixes));
    }

    /// Returns the map.
    pub fn into_sourcemap(self) -> SourceMap {
        must(self.finish())
    }

    fn add_token_of_ids(&mut self, token: RawToken) {
        self.pending.push(token);
        if self.pending.len() >= BLOCK {
            must(self.handle.add_tokens(&mut self.pending));
        }
    }

    fn finish(mut self) -> Result<SourceMap> {
        self.handle.add_tokens(&mut self.pending)?;
        self.handle.set_source_root(self.source_root.as_deref())?;
        self.handle.set_debug_id(self.debug_id)?;
        for (id, source) in (0..).zip(&self.sources) {
            if let Some(contents) = &source.contents {
                self.handle.set_contents(id, contents)?;
            }
        }
        let mut map = self.handle.finish()?;
        map.set_file(self.file.as_deref())?;
        for id in self.ignored {
            map.ignore_source(id)?;
        }
        Ok(SourceMap::of_handle(map))
    }
}
