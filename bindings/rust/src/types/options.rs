//! How a map is rewritten.

use std::path::Path;

/// What [`SourceMap::rewrite`](crate::SourceMap::rewrite) keeps, loads and
/// strips. By default it keeps names and contents.
#[derive(Debug, Clone)]
pub struct RewriteOptions<'a> {
    /// Whether names are kept.
    pub with_names: bool,
    /// Whether the contents that the map has are kept.
    pub with_source_contents: bool,
    /// Whether contents that the map lacks, or does not keep, are read from local
    /// files. Sources lead to files, and are skipped, as by
    /// [`load_local_source_contents`](crate::SourceMapBuilder::load_local_source_contents).
    /// But a source is first resolved against the source root.
    pub load_local_source_contents: bool,
    /// The folder against which sources are resolved to find their local files. A
    /// relative path counts from the current folder. None is the current folder.
    pub base_path: Option<&'a Path>,
    /// Prefixes to remove from sources. If a source begins with several of them,
    /// only the first of these in the list is removed. A `/` is added to a prefix
    /// that does not end with one. The prefix `~` is tried last. It means the common
    /// path of all sources that are absolute paths: `/a` for `/a/b` and `/a/bc`. For
    /// the common path, sources count as they are written, not as resolved against the
    /// source root. Unused sources count too. If the common path is empty or `/`, `~`
    /// removes nothing.
    pub strip_prefixes: &'a [&'a str],
}

impl Default for RewriteOptions<'_> {
    fn default() -> Self {
        RewriteOptions {
            with_names: true,
            with_source_contents: true,
            load_local_source_contents: false,
            base_path: None,
            strip_prefixes: &[],
        }
    }
}
