//! Contents of sources from local files.

use std::collections::HashMap;
use std::env;
use std::fs;
use std::io;
use std::path::{Path, PathBuf};

use crate::detector::resolve_path;
use crate::errors::Result;
use crate::types::{RewriteOptions, SourceMap};

/// The folder against which sources are resolved.
pub(crate) fn folder(base_path: Option<&Path>) -> io::Result<PathBuf> {
    let current = env::current_dir()?;
    Ok(match base_path {
        Some(path) => current.join(path),
        None => current,
    })
}

/// The path that a source leads to, if any.
pub(crate) fn source_path(folder: &Path, source: &str) -> Option<PathBuf> {
    // A reference is resolved against the folder of its base. One without a path of its
    // own leads to the base itself, so its path depends on the name of the base. In the
    // library such a reference leads to the folder.
    let path = resolve_path(source, &folder.join("base"))?;
    let other = resolve_path(source, &folder.join("other"))?;
    Some(if path == other { path } else { folder.into() })
}

/// The contents of a source, if it leads to a file that can be read as text.
fn read_source(folder: &Path, source: &str) -> Option<String> {
    fs::read_to_string(source_path(folder, source)?).ok()
}

/// Sets the contents of the sources of a map to those that the rewritten map is to
/// have, so that rewriting the map once with all contents does the rest.
///
/// Files are read for those sources that have no contents in the rewritten map.
pub(crate) fn load_for_rewrite(sm: &mut SourceMap, options: &RewriteOptions<'_>) -> Result<()> {
    let folder = folder(options.base_path)?;
    let rewritten = sm.clone().rewrite(&RewriteOptions {
        load_local_source_contents: false,
        strip_prefixes: &[],
        ..options.clone()
    })?;
    let loaded: HashMap<&str, String> = rewritten
        .sources()
        .zip(rewritten.source_contents())
        .filter(|(_, contents)| contents.is_none())
        .filter_map(|(source, _)| Some((source, read_source(&folder, source)?)))
        .collect();
    for id in 0..sm.get_source_count() {
        let contents = sm.get_source(id).and_then(|source| loaded.get(source));
        if contents.is_some() || !options.with_source_contents {
            sm.set_source_contents(id, contents.map(String::as_str));
        }
    }
    Ok(())
}
