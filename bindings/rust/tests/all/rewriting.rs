use std::env;
use std::fs;
use std::path::PathBuf;
use std::process;

use sourcemap::{RewriteOptions, SourceMap, SourceMapBuilder};

use crate::{regular, written_map, COOLSTUFF};

/// A map with a token of each source.
fn of_sources(sources: &[&str]) -> SourceMap {
    let mut builder = SourceMapBuilder::new(None);
    for (column, source) in (0..).zip(sources) {
        builder.add(0, column, 0, 0, Some(source), None, false);
    }
    builder.into_sourcemap()
}

fn rewrite(map: SourceMap, options: &RewriteOptions<'_>) -> SourceMap {
    map.rewrite(options).expect("a map")
}

fn strip(sources: &[&str], prefixes: &[&str]) -> Vec<String> {
    let options = RewriteOptions {
        strip_prefixes: prefixes,
        ..Default::default()
    };
    rewrite(of_sources(sources), &options)
        .sources()
        .map(str::to_owned)
        .collect()
}

#[test]
fn only_what_tokens_use_is_kept() {
    let json = r#"{"version":3,"file":"f","sourceRoot":"r","sources":["unused","b"],
        "sourcesContent":["0","1"],"names":["unused","n"],"mappings":"ACAAC","ignoreList":[1]}"#;
    let map = rewrite(regular(json), &RewriteOptions::default());
    let expected = r#"{"file":"f","mappings":"AAAAA","names":["n"],"sources":["r/b"],"sourcesContent":["1"],"version":3}"#;
    assert_eq!(written_map(&map), expected);
    assert_eq!(
        written_map(&rewrite(map.clone(), &RewriteOptions::default())),
        expected
    );
}

#[test]
fn a_map_that_has_nothing_else_is_rewritten_as_it_is() {
    let expected = r#"{"mappings":"AAAA,GAAIA,GAAI,EACR,IAAIA,GAAK,EAAG,CACVC,MAAM","names":["x","alert"],"sources":["coolstuff.js"],"version":3}"#;
    let map = rewrite(regular(COOLSTUFF), &RewriteOptions::default());
    assert_eq!(written_map(&map), expected);
}

#[test]
fn names_and_contents_are_removed_if_asked() {
    let mut map = regular(COOLSTUFF);
    map.set_source_contents(0, Some("let x;"));
    let options = RewriteOptions {
        with_names: false,
        with_source_contents: false,
        ..Default::default()
    };
    let without = rewrite(map.clone(), &options);
    assert_eq!(
        (without.has_names(), without.get_source_contents(0)),
        (false, None)
    );
    let with = rewrite(map, &RewriteOptions::default());
    assert_eq!(
        (with.has_names(), with.get_source_contents(0)),
        (true, Some("let x;"))
    );
}

#[test]
fn the_first_prefix_that_matches_is_stripped() {
    assert_eq!(strip(&["/a/b/c.js"], &["/a", "/a/b"]), ["b/c.js"]);
    assert_eq!(strip(&["/a/b/c.js"], &["/a/b", "/a"]), ["c.js"]);
    assert_eq!(strip(&["/a/b/c.js"], &["/a/b/"]), ["c.js"]);
    assert_eq!(
        strip(&["/a/b/c.js", "/ab/c.js"], &["/a"]),
        ["b/c.js", "/ab/c.js"]
    );
}

#[test]
fn the_common_prefix_of_absolute_sources() {
    let both = ["/foo/bar/baz", "/foo/bar/baz/blah"];
    let of_both = |others: &[&str]| strip(&[&both, others].concat(), &["~"]);
    assert_eq!(of_both(&[]), ["/foo/bar/baz", "blah"]);
    assert_eq!(of_both(&["foo"]), ["/foo/bar/baz", "blah", "foo"]);
    assert_eq!(of_both(&["/foo"]), ["bar/baz", "bar/baz/blah", "/foo"]);
    assert_eq!(
        of_both(&["/meh"]),
        ["/foo/bar/baz", "/foo/bar/baz/blah", "/meh"]
    );
    assert_eq!(
        of_both(&["/blah", "foo"]),
        ["/foo/bar/baz", "/foo/bar/baz/blah", "/blah", "foo"]
    );
}

#[test]
fn the_common_prefix_of_sources_on_a_drive() {
    assert_eq!(
        strip(&["C:/foo/a.js", "C:/foo/sub/b.js", "c.js"], &["~"]),
        ["a.js", "sub/b.js", "c.js"]
    );
    // The folders `C:\foo` are the prefix, which a slash completes.
    assert_eq!(
        strip(&["C:\\foo/a.js", "C:\\foo/b.js"], &["~"]),
        ["a.js", "b.js"]
    );
    let both = ["C:\\foo\\a.js", "C:\\foo\\b.js"];
    assert_eq!(strip(&both, &["~"]), both);
    let drives = ["C:/foo/a.js", "D:/foo/b.js"];
    assert_eq!(strip(&drives, &["~"]), drives);
}

/// A folder of files, which is removed when it is dropped.
struct Folder(PathBuf);

impl Folder {
    fn new(name: &str, files: &[(&str, &[u8])]) -> Folder {
        let path = env::temp_dir().join(format!("sourcemap-{name}-{}", process::id()));
        for (file, contents) in files {
            let file = path.join(file);
            fs::create_dir_all(file.parent().expect("a folder")).expect("a folder");
            fs::write(file, contents).expect("a file");
        }
        Folder(path)
    }
}

impl Drop for Folder {
    fn drop(&mut self) {
        fs::remove_dir_all(&self.0).expect("the folder is there");
    }
}

const FILES: [(&str, &[u8]); 5] = [
    ("a.js", b"file a"),
    ("sub/b c.js", b"file b"),
    ("bytes.js", b"\xff"),
    ("base", b"file base"),
    ("other", b"file other"),
];

#[test]
fn a_builder_loads_contents_from_files() {
    let folder = Folder::new("builder", &FILES);
    let mut builder = SourceMapBuilder::new(None);
    for source in [
        "a.js",
        "sub/b%20c.js",
        "bytes.js",
        "missing.js",
        "http://host/a.js",
    ] {
        builder.add_source(source);
    }
    let has = builder.add_source("./a.js");
    builder.set_source_contents(has, Some("own"));
    assert_eq!(
        builder
            .load_local_source_contents(Some(&folder.0))
            .expect("a folder"),
        // All but the URL of a server and the source that has contents.
        4
    );
    let map = builder.into_sourcemap();
    let contents: Vec<_> = map.source_contents().collect();
    let expected = [
        Some("file a"),
        Some("file b"),
        None,
        None,
        None,
        Some("own"),
    ];
    assert_eq!(contents, expected);
}

#[test]
fn a_source_without_a_path_leads_to_the_folder() {
    let folder = Folder::new("without-a-path", &FILES);
    let mut builder = SourceMapBuilder::new(None);
    for source in ["", "#a", "?a", "base", "other"] {
        builder.add_source(source);
    }
    assert_eq!(
        builder
            .load_local_source_contents(Some(&folder.0))
            .expect("a folder"),
        5
    );
    let map = builder.into_sourcemap();
    let contents: Vec<_> = map.source_contents().collect();
    let expected = [None, None, None, Some("file base"), Some("file other")];
    assert_eq!(contents, expected);
}

#[test]
fn a_rewritten_map_loads_contents_from_files() {
    let folder = Folder::new("rewrite", &FILES);
    let mut map = of_sources(&["a.js", "sub/b%20c.js", "missing.js"]);
    map.set_source_contents(0, Some("own"));
    let loading = RewriteOptions {
        load_local_source_contents: true,
        base_path: Some(&folder.0),
        strip_prefixes: &["sub"],
        ..Default::default()
    };
    let kept = rewrite(map.clone(), &loading);
    assert_eq!(
        kept.sources().collect::<Vec<_>>(),
        ["a.js", "b%20c.js", "missing.js"]
    );
    assert_eq!(
        kept.source_contents().collect::<Vec<_>>(),
        [Some("own"), Some("file b"), None]
    );
    let removing = RewriteOptions {
        with_source_contents: false,
        ..loading
    };
    let loaded = rewrite(map, &removing);
    let contents: Vec<_> = loaded.source_contents().collect();
    assert_eq!(contents, [Some("file a"), Some("file b"), None]);
}
