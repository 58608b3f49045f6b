use std::fs;
use std::path::{Path, PathBuf};

use sourcemap::{
    decode_slice, CompiledMap, CompiledMapError, CompiledToken, DecodedMap, Error, SourceMap,
    SourceMapHermes, Token, WithContents,
};

use crate::{regular, COOLSTUFF};

/// Every part that a regular map can have.
const FULL: &str = r#"{"version":3,"file":"out.js","sourceRoot":"root","sources":["a.js","/b.js"],
    "sourcesContent":["let a;",null],"names":["n"],"mappings":"AAAA,ICCEA;E","rangeMappings":"C;",
    "debugId":"00000000-0000-0000-0000-00000000002a"}"#;

/// The function <global> from the start of the source on, foo from 1:5 on.
const HERMES: &str = r#"{"version":3,"sources":["a.js"],"names":[],"mappings":"AAAA,KACK",
    "x_facebook_sources":[[{"names":["<global>","foo"],"mappings":"AAA,KCC"}]]}"#;

/// `docs/COMPILED.md`: where the header says where the tables begin, and how many bytes of them a
/// block takes. Then come the offsets of the texts.
const TABLES: usize = 48;
const OF_A_BLOCK: usize = 40;

fn compiled(map: &SourceMap) -> Vec<u8> {
    map.compile(WithContents::Yes).expect("a compiled map")
}

fn number_at(file: &[u8], at: usize) -> usize {
    u32::from_le_bytes(file[at..at + 4].try_into().expect("four bytes")) as usize
}

fn put_number(file: &mut [u8], at: usize, number: u32) {
    file[at..at + 4].copy_from_slice(&number.to_le_bytes());
}

/// The maps of this repository.
fn paths() -> Vec<PathBuf> {
    let here = Path::new(env!("CARGO_MANIFEST_DIR"));
    let folders = [here.join("../test-maps"), here.join("../../examples")];
    let files = folders
        .iter()
        .flat_map(|folder| fs::read_dir(folder).expect("a folder of maps"))
        .map(|entry| entry.expect("a file").path());
    files
        .filter(|path| path.extension().is_some_and(|end| end == "map"))
        .collect()
}

/// The regular map that is compiled of a map.
fn flat(map: DecodedMap) -> SourceMap {
    match map {
        DecodedMap::Regular(map) => map,
        DecodedMap::Index(map) => map.flatten().expect("a flat map"),
        DecodedMap::Hermes(map) => SourceMap::clone(&map),
    }
}

fn check_same(found: Option<CompiledToken<'_>>, wanted: Option<Token<'_>>) {
    let found = found.map(|token| {
        (
            (token.get_dst(), token.get_src(), token.get_src_id()),
            (token.get_name_id(), token.is_range(), token.has_source()),
            (token.get_source(), token.get_name(), token.has_name()),
        )
    });
    let wanted = wanted.map(|token| {
        (
            (token.get_dst(), token.get_src(), token.get_src_id()),
            (token.get_name_id(), token.is_range(), token.has_source()),
            (
                Ok(token.get_source()),
                Ok(token.get_name()),
                token.has_name(),
            ),
        )
    });
    assert_eq!(found, wanted);
}

#[test]
fn real_files_answer_as_their_maps() {
    let paths = paths();
    assert!(paths.len() > 5, "the maps are there");
    for path in paths {
        let json = fs::read(&path).expect("a map");
        let decoded = decode_slice(&json).expect("a map");
        let file = decoded.compile(WithContents::Yes).expect("a compiled map");
        let compiled = CompiledMap::parse(&file).expect("a compiled map");
        let map = flat(decoded);
        assert_eq!(compiled.verify(), Ok(()));
        assert_eq!(compiled.token_count(), map.get_token_count());
        for token in map.tokens() {
            let (line, column) = token.get_dst();
            for column in [
                column.saturating_sub(1),
                column,
                column.saturating_add(1),
                !0,
            ] {
                check_same(
                    compiled.lookup_token(line, column),
                    map.lookup_token(line, column),
                );
            }
        }
        check_same(compiled.lookup_token(0, 0), map.lookup_token(0, 0));
        for id in 0..map.get_source_count() + 1 {
            assert_eq!(compiled.source(id), Ok(map.get_source(id)));
            assert_eq!(
                compiled.source_contents(id),
                Ok(map.get_source_contents(id))
            );
        }
        for id in 0..map.get_name_count() + 1 {
            assert_eq!(compiled.name(id), Ok(map.get_name(id)));
        }
    }
}

#[test]
fn all_parts_are_compiled() {
    let file = compiled(&regular(FULL));
    let map = CompiledMap::parse(&file).expect("a compiled map");
    assert_eq!(
        (map.token_count(), map.source_count(), map.name_count()),
        (3, 2, 1)
    );
    assert_eq!(map.file(), Ok(Some("out.js")));
    assert_eq!(map.debug_id(), regular(FULL).get_debug_id());
    assert_eq!(map.source(0), Ok(Some("root/a.js")));
    assert_eq!(map.source_contents(0), Ok(Some("let a;")));
    assert_eq!(
        (map.source_contents(1), map.source(2), map.name(!0)),
        (Ok(None), Ok(None), Ok(None))
    );
    let range = map.lookup_token(0, 5).expect("a token");
    assert_eq!(
        (range.get_dst(), range.get_src(), range.is_range()),
        ((0, 4), (1, 3), true)
    );
    let last = map.lookup_token(!0, !0).expect("a token");
    assert_eq!((last.has_source(), last.get_src()), (false, (!0, !0)));
    let bare = regular(FULL)
        .compile(WithContents::No)
        .expect("a compiled map");
    let bare = CompiledMap::parse(&bare).expect("a compiled map");
    assert_eq!(bare.source_contents(0), Ok(None));
}

#[test]
fn a_map_without_tokens_answers_none() {
    let file = compiled(&regular(
        r#"{"version":3,"sources":[],"names":[],"mappings":""}"#,
    ));
    let map = CompiledMap::parse(&file).expect("a compiled map");
    assert_eq!(
        (map.token_count(), map.file(), map.debug_id()),
        (0, Ok(None), None)
    );
    assert!(map.lookup_token(!0, !0).is_none());
}

#[test]
fn scopes_are_those_of_hermes_maps() {
    let map = SourceMapHermes::from_slice(HERMES.as_bytes()).expect("a Hermes map");
    let file = map.compile(WithContents::No).expect("a compiled map");
    let compiled = CompiledMap::parse(&file).expect("a compiled map");
    for (column, scope) in [(0, "<global>"), (4, "<global>"), (5, "foo"), (9, "foo")] {
        let token = compiled.lookup_token(0, column).expect("a token");
        assert_eq!(token.get_scope(), Ok(Some(scope)));
        let wanted = map.get_scope_for_token(map.lookup_token(0, column).expect("a token"));
        assert_eq!(token.get_scope(), Ok(wanted));
    }
    let file = compiled_regular(&map);
    let regular = CompiledMap::parse(&file).expect("a compiled map");
    assert_eq!(
        regular.lookup_token(0, 0).expect("a token").get_scope(),
        Ok(None)
    );
}

/// The regular map in a Hermes map, compiled.
fn compiled_regular(map: &SourceMap) -> Vec<u8> {
    compiled(map)
}

#[test]
fn equal_maps_give_equal_bytes() {
    assert_eq!(compiled(&regular(FULL)), compiled(&regular(FULL)));
    let index = decode_slice(
        br#"{"version":3,"sections":[{"offset":{"line":1,"column":0},
            "map":{"version":3,"sources":["a.js"],"names":[],"mappings":"AAAA"}}]}"#,
    );
    let flat_file = regular(r#"{"version":3,"sources":["a.js"],"names":[],"mappings":";AAAA"}"#);
    let file = index.expect("a map").compile(WithContents::No);
    assert_eq!(
        file.expect("a compiled map"),
        flat_file.compile(WithContents::No).expect("one")
    );
}

#[test]
fn what_cannot_be_flattened_is_not_compiled() {
    let index =
        decode_slice(br#"{"version":3,"sections":[{"offset":{"line":0,"column":0},"url":"u"}]}"#);
    let error = index.expect("a map").compile(WithContents::No);
    assert!(matches!(error, Err(Error::CannotFlatten(why)) if why.ends_with(": u")));
}

#[test]
fn headers_are_checked() {
    let mut file = compiled(&regular(COOLSTUFF));
    let refused = |bytes: &[u8]| CompiledMap::parse(bytes).map(|map| map.token_count());
    for bytes in [&[][..], &file[..63], &file[..file.len() - 1]] {
        assert_eq!(refused(bytes), Err(CompiledMapError::Truncated));
    }
    let longer = [&file[..], &[0]].concat();
    assert_eq!(refused(&longer), Err(CompiledMapError::WrongExtent));
    assert_eq!(
        refused(COOLSTUFF.as_bytes()),
        Err(CompiledMapError::WrongMagic)
    );
    put_number(&mut file, 4, 513);
    assert_eq!(refused(&file), Err(CompiledMapError::WrongVersion(513)));
}

#[test]
fn damaged_files_are_errors_of_the_call_that_reads_them() {
    let mut file = compiled(&regular(COOLSTUFF));
    let tables = number_at(&file, TABLES);
    let first = number_at(&file, tables + OF_A_BLOCK);
    file[first] = 0xff;
    let map = CompiledMap::parse(&file).expect("a compiled map");
    assert_eq!(map.source(0), Err(CompiledMapError::InvalidUtf8));
    assert_eq!(map.verify(), Err(CompiledMapError::InvalidUtf8));
    let token = map.lookup_token(0, 5).expect("a token");
    assert_eq!(token.get_source(), Err(CompiledMapError::InvalidUtf8));
    assert_eq!((token.get_src(), token.get_name()), ((0, 4), Ok(Some("x"))));
    put_number(&mut file, tables + OF_A_BLOCK, !0);
    let map = CompiledMap::parse(&file).expect("a compiled map");
    assert_eq!(map.source(0), Err(CompiledMapError::TextOutside));
    assert_eq!(map.verify(), Err(CompiledMapError::TextOutside));
    put_number(&mut file, tables, 200);
    let map = CompiledMap::parse(&file).expect("a compiled map");
    assert_eq!(map.verify(), Err(CompiledMapError::OutOfOrder));
}

#[test]
fn errors_of_compiled_maps_print() {
    let rows = [
        (CompiledMapError::Truncated, "the compiled map is truncated"),
        (CompiledMapError::WrongMagic, "not a compiled map"),
        (
            CompiledMapError::WrongVersion(2),
            "unknown version of a compiled map: 2",
        ),
        (
            CompiledMapError::WrongExtent,
            "a table of the compiled map has a wrong extent",
        ),
        (
            CompiledMapError::OutOfOrder,
            "the compiled map is out of order",
        ),
        (
            CompiledMapError::TextOutside,
            "a text passes the end of the compiled map",
        ),
        (
            CompiledMapError::InvalidUtf8,
            "a text of the compiled map is not UTF-8",
        ),
    ];
    for (error, text) in rows {
        assert_eq!(error.to_string(), text);
    }
}
