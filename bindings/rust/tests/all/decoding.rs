use std::io::{self, Read};

use sourcemap::{
    decode, decode_data_url, decode_slice, is_sourcemap, is_sourcemap_slice, DecodedMap, Error,
    JsonError, SourceMap, SourceMapHermes, SourceMapIndex,
};

use crate::{bare_token, raw_tokens, regular, written_any, written_map, COOLSTUFF};

/// The error of a map with these mappings and no more.
fn error_of(mappings: &str, sources: &str, ranges: &str) -> Error {
    let json = format!(
        r#"{{"version":3,"sources":[{sources}],"names":[],"mappings":"{mappings}","rangeMappings":"{ranges}"}}"#
    );
    SourceMap::from_slice(json.as_bytes()).expect_err(mappings)
}

#[test]
fn what_is_wrong_with_mappings() {
    let a = "\"a.js\"";
    assert!(matches!(
        error_of("AAAAAA", a, ""),
        Error::BadSegmentSize(6)
    ));
    assert!(matches!(
        error_of("AAAA", "", ""),
        Error::BadSourceReference(0)
    ));
    assert!(matches!(
        error_of("ADAA", a, ""),
        Error::BadSourceReference(u32::MAX)
    ));
    assert!(matches!(
        error_of("AAAAA", a, ""),
        Error::BadNameReference(0)
    ));
    assert!(matches!(error_of("A", a, "!"), Error::InvalidBase64('!')));
    assert!(matches!(error_of("g", a, ""), Error::VlqLeftover));
    assert!(matches!(
        error_of("ggggggggggggI", a, ""),
        Error::VlqOverflow
    ));
    let text = error_of("AAAAAA", a, "").to_string();
    assert_eq!(text, "got 6 segments, expected 4 or 5");
    assert_eq!(
        error_of("AAAA", "", "").to_string(),
        "bad reference to source #0"
    );
    assert_eq!(
        error_of("AAAAA", a, "").to_string(),
        "bad reference to name #0"
    );
}

#[test]
fn the_ranges_of_an_empty_line_are_not_read() {
    let map = regular(r#"{"sources":[],"names":[],"mappings":";A","rangeMappings":"!"}"#);
    assert_eq!(raw_tokens(&map), [bare_token((1, 0))]);
}

#[test]
fn what_is_not_json_or_not_a_map() {
    let parse = decode_slice(b"").expect_err("no text");
    assert!(matches!(parse, Error::BadJson(JsonError::Parse)));
    assert_eq!(parse.to_string(), "bad json: the text is not JSON");
    let shape = decode_slice(b"[]").expect_err("no object");
    assert!(matches!(shape, Error::BadJson(JsonError::Shape)));
    assert_eq!(shape.to_string(), "bad json: a field has the wrong type");
    assert!(std::error::Error::source(&shape).is_some());
    assert!(JsonError::Shape.is_data() && !JsonError::Shape.is_syntax());
    assert!(JsonError::Parse.is_syntax() && !JsonError::Parse.is_data());
}

#[test]
fn a_map_of_another_kind_is_incompatible() {
    let index = br#"{"version":3,"sections":[]}"#;
    let is_incompatible = |error| matches!(error, Error::IncompatibleSourceMap);
    assert!(is_incompatible(
        SourceMap::from_slice(index).expect_err("an index")
    ));
    assert!(is_incompatible(
        SourceMapHermes::from_slice(index).expect_err("an index")
    ));
    let regular = COOLSTUFF.as_bytes();
    assert!(is_incompatible(
        SourceMapIndex::from_slice(regular).expect_err("regular")
    ));
    assert!(is_incompatible(
        SourceMapHermes::from_reader(regular).expect_err("regular")
    ));
    assert_eq!(
        Error::IncompatibleSourceMap.to_string(),
        "encountered incompatible sourcemap format"
    );
}

#[test]
fn a_junk_header_is_skipped() {
    let text = [")]}garbage\r\n", COOLSTUFF].concat();
    assert_eq!(regular(&text), regular(COOLSTUFF));
    assert_eq!(
        decode(text.as_bytes()).expect("a map"),
        DecodedMap::Regular(regular(COOLSTUFF))
    );
    let endless = decode_slice(b")]}").expect_err("no text");
    assert!(matches!(endless, Error::BadJson(JsonError::Parse)));
    let malformed = [")]}'\r", COOLSTUFF].concat();
    match decode(malformed.as_bytes()) {
        Err(Error::Io(error)) => assert_eq!(error.kind(), io::ErrorKind::InvalidData),
        other => panic!("{other:?}"),
    }
}

/// A reader that fails.
struct Failing;

impl Read for Failing {
    fn read(&mut self, _: &mut [u8]) -> io::Result<usize> {
        Err(io::Error::new(io::ErrorKind::TimedOut, "too late"))
    }
}

#[test]
fn the_error_of_a_reader_is_returned() {
    match decode(Failing) {
        Err(Error::Io(error)) => assert_eq!(error.kind(), io::ErrorKind::TimedOut),
        other => panic!("{other:?}"),
    }
    assert!(!is_sourcemap(Failing));
}

#[test]
fn the_error_of_a_writer_is_returned() {
    let mut short = [0; 4];
    match regular(COOLSTUFF).to_writer(&mut short[..]) {
        Err(Error::Io(error)) => assert_eq!(error.kind(), io::ErrorKind::WriteZero),
        other => panic!("{other:?}"),
    }
}

#[test]
fn data_urls() {
    let url = "data:application/json;base64,eyJtYXBwaW5ncyI6IkEifQ==";
    let map = decode_data_url(url).expect("a map");
    assert_eq!(
        written_any(&map),
        r#"{"mappings":"A","names":[],"sources":[],"version":3}"#
    );
    let latin = url.replace(";base64", ";charset=latin1;base64");
    let error = decode_data_url(&latin).expect_err("another character set");
    assert!(matches!(error, Error::InvalidDataUrl));
    assert_eq!(error.to_string(), "the provided data URL is invalid");
    let own = regular(COOLSTUFF).to_data_url().expect("a URL");
    assert!(own.starts_with("data:application/json;charset=utf-8;base64,"));
    assert_eq!(
        decode_data_url(&own).expect("a map"),
        DecodedMap::Regular(regular(COOLSTUFF))
    );
}

#[test]
fn a_map_is_written_as_it_was_read() {
    let expected = r#"{"mappings":"AAAA,GAAIA,GAAI,EACR,IAAIA,GAAK,EAAG,CACVC,MAAM","names":["x","alert"],"sources":["coolstuff.js"],"version":3}"#;
    assert_eq!(written_map(&regular(COOLSTUFF)), expected);
}

#[test]
fn sources_are_written_without_the_root() {
    let json = r#"{"version":3,"file":"foo.js","sources":["./bar.js","./baz.js"],
        "sourceRoot":"webpack:///","sourcesContent":[null,null],"names":[],"mappings":""}"#;
    let map = regular(json);
    assert_eq!(map.get_source(0), Some("webpack:///./bar.js"));
    assert_eq!(
        (map.get_file(), map.source_contents().count()),
        (Some("foo.js"), 2)
    );
    let text = written_map(&map);
    assert!(
        text.contains(r#""sources":["./bar.js","./baz.js"]"#),
        "{text}"
    );
    assert_eq!(written_map(&regular(&text)), text);
}

#[test]
fn values_of_other_types() {
    let json = r#"{"file":7,"sources":[null,"b"],"names":["a",5,null,[1]],"mappings":""}"#;
    let map = regular(json);
    assert_eq!(map.get_file(), Some("<invalid>"));
    assert_eq!(map.sources().collect::<Vec<_>>(), ["", "b"]);
    assert_eq!(map.names().collect::<Vec<_>>(), ["a", "5", "", ""]);
}

#[test]
fn what_is_a_source_map() {
    let rows = [
        (COOLSTUFF, true),
        (r#"{"version":3,"sections":[]}"#, true),
        (r#"{"file":"a","names":[],"mappings":""}"#, true),
        (r#"{"version":3,"sources":[]}"#, false),
        (r#"{"sources":[],"mappings":""}"#, false),
        ("[]", false),
        ("", false),
    ];
    for (text, expected) in rows {
        assert_eq!(is_sourcemap_slice(text.as_bytes()), expected, "of {text}");
        assert_eq!(is_sourcemap(text.as_bytes()), expected, "of {text}");
    }
}

#[test]
fn the_ignore_list_is_in_order() {
    let json =
        r#"{"version":3,"sources":["a","b","c"],"names":[],"mappings":"","ignoreList":[2,0]}"#;
    let mut map = regular(json);
    assert_eq!(map.ignore_list().copied().collect::<Vec<_>>(), [0, 2]);
    map.add_to_ignore_list(1);
    map.add_to_ignore_list(1);
    assert_eq!(map.ignore_list().copied().collect::<Vec<_>>(), [0, 1, 2]);
    assert!(written_map(&map).contains(r#""ignoreList":[0,1,2]"#));
}
