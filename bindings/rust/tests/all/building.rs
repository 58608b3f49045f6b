use std::sync::Arc;

use sourcemap::{RawToken, SourceMap, SourceMapBuilder};

use crate::{bare_token, raw_tokens, regular, token, written_map, COOLSTUFF};

#[test]
fn equal_texts_have_one_id() {
    let mut builder = SourceMapBuilder::new(Some("out.js"));
    assert_eq!(
        (builder.add_source("a.js"), builder.add_source("b.js")),
        (0, 1)
    );
    assert_eq!((builder.add_source("a.js"), builder.add_name("x")), (0, 0));
    assert_eq!((builder.add_name("y"), builder.add_name("x")), (1, 0));
    let first = builder.add(1, 2, 3, 4, Some("b.js"), Some("y"), false);
    let expected = RawToken {
        dst_line: 1,
        dst_col: 2,
        src_line: 3,
        src_col: 4,
        src_id: 1,
        name_id: 1,
        is_range: false,
    };
    assert_eq!(first, expected);
    assert_eq!(
        builder.add(0, 0, !0, !0, None, None, false),
        bare_token((0, 0))
    );
    assert_eq!(
        builder.add_raw(0, 5, 6, 7, Some(0), None, false),
        token((0, 5), (6, 7))
    );
    let map = builder.into_sourcemap();
    assert_eq!(
        raw_tokens(&map),
        [bare_token((0, 0)), token((0, 5), (6, 7)), expected]
    );
    assert_eq!(map.sources().collect::<Vec<_>>(), ["a.js", "b.js"]);
    assert_eq!(map.get_file(), Some("out.js"));
}

#[test]
fn the_parts_of_a_builder_are_those_of_its_map() {
    let mut builder = SourceMapBuilder::new(None);
    assert_eq!(
        (builder.get_file(), builder.get_source_root()),
        (None, None)
    );
    builder.set_file(Some("out.js"));
    builder.set_source_root(Some(String::from("/root/")));
    builder.set_debug_id(Some([7; 16].into()));
    let a = builder.add_source("a.js");
    let b = builder.add_source("b.js");
    builder.set_source_contents(b, Some("let b;\n"));
    builder.add_to_ignore_list(b);
    assert_eq!(
        (builder.get_file(), builder.get_source_root()),
        (Some("out.js"), Some("/root/"))
    );
    assert_eq!(
        (
            builder.has_source_contents(a),
            builder.has_source_contents(b)
        ),
        (false, true)
    );
    assert_eq!(builder.get_source_contents(b), Some("let b;\n"));
    assert_eq!(
        (builder.get_source(b), builder.get_source(2)),
        (Some("b.js"), None)
    );
    let map = builder.into_sourcemap();
    assert_eq!(map.get_file(), Some("out.js"));
    assert_eq!(map.get_source_root(), Some("/root/"));
    assert_eq!(map.get_debug_id(), Some([7; 16].into()));
    assert_eq!(
        map.sources().collect::<Vec<_>>(),
        ["/root/a.js", "/root/b.js"]
    );
    assert_eq!(
        map.source_contents().collect::<Vec<_>>(),
        [None, Some("let b;\n")]
    );
    assert_eq!(map.ignore_list().collect::<Vec<_>>(), [&1]);
}

#[test]
fn a_changed_source_keeps_the_id_of_the_text_that_was_added() {
    let mut builder = SourceMapBuilder::new(None);
    builder.add_source("a.js");
    builder.set_source(0, "c.js");
    assert_eq!(builder.get_source(0), Some("c.js"));
    assert_eq!(
        (builder.add_source("a.js"), builder.add_source("c.js")),
        (0, 1)
    );
    let map = builder.into_sourcemap();
    assert_eq!(map.sources().collect::<Vec<_>>(), ["c.js", "c.js"]);
}

#[test]
#[should_panic(expected = "no source has id 0")]
fn a_builder_sets_no_source_that_it_does_not_have() {
    SourceMapBuilder::new(None).set_source(0, "a.js");
}

#[test]
#[should_panic(expected = "no source has id 1")]
fn a_map_sets_no_source_that_it_does_not_have() {
    regular(COOLSTUFF).set_source(1, "a.js");
}

#[test]
#[should_panic(expected = "no source has id 1")]
fn a_map_sets_no_contents_of_a_source_that_it_does_not_have() {
    regular(COOLSTUFF).set_source_contents(1, None);
}

#[test]
fn prefixes_are_stripped_with_their_slash() {
    let mut builder = SourceMapBuilder::new(None);
    for source in ["/a/x.js", "/a/b/y.js", "/ab.js", "c.js"] {
        builder.add_source(source);
    }
    builder.set_source(3, "/a/b/a/z.js");
    builder.strip_prefixes(&["/a/b", "/a"]);
    assert_eq!(
        (builder.get_source(1), builder.get_source(3)),
        (Some("y.js"), Some("a/z.js"))
    );
    assert_eq!(
        (builder.add_source("/a/b/y.js"), builder.add_source("c.js")),
        (1, 3)
    );
    let map = builder.into_sourcemap();
    assert_eq!(
        map.sources().collect::<Vec<_>>(),
        ["x.js", "y.js", "/ab.js", "a/z.js"]
    );
}

#[test]
fn tokens_come_in_any_order_and_stay_in_order_at_one_position() {
    let mut builder = SourceMapBuilder::new(None);
    builder.add(5, 0, 1, 0, Some("a.js"), None, false);
    builder.add(0, 9, 2, 0, Some("a.js"), None, false);
    for line in 10..3000 {
        builder.add(0, 3, line, 0, Some("a.js"), None, false);
    }
    let map = builder.into_sourcemap();
    let lines: Vec<u32> = map.tokens().map(|token| token.get_src_line()).collect();
    let expected: Vec<u32> = (10..3000).chain([2, 1]).collect();
    assert!(
        lines == expected,
        "tokens of one position changed their order"
    );
}

#[test]
fn tokens_of_another_map_come_with_or_without_names() {
    let map = regular(COOLSTUFF);
    let mut builder = SourceMapBuilder::new(None);
    for token in map.tokens() {
        builder.add_token(&token, true);
    }
    assert_eq!(written_map(&builder.into_sourcemap()), written_map(&map));
    let mut builder = SourceMapBuilder::new(None);
    let raw = builder.add_token(&map.get_token(1).expect("a token"), false);
    assert_eq!(raw, token((0, 3), (0, 4)));
    assert!(!builder.into_sourcemap().has_names());
}

#[test]
fn a_map_of_parts_keeps_sources_of_one_text_apart() {
    let texts = |texts: &[&str]| {
        texts
            .iter()
            .map(|&text| Arc::from(text))
            .collect::<Vec<_>>()
    };
    let tokens = vec![
        RawToken {
            src_id: 2,
            name_id: 1,
            ..token((0, 4), (1, 0))
        },
        token((0, 0), (0, 0)),
    ];
    let contents = vec![None, Some(Arc::from("b")), Some(Arc::from("c"))];
    let map = SourceMap::new(
        Some("out.js".into()),
        tokens.clone(),
        texts(&["m", "n"]),
        texts(&["s", "t", "s"]),
        Some(contents),
    );
    assert_eq!(map.get_file(), Some("out.js"));
    assert_eq!(raw_tokens(&map), [tokens[1], tokens[0]]);
    assert_eq!(map.sources().collect::<Vec<_>>(), ["s", "t", "s"]);
    assert_eq!(map.names().collect::<Vec<_>>(), ["m", "n"]);
    assert_eq!(
        map.source_contents().collect::<Vec<_>>(),
        [None, Some("b"), Some("c")]
    );
    assert_eq!(
        map.lookup_token(0, 9).expect("a token").to_string(),
        "s:1:0 name=n"
    );
}

#[test]
fn ids_that_a_map_does_not_have_name_nothing() {
    let odd = RawToken {
        src_id: 5,
        name_id: 6,
        ..token((0, 0), (1, 2))
    };
    let map = SourceMap::new(None, vec![odd], vec![], vec![], None);
    let token = map.lookup_token(0, 0).expect("a token");
    assert_eq!(
        (token.get_raw_token(), token.get_source(), token.get_name()),
        (odd, None, None)
    );
    assert!(token.has_source() && !token.has_name());
    assert_eq!(token.to_string(), "<unknown>:1:2");
}
