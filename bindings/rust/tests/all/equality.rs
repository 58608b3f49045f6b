//! Maps are equal by all that they hold.

use sourcemap::{
    decode_slice, DecodedMap, RewriteOptions, SourceMap, SourceMapBuilder, SourceMapHermes,
    SourceMapIndex,
};

use crate::{of_mappings, regular, token};

/// A regular map with every part.
const FULL: &str = r#"{"version":3,"file":"out.js","sourceRoot":"root","sources":["a.js","/b.js"],"sourcesContent":["let a;",null],"names":["n"],"mappings":"AAAA,ICCEA;E","rangeMappings":"C;","ignoreList":[1],"debugId":"00000000-0000-0000-0000-00000000002a"}"#;

/// Two sections.
const INDEX: &str = r#"{"version":3,"file":"all.js","sections":[{"offset":{"line":0,"column":0},"map":{"version":3,"sources":["a.js"],"names":[],"mappings":"AAAA"}},{"offset":{"line":10,"column":4},"url":"b.map"}],"x_facebook_offsets":[5]}"#;

const HERMES: &str = r#"{"version":3,"sources":["a.js"],"names":[],"mappings":"AAAA,KACK","x_facebook_sources":[[{"names":["<global>","foo"],"mappings":"AAA,KCC"}]]}"#;

fn decode_json(json: &str) -> DecodedMap {
    decode_slice(json.as_bytes()).expect(json)
}

/// The text with its first `from` replaced by `to`.
fn with_change(json: &str, from: &str, to: &str) -> String {
    assert!(json.contains(from), "{from} in {json}");
    json.replacen(from, to, 1)
}

#[test]
fn a_map_that_is_read_twice_is_equal() {
    for json in [FULL, INDEX, HERMES] {
        let map = decode_json(json);
        let junk = [")]}'\n", json].concat();
        assert_eq!(map, map, "the same object");
        assert_eq!(map, decode_json(json));
        assert_eq!(map, decode_json(&junk));
        assert_eq!(map, map.clone());
        assert_eq!(map.clone(), map.clone());
    }
}

/// A text, and one part of it that is different in another map.
const PARTS: &[(&str, &str, &str)] = &[
    (FULL, "2a\"", "2b\""),
    (
        FULL,
        r#","debugId":"00000000-0000-0000-0000-00000000002a""#,
        "",
    ),
    (FULL, "out.js", "in.js"),
    (FULL, r#""file":"out.js","#, ""),
    (FULL, "[1]", "[0]"),
    (FULL, r#""ignoreList":[1],"#, ""),
    (FULL, "AAAA,", "AAAC,"),
    (FULL, ";E", ";G"),
    (FULL, ";E", ";E,C"),
    (FULL, "ICCEA", "ICCE"),
    (FULL, "\"C;\"", "\"B;\""),
    (FULL, r#"["n"]"#, r#"["m"]"#),
    (FULL, r#"["n"]"#, r#"["n","m"]"#),
    (FULL, "\"root\"", "\"r\""),
    (FULL, "a.js", "c.js"),
    (FULL, "let a;", "let b;"),
    (FULL, ",null]", ",\"\"]"),
    // A shorter list of contents, although the getters answer alike.
    (FULL, ",null]", "]"),
    // A source that is written in another way.
    (
        FULL,
        r#""sourceRoot":"root","sources":["a.js""#,
        r#""sources":["root/a.js""#,
    ),
    (INDEX, "all.js", "any.js"),
    (INDEX, "a.js", "c.js"),
    (INDEX, r#""line":10"#, r#""line":11"#),
    (INDEX, "b.map", "c.map"),
    (INDEX, "[5]", "[6]"),
    (INDEX, r#","x_facebook_offsets":[5]"#, ""),
    (HERMES, "a.js", "b.js"),
    (HERMES, "foo", "bar"),
    (HERMES, "KCC", "KCE"),
];

#[test]
fn one_other_part_makes_a_map_unequal() {
    for (json, from, to) in PARTS {
        let (map, other) = (decode_json(json), decode_json(&with_change(json, from, to)));
        assert_ne!(map, other, "{from} and {to}");
        assert_ne!(other, map, "{to} and {from}");
    }
}

#[test]
fn the_order_of_lists_counts() {
    let map = regular(r#"{"sources":["a","b"],"names":["x","y"],"mappings":"AAAAA,CCAAC"}"#);
    let other = regular(r#"{"sources":["b","a"],"names":["y","x"],"mappings":"ACAAC,CDAAD"}"#);
    let texts = |map: &SourceMap| {
        map.tokens()
            .map(|token| token.to_string())
            .collect::<Vec<_>>()
    };
    assert_eq!(texts(&map), texts(&other));
    // Tokens are equal by their numbers.
    assert!(map
        .tokens()
        .zip(other.tokens())
        .all(|(one, other)| one != other));
    assert_ne!(map, other);
    assert_ne!(of_mappings("AAAA,AACA", ""), of_mappings("AACA,AADA", ""));
    // Ignored sources have none.
    let with_ignore_list = |list: &str| {
        regular(&format!(
            r#"{{"sources":["a","b"],"mappings":"","ignoreList":[{list}]}}"#
        ))
    };
    assert_eq!(with_ignore_list("1,0,1"), with_ignore_list("0,1"));
}

#[test]
fn maps_of_other_kinds_are_unequal() {
    let maps = [FULL, INDEX, HERMES].map(decode_json);
    for (at, map) in maps.iter().enumerate() {
        for (other_at, other) in maps.iter().enumerate() {
            assert_eq!(map == other, at == other_at);
        }
    }
    let without_scopes = decode_json(&with_change(HERMES, "x_facebook_sources", "unknown"));
    assert_ne!(decode_json(HERMES), without_scopes);
}

#[test]
fn the_maps_in_hermes_maps_are_compared_without_scopes() {
    let hermes = |json: &str| SourceMapHermes::from_slice(json.as_bytes()).expect("a Hermes map");
    let (map, other) = (
        hermes(HERMES),
        hermes(&with_change(HERMES, "\"foo\"", "\"bar\"")),
    );
    assert_ne!(map, other);
    assert_eq!(*map, *other);
    assert_eq!(
        *map,
        regular(&with_change(HERMES, "x_facebook_sources", "unknown"))
    );
    assert_ne!(*map, *hermes(&with_change(HERMES, "a.js", "b.js")));
}

/// A change of a map with every part.
type Change = fn(&mut SourceMap);

#[test]
fn a_change_makes_maps_unequal() {
    let changes: [(&str, Change); 9] = [
        ("debug id", |map| map.set_debug_id(None)),
        ("file", |map| map.set_file(Some("f"))),
        ("root", |map| map.set_source_root(Some("r"))),
        ("ignored", |map| map.add_to_ignore_list(0)),
        ("source", |map| map.set_source(1, "c.js")),
        ("contents", |map| map.set_source_contents(1, Some("let b;"))),
        ("no contents", |map| map.set_source_contents(0, None)),
        ("names", |map| map.remove_names()),
        ("tokens", |map| {
            let moved = vec![token((1, 0), (0, 0)), token((9, 0), (1, 0))];
            let sources = vec!["a.js".into()];
            map.adjust_mappings(&SourceMap::new(None, moved, vec![], sources, None));
        }),
    ];
    let map = regular(FULL);
    for (what, change) in changes {
        let mut changed = map.clone();
        assert_eq!(changed, map, "before {what}");
        change(&mut changed);
        assert_ne!(changed, map, "{what}");
        assert_ne!(map, changed, "{what}");
        assert_eq!(changed, changed.clone(), "{what}");
    }
    let rewritten = map.clone().rewrite(&RewriteOptions::default());
    assert_ne!(rewritten.expect("a map"), map);
    assert_eq!(map, regular(FULL));
}

#[test]
fn a_change_that_is_undone_leaves_equal_maps() {
    let map = regular(FULL);
    let mut other = map.clone();
    other.set_file(Some("f"));
    other.set_source(0, "c.js");
    assert_ne!(other, map);
    other.set_source(0, "a.js");
    other.set_file(Some("out.js"));
    assert_eq!(other, map);
}

#[test]
fn a_change_makes_index_maps_unequal() {
    let read = || SourceMapIndex::from_slice(INDEX.as_bytes()).expect("an index map");
    let map = read();
    let mut other = map.clone();
    let section = other.get_section_mut(1).expect("a section");
    section.set_url(Some("c.map"));
    assert_ne!(other, map);
    assert_ne!(other.get_section(1), map.get_section(1));
    assert_eq!(other.get_section(0), map.get_section(0));
    let section = other.get_section_mut(1).expect("a section");
    section.set_url(Some("b.map"));
    assert_eq!(other, map);
    match other
        .get_section_mut(0)
        .expect("a section")
        .get_sourcemap_mut()
    {
        Some(DecodedMap::Regular(map)) => map.set_source(0, "c.js"),
        _ => panic!("a regular map"),
    }
    assert_ne!(other, map);
    let mut moved = map.clone();
    assert!(moved.adjust_sections_offset_rows(1));
    assert_ne!(moved, map);
    assert_eq!(map, read());
}

#[test]
fn a_map_that_is_built_equals_one_that_is_read() {
    let mut builder = SourceMapBuilder::new(Some("out.js"));
    builder.set_source_root(Some("root"));
    builder.set_debug_id(Some(
        "00000000-0000-0000-0000-00000000002a"
            .parse()
            .expect("an id"),
    ));
    let (a, b) = (builder.add_source("a.js"), builder.add_source("/b.js"));
    builder.add_to_ignore_list(b);
    builder.set_source_contents(a, Some("let a;"));
    builder.add_raw(1, 2, !0, !0, None, None, false);
    builder.add(0, 4, 1, 2, Some("/b.js"), Some("n"), true);
    builder.add(0, 0, 0, 0, Some("a.js"), None, false);
    assert_eq!(builder.into_sourcemap(), regular(FULL));
}
