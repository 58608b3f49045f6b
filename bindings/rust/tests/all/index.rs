use sourcemap::{
    decode_slice, DecodedMap, Error, RewriteOptions, SourceMapIndex, SourceMapSection, SourceView,
};

use crate::{of_mappings, regular, written_any, written_map};

/// The map of one source with one token.
fn of_source(source: &str) -> String {
    format!(r#"{{"version":3,"sources":["{source}"],"names":[],"mappings":"AAAA"}}"#)
}

fn section_json(line: u32, column: u32, rest: &str) -> String {
    format!(r#"{{"offset":{{"line":{line},"column":{column}}},{rest}}}"#)
}

fn index_of(sections: &[String]) -> SourceMapIndex {
    let json = format!(r#"{{"version":3,"sections":[{}]}}"#, sections.join(","));
    SourceMapIndex::from_slice(json.as_bytes()).expect("an index map")
}

/// Sections at (0,0), source `a.js`, and at (10,4), source `b.js`.
fn two_sections() -> SourceMapIndex {
    let section = |line, column, source| {
        section_json(line, column, &format!(r#""map":{}"#, of_source(source)))
    };
    index_of(&[section(0, 0, "a.js"), section(10, 4, "b.js")])
}

fn decoded_map(json: &str) -> DecodedMap {
    decode_slice(json.as_bytes()).expect("a map")
}

/// Sections at these offsets, without maps.
fn bare(offsets: &[(u32, u32)]) -> SourceMapIndex {
    let section = |&(line, column): &(u32, u32)| section_json(line, column, r#""url":null"#);
    index_of(&offsets.iter().map(section).collect::<Vec<_>>())
}

#[test]
fn the_section_that_begins_last_answers() {
    let index = two_sections();
    let rows = [
        ((0, 0), "a.js:0:0"),
        ((10, 3), "a.js:0:0"),
        ((10, 4), "b.js:0:0"),
        ((10, 9), "b.js:0:0"),
        ((99, 0), "b.js:0:0"),
    ];
    let flat = index.flatten().expect("a regular map");
    for ((line, col), expected) in rows {
        let token = index.lookup_token(line, col).expect("a token");
        assert_eq!(token.to_string(), expected, "at {line}:{col}");
        assert_eq!(token.get_dst(), (0, 0));
        let token = flat.lookup_token(line, col).expect("a token");
        assert_eq!(
            token.to_string(),
            expected,
            "at {line}:{col} of the flat map"
        );
    }
    assert!(written_map(&flat).contains(r#""mappings":"AAAA;;;;;;;;;;ICAA""#));
}

#[test]
fn before_the_first_section_and_in_one_without_a_map_there_is_no_token() {
    let url = section_json(5, 0, r#""url":"u""#);
    let map = section_json(2, 7, &format!(r#""map":{}"#, of_source("a.js")));
    let index = index_of(&[map, url]);
    assert!(index.lookup_token(2, 6).is_none());
    assert!(index.lookup_token(2, 7).is_some());
    assert!(index.lookup_token(5, 0).is_none());
}

#[test]
fn sections_as_they_were_read() {
    let map = format!(r#""map":{}"#, of_source("a.js"));
    let index = index_of(&[
        section_json(3, 4, r#""url":"u","map":null"#),
        section_json(1, 2, &map),
    ]);
    assert_eq!(index.get_section_count(), 2);
    let [first, second]: [_; 2] = index
        .sections()
        .collect::<Vec<_>>()
        .try_into()
        .expect("two sections");
    assert_eq!((first.get_offset_line(), first.get_offset_col()), (1, 2));
    assert_eq!((first.get_url(), second.get_url()), (None, Some("u")));
    assert_eq!(
        first.get_sourcemap(),
        Some(&decoded_map(&of_source("a.js")))
    );
    assert_eq!(
        (second.get_offset(), second.get_sourcemap()),
        ((3, 4), None)
    );
    assert!(index.get_section(2).is_none());
}

#[test]
fn what_can_not_be_flattened() {
    let map = r#""map":{"version":3,"sources":["a.js"],"names":[],"mappings":";AAAA"}"#;
    let rows = [
        (
            section_json(u32::MAX, 0, map),
            "a position passes 4294967295",
        ),
        (
            section_json(0, 0, r#""url":"u""#),
            "Section has an unresolved sourcemap: u",
        ),
        (
            section_json(0, 0, r#""url":null"#),
            "Section has an unresolved sourcemap: <unknown url>",
        ),
    ];
    for (section, expected) in rows {
        let error = index_of(&[section]).flatten().expect_err(expected);
        let printed = format!("cannot flatten the indexed sourcemap: {expected}");
        assert_eq!(error.to_string(), printed);
        assert!(matches!(error, Error::CannotFlatten(reason) if reason == expected));
    }
}

#[test]
fn a_written_index_map_is_read_as_the_same() {
    let map = format!(r#""url":"u \"q\"","map":{}"#, of_source("a.js"));
    let index = index_of(&[section_json(0, 0, &map), section_json(1, 2, r#""url":"v""#)]);
    let text = written_any(&DecodedMap::Index(index.clone()));
    assert_eq!(
        decode_slice(text.as_bytes()).expect("a map"),
        DecodedMap::Index(index.clone())
    );
    assert_eq!(
        index.get_section(0).expect("a section").get_url(),
        Some("u \"q\"")
    );
    assert_ne!(index, two_sections());
}

#[test]
fn nested_index_maps_and_hermes_maps_answer() {
    let inner = format!(
        r#""map":{{"version":3,"sections":[{}]}}"#,
        section_json(2, 3, &format!(r#""map":{}"#, of_source("in.js")))
    );
    let hermes = r#""map":{"version":3,"sources":["h.js"],"names":[],"mappings":"AAAA",
        "x_facebook_sources":[null]}"#;
    let index = index_of(&[section_json(1, 0, &inner), section_json(7, 0, hermes)]);
    let flat = index.flatten().expect("a map");
    for ((line, col), expected) in [((3, 3), "in.js:0:0"), ((7, 0), "h.js:0:0")] {
        assert_eq!(
            index.lookup_token(line, col).expect("a token").to_string(),
            expected
        );
        assert_eq!(
            flat.lookup_token(line, col).expect("a token").to_string(),
            expected
        );
    }
    assert!(index.lookup_token(3, 2).is_none());
    let kinds = index.sections().map(|section| section.get_sourcemap());
    assert!(matches!(
        kinds.collect::<Vec<_>>()[..],
        [Some(DecodedMap::Index(_)), Some(DecodedMap::Hermes(_))]
    ));
}

#[test]
fn a_flat_map_is_rewritten() {
    let map = format!(r#""map":{}"#, of_source("a.js"));
    let mut index = index_of(&[section_json(0, 0, &map), section_json(5, 0, &map)]);
    index.set_file(Some("f.js"));
    let map = index
        .flatten_and_rewrite(&RewriteOptions::default())
        .expect("a map");
    let expected =
        r#"{"file":"f.js","mappings":"AAAA;;;;;AAAA","names":[],"sources":["a.js"],"version":3}"#;
    assert_eq!(written_map(&map), expected);
}

#[test]
fn the_file_is_set_and_removed() {
    let mut index = two_sections();
    assert_eq!(index.get_file(), None);
    index.set_file(Some("f.js"));
    assert_eq!(index.get_file(), Some("f.js"));
    assert_eq!(index.flatten().expect("a map").get_file(), Some("f.js"));
    index.set_file(None);
    assert_eq!(index.flatten().expect("a map").get_file(), None);
    assert_eq!(index, two_sections());
}

/// Where sections begin.
type Offsets = &'static [(u32, u32)];

#[test]
fn sections_move_down_if_all_can() {
    let rows: [(Offsets, u32, Option<Offsets>); 7] = [
        (&[(0, 0), (10, 0)], 1, Some(&[(1, 0), (11, 0)])),
        (&[(0, 0), (10, 0)], 0, Some(&[(0, 0), (10, 0)])),
        (
            &[(0, 0), (10, 0), (20, 10), (30, 40)],
            1,
            Some(&[(1, 0), (11, 0), (21, 10), (31, 40)]),
        ),
        (
            &[(0, 0), (10, 0)],
            1_000_000,
            Some(&[(1_000_000, 0), (1_000_010, 0)]),
        ),
        (&[(0, 0), (10, 0), (20, 0), (u32::MAX, 0)], 1, None),
        (&[(0, 0), (10, 0)], u32::MAX, None),
        (&[], 1, Some(&[])),
    ];
    for (offsets, amount, expected) in rows {
        let after = bare(expected.unwrap_or(offsets));
        let mut index = bare(offsets);
        // One whose sections were read before.
        let mut listed = index.clone();
        assert_eq!(listed.sections().count(), offsets.len());
        for index in [&mut index, &mut listed] {
            assert_eq!(
                index.adjust_sections_offset_rows(amount),
                expected.is_some()
            );
            assert_eq!(*index, after, "{offsets:?} by {amount}");
        }
    }
}

#[test]
fn a_moved_index_map_answers_further_down() {
    let mut index = two_sections();
    assert!(index.adjust_sections_offset_rows(3));
    assert!(index.lookup_token(2, 9).is_none());
    assert_eq!(
        index.lookup_token(13, 4).expect("a token").to_string(),
        "b.js:0:0"
    );
    let flat = index.flatten().expect("a map");
    assert_eq!(
        flat.lookup_token(13, 4).expect("a token").to_string(),
        "b.js:0:0"
    );
}

#[test]
fn the_lists_of_a_ram_bundle() {
    let lists = r#""x_facebook_offsets":[0,null,7],"x_metro_module_paths":["a.js","b\u00e9.js"]"#;
    let json = format!(r#"{{"version":3,"sections":[],{lists}}}"#);
    let nested = index_of(&[section_json(0, 0, &format!(r#""map":{json}"#))]);
    let inner = nested.get_section(0).expect("a section").get_sourcemap();
    for index in [inner, Some(&decoded_map(&json))] {
        let Some(DecodedMap::Index(index)) = index else {
            panic!("an index map");
        };
        assert!(index.is_for_ram_bundle());
        assert_eq!(
            index.x_facebook_offsets(),
            Some(&[Some(0), None, Some(7)][..])
        );
        let paths = [String::from("a.js"), String::from("bé.js")];
        assert_eq!(index.x_metro_module_paths(), Some(&paths[..]));
    }
    assert!(!nested.is_for_ram_bundle());
    assert_eq!(
        (nested.x_facebook_offsets(), nested.x_metro_module_paths()),
        (None, None)
    );
}

#[test]
fn lists_that_are_empty_and_long() {
    let of_offsets = |offsets: &str| {
        let json = format!(r#"{{"version":3,"sections":[],"x_facebook_offsets":[{offsets}]}}"#);
        SourceMapIndex::from_slice(json.as_bytes()).expect("an index map")
    };
    assert_eq!(of_offsets("").x_facebook_offsets(), Some(&[][..]));
    for count in [255, 256, 257, 1000] {
        let texts: Vec<String> = (0..count).map(|line| line.to_string()).collect();
        let expected: Vec<Option<u32>> = (0..count).map(Some).collect();
        let index = of_offsets(&texts.join(","));
        assert_eq!(
            index.x_facebook_offsets(),
            Some(&expected[..]),
            "{count} modules"
        );
        assert!(!index.is_for_ram_bundle());
    }
}

#[test]
fn function_names_of_an_index_map() {
    let map = r#"{"version":3,"sources":["a.js"],"names":["original","function"],
        "mappings":"AAAAC,SAAAD"}"#;
    let view = SourceView::from_string("function f(){}".into());
    let index = index_of(&[section_json(0, 0, &format!(r#""map":{map}"#))]);
    let name = regular(map)
        .get_original_function_name(0, 9, "f", &view)
        .map(str::to_owned);
    assert_eq!(name.as_deref(), Some("original"));
    assert_eq!(
        index.get_original_function_name(0, 9, "f", &view),
        Some("original")
    );
    assert_eq!(index.get_original_function_name(0, 9, "g", &view), None);
    assert!(of_mappings("AAAA", "")
        .get_original_function_name(0, 9, "f", &view)
        .is_none());
}

/// A section with a map of this source.
fn section_of(offset: (u32, u32), source: &str) -> SourceMapSection {
    SourceMapSection::new(offset, None, Some(decoded_map(&of_source(source))))
}

/// The same sections as of [`two_sections`].
fn two_new_sections() -> SourceMapIndex {
    let sections = vec![section_of((0, 0), "a.js"), section_of((10, 4), "b.js")];
    SourceMapIndex::new(None, sections)
}

fn written_index(index: &SourceMapIndex) -> String {
    written_any(&DecodedMap::Index(index.clone()))
}

#[test]
fn an_index_that_is_made_is_that_of_its_text() {
    let made = two_new_sections();
    assert_eq!(made, two_sections());
    assert_eq!(written_index(&made), written_index(&two_sections()));
    assert_eq!(made.get_section_count(), 2);
    let token = made.lookup_token(10, 9).expect("a token");
    assert_eq!(token.to_string(), "b.js:0:0");
    let flat = made.flatten().expect("a regular map");
    assert!(written_map(&flat).contains(r#""mappings":"AAAA;;;;;;;;;;ICAA""#));
    assert_eq!(SourceMapIndex::new(None, vec![]).get_section_count(), 0);
}

#[test]
fn an_index_of_a_bundle_is_made() {
    let offsets = vec![Some(0), None, Some(7)];
    let paths = vec![String::from("a.js"), String::from("bé.js")];
    let made = SourceMapIndex::new_ram_bundle_compatible(
        Some("all.js".into()),
        vec![SourceMapSection::new((0, 3), Some("a.map".into()), None)],
        Some(offsets.clone()),
        Some(paths.clone()),
    );
    assert!(made.is_for_ram_bundle());
    let read = SourceMapIndex::from_slice(written_index(&made).as_bytes()).expect("an index map");
    for index in [&made, &read] {
        assert_eq!(index.get_file(), Some("all.js"));
        assert_eq!(index.x_facebook_offsets(), Some(&offsets[..]));
        assert_eq!(index.x_metro_module_paths(), Some(&paths[..]));
        let section = index.get_section(0).expect("a section");
        assert_eq!(
            (section.get_offset(), section.get_url()),
            ((0, 3), Some("a.map"))
        );
        assert!(section.get_sourcemap().is_none());
    }
    assert_eq!(made, read);
}

#[test]
fn sections_of_any_kind_are_nested() {
    let hermes = r#"{"version":3,"sources":["h.js"],"names":[],"mappings":"AAAA",
        "x_facebook_sources":[[{"names":["f"],"mappings":"AAA"}]]}"#;
    let made = SourceMapIndex::new(
        None,
        vec![
            SourceMapSection::new((0, 0), None, Some(DecodedMap::Index(two_new_sections()))),
            SourceMapSection::new((20, 0), None, Some(decoded_map(hermes))),
        ],
    );
    let token = made.lookup_token(10, 4).expect("a token");
    assert_eq!(token.get_source(), Some("b.js"));
    let token = made.lookup_token(20, 0).expect("a token");
    assert_eq!(token.get_source(), Some("h.js"));
    let read = SourceMapIndex::from_slice(written_index(&made).as_bytes()).expect("an index map");
    assert_eq!(made, read);
}

#[test]
fn sections_are_changed_in_their_index() {
    for mut index in [two_sections(), two_new_sections()] {
        index.set_file(Some("all.js"));
        let copy = index.clone();
        let text = written_index(&index);
        let section = index.get_section_mut(1).expect("a section");
        section.set_url(Some("b.map"));
        match section.get_sourcemap_mut() {
            Some(DecodedMap::Regular(map)) => map.set_source(0, "c.js"),
            _ => panic!("a regular map"),
        }
        assert_eq!(index.get_file(), Some("all.js"));
        assert_eq!(
            index.get_section(1).expect("a section").get_url(),
            Some("b.map")
        );
        let token = index.lookup_token(10, 4).expect("a token");
        assert_eq!(token.get_source(), Some("c.js"));
        let flat = index.flatten().expect("a regular map");
        assert_eq!(flat.get_source(1), Some("c.js"));
        let changed = written_index(&index);
        assert_eq!(
            changed,
            text.replace("b.js", "c.js")
                .replacen(r#"10},"url":null"#, r#"10},"url":"b.map""#, 1)
        );
        // A change of one does not change its copy.
        assert_eq!(written_index(&copy), text);
        assert_ne!(index, copy);

        index
            .get_section_mut(0)
            .expect("a section")
            .set_sourcemap(None);
        assert!(index.lookup_token(0, 0).is_none());
        assert!(index.flatten().is_err());
        let other = decoded_map(&of_source("d.js"));
        index
            .get_section_mut(0)
            .expect("a section")
            .set_sourcemap(Some(other));
        let token = index.lookup_token(0, 0).expect("a token");
        assert_eq!(token.get_source(), Some("d.js"));
        assert!(index.adjust_sections_offset_rows(2));
        assert_eq!(
            index.get_section(1).expect("a section").get_offset(),
            (12, 4)
        );
        assert!(written_index(&index).contains(r#""line":12"#));
        assert!(index.get_section_mut(2).is_none());
        assert_eq!(index.get_file(), Some("all.js"));
    }
}

#[test]
fn an_empty_list_is_a_list() {
    let of_lists = |lists: &str| {
        let json = format!(r#"{{"version":3,"sections":[]{lists}}}"#);
        SourceMapIndex::from_slice(json.as_bytes()).expect("an index map")
    };
    let empty = of_lists(r#","x_facebook_offsets":[],"x_metro_module_paths":[]"#);
    assert!(empty.is_for_ram_bundle());
    assert_eq!(empty.x_metro_module_paths(), Some(&[][..]));
    assert!(!of_lists(r#","x_facebook_offsets":[]"#).is_for_ram_bundle());
    assert!(!of_lists(r#","x_metro_module_paths":[]"#).is_for_ram_bundle());
    assert_eq!(of_lists("").x_metro_module_paths(), None);
}
