//! A map that was asked before answers as one that was not.

use std::mem;

use sourcemap::{
    decode_slice, DecodedMap, RawToken, RewriteOptions, SourceMap, SourceMapBuilder,
    SourceMapHermes, SourceMapIndex,
};

use crate::{of_mappings, token};

const LINES: u32 = 3;
const COLUMNS: u32 = 12;

/// Tokens of two sources, two at 0:5 and a range at 0:9.
fn map() -> SourceMap {
    let mut builder = SourceMapBuilder::new(Some("out.js"));
    builder.add_source("unused.js");
    builder.add_name("unused");
    builder.add(0, 2, 0, 7, Some("a.js"), Some("n"), false);
    builder.add(0, 5, 1, 0, Some("a.js"), None, false);
    builder.add(0, 5, 2, 0, Some("b.js"), Some("n"), false);
    builder.add(0, 9, 3, 1, Some("b.js"), None, true);
    builder.add(1, 0, 4, 0, Some("a.js"), None, false);
    builder.add(1, 4, 5, 0, Some("b.js"), Some("m"), false);
    builder.into_sourcemap()
}

type Position = (u32, u32);

/// All columns 0 to 11 of the lines 0 to 2, and positions far after them.
fn positions() -> Vec<Position> {
    let near = (0..LINES).flat_map(|line| (0..COLUMNS).map(move |column| (line, column)));
    let far = [(0, u32::MAX), (1, u32::MAX), (u32::MAX, 0)];
    let last = [(u32::MAX, u32::MAX - 1), (u32::MAX, u32::MAX)];
    near.chain(far).chain(last).collect()
}

/// What a token says and prints.
type Answer = Option<(String, RawToken)>;

fn answer(map: &SourceMap, (line, column): Position) -> Answer {
    let token = map.lookup_token(line, column)?;
    Some((format!("{token:#}"), token.get_raw_token()))
}

/// The answers of clones, none of which was asked before.
fn fresh_answers(map: &SourceMap) -> Vec<(Position, Answer)> {
    let answers = positions().into_iter();
    answers
        .map(|position| (position, answer(&map.clone(), position)))
        .collect()
}

fn text_at(map: &SourceMap, (line, column): Position) -> Option<String> {
    Some(map.lookup_token(line, column)?.to_string())
}

#[test]
fn positions_in_before_and_after_a_span() {
    let map = map();
    let rows = [
        ((0, 3), Some("a.js:0:7 name=n")),
        ((0, 4), Some("a.js:0:7 name=n")),
        ((0, 2), Some("a.js:0:7 name=n")),
        ((0, 3), Some("a.js:0:7 name=n")),
        ((0, 5), Some("a.js:1:0")),
        ((0, 5), Some("a.js:1:0")),
        ((0, 6), Some("b.js:2:0 name=n")),
        ((0, 5), Some("a.js:1:0")),
        ((0, 8), Some("b.js:2:0 name=n")),
        // The range token counts on.
        ((0, 9), Some("b.js:3:1")),
        ((0, 10), Some("b.js:3:2")),
        ((0, 7), Some("b.js:2:0 name=n")),
        ((0, 12), Some("b.js:3:4")),
        ((0, 9), Some("b.js:3:1")),
        ((0, 1), None),
        ((0, 0), None),
        ((1, 0), Some("a.js:4:0")),
        ((0, 1), None),
        ((1, 3), Some("a.js:4:0")),
        ((1, 4), Some("b.js:5:0 name=m")),
        ((0, 4), Some("a.js:0:7 name=n")),
        ((2, 0), Some("b.js:5:0 name=m")),
        ((u32::MAX, u32::MAX), Some("b.js:5:0 name=m")),
        ((1, 3), Some("a.js:4:0")),
    ];
    for (position, expected) in rows {
        assert_eq!(
            text_at(&map, position).as_deref(),
            expected,
            "at {position:?}"
        );
    }
}

#[test]
fn each_position_after_each_other() {
    let map = map();
    let expected = fresh_answers(&map);
    for &first in &positions() {
        for (second, due) in &expected {
            answer(&map, first);
            assert_eq!(&answer(&map, *second), due, "at {second:?} after {first:?}");
        }
    }
}

#[test]
fn positions_in_order_in_reverse_and_in_turn() {
    let map = map();
    let expected = fresh_answers(&map);
    let (half, other_half) = expected.split_at(expected.len() / 2);
    let in_turn = half.iter().zip(other_half.iter().rev());
    let walk = expected
        .iter()
        .chain(expected.iter().rev())
        .chain(in_turn.flat_map(|(one, other)| [one, other]));
    for (position, due) in walk {
        assert_eq!(&answer(&map, *position), due, "at {position:?}");
    }
}

#[test]
fn a_token_is_the_one_of_the_list() {
    let map = map();
    for _ in 0..2 {
        let token = map.lookup_token(0, 7).expect("a token");
        assert_eq!(Some(token), map.get_token(2));
        assert!(std::ptr::eq(token.sourcemap(), &map));
        assert_eq!(token.get_dst(), (0, 5));
    }
}

/// A change of a map that was asked before.
type Change = fn(SourceMap) -> SourceMap;

fn apply(mut map: SourceMap, change: impl FnOnce(&mut SourceMap)) -> SourceMap {
    change(&mut map);
    map
}

/// The map of the same text, moved one line and two columns.
fn adjustment() -> SourceMap {
    let moves = vec![token((1, 2), (0, 0)), token((2, 0), (1, 0))];
    SourceMap::new(None, moves, vec![], vec!["out.js".into()], None)
}

const CHANGES: [(&str, Change); 14] = [
    ("set_source", |map| {
        apply(map, |map| map.set_source(1, "c.js"))
    }),
    ("set_source_contents", |map| {
        apply(map, |map| map.set_source_contents(1, Some("c")))
    }),
    ("set_source_root", |map| {
        apply(map, |map| map.set_source_root(Some("root")))
    }),
    ("set_file", |map| apply(map, |map| map.set_file(Some("f")))),
    ("set_debug_id", |map| {
        apply(map, |map| map.set_debug_id(Some([7; 16].into())))
    }),
    ("add_to_ignore_list", |map| {
        apply(map, |map| map.add_to_ignore_list(1))
    }),
    ("remove_names", |map| apply(map, |map| map.remove_names())),
    ("adjust_mappings", |map| {
        apply(map, |map| map.adjust_mappings(&adjustment()))
    }),
    ("an adjustment that is refused", |map| {
        apply(map, |map| {
            let last = vec![token((0, u32::MAX), (0, 0))];
            let last = SourceMap::new(None, last, vec![], vec!["out.js".into()], None);
            map.try_adjust_mappings(&last)
                .expect_err("a column too far");
        })
    }),
    // Sources and names get other ids.
    ("rewrite", |map| {
        map.rewrite(&RewriteOptions::default()).expect("a map")
    }),
    ("rewrite without names", |map| {
        let options = RewriteOptions {
            with_names: false,
            ..Default::default()
        };
        map.rewrite(&options).expect("a map")
    }),
    ("an assignment", |map| {
        apply(map, |map| *map = of_mappings("AAAA,IACA;;EACA", ""))
    }),
    ("a swap", |map| {
        let mut other = of_mappings("AAAA,IACA;;EACA", "");
        other.lookup_token(0, 3);
        apply(map, |map| mem::swap(map, &mut other))
    }),
    ("an assignment in a Hermes map", |map| {
        let json = br#"{"sources":["h.js"],"mappings":"AAAA,GACA","x_facebook_sources":[null]}"#;
        let mut hermes = SourceMapHermes::from_slice(json).expect("a Hermes map");
        hermes.lookup_token(0, 2);
        *hermes = map;
        let mut kept = of_mappings("", "");
        mem::swap(&mut kept, &mut hermes);
        kept
    }),
];

#[test]
fn a_change_is_seen_at_each_position() {
    for (name, change) in CHANGES {
        let expected = fresh_answers(&change(map()));
        for first in positions() {
            let asked = map();
            answer(&asked, first);
            let asked = change(asked);
            assert_eq!(answer(&asked, first), answer(&asked.clone(), first));
            for (position, due) in &expected {
                let found = answer(&asked, *position);
                assert_eq!(&found, due, "{name}: at {position:?} after {first:?}");
            }
        }
    }
}

#[test]
fn what_changes_say() {
    let mut map = map();
    assert_eq!(text_at(&map, (0, 3)).as_deref(), Some("a.js:0:7 name=n"));
    map.set_source(1, "c.js");
    assert_eq!(text_at(&map, (0, 3)).as_deref(), Some("c.js:0:7 name=n"));
    map.set_source_root(Some("root"));
    assert_eq!(
        text_at(&map, (0, 3)).as_deref(),
        Some("root/c.js:0:7 name=n")
    );
    map.remove_names();
    assert_eq!(text_at(&map, (0, 3)).as_deref(), Some("root/c.js:0:7"));
    map.adjust_mappings(&adjustment());
    assert_eq!(text_at(&map, (0, 3)), None);
    assert_eq!(text_at(&map, (1, 5)).as_deref(), Some("root/c.js:0:7"));
    let token = map.lookup_token(1, 5).expect("a token");
    assert_eq!(token.get_src_id(), 1);
    let map = map.rewrite(&RewriteOptions::default()).expect("a map");
    let token = map.lookup_token(1, 5).expect("a token");
    assert_eq!((token.get_src_id(), token.get_dst()), (0, (1, 4)));
    assert_eq!(token.to_string(), "root/c.js:0:7");
}

#[test]
fn a_clone_and_its_map_answer_for_themselves() {
    let map = map();
    answer(&map, (0, 3));
    let mut clone = map.clone();
    answer(&clone, (0, 3));
    clone.adjust_mappings(&adjustment());
    assert_eq!(text_at(&clone, (0, 3)), None);
    assert_eq!(text_at(&map, (0, 3)).as_deref(), Some("a.js:0:7 name=n"));
    assert_eq!(text_at(&clone, (1, 5)).as_deref(), Some("a.js:0:7 name=n"));
}

/// More maps than a thread keeps answers of.
#[test]
fn maps_in_turn_answer_for_themselves() {
    let maps: Vec<_> = (0..40)
        .map(|line| apply(map(), |map| map.set_source(1, &format!("{line}.js"))))
        .collect();
    for _ in 0..2 {
        for (line, map) in maps.iter().enumerate() {
            let due = format!("{line}.js:0:7 name=n");
            assert_eq!(text_at(map, (0, 3)), Some(due));
            assert_eq!(text_at(map, (1, 5)).as_deref(), Some("b.js:5:0 name=m"));
        }
    }
}

#[test]
fn a_hermes_map_answers_again() {
    let json = br#"{"sources":["h.js"],"mappings":"AAAA,GACA","x_facebook_sources":[null]}"#;
    let mut hermes = SourceMapHermes::from_slice(json).expect("a Hermes map");
    for _ in 0..2 {
        assert_eq!(text_at(&hermes, (0, 2)).as_deref(), Some("h.js:0:0"));
        assert_eq!(text_at(&hermes, (0, 4)).as_deref(), Some("h.js:1:0"));
    }
    hermes.set_source(0, "i.js");
    assert_eq!(text_at(&hermes, (0, 4)).as_deref(), Some("i.js:1:0"));
}

/// An index map of sections that begin on lines 1 and 3.
fn index_json() -> String {
    let section = |line: u32, source: &str| {
        let map = format!(r#"{{"sources":["{source}"],"mappings":"AAAA,GACA"}}"#);
        format!(r#"{{"offset":{{"line":{line},"column":0}},"map":{map}}}"#)
    };
    let sections = [section(1, "a.js"), section(3, "b.js")].join(",");
    format!(r#"{{"sections":[{sections}]}}"#)
}

#[test]
fn an_index_map_answers_again() {
    let json = index_json();
    let mut index = SourceMapIndex::from_slice(json.as_bytes()).expect("an index map");
    let any = decode_slice(json.as_bytes()).expect("an index map");
    let text = |map: &SourceMapIndex, line, col| Some(map.lookup_token(line, col)?.to_string());
    for _ in 0..2 {
        assert_eq!(text(&index, 0, 9), None);
        assert_eq!(text(&index, 1, 2).as_deref(), Some("a.js:0:0"));
        assert_eq!(text(&index, 3, 2).as_deref(), Some("b.js:0:0"));
        assert_eq!(text(&index, 2, 4).as_deref(), Some("a.js:1:0"));
        assert_eq!(text(&index, 3, 4).as_deref(), Some("b.js:1:0"));
        assert!(matches!(&any, DecodedMap::Index(any) if text(any, 3, 4) == text(&index, 3, 4)));
    }
    assert!(index.adjust_sections_offset_rows(1));
    assert_eq!(text(&index, 1, 2), None);
    assert_eq!(text(&index, 2, 2).as_deref(), Some("a.js:0:0"));
    let section = index.get_section_mut(1).expect("a section");
    let other = decode_slice(br#"{"sources":["c.js"],"mappings":"AAAA"}"#).expect("a map");
    section.set_sourcemap(Some(other));
    assert_eq!(text(&index, 4, 4).as_deref(), Some("c.js:0:0"));
}
