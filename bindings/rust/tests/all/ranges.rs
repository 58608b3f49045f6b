use crate::{bare_token, of_mappings, raw_tokens, regular, token, written_map};
use sourcemap::{RawToken, SourceMap, SourceMapBuilder};

fn range(token: RawToken) -> RawToken {
    RawToken {
        is_range: true,
        ..token
    }
}

/// A map of the tokens, written and read again.
fn of_tokens(tokens: Vec<RawToken>) -> SourceMap {
    SourceMap::new(None, tokens, vec![], vec!["a.js".into()], None)
}

fn has(map: &SourceMap, key: &str, text: &str) -> bool {
    written_map(map).contains(&format!(r#""{key}":"{text}""#))
}

#[test]
fn a_range_token_answers_with_its_distance_on_its_own_line() {
    let map = of_mappings("AAAO", "B");
    assert_eq!(
        map.lookup_token(0, 5).expect("a token").to_string(),
        "a.js:0:12"
    );
    assert_eq!(
        map.lookup_token(3, 5).expect("a token").to_string(),
        "a.js:0:7"
    );
    let bare = of_mappings("A", "B");
    let token = bare.lookup_token(0, 5).expect("a token");
    assert_eq!(token.to_string(), "<unknown>:4294967295:4294967295");
    assert_eq!(token.get_raw_token(), range(bare_token((0, 0))));
}

#[test]
fn the_raw_token_has_no_distance() {
    let map = of_tokens(vec![range(token((0, 0), (0, 7)))]);
    let found = map.lookup_token(0, 5).expect("a token");
    assert_eq!(
        (found.get_src_col(), found.get_raw_token().src_col),
        (12, 7)
    );
    // The sum is cut off at the last column.
    let late = of_tokens(vec![
        range(token((0, 0), (0, 1))),
        range(token((0, 3), (0, u32::MAX - 2))),
        token((0, 9), (0, 0)),
    ]);
    let found = late.lookup_token(0, 8).expect("a token");
    assert_eq!(
        (found.get_src_col(), found.get_raw_token().src_col),
        (u32::MAX, u32::MAX - 2)
    );
    assert_eq!(format!("{found:#}"), "a.js:0:4294967295 (0:3) (range)");
    assert_eq!(
        late.get_token(1).expect("a token").get_src_col(),
        u32::MAX - 2
    );
}

#[test]
fn the_bits_of_a_line_are_those_of_its_segments() {
    let rows: [(&str, &[usize]); 3] = [("AAB", &[12]), ("g", &[5]), ("Bg", &[0, 11])];
    let mappings = ["AAAA", &",CAAC".repeat(12)].concat();
    for (text, expected) in rows {
        let map = of_mappings(&mappings, text);
        let ranges: Vec<usize> = (0..13)
            .filter(|&index| map.get_token(index).expect("a token").is_range())
            .collect();
        assert_eq!(ranges, expected, "of {text}");
        assert!(has(&map, "rangeMappings", text), "{}", written_map(&map));
    }
}

#[test]
fn written_ranges_are_those_of_the_segments_that_are_written() {
    let bare = of_tokens(vec![bare_token((0, 0)), range(bare_token((1, 0)))]);
    assert!(has(&bare, "mappings", "A;A") && has(&bare, "rangeMappings", ";B"));
    let same = token((0, 0), (0, 0));
    let doubled = of_tokens(vec![same, same, range(token((0, 5), (0, 5)))]);
    assert!(has(&doubled, "mappings", "AAAA,KAAK") && has(&doubled, "rangeMappings", "C"));
    let again = regular(&written_map(&doubled));
    for col in 0..9 {
        assert_eq!(again.lookup_token(0, col), doubled.lookup_token(0, col));
    }
}

#[test]
fn an_empty_segment_counts_and_is_not_written() {
    let map = of_mappings("A,,C", "E");
    assert_eq!(
        raw_tokens(&map),
        [bare_token((0, 0)), range(bare_token((0, 1)))]
    );
    assert!(has(&map, "mappings", "A,C") && has(&map, "rangeMappings", "C"));
}

#[test]
fn a_builder_keeps_ranges() {
    let mut builder = SourceMapBuilder::new(None);
    builder.add(0, 0, 0, 7, Some("a.js"), None, true);
    builder.add(0, 9, 4, 0, Some("a.js"), None, false);
    let map = builder.into_sourcemap();
    assert_eq!(map.lookup_token(0, 5).expect("a token").get_src(), (0, 12));
    assert!(has(&map, "rangeMappings", "B"));
    let mut copy = SourceMapBuilder::new(None);
    copy.add_token(&map.lookup_token(0, 5).expect("a token"), true);
    assert_eq!(
        raw_tokens(&copy.into_sourcemap()),
        [range(token((0, 0), (0, 12)))]
    );
}
