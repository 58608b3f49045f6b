use std::cmp::Ordering;

use sourcemap::{decode_slice, SourceMap};

use crate::{bare_token, of_mappings, raw_tokens, regular, token, COOLSTUFF};

#[test]
fn closest_tokens_print_as_the_program_prints_them() {
    let map = regular(COOLSTUFF);
    let rows = [
        ((0, 0), "coolstuff.js:0:0"),
        ((0, 3), "coolstuff.js:0:4 name=x"),
        ((0, 5), "coolstuff.js:0:4 name=x"),
        ((0, 24), "coolstuff.js:2:8"),
        ((1, 0), "coolstuff.js:2:8"),
    ];
    for ((line, col), expected) in rows {
        let token = map.lookup_token(line, col).expect("a token");
        assert_eq!(token.to_string(), expected, "at {line}:{col}");
    }
    let token = map.lookup_token(0, 18).expect("a token");
    assert_eq!(format!("{token:#}"), "coolstuff.js:2:2 name=alert (0:18)");
    assert_eq!(
        format!("{token:?}"),
        "<Token coolstuff.js:2:2 name=alert (0:18)>"
    );
    assert_eq!(token.to_tuple(), ("coolstuff.js", 2, 2, Some("alert")));
}

#[test]
fn a_token_says_what_its_map_has() {
    let map = regular(COOLSTUFF);
    let token = map.lookup_token(0, 4).expect("a token");
    assert_eq!((token.get_dst(), token.get_src()), ((0, 3), (0, 4)));
    assert_eq!((token.get_dst_line(), token.get_dst_col()), (0, 3));
    assert_eq!((token.get_src_line(), token.get_src_col()), (0, 4));
    assert_eq!((token.get_src_id(), token.get_name_id()), (0, 0));
    assert_eq!(
        (token.get_source(), token.get_name()),
        (Some("coolstuff.js"), Some("x"))
    );
    assert!(token.has_source() && token.has_name() && !token.is_range());
    assert!(std::ptr::eq(token.sourcemap(), &map));
    assert_eq!(map.get_token(1).expect("a token"), token);
    assert!(map.get_token(9).is_none());
    assert!(map.get_token(1 << 40).is_none());
}

#[test]
fn before_the_first_token_there_is_none() {
    let map = of_mappings(";CAAA", "");
    assert!(map.lookup_token(0, 9).is_none());
    assert!(map.lookup_token(1, 0).is_none());
    assert!(map.lookup_token(1, 1).is_some());
    assert!(map.lookup_token(u32::MAX, u32::MAX).is_some());
    assert!(of_mappings("", "").lookup_token(0, 0).is_none());
}

#[test]
fn of_tokens_at_one_position_the_first_answers_it_and_the_last_what_follows() {
    // (0,1) to lines 0, 1, 2.
    let map = of_mappings("CAAA,AACA,AACA", "");
    assert!(map.lookup_token(0, 0).is_none());
    assert_eq!(map.lookup_token(0, 1).expect("a token").get_src(), (0, 0));
    assert_eq!(map.lookup_token(0, 2).expect("a token").get_src(), (2, 0));
}

#[test]
fn each_token_at_one_position_prints_itself() {
    let map = of_mappings("CAAA,AACA,AACA,EACA", "");
    let listed: Vec<_> = map.tokens().map(|token| token.to_string()).collect();
    assert_eq!(listed, ["a.js:0:0", "a.js:1:0", "a.js:2:0", "a.js:3:0"]);
    let third = map.get_token(2).expect("a token");
    assert_eq!(format!("{third:#}"), "a.js:2:0 (0:1)");
    assert_eq!(format!("{third:?}"), "<Token a.js:2:0 (0:1)>");
    let after = map.lookup_token(0, 2).expect("a token");
    assert_eq!(format!("{after:#}"), "a.js:2:0 (0:1)");
    // One that is there twice.
    let twice = of_mappings("CAAA,AAAA", "");
    assert!(twice.tokens().all(|token| token.to_string() == "a.js:0:0"));
}

#[test]
fn a_later_range_token_at_one_position_prints_itself() {
    let map = of_mappings("CAAA,AACA", "C");
    let listed: Vec<_> = map.tokens().map(|token| format!("{token:#}")).collect();
    assert_eq!(listed, ["a.js:0:0 (0:1)", "a.js:1:0 (0:1) (range)"]);
    let text_at = |line, col| {
        let token = map.lookup_token(line, col).expect("a token");
        token.to_string()
    };
    assert_eq!(text_at(0, 1), "a.js:0:0");
    assert_eq!(text_at(0, 4), "a.js:1:3");
    assert_eq!(text_at(1, 4), "a.js:1:0");
}

#[test]
fn a_token_past_many_at_one_position_prints_itself() {
    let mappings = ["CAAA", &",AACA".repeat(600)].concat();
    let map = of_mappings(&mappings, "");
    let last = map.get_token(600).expect("a token");
    assert_eq!(last.to_string(), "a.js:600:0");
    assert_eq!(map.lookup_token(9, 0), Some(last));
    let answer = map.lookup_token(9, 0).expect("a token");
    assert_eq!(answer.to_string(), "a.js:600:0");
}

#[test]
fn sources_are_resolved_against_the_root() {
    let json = r#"{"version":3,"sourceRoot":"webpack:///","sources":["./bar.js","/abs.js",
        "https://host/b.js"],"names":[],"mappings":""}"#;
    let mut map = regular(json);
    let sources: Vec<&str> = map.sources().collect();
    assert_eq!(
        sources,
        ["webpack:///./bar.js", "/abs.js", "https://host/b.js"]
    );
    assert_eq!(map.get_source_root(), Some("webpack:///"));
    map.set_source(0, "baz.js");
    assert_eq!(map.get_source(0), Some("webpack:///baz.js"));
    map.set_source_root(Some("/r"));
    assert_eq!(map.get_source(0), Some("/r/baz.js"));
    map.set_source_root(None::<String>);
    assert_eq!(map.get_source(0), Some("baz.js"));
    assert_eq!(map.get_source(3), None);
}

#[test]
fn tokens_come_in_order_past_one_block() {
    let count = 1000;
    let tokens = (0..count)
        .rev()
        .map(|index| token((index / 10, index % 10), (index, 0)));
    let map = SourceMap::new(None, tokens.collect(), vec![], vec!["a.js".into()], None);
    let expected: Vec<_> = (0..count)
        .map(|index| token((index / 10, index % 10), (index, 0)))
        .collect();
    assert_eq!(map.get_token_count(), count);
    assert_eq!(raw_tokens(&map), expected);
    let mut tokens = map.tokens();
    assert_eq!(tokens.by_ref().count(), count as usize);
    assert!(tokens.next().is_none());
}

#[test]
fn an_iterator_continues_after_the_closest_token() {
    let map = of_mappings("CAAA,AACA,EACA;EACA", "");
    let mut tokens = map.tokens();
    let after = |tokens: &mut sourcemap::TokenIter<'_>| tokens.next().map(|token| token.get_src());
    assert!(!tokens.seek(0, 0));
    assert_eq!(after(&mut tokens), Some((0, 0)));
    // At a position the first token there, after it the last one.
    assert!(tokens.seek(0, 1));
    assert_eq!(after(&mut tokens), Some((1, 0)));
    assert!(tokens.seek(0, 2));
    assert_eq!(after(&mut tokens), Some((2, 0)));
    assert!(tokens.seek(0, 3));
    assert_eq!(after(&mut tokens), Some((3, 0)));
    assert!(tokens.seek(9, 9));
    assert_eq!(after(&mut tokens), None);
    assert!(!tokens.seek(0, 0));
    assert_eq!(after(&mut tokens), None);
}

#[test]
fn tokens_are_ordered_by_what_they_say() {
    let json = r#"{"version":3,"sources":["b.js","a.js"],"names":["n"],
        "mappings":"A,AAAA,AAAAA,ACAA,EAAA"}"#;
    let map = regular(json);
    let [bare, b, b_named, a, later]: [_; 5] = map
        .tokens()
        .collect::<Vec<_>>()
        .try_into()
        .expect("five tokens");
    assert_eq!(bare.get_raw_token(), bare_token((0, 0)));
    assert_eq!(bare.cmp(&b), Ordering::Less);
    assert_eq!(b.cmp(&b_named), Ordering::Less);
    assert_eq!(a.cmp(&b), Ordering::Less);
    assert_eq!(bare.cmp(&a), Ordering::Less);
    assert_eq!(later.cmp(&b_named), Ordering::Greater);
    assert_eq!(b, b);
    assert_ne!(b, b_named);
    assert_eq!(bare.to_string(), "<unknown>:4294967295:4294967295");
    assert!(!bare.has_source() && bare.get_source().is_none() && !bare.has_name());
    assert_eq!(bare.to_tuple(), ("", u32::MAX, u32::MAX, None));
}

#[test]
fn removed_names_leave_ids_that_name_nothing() {
    let mut map = regular(COOLSTUFF);
    assert!(map.has_names());
    assert_eq!(map.names().collect::<Vec<_>>(), ["x", "alert"]);
    map.remove_names();
    assert!(!map.has_names());
    assert_eq!((map.get_name_count(), map.get_name(0)), (0, None));
    let token = map.lookup_token(0, 5).expect("a token");
    assert_eq!(
        (token.get_name(), token.get_name_id(), token.has_name()),
        (None, 0, false)
    );
    assert_eq!(token.to_string(), "coolstuff.js:0:4");
}

#[test]
fn a_decoded_map_answers_as_its_kind_does() {
    let map = decode_slice(COOLSTUFF.as_bytes()).expect("a map");
    assert_eq!(
        map.lookup_token(0, 5).expect("a token").to_string(),
        "coolstuff.js:0:4 name=x"
    );
    assert_eq!(map.get_original_function_name(0, 5, Some("x"), None), None);
}
