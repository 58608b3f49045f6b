use sourcemap::{
    decode_data_url, decode_slice, DecodedMap, Error, RewriteOptions, SourceMap, SourceMapHermes,
    SourceView,
};

use crate::{raw_tokens, regular, written_any, written_map};

const HERMES: &str = r#"{"version":3,"sources":["a.js"],"names":[],"mappings":"AAAA,KACK",
    "x_facebook_sources":[[{"names":["<global>","foo"],"mappings":"AAA,KCC"}]]}"#;

fn hermes(json: &str) -> SourceMapHermes {
    SourceMapHermes::from_slice(json.as_bytes()).expect("a Hermes map")
}

#[test]
fn functions_by_their_offsets() {
    let map = hermes(HERMES);
    assert_eq!(map.get_original_function_name(0), Some("<global>"));
    assert_eq!(map.get_original_function_name(7), Some("foo"));
    let token = map.lookup_token(0, 7).expect("a token");
    assert_eq!(map.get_scope_for_token(token), Some("foo"));
    let any = DecodedMap::Hermes(map);
    assert_eq!(
        any.get_original_function_name(0, 7, None, None),
        Some("foo")
    );
    assert_eq!(any.get_original_function_name(1, 7, None, None), None);
}

#[test]
fn the_scope_of_a_range_token_is_that_of_the_position_asked() {
    // The token maps to 0:0, where `<global>` begins. `foo` begins at 0:5.
    let json = HERMES
        .replace("AAAA,KACK", r#"AAAA","rangeMappings":"B"#)
        .replace("KCC", "KCA");
    let map = hermes(&json);
    let scope = |offset| {
        let token = map.lookup_token(0, offset).expect("a token");
        assert_eq!(
            map.get_original_function_name(offset),
            map.get_scope_for_token(token)
        );
        map.get_scope_for_token(token)
    };
    assert_eq!((scope(4), scope(5)), (Some("<global>"), Some("foo")));
    let listed = map.get_token(0).expect("a token");
    assert_eq!(map.get_scope_for_token(listed), Some("<global>"));
}

#[test]
fn the_scope_of_a_token_on_a_later_line() {
    // Metro's maps have a token for each line of a bundle. 1:2 leads to 1:5, where `foo`
    // begins; 1:4, and the second token at 0:5, lead to 0:0.
    let map = hermes(&HERMES.replace("AAAA,KACK", "AAAA,KACK,AADL;EACK,EADL"));
    let scope = |line, column| map.get_scope_for_token(map.lookup_token(line, column)?);
    assert_eq!((scope(1, 2), scope(1, 3)), (Some("foo"), Some("foo")));
    assert_eq!(
        (scope(1, 4), scope(7, 0)),
        (Some("<global>"), Some("<global>"))
    );
    let listed: Vec<_> = map
        .tokens()
        .map(|token| map.get_scope_for_token(token))
        .collect();
    let (foo, global) = (Some("foo"), Some("<global>"));
    assert_eq!(listed, [global, foo, global, foo, global]);
}

#[test]
fn the_scope_of_a_token_of_another_map() {
    // The source counts by its id, whichever map the token is of.
    let map = hermes(HERMES);
    let mut other = hermes(HERMES);
    other.set_source(0, "b.js");
    let token = other.get_token(1).expect("a token");
    assert_eq!(map.get_scope_for_token(token), Some("foo"));
    let bare = regular(r#"{"version":3,"sources":[],"names":[],"mappings":"A"}"#);
    assert_eq!(
        map.get_scope_for_token(bare.get_token(0).expect("a token")),
        None
    );
}

#[test]
fn scopes_are_kept() {
    let map = hermes(HERMES);
    let text = written_any(&DecodedMap::Hermes(map.clone()));
    assert!(text.contains("x_facebook_sources"));
    assert_eq!(
        decode_slice(text.as_bytes()).expect("a map"),
        DecodedMap::Hermes(map.clone())
    );
    let other = hermes(&HERMES.replace("foo", "bar"));
    assert_ne!(map, other);
    let options = RewriteOptions {
        strip_prefixes: &["~"],
        ..Default::default()
    };
    let rewritten = map.rewrite(&options).expect("a Hermes map");
    assert_eq!(rewritten.get_original_function_name(7), Some("foo"));
}

#[test]
fn a_hermes_map_has_the_calls_of_a_map() {
    let mut map = hermes(HERMES);
    assert_eq!(
        (map.get_token_count(), map.get_source(0)),
        (2, Some("a.js"))
    );
    map.set_file(Some("f.js"));
    assert_eq!(map.get_file(), Some("f.js"));
    assert_eq!(
        map.lookup_token(0, 5).expect("a token").to_string(),
        "a.js:1:5"
    );
}

#[test]
fn the_map_in_a_hermes_map_is_regular() {
    let mut hermes = hermes(HERMES);
    let expected = written_map(&regular(&HERMES.replace("x_facebook_sources", "unknown")));
    assert_eq!(written_map(&hermes), expected);
    let url = hermes.to_data_url().expect("a URL");
    assert!(matches!(decode_data_url(&url), Ok(DecodedMap::Regular(_))));
    let mut copy: SourceMap = (*hermes).clone();
    assert_eq!(written_map(&copy), expected);
    assert_eq!(copy, *hermes);
    copy.adjust_mappings(&hermes);
    assert!(matches!(
        hermes.try_adjust_mappings(&copy),
        Err(Error::IncompatibleSourceMap)
    ));
    // What is written is the map as it is now, not as it was copied before.
    hermes.set_source(0, "b.js");
    assert_eq!(written_map(&hermes), expected.replace("a.js", "b.js"));
    assert_eq!(hermes.get_original_function_name(7), Some("foo"));
}

#[test]
fn the_map_in_a_hermes_map_has_all_of_its_parts() {
    // Names and sources of one text, and contents of one source of two.
    let parts = r#""version":3,"file":"out.js","sourceRoot":"root","sources":["a.js","a.js"],
        "sourcesContent":["let a;"],"names":["n","n"],"mappings":"AAAAA,ICCEC;E","rangeMappings":"C",
        "ignoreList":[1],"debugId":"00000000-0000-0000-0000-00000000002a""#;
    let expected = regular(&format!("{{{parts}}}"));
    let hermes = hermes(&format!("{{{parts},\"x_facebook_sources\":[null]}}"));
    let copy: SourceMap = (*hermes).clone();
    assert_eq!(copy.names().collect::<Vec<_>>(), ["n", "n"]);
    assert_eq!(raw_tokens(&copy), raw_tokens(&hermes));
    assert_eq!(written_map(&copy), written_map(&expected));
    assert_eq!(copy, expected);
    assert_eq!(*hermes, expected);
}

#[test]
fn the_map_in_a_hermes_map_guesses_names() {
    let json = HERMES
        .replace("AAAA,KACK", "AAAA,SAASA")
        .replace(r#""names":[],"#, r#""names":["n"],"#);
    let map = hermes(&json);
    let view = SourceView::from_string("function f(){}".into());
    let sm: &SourceMap = &map;
    assert_eq!(sm.get_original_function_name(0, 9, "f", &view), Some("n"));
    assert_eq!(sm.get_original_function_name(0, 9, "g", &view), None);
    let token = sm.lookup_token(0, 9).expect("a token");
    assert_eq!(view.get_original_function_name(token, "f"), Some("n"));
}
