use sourcemap::{RawToken, SourceMap, SourceMapRef, SourceView};

use crate::{regular, token, COOLSTUFF};

fn view(text: &str) -> SourceView {
    SourceView::new(text.into())
}

#[test]
fn lines_end_at_each_kind_of_line_end() {
    let rows: [(&str, &[&str]); 6] = [
        ("a\nb\nc", &["a", "b", "c"]),
        ("a\r\nb\r\nc", &["a", "b", "c"]),
        ("a\rb\n\rc", &["a", "b", "", "c"]),
        ("a\nb\nc\n", &["a", "b", "c", ""]),
        ("", &[""]),
        ("\n", &["", ""]),
    ];
    for (text, expected) in rows {
        let view = view(text);
        assert_eq!(view.lines().collect::<Vec<_>>(), expected, "of {text:?}");
        assert_eq!(view.line_count(), expected.len());
        let lines: Vec<_> = (0..=expected.len())
            .map(|line| view.get_line(line as u32))
            .collect();
        assert_eq!(
            lines[..expected.len()],
            expected.iter().copied().map(Some).collect::<Vec<_>>()
        );
        assert_eq!(lines[expected.len()], None);
        assert_eq!(view.source(), text);
    }
}

#[test]
fn slices_count_utf_16_units() {
    let view = view("abc👌def\nblah");
    let rows = [
        ((0, 0, 3), Some("abc")),
        ((0, 3, 1), Some("👌")),
        ((0, 3, 2), Some("👌")),
        ((0, 3, 3), Some("👌d")),
        ((0, 4, 1), Some("")),
        ((0, 0, 4), Some("abc👌")),
        ((0, 0, 5), Some("abc👌")),
        ((0, 0, 6), Some("abc👌d")),
        ((1, 0, 4), Some("blah")),
        ((1, 0, 5), None),
        ((1, 0, 12), None),
        ((2, 0, 0), None),
    ];
    for ((line, col, span), expected) in rows {
        assert_eq!(
            view.get_line_slice(line, col, span),
            expected,
            "of {line}:{col}+{span}"
        );
    }
}

#[test]
fn views_are_equal_by_their_texts() {
    let first = view("a\n");
    assert_eq!(first, SourceView::from_string("a\n".into()));
    assert_eq!(first.clone(), first);
    assert_ne!(first, view("a"));
    assert_eq!(format!("{first:?}"), r#"SourceView { source: "a\n" }"#);
}

#[test]
fn the_reference_of_a_view() {
    let reference = view("f()\n//# sourceMappingURL=f.js.map").sourcemap_reference();
    assert_eq!(
        reference.expect("UTF-8"),
        Some(SourceMapRef::Ref("f.js.map".into()))
    );
    assert_eq!(view("f()").sourcemap_reference().expect("UTF-8"), None);
}

#[test]
fn contents_have_a_view_until_they_change() {
    let mut map = regular(COOLSTUFF);
    assert_eq!(map.get_source_view(0), None);
    map.set_source_contents(0, Some("one\ntwo"));
    let contents = map.get_source_view(0).expect("contents");
    assert_eq!(contents.get_line(1), Some("two"));
    let token = map.lookup_token(0, 5).expect("a token");
    assert_eq!(
        token.get_source_view().map(SourceView::source),
        Some("one\ntwo")
    );
    assert_eq!(map.get_source_contents(0), Some("one\ntwo"));
    assert_eq!(map.get_source_view(1), None);
    map.set_source_contents(0, Some("three"));
    assert_eq!(map.get_source_view(0).map(SourceView::line_count), Some(1));
    map.set_source_contents(0, None);
    assert_eq!(
        (map.get_source_view(0), map.get_source_contents(0)),
        (None, None)
    );
}

#[test]
fn function_names_are_guessed_from_the_generated_text() {
    // `function f(){}` was `function original(){}`; the token of `f` has the name.
    let map = regular(
        r#"{"version":3,"sources":["a.js"],"names":["original"],"mappings":"AAAA,SAASA,KAAA"}"#,
    );
    let text = view("function f(){}");
    let name = |col, minified| map.get_original_function_name(0, col, minified, &text);
    assert_eq!(name(9, "f"), Some("original"));
    assert_eq!(name(14, "f"), Some("original"));
    assert_eq!(name(9, "g"), None);
    assert_eq!(name(9, "f.g"), None);
    assert_eq!(name(8, "f"), None);
    let token = map.lookup_token(0, 14).expect("a token");
    assert_eq!(
        text.get_original_function_name(token, "f"),
        Some("original")
    );
}

#[test]
fn function_names_may_have_letters_past_ascii() {
    for minified in [
        "한글변수",
        "变量名",
        "ひらがな",
        "결제사_연결",
        "é\u{200c}$1",
    ] {
        let text = view(&format!("function {minified}(){{}}"));
        let end = 13 + minified.encode_utf16().count() as u32;
        let named = RawToken {
            name_id: 0,
            ..token((0, 9), (0, 9))
        };
        let tokens = vec![token((0, 0), (0, 0)), named, token((0, end), (1, 0))];
        let names = vec!["original".into()];
        let map = SourceMap::new(None, tokens, names, vec!["a.js".into()], None);
        let name = |minified| map.get_original_function_name(0, end, minified, &text);
        assert_eq!(name(minified), Some("original"), "of {minified}");
        let (last, _) = minified.char_indices().last().expect("a character");
        assert_eq!(name(&minified[..last]), None, "of a part of {minified}");
        assert_eq!(name(&format!("{minified}-")), None);
    }
}
