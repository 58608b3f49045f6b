use std::io::{self, Read};
use std::path::{Path, PathBuf};

use sourcemap::{
    locate_sourcemap_reference, locate_sourcemap_reference_slice, Error, SourceMapRef,
};

use crate::COOLSTUFF;

fn reference(url: &str) -> SourceMapRef {
    SourceMapRef::Ref(url.into())
}

#[test]
fn references_in_texts() {
    let rows = [
        (
            "f();\n//# sourceMappingURL=a.js.map\ng();",
            Some(reference("a.js.map")),
        ),
        (
            "//@ sourceMappingURL=old.map",
            Some(SourceMapRef::LegacyRef("old.map".into())),
        ),
        (
            "//# sourceMappingURL= spaced.map \r\n",
            Some(reference("spaced.map")),
        ),
        (
            "//# sourceMappingURL=1\n//# sourceMappingURL=2",
            Some(reference("1")),
        ),
        (" //# sourceMappingURL=indented.map", None),
        ("", None),
    ];
    for (text, expected) in rows {
        let located = locate_sourcemap_reference_slice(text.as_bytes()).expect("UTF-8");
        assert_eq!(located, expected, "of {text:?}");
        assert_eq!(
            locate_sourcemap_reference(text.as_bytes()).expect("UTF-8"),
            expected
        );
    }
}

/// Yields a text, and then fails.
struct Failing(&'static [u8]);

impl Read for Failing {
    fn read(&mut self, buffer: &mut [u8]) -> io::Result<usize> {
        match self.0.read(buffer) {
            Ok(0) => Err(io::Error::other("the reader fails")),
            read => read,
        }
    }
}

#[test]
fn a_text_is_read_up_to_its_reference() {
    let located = locate_sourcemap_reference(Failing(b"f();\n//# sourceMappingURL=a.js.map\ng();"));
    assert_eq!(located.expect("a reference"), Some(reference("a.js.map")));
    // the line may go on
    for text in [&b"f();\n//# sourceMappingURL=a.js"[..], b"f();\n"] {
        match locate_sourcemap_reference(Failing(text)) {
            Err(Error::Io(error)) => assert_eq!(error.to_string(), "the reader fails"),
            other => panic!("{other:?}"),
        }
    }
}

#[test]
fn a_line_before_the_reference_is_utf_8() {
    match locate_sourcemap_reference_slice(b"\xff\n//# sourceMappingURL=a.js.map") {
        Err(Error::Io(error)) => assert_eq!(error.kind(), io::ErrorKind::InvalidData),
        other => panic!("{other:?}"),
    }
    let after = locate_sourcemap_reference_slice(b"//# sourceMappingURL=a.js.map\n\xff");
    assert_eq!(
        after.expect("UTF-8 up to there"),
        Some(reference("a.js.map"))
    );
}

#[test]
fn references_are_resolved_against_urls() {
    let rows = [
        (
            "foo.js.map",
            "http://example.com/js/foo.js",
            Some("http://example.com/js/foo.js.map"),
        ),
        (
            "../m/a.map",
            "http://example.com/x/y/a.js",
            Some("http://example.com/x/m/a.map"),
        ),
        (
            "/a.map",
            "http://example.com/x/y/a.js",
            Some("http://example.com/a.map"),
        ),
        (
            "data:application/json;base64,e30=",
            "http://example.com/a.js",
            None,
        ),
        ("a.map", "no url", None),
    ];
    for (url, base, expected) in rows {
        assert_eq!(
            reference(url).resolve(base).as_deref(),
            expected,
            "of {url}"
        );
    }
    assert_eq!(SourceMapRef::LegacyRef("a".into()).get_url(), "a");
}

#[test]
fn references_are_resolved_against_paths() {
    let resolve = |url: &str, path: &str| reference(url).resolve_path(Path::new(path));
    assert_eq!(
        resolve("../m/a.js.map", "/x/y/a.js"),
        Some(PathBuf::from("/x/m/a.js.map"))
    );
    assert_eq!(
        resolve("a%20b.map", "/x/a.js"),
        Some(PathBuf::from("/x/a b.map"))
    );
    assert_eq!(resolve("a.map", "x/a.js"), None);
    assert_eq!(resolve("http://example.com/a.map", "/x/a.js"), None);
}

#[test]
fn embedded_maps() {
    let map = sourcemap::decode_slice(COOLSTUFF.as_bytes()).expect("a map");
    let sourcemap::DecodedMap::Regular(regular) = &map else {
        panic!("a regular map");
    };
    let url = regular.to_data_url().expect("a URL");
    assert_eq!(
        reference(&url).get_embedded_sourcemap().expect("a map"),
        Some(map)
    );
    assert_eq!(
        reference("a.map").get_embedded_sourcemap().expect("no map"),
        None
    );
    let error = reference("data:text/plain,a").get_embedded_sourcemap();
    assert!(matches!(error, Err(Error::InvalidDataUrl)));
}
