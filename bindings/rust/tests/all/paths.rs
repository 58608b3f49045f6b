use sourcemap::make_relative_path;

#[test]
fn paths_from_file_to_file() {
    let rows = [
        ("/foo/bar/baz.js", "/foo/bar/baz.map", "baz.map"),
        ("/foo/bar/.", "/foo/bar/baz.map", "baz.map"),
        ("/foo/bar/baz.js", "/foo/baz.map", "../baz.map"),
        ("foo.txt", "foo.js", "foo.js"),
        ("blah/foo.txt", "foo.js", "../foo.js"),
        ("/a/x.js", "/a/b/c.map", "b/c.map"),
        ("a\\b\\c.js", "a/d/e.map", "../d/e.map"),
        ("/a/b/c/x.js", "/a", "../../"),
        ("/a/x.js", "/a", "."),
    ];
    for (base, target, expected) in rows {
        assert_eq!(
            make_relative_path(base, target),
            expected,
            "from {base} to {target}"
        );
    }
}
