use std::collections::{BTreeMap, BTreeSet};
use std::fs;
use std::path::Path;
use std::thread;

use sourcemap::{check, source_files, CheckOptions, Finding, FindingPosition, Report, Severity};

fn check_text(json: &str) -> Report {
    check(json.as_bytes(), &CheckOptions::default()).expect("a report")
}

fn of_mappings(mappings: &str) -> String {
    format!(r#"{{"version":3,"sources":["a.js"],"names":[],"mappings":"{mappings}"}}"#)
}

/// An index map with this map in its only section.
fn wrapped(map: &str) -> String {
    let offset = r#"{"line":0,"column":0}"#;
    format!(r#"{{"version":3,"sections":[{{"offset":{offset},"map":{map}}}]}}"#)
}

#[test]
fn a_segment() {
    let report = check_text(&of_mappings("AAAA;g"));
    let wanted = Finding {
        code: 132,
        severity: Severity::Invalid,
        sections: vec![],
        key: "mappings".to_owned(),
        position: Some(FindingPosition::Segment { line: 1, index: 0 }),
        sentence: "the segment ends within a number".to_owned(),
    };
    assert_eq!(report.findings, [wanted]);
    assert_eq!((report.invalid, report.is_valid()), (1, false));
}

#[test]
fn keys() {
    let report = check_text(r#"{"version":"3","sources":[],"mappings":[]}"#);
    let printed: Vec<String> = report.findings.iter().map(Finding::to_string).collect();
    assert_eq!(
        printed,
        [
            "version: SM104 version is no number",
            "mappings: SM116 mappings is no text"
        ]
    );
}

#[test]
fn no_map() {
    for (bytes, code) in [(&b""[..], 101), (b"\xff", 101), (b"[]", 102)] {
        let report = check(bytes, &CheckOptions::default()).expect("a report");
        let found: Vec<(u32, &str)> = report.findings.iter().map(|f| (f.code, &*f.key)).collect();
        assert_eq!(found, [(code, "")]);
    }
}

#[test]
fn sections_at_many_levels() {
    for depth in [0, 1, 7, 8, 9, 40] {
        let json = (0..depth).fold(of_mappings("F"), |map, _| wrapped(&map));
        let report = check_text(&json);
        assert_eq!(report.findings.len(), 1);
        assert_eq!(report.findings[0].code, 135);
        assert_eq!(report.findings[0].sections, vec![0; depth]);
    }
    let printed = check_text(&wrapped(&of_mappings("F"))).findings[0].to_string();
    assert_eq!(
        printed,
        "sections[0].map.mappings 0:0: SM135 the generated column is below 0"
    );
}

#[test]
fn at_most_so_many() {
    let json = of_mappings(&["g"; 9].join(","));
    for (most, shown) in [(0, 1), (1, 1), (3, 3), (20, 9), (u32::MAX, 9)] {
        let options = CheckOptions {
            most,
            ..CheckOptions::default()
        };
        let report = check(json.as_bytes(), &options).expect("a report");
        assert_eq!((report.invalid, report.findings.len()), (9, shown));
    }
}

#[test]
fn beside_a_text() {
    for text in ["", "let x;", "👌\r\n"] {
        let options = CheckOptions {
            generated: Some(text),
            ..CheckOptions::default()
        };
        let report = check(of_mappings("AAAA").as_bytes(), &options).expect("a report");
        assert!(report.is_valid());
    }
}

fn printed(json: &str, text: Option<&str>) -> Vec<String> {
    printed_beside(json, text, None)
}

fn printed_beside(json: &str, text: Option<&str>, name: Option<&str>) -> Vec<String> {
    let options = CheckOptions {
        generated: text,
        name,
        ..CheckOptions::default()
    };
    let report = check(json.as_bytes(), &options).expect("a report");
    assert!(report.is_valid());
    assert_eq!(report.suspicious, report.findings.len() as u64);
    for finding in &report.findings {
        assert_eq!(finding.severity, Severity::Suspicious);
    }
    report.findings.iter().map(Finding::to_string).collect()
}

#[test]
fn what_looks_wrong() {
    let rows = [
        (
            r#"{"version":3,"sources":[],"mappings":"K,D"}"#,
            None,
            "mappings 0:1: SM221 the segment has a lower column than the one before it",
        ),
        (
            r#"{"version":3,"sources":[],"mappings":"E"}"#,
            Some("a"),
            "mappings at 0:2: SM232 the generated line has fewer columns",
        ),
        (
            r#"{"version":3,"sections":[{"offset":{"line":1,"column":1},"map":
                {"version":3,"sources":[],"mappings":"A,C"}}]}"#,
            Some("a\nb"),
            "mappings at 1:2: SM232 the generated line has fewer columns",
        ),
    ];
    for (json, text, wanted) in rows {
        assert_eq!(printed(json, text), [wanted]);
    }
}

#[test]
fn a_reference_and_the_name_of_the_map() {
    let json = r#"{"version":3,"sources":[],"mappings":""}"#;
    let other = ": SM225 the reference of the generated text ends in another file name";
    let rows: [(&str, Option<&str>, &[&str]); 8] = [
        ("//# sourceMappingURL=b.js.map", Some("a.js.map"), &[other]),
        ("//# sourceMappingURL=a.js.map", Some("a.js.map"), &[]),
        (
            "//# sourceMappingURL=maps/a.js.map?v=1",
            Some("a.js.map"),
            &[],
        ),
        ("//# sourceMappingURL=a%20b.js.map", Some("a b.js.map"), &[]),
        (
            "//# sourceMappingURL=data:application/json;base64,e30=",
            Some("a.js.map"),
            &[],
        ),
        ("x", Some("a.js.map"), &[]),
        ("//# sourceMappingURL=b.js.map", None, &[]),
        ("//# sourceMappingURL=b.js.map", Some(""), &[]),
    ];
    for (text, name, wanted) in rows {
        assert_eq!(printed_beside(json, Some(text), name), wanted, "{text}");
    }
    assert!(printed_beside(json, None, Some("a.js.map")).is_empty());
}

#[test]
fn a_name_without_files() {
    let text = "//# sourceMappingURL=b.js.map";
    assert_eq!(
        printed_beside(&of_mappings("AAAA"), Some(text), Some("a.js.map")),
        [
            "sources[0]: SM214 the map has no contents for the source",
            ": SM225 the reference of the generated text ends in another file name"
        ]
    );
}

#[test]
fn a_text_with_a_new_first_line() {
    let json = r#"{"version":3,"sources":["a.js"],"names":["one","two","three","four"],
        "mappings":"AAAAA;AACAC;AACAC;AACAC"}"#;
    assert_eq!(
        printed(json, Some("/* */\none\ntwo\nthree\nfour\n")),
        [
            "sources[0]: SM214 the map has no contents for the source",
            "mappings by 1:0: SM242 words stand in the generated text after this shift"
        ]
    );
}

/// The codes of what is found beside files. They are those that `./sourcemap check --sources` is
/// tested to find.
fn codes_beside(json: &str, files: &[Option<Vec<u8>>]) -> Vec<u32> {
    let options = CheckOptions {
        files: Some(files),
        ..CheckOptions::default()
    };
    let report = check(json.as_bytes(), &options).expect("a report");
    report.findings.iter().map(|found| found.code).collect()
}

#[test]
fn beside_files() {
    let json = of_mappings("AAAE");
    let rows: [(&[Option<Vec<u8>>], &[u32]); 5] = [
        (&[Some(b"x".to_vec())], &[203]),
        (&[Some(b"xyz".to_vec())], &[]),
        (&[Some(b"\xff".to_vec())], &[227]),
        (&[None], &[227]),
        (&[], &[227]),
    ];
    for (files, codes) in rows {
        assert_eq!(codes_beside(&json, files), codes);
    }
    for (files, codes) in rows {
        assert_eq!(codes_beside(&wrapped(&json), files), codes);
    }
    let other = r#"{"version":3,"sources":["a.js"],"sourcesContent":["xyz"],"mappings":"AAAE"}"#;
    assert_eq!(codes_beside(other, &[Some(b"x".to_vec())]), [226]);
}

#[test]
fn files_in_a_folder() {
    let top = std::env::temp_dir().join(format!("check-{}", std::process::id()));
    let folder = top.join("src");
    fs::create_dir_all(folder.join("b")).expect("a folder");
    fs::write(top.join("a"), "x").expect("a file");
    fs::write(folder.join("a"), "y").expect("a file");
    let names = r#"["a","../a","b/../../a","/a","b","c\u0000","","none",null]"#;
    let json = format!(r#"{{"version":3,"sources":{names},"mappings":""}}"#);
    let found = source_files(json.as_bytes(), &folder);
    let index = source_files(wrapped(&json).as_bytes(), &folder);
    fs::remove_dir_all(&top).expect("no folder");
    let mut wanted = vec![None; 9];
    wanted[0] = Some(b"y".to_vec());
    assert_eq!(found.expect("files"), wanted);
    // a flat map has each source once, and null is an empty name
    assert_eq!(index.expect("files"), wanted[..8]);
    let hollow = br#"{"version":3,"sections":[{"offset":{"line":0,"column":0}}]}"#;
    assert!(source_files(hollow, &folder).expect("no files").is_empty());
    assert!(source_files(b"", &folder).expect("no files").is_empty());
}

#[test]
fn by_threads() {
    let json = of_mappings(&["g"; 500].join(","));
    let wanted = check_text(&json);
    thread::scope(|scope| {
        for _ in 0..8 {
            scope.spawn(|| assert_eq!(check_text(&json), wanted));
        }
    });
}

/// The tests of the standard. `codes.tsv` has the codes of its invalid maps, found by hand.
#[test]
fn tests_of_the_standard() {
    let folder = Path::new(env!("CARGO_MANIFEST_DIR")).join("../../checks/spec-tests");
    let Ok(codes) = fs::read_to_string(folder.join("codes.tsv")) else {
        eprintln!("skipped: the tests of the standard are not here");
        return;
    };
    let codes: BTreeMap<&str, BTreeSet<u32>> = codes
        .lines()
        .filter_map(|row| row.split_once('\t'))
        .map(|(name, codes)| (name, codes.split(' ').map(number_of).collect()))
        .collect();
    let tests = fs::read_to_string(folder.join("source-map-spec-tests.json")).expect("the tests");
    let mut count = 0;
    for test in tests.split("\"name\": \"").skip(1) {
        let name = test.split('"').next().expect("a name");
        let file = value_of(test, "\"sourceMapFile\": \"");
        let bytes = fs::read(folder.join("resources").join(file)).expect(file);
        let report = check(&bytes, &CheckOptions::default()).expect("a report");
        let found: BTreeSet<u32> = report
            .findings
            .iter()
            .filter(|finding| finding.severity == Severity::Invalid)
            .map(|finding| finding.code)
            .collect();
        assert_eq!(
            found,
            codes.get(name).cloned().unwrap_or_default(),
            "{name}"
        );
        assert_eq!(report.is_valid(), !codes.contains_key(name), "{name}");
        count += 1;
    }
    assert_eq!(count, 58);
}

fn number_of(code: &str) -> u32 {
    code.strip_prefix("SM")
        .and_then(|number| number.parse().ok())
        .expect("a code")
}

/// The text that follows a key.
fn value_of<'a>(test: &'a str, key: &str) -> &'a str {
    let (_, rest) = test.split_once(key).expect("a key");
    rest.split('"').next().expect("a value")
}

#[test]
fn real_maps() {
    let folder = Path::new(env!("CARGO_MANIFEST_DIR")).join("../../examples");
    let Ok(files) = fs::read_dir(folder) else {
        eprintln!("skipped: the examples are not here");
        return;
    };
    let maps: Vec<_> = files
        .map(|file| file.expect("a file").path())
        .filter(|path| path.extension().is_some_and(|ending| ending == "map"))
        .collect();
    assert!(!maps.is_empty());
    for path in maps {
        let bytes = fs::read(&path).expect("a map");
        let report = check(&bytes, &CheckOptions::default()).expect("a report");
        assert!(report.is_valid(), "{}", path.display());
    }
}
