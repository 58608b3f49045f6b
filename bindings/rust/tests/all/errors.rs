use std::error::Error as _;
use std::io;

use sourcemap::{Base64Error, Error, JsonError, RangeError};

const RANGE: RangeError = RangeError {
    start: 22,
    size: 3,
    len: 24,
};

#[test]
fn printed_texts() {
    let rows = [
        (Error::Io(io::Error::other("no disk")), "no disk"),
        (Error::Scroll(RANGE), "parse error: 22+3 past 24"),
        (
            Error::BadJson(JsonError::Parse),
            "bad json: the text is not JSON",
        ),
        (
            Error::BadJson(JsonError::Shape),
            "bad json: a field has the wrong type",
        ),
        (Error::VlqLeftover, "leftover cur/shift in vlq decode"),
        (Error::VlqNoValues, "vlq decode did not produce any values"),
        (Error::VlqOverflow, "vlq decode caused an overflow"),
        (Error::BadSegmentSize(6), "got 6 segments, expected 4 or 5"),
        (Error::BadSourceReference(7), "bad reference to source #7"),
        (Error::BadNameReference(8), "bad reference to name #8"),
        (
            Error::IncompatibleSourceMap,
            "encountered incompatible sourcemap format",
        ),
        (Error::InvalidDataUrl, "the provided data URL is invalid"),
        (
            Error::CannotFlatten("why".into()),
            "cannot flatten the indexed sourcemap: why",
        ),
        (
            Error::InvalidRamBundleMagic,
            "invalid magic number for ram bundle",
        ),
        (
            Error::InvalidRamBundleIndex,
            "invalid module index in ram bundle",
        ),
        (
            Error::InvalidRamBundleEntry,
            "invalid ram bundle module entry",
        ),
        (Error::NotARamBundle, "not a ram bundle"),
        (
            Error::InvalidRangeMappingIndex(Base64Error { at: 9 }),
            "invalid range mapping index: bad base64 at 9",
        ),
        (Error::InvalidBase64('!'), "invalid base64 character: !"),
        (Error::OutOfMemory, "out of memory"),
    ];
    for (error, expected) in rows {
        assert_eq!(error.to_string(), expected);
    }
}

#[test]
fn errors_of_other_types() {
    let not_utf8 = String::from_utf8(vec![b'a', 0xff]).expect_err("no character");
    let text = not_utf8.to_string();
    let error = Error::from(not_utf8);
    assert!(matches!(error, Error::Utf8(error) if error.valid_up_to() == 1));
    assert_eq!(error.to_string(), text);
    assert_eq!(error.source().map(ToString::to_string), Some(text));
    let memory = io::Error::from(io::ErrorKind::OutOfMemory);
    assert!(matches!(Error::from(memory), Error::OutOfMemory));
    let missing = Error::from(io::Error::from(io::ErrorKind::NotFound));
    assert!(matches!(&missing, Error::Io(error) if error.kind() == io::ErrorKind::NotFound));
    assert!(missing.source().is_some() && Error::NotARamBundle.source().is_none());
    assert!(matches!(Error::from(RANGE), Error::Scroll(RANGE)));
    assert!(matches!(
        Error::from(JsonError::Shape),
        Error::BadJson(JsonError::Shape)
    ));
}

#[test]
fn a_long_reason_is_cut_at_a_character() {
    let url = "é".repeat(300);
    let json = format!(
        r#"{{"version":3,"sections":[{{"offset":{{"line":0,"column":0}},"url":"{url}"}}]}}"#
    );
    let index = sourcemap::SourceMapIndex::from_slice(json.as_bytes()).expect("an index map");
    let Err(Error::CannotFlatten(reason)) = index.flatten() else {
        panic!("a section without a map");
    };
    let url = reason
        .strip_prefix("Section has an unresolved sourcemap: ")
        .expect("a URL");
    assert!(
        url.len() < 255 && url.chars().all(|character| character == 'é'),
        "{reason}"
    );
    assert!(!url.is_empty());
}
