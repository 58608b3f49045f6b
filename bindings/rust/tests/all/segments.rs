use sourcemap::vlq::{generate_vlq_segment, parse_vlq_segment};
use sourcemap::Error;

fn error(segment: &str) -> String {
    parse_vlq_segment(segment).expect_err(segment).to_string()
}

#[test]
fn numbers_of_segments() {
    let rows: [(&str, &[i64]); 4] = [
        ("AAAA", &[0, 0, 0, 0]),
        ("GAAIA", &[3, 0, 0, 4, 0]),
        ("B", &[0]),
        ("ggggggggggggH", &[4_035_225_266_123_964_416]),
    ];
    for (segment, expected) in rows {
        assert_eq!(parse_vlq_segment(segment).expect(segment), expected);
    }
}

#[test]
fn segments_that_are_refused() {
    let overflow = "vlq decode caused an overflow";
    let leftover = "leftover cur/shift in vlq decode";
    let rows = [
        ("", "vlq decode did not produce any values"),
        ("g", leftover),
        ("A!", "invalid base64 character: !"),
        ("ggggggggggggI", overflow),
        ("gggggggggggggA", overflow),
        ("00000000000000", overflow),
        ("ggggggggggggg", leftover),
    ];
    for (segment, expected) in rows {
        assert_eq!(error(segment), expected, "of {segment}");
    }
    assert!(matches!(
        parse_vlq_segment("A!"),
        Err(Error::InvalidBase64('!'))
    ));
}

#[test]
fn written_segments() {
    let rows: [(&[i64], &str); 4] = [
        (&[0, 0, 0, 0], "AAAA"),
        (&[3, 0, 0, 4, 0], "GAAIA"),
        (&[(1 << 62) - 1], "+///////////H"),
        (&[], ""),
    ];
    for (numbers, expected) in rows {
        assert_eq!(generate_vlq_segment(numbers).expect(expected), expected);
    }
    assert_eq!(
        generate_vlq_segment(&[-3, 16, -16]).expect("a segment"),
        "HgBhB"
    );
    for number in [1 << 62, -(1 << 62), i64::MIN] {
        assert!(matches!(
            generate_vlq_segment(&[number]),
            Err(Error::VlqOverflow)
        ));
    }
}
