use std::collections::HashSet;

use sourcemap::{decode_slice, DebugId, DecodedMap, RewriteOptions, SourceMap};

use crate::{regular, written_any, written_map};

const PLAIN: &str = "0123456789abcdef0123456789abcdef";
const HYPHENATED: &str = "01234567-89ab-cdef-0123-456789abcdef";

fn id(text: &str) -> DebugId {
    text.parse().expect("a debug id")
}

fn of_keys(keys: &str) -> SourceMap {
    regular(&format!(
        r#"{{"version":3,"sources":[],"names":[],"mappings":"",{keys}}}"#
    ))
}

#[test]
fn texts_of_ids() {
    assert_eq!(id(PLAIN).to_string(), HYPHENATED);
    assert_eq!(id(HYPHENATED), id(&PLAIN.to_uppercase()));
    assert_eq!(id(PLAIN).as_bytes()[..4], [0x01, 0x23, 0x45, 0x67]);
    assert_eq!(DebugId::from_bytes(*id(PLAIN).as_bytes()), id(PLAIN));
    assert!(DebugId::default().is_nil() && !id(PLAIN).is_nil());
    assert_eq!(
        HashSet::from([id(PLAIN), id(HYPHENATED), DebugId::nil()]).len(),
        2
    );
    let mixed = "01234567-89AB-cdef-0123-456789ABCDEF";
    assert_eq!(
        (id(mixed), id(mixed).to_string()),
        (id(PLAIN), HYPHENATED.into())
    );
    assert_eq!(
        DebugId::nil().to_string(),
        "00000000-0000-0000-0000-000000000000"
    );
    assert_eq!(
        DebugId::from_bytes([0xff; 16]).to_string(),
        "ffffffff-ffff-ffff-ffff-ffffffffffff"
    );
    assert_eq!(format!("{:?}", id(PLAIN)), format!("DebugId({HYPHENATED})"));
    let refused = [
        "",
        "{01234567-89ab-cdef-0123-456789abcdef}",
        "{0123456789abcdef0123456789abcdef}",
        "urn:uuid:01234567-89ab-cdef-0123-456789abcdef",
        "0123456789abcdef0123456789abcdef0123",
        "0123456789abcdef0123456789abcdé",
        "01234567-89ab-cdef-0123-456789abcd-f",
        "0123456789abcdef0123456789abcde",
        "0123456789abcdef0123456789abcdefa",
        "0123456-789ab-cdef-0123-456789abcdef",
        "01234567-89ab-cdef-0123-456789abcdeg",
        "+123456789abcdef0123456789abcdef",
    ];
    for text in refused {
        assert!(text.parse::<DebugId>().is_err(), "of {text}");
    }
}

#[test]
fn of_both_keys_the_one_in_camel_case_is_taken() {
    let ones = "11111111-1111-1111-1111-111111111111";
    let zeros = "00000000-0000-0000-0000-000000000000";
    let map = of_keys(&format!(r#""debug_id":"{ones}","debugId":"{zeros}""#));
    assert_eq!(map.get_debug_id(), Some(DebugId::nil()));
    let map = of_keys(&format!(r#""debugId":"{zeros}","debug_id":"{ones}""#));
    assert_eq!(map.get_debug_id(), Some(DebugId::nil()));
    let map = of_keys(&format!(r#""debug_id":"{ones}""#));
    assert_eq!(map.get_debug_id(), Some(id(ones)));
    let text = written_map(&map);
    assert!(text.contains(&format!(r#""debugId":"{ones}""#)) && !text.contains("debug_id"));
}

#[test]
fn a_rewritten_map_keeps_its_id() {
    let map = of_keys(&format!(r#""debugId":"{PLAIN}""#));
    let options = RewriteOptions {
        with_names: false,
        ..Default::default()
    };
    assert_eq!(
        map.rewrite(&options).expect("a map").get_debug_id(),
        Some(id(PLAIN))
    );
}

#[test]
fn the_id_of_a_regular_map_is_set_and_removed() {
    let mut map = DecodedMap::Regular(SourceMap::new(None, vec![], vec![], vec![], None));
    assert_eq!(map.debug_id(), None);
    map.set_debug_id(Some(id(PLAIN)));
    assert_eq!(map.debug_id(), Some(id(PLAIN)));
    assert_eq!(
        map,
        DecodedMap::Regular(of_keys(&format!(r#""debugId":"{PLAIN}""#)))
    );
    map.set_debug_id(None);
    assert_eq!(map.debug_id(), None);
}

#[test]
fn the_id_of_an_index_map_is_read_set_and_written() {
    let plain = r#"{"file":"test.js","sections":[],"sources":null,"version":3}"#;
    let with_id = format!(r#"{{"debugId":"{HYPHENATED}",{}"#, &plain[1..]);
    let mut map = decode_slice(plain.as_bytes()).expect("a map");
    assert_eq!(map.debug_id(), None);
    assert_eq!(written_any(&map), plain);
    map.set_debug_id(Some(id(PLAIN)));
    assert_eq!(map.debug_id(), Some(id(PLAIN)));
    assert_eq!(written_any(&map), with_id);
    let mut decoded = decode_slice(with_id.as_bytes()).expect("a map");
    assert_eq!(decoded, map);
    decoded.set_debug_id(None);
    assert_ne!(decoded, map);
    assert_eq!(decoded.debug_id(), None);
    assert_eq!(written_any(&decoded), plain);
}
