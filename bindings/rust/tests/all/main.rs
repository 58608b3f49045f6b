//! The answers of the package.
//!
//! Expected values come from the rules of the formats and from the tests of the
//! crate `sourcemap`, or are worked out by hand.

mod building;
mod bundles;
mod checks;
mod compiled;
mod composing;
mod debug_ids;
mod decoding;
mod dropping;
mod equality;
mod errors;
mod hermes;
mod index;
mod lookup;
mod paths;
mod ranges;
mod references;
mod rewriting;
mod segments;
mod spans;
mod surface;
mod threads;
mod views;

use sourcemap::{DecodedMap, RawToken, SourceMap};

/// A map of one source with two names.
const COOLSTUFF: &str = r#"{"version":3,"sources":["coolstuff.js"],"names":["x","alert"],
    "mappings":"AAAA,GAAIA,GAAI,EACR,IAAIA,GAAK,EAAG,CACVC,MAAM"}"#;

fn regular(json: &str) -> SourceMap {
    SourceMap::from_slice(json.as_bytes()).expect("a regular map")
}

/// A regular map of one source `a.js`.
fn of_mappings(mappings: &str, ranges: &str) -> SourceMap {
    regular(&format!(
        r#"{{"version":3,"sources":["a.js"],"names":[],"mappings":"{mappings}","rangeMappings":"{ranges}"}}"#
    ))
}

fn written_map(map: &SourceMap) -> String {
    let mut text = Vec::new();
    map.to_writer(&mut text).expect("a Vec takes all");
    String::from_utf8(text).expect("JSON is UTF-8")
}

fn written_any(map: &DecodedMap) -> String {
    let mut text = Vec::new();
    map.to_writer(&mut text).expect("a Vec takes all");
    String::from_utf8(text).expect("JSON is UTF-8")
}

fn raw_tokens(map: &SourceMap) -> Vec<RawToken> {
    map.tokens().map(|token| token.get_raw_token()).collect()
}

/// A token of source 0 without a name.
fn token(dst: (u32, u32), src: (u32, u32)) -> RawToken {
    RawToken {
        dst_line: dst.0,
        dst_col: dst.1,
        src_line: src.0,
        src_col: src.1,
        src_id: 0,
        name_id: !0,
        is_range: false,
    }
}

/// A token that maps to nothing.
fn bare_token(dst: (u32, u32)) -> RawToken {
    RawToken {
        src_id: !0,
        ..token(dst, (!0, !0))
    }
}
