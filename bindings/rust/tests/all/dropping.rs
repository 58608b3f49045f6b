//! Memory that is used again. Only Linux says how much a process has.
#![cfg(target_os = "linux")]

use std::fs;

use sourcemap::ram_bundle::RamBundle;
use sourcemap::{decode_slice, DecodedMap, SourceMapBuilder, SourceView};

const MEGABYTE: usize = 1 << 20;

/// How much memory the process has, in bytes.
fn resident() -> usize {
    let numbers = fs::read_to_string("/proc/self/statm").expect("numbers of the process");
    let pages: usize = numbers
        .split(' ')
        .nth(1)
        .expect("a number")
        .parse()
        .expect("a number");
    pages * 4096
}

/// Makes and drops values of some megabytes, and checks that their memory is used
/// again.
fn is_dropped<T>(make: impl Fn() -> T) {
    drop(make());
    let before = resident();
    for _ in 0..60 {
        drop(make());
    }
    let grown = resident().saturating_sub(before);
    assert!(grown < 60 * MEGABYTE, "{grown} bytes more");
}

/// A text of a megabyte.
fn long_text() -> String {
    "some text\n".repeat(MEGABYTE / 10)
}

fn with_contents() -> DecodedMap {
    let mut builder = SourceMapBuilder::new(None);
    builder.add(0, 0, 0, 0, Some("a.js"), None, false);
    builder.set_source_contents(0, Some(&long_text()));
    DecodedMap::Regular(builder.into_sourcemap())
}

#[test]
fn what_is_dropped_gives_its_memory_back() {
    let map = with_contents();
    let mut json = Vec::new();
    map.to_writer(&mut json).expect("a Vec takes all");
    is_dropped(|| decode_slice(&json).expect("a map"));
    is_dropped(with_contents);
    is_dropped(|| SourceView::from_string(long_text()));
    is_dropped(|| {
        let DecodedMap::Regular(mut changed) = map.clone() else {
            panic!("a regular map");
        };
        changed.set_file(Some("copied when it changes"));
        changed.get_source_view(0).map(SourceView::line_count)
    });
    let bundle = [
        &b"\xe5\xd1\x0b\xfb\0\0\0\0\0\0\0\0"[..],
        long_text().as_bytes(),
    ]
    .concat();
    is_dropped(|| RamBundle::parse_indexed_from_vec(bundle.clone()).expect("a bundle"));
    // Calls that fail, and code that panics, drop their values too.
    is_dropped(|| decode_slice(&json[..json.len() - 1]).expect_err("a text that is cut"));
    is_dropped(|| {
        std::panic::catch_unwind(|| with_contents().lookup_token(0, 0).map(|_| panic!()))
    });
}
