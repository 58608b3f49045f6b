use std::sync::{Arc, Barrier};
use std::thread;

use sourcemap::ram_bundle::{
    RamBundle, RamBundleModule, RamBundleModuleIter, SplitRamBundleModuleIter,
};
use sourcemap::{
    decode_slice, CompiledMap, CompiledToken, DecodedMap, Error, NameIter, SourceContentsIter,
    SourceIter, SourceMap, SourceMapBuilder, SourceMapHermes, SourceMapIndex, SourceMapSectionIter,
    SourceView, Token, TokenIter, WithContents,
};

use crate::{regular, COOLSTUFF};

fn is_shared<T: Send + Sync>() {}

#[test]
fn threads_may_share_all() {
    is_shared::<SourceMap>();
    is_shared::<SourceMapIndex>();
    is_shared::<SourceMapHermes>();
    is_shared::<DecodedMap>();
    is_shared::<SourceMapBuilder>();
    is_shared::<SourceView>();
    is_shared::<RamBundle<'static>>();
    is_shared::<RamBundleModule<'static>>();
    is_shared::<RamBundleModuleIter<'static>>();
    is_shared::<SplitRamBundleModuleIter<'static>>();
    is_shared::<Error>();
    is_shared::<Token<'static>>();
    is_shared::<TokenIter<'static>>();
    is_shared::<SourceIter<'static>>();
    is_shared::<SourceContentsIter<'static>>();
    is_shared::<NameIter<'static>>();
    is_shared::<SourceMapSectionIter<'static>>();
    is_shared::<CompiledMap<'static>>();
    is_shared::<CompiledToken<'static>>();
}

/// The sum of the source columns that answer.
fn sum(map: &SourceMap) -> u64 {
    let columns = (0..2000).flat_map(|col| map.lookup_token(0, col));
    columns.map(|token| u64::from(token.get_src_col())).sum()
}

/// Runs a function in eight threads that begin at once.
fn in_eight(run: impl Fn(usize) + Sync) {
    let start = Barrier::new(8);
    thread::scope(|scope| {
        for thread in 0..8 {
            let (start, run) = (&start, &run);
            scope.spawn(move || {
                start.wait();
                run(thread);
            });
        }
    });
}

#[test]
fn threads_ask_one_compiled_map() {
    let map = regular(COOLSTUFF);
    let file = map.compile(WithContents::No).expect("a compiled map");
    let compiled = CompiledMap::parse(&file).expect("a compiled map");
    in_eight(|_| {
        for column in (0..30).cycle().take(3000) {
            let token = map.lookup_token(0, column).expect("a token");
            let found = compiled.lookup_token(0, column).expect("a token");
            assert_eq!(found.get_src(), token.get_src());
            assert_eq!(found.get_name(), Ok(token.get_name()));
        }
    });
}

#[test]
fn a_pool_of_threads_asks_one_map() {
    let mut builder = SourceMapBuilder::new(Some("out.js"));
    for col in 0..1000 {
        builder.add(0, col * 2, 0, col, Some("a.js"), Some("n"), false);
    }
    builder.set_source_contents(0, Some("one\ntwo\nthree"));
    builder.add_to_ignore_list(0);
    let map = Arc::new(DecodedMap::Regular(builder.into_sourcemap()));
    let threads: Vec<_> = (0..8)
        .map(|_| {
            let map = Arc::clone(&map);
            thread::spawn(move || {
                let DecodedMap::Regular(map) = &*map else {
                    panic!("a regular map");
                };
                for _ in 0..20 {
                    // Two positions each of the columns 0 to 999.
                    assert_eq!(sum(map), 999_000);
                    assert_eq!(
                        map.tokens().map(|token| token.get_src_col()).sum::<u32>(),
                        499_500
                    );
                    assert_eq!(map.ignore_list().collect::<Vec<_>>(), [&0]);
                    let view = map.get_source_view(0).expect("contents");
                    assert_eq!(view.lines().collect::<Vec<_>>(), ["one", "two", "three"]);
                    assert_eq!(
                        (map.get_file(), map.get_name(0)),
                        (Some("out.js"), Some("n"))
                    );
                }
            })
        })
        .collect();
    for thread in threads {
        thread.join().expect("the thread ends");
    }
}

#[test]
fn threads_that_need_a_list_at_once_read_it_once() {
    let index = decode_slice(
        br#"{"version":3,"x_facebook_offsets":[0,null],"x_metro_module_paths":["m.js"],"sections":[
        {"offset":{"line":0,"column":0},"map":{"version":3,"sources":["a.js"],"names":[],"mappings":"AAAA"}},
        {"offset":{"line":2,"column":0},"map":{"version":3,"sources":["b.js"],"names":[],"mappings":"AACA"}}]}"#,
    );
    let DecodedMap::Index(index) = index.expect("a map") else {
        panic!("an index map");
    };
    let sections = std::sync::Mutex::new(Vec::new());
    in_eight(|_| {
        let token = index.lookup_token(2, 5).expect("a token");
        assert_eq!(
            (token.get_source(), token.get_src_line()),
            (Some("b.js"), 1)
        );
        assert_eq!(index.x_facebook_offsets(), Some(&[Some(0), None][..]));
        assert_eq!(
            index.x_metro_module_paths(),
            Some(&[String::from("m.js")][..])
        );
        let section = index.get_section(1).expect("a section");
        sections
            .lock()
            .expect("no panic")
            .push(section as *const _ as usize);
    });
    let mut sections = sections.into_inner().expect("no panic");
    sections.dedup();
    assert_eq!(sections.len(), 1);
}

#[test]
fn threads_share_views_bundles_and_builders() {
    let text: String = (0..100).map(|line| format!("line {line}\n")).collect();
    let view = SourceView::from_string(text);
    let bytes = *b"\xe5\xd1\x0b\xfb\x01\0\0\0\x02\0\0\0\x02\0\0\0\x04\0\0\0abxyz\0";
    let bundle = RamBundle::parse_indexed_from_slice(&bytes).expect("a bundle");
    let mut builder = SourceMapBuilder::new(None);
    builder.add_source("a.js");
    in_eight(|thread| {
        for line in 0..100 {
            let text = view
                .get_line((line * 7 + thread as u32) % 100)
                .expect("a line");
            assert!(text.starts_with("line "));
            assert_eq!(view.get_line_slice(line, 0, 4), Some("line"));
            let module = bundle.get_module(0).expect("an entry").expect("a module");
            assert_eq!(module.data(), b"xyz");
            assert_eq!(bundle.startup_code().expect("code"), b"ab");
            assert_eq!(builder.get_source(0), Some("a.js"));
        }
    });
}

#[test]
fn a_shared_map_is_changed_when_it_is_alone_again() {
    let mut map = Arc::new(regular(COOLSTUFF));
    for file in ["one.js", "two.js"] {
        let threads: Vec<_> = (0..8)
            .map(|_| Arc::clone(&map))
            .map(|map| thread::spawn(move || sum(&map)))
            .collect();
        let sums = threads
            .into_iter()
            .map(|thread| thread.join().expect("the thread ends"));
        assert_eq!(sums.collect::<std::collections::BTreeSet<_>>().len(), 1);
        let alone = Arc::get_mut(&mut map).expect("no thread has it");
        alone.set_file(Some(file));
        assert_eq!(map.get_file(), Some(file));
    }
}

#[test]
fn each_thread_has_a_clone_of_its_own() {
    let mut builder = SourceMapBuilder::new(None);
    for col in 0..1000 {
        builder.add(0, col * 2, 0, col, Some("a.js"), Some("n"), false);
    }
    let map = builder.into_sourcemap();
    // Two positions each of the columns 0 to 999.
    let expected = 999_000;
    assert_eq!(sum(&map), expected);
    let clones: Vec<SourceMap> = (0..4).map(|_| map.clone()).collect();
    let threads: Vec<_> = clones
        .into_iter()
        .map(|clone| thread::spawn(move || (0..50).map(|_| sum(&clone)).collect::<Vec<_>>()))
        .collect();
    drop(map);
    for thread in threads {
        let sums = thread.join().expect("the thread ends");
        assert_eq!(sums, [expected; 50]);
    }
}

#[test]
fn a_change_of_a_clone_is_not_seen_by_others() {
    let map = regular(COOLSTUFF);
    let mut changed = map.clone();
    let source = map.get_source(0).expect("a source");
    let thread = thread::spawn(move || {
        changed.set_source(0, "other.js");
        changed.remove_names();
        changed
    });
    let changed = thread.join().expect("the thread ends");
    assert_eq!(
        (source, map.get_source(0)),
        ("coolstuff.js", Some("coolstuff.js"))
    );
    assert_eq!(
        (changed.get_source(0), changed.has_names()),
        (Some("other.js"), false)
    );
    assert!(map.has_names());
    assert_ne!(map, changed);
}

#[test]
fn builders_and_views_move() {
    let mut builder = SourceMapBuilder::new(None);
    builder.add(0, 0, 0, 0, Some("a.js"), None, false);
    let view = SourceView::from_string("a\nb".into());
    let thread = thread::spawn(move || {
        builder.add(0, 1, 1, 0, Some("b.js"), None, false);
        (builder.into_sourcemap(), view.line_count())
    });
    let (map, lines) = thread.join().expect("the thread ends");
    assert_eq!(
        (map.get_token_count(), map.get_source_count(), lines),
        (2, 2, 2)
    );
}
