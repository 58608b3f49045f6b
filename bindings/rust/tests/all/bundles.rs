use std::env;
use std::fs;
use std::path::PathBuf;
use std::process;

use sourcemap::ram_bundle::{
    is_ram_bundle_slice, is_unbundle_path, split_ram_bundle, RamBundle, RamBundleHeader,
    RamBundleType, RAM_BUNDLE_MAGIC,
};
use sourcemap::{Error, RangeError, SourceMapIndex};

use crate::written_map;

/// Startup code `ab`, and module 0 `xyz`.
const BUNDLE: &[u8; 26] = b"\xe5\xd1\x0b\xfb\x01\0\0\0\x02\0\0\0\x02\0\0\0\x04\0\0\0abxyz\0";

fn index(json: &str) -> SourceMapIndex {
    SourceMapIndex::from_slice(json.as_bytes()).expect("an index map")
}

/// An index map of one section, with these lines of modules.
fn index_of(mappings: &str, offsets: &str) -> SourceMapIndex {
    index(&format!(
        r#"{{"version":3,"x_facebook_offsets":{offsets},"sections":[{{"offset":{{"line":0,"column":0}},
        "map":{{"version":3,"sources":["a.js"],"names":[],"mappings":"{mappings}"}}}}]}}"#
    ))
}

/// An indexed bundle of these modules, some of which may be missing.
fn bundle_of(modules: &[Option<&[u8]>]) -> Vec<u8> {
    let mut table = Vec::new();
    let mut code = b"ab".to_vec();
    for module in modules {
        let (offset, length) = module.map_or((0, 0), |bytes| (code.len(), bytes.len() + 1));
        table.extend_from_slice(&(offset as u32).to_le_bytes());
        table.extend_from_slice(&(length as u32).to_le_bytes());
        code.extend_from_slice(module.unwrap_or_default());
        code.extend_from_slice(&[0; 1][..usize::from(module.is_some())]);
    }
    let header = [RAM_BUNDLE_MAGIC, modules.len() as u32, 2]
        .map(u32::to_le_bytes)
        .concat();
    [header, table, code].concat()
}

#[test]
fn the_header_of_an_indexed_bundle() {
    let header = RamBundleHeader::try_from(&BUNDLE[..12]).expect("a header");
    assert!(header.is_valid_magic());
    assert_eq!(
        format!("{header:?}"),
        "RamBundleHeader { magic: 4211855845, module_count: 1, startup_code_size: 2 }"
    );
    let other = RamBundleHeader::try_from(&BUNDLE[1..]).expect("12 bytes");
    assert!(!other.is_valid_magic());
    match RamBundleHeader::try_from(&BUNDLE[..11]) {
        Err(Error::Scroll(range)) => assert_eq!((range.start, range.size, range.len), (0, 12, 11)),
        other => panic!("{other:?}"),
    }
}

#[test]
fn the_parts_of_an_indexed_bundle() {
    // The last byte ends the module and is not read.
    for bytes in [&BUNDLE[..], &BUNDLE[..25]] {
        let bundle = RamBundle::parse_indexed_from_slice(bytes).expect("a bundle");
        assert_eq!(bundle.bundle_type(), RamBundleType::Indexed);
        assert_eq!(bundle.startup_code().expect("startup code"), b"ab");
        assert_eq!(bundle.module_count(), 1);
        let module = bundle.get_module(0).expect("an entry").expect("a module");
        assert_eq!((module.id(), module.data()), (0, &b"xyz"[..]));
        assert_eq!(module.source_view().expect("UTF-8").source(), "xyz");
        assert!(matches!(
            bundle.get_module(1),
            Err(Error::InvalidRamBundleIndex)
        ));
    }
}

#[test]
fn ranges_past_the_end() {
    let cut = RamBundle::parse_indexed_from_slice(&BUNDLE[..24]).expect("a bundle");
    let expected = RangeError {
        start: 22,
        size: 3,
        len: 24,
    };
    match cut.get_module(0) {
        Err(Error::Scroll(range)) => assert_eq!(range, expected),
        other => panic!("{other:?}"),
    }
    match RamBundle::parse_indexed_from_vec(BUNDLE[..11].to_vec()) {
        Err(error) => assert_eq!(error.to_string(), "parse error: 0+12 past 11"),
        other => panic!("{other:?}"),
    }
}

#[test]
fn what_is_no_bundle() {
    assert!(is_ram_bundle_slice(BUNDLE) && is_ram_bundle_slice(&BUNDLE[..12]));
    assert!(!is_ram_bundle_slice(&BUNDLE[..11]) && !is_ram_bundle_slice(b"twelve bytes"));
    let other = RamBundle::parse_indexed_from_slice(b"twelve bytes");
    assert!(matches!(other, Err(Error::InvalidRamBundleMagic)));
    // An entry whose length is 0, and whose offset is not.
    let mut malformed = *BUNDLE;
    malformed[16] = 0;
    let bundle = RamBundle::parse_indexed_from_slice(&malformed).expect("a bundle");
    assert!(matches!(
        bundle.get_module(0),
        Err(Error::InvalidRamBundleEntry)
    ));
}

#[test]
fn missing_modules_are_skipped() {
    let bytes = bundle_of(&[Some(b"a"), None, Some(b"\xff")]);
    let bundle = RamBundle::parse_indexed_from_vec(bytes).expect("a bundle");
    assert!(bundle.get_module(1).expect("no error").is_none());
    let copy = bundle.clone();
    drop(bundle);
    let modules: Vec<_> = copy
        .iter_modules()
        .map(|module| module.expect("a module"))
        .collect();
    let [first, last] = &modules[..] else {
        panic!("{modules:?}");
    };
    assert_eq!((first.id(), first.data()), (0, &b"a"[..]));
    assert_eq!((last.id(), last.data()), (2, &b"\xff"[..]));
    assert!(matches!(last.source_view(), Err(Error::Utf8(error)) if error.valid_up_to() == 0));
}

#[test]
fn a_bundle_is_split_into_modules_with_maps() {
    let bundle = RamBundle::parse_indexed_from_slice(BUNDLE).expect("a bundle");
    let index = index_of(";;;;;AAAA,EAAE;AAAA", "[5]");
    let mut items = split_ram_bundle(&bundle, &index).expect("an index of a bundle");
    let (name, view, map) = items.next().expect("an item").expect("a module");
    assert_eq!((name.as_str(), view.source()), ("0.js", "xyz"));
    assert_eq!(
        written_map(&map),
        r#"{"file":"0.js","mappings":"AAAA,EAAE","names":[],"sources":["a.js"],"version":3}"#
    );
    assert!(items.next().is_none());
}

#[test]
fn a_module_without_a_map_is_an_error_of_its_own() {
    let bytes = bundle_of(&[Some(b"a"), Some(b"\xff"), Some(b"b"), Some(b"c")]);
    let bundle = RamBundle::parse_indexed_from_slice(&bytes).expect("a bundle");
    let index = index_of("AAAA;AAAA;AAAA", "[0,1,null,2]");
    let items: Vec<_> = split_ram_bundle(&bundle, &index)
        .expect("an index of a bundle")
        .collect();
    assert!(matches!(
        &items[..],
        [Ok((a, _, _)), Err(Error::InvalidRamBundleEntry), Ok((c, _, _))] if a == "0.js" && c == "3.js"
    ));
    let plain = index_of("AAAA", "null");
    assert!(matches!(
        split_ram_bundle(&bundle, &plain),
        Err(Error::NotARamBundle)
    ));
}

/// A folder with a bundle of files, which is removed when it is dropped.
struct Folder(PathBuf);

impl Folder {
    fn new(name: &str, modules: &[(&str, &[u8])]) -> Folder {
        let path = env::temp_dir().join(format!("sourcemap-{name}-{}", process::id()));
        let modules_path = path.join("js-modules");
        fs::create_dir_all(modules_path.join("folder")).expect("a folder");
        fs::write(path.join("main.js"), "startup").expect("a file");
        let magic: (&str, &[u8]) = ("UNBUNDLE", &RAM_BUNDLE_MAGIC.to_le_bytes());
        for (file, bytes) in modules.iter().chain([&magic]) {
            fs::write(modules_path.join(file), bytes).expect("a file");
        }
        Folder(path)
    }

    fn main(&self) -> PathBuf {
        self.0.join("main.js")
    }
}

impl Drop for Folder {
    fn drop(&mut self) {
        fs::remove_dir_all(&self.0).expect("the folder is there");
    }
}

#[test]
fn modules_are_split_when_they_are_asked_for() {
    // Twelve bytes, which claim 4294967295 modules: the entry of each is past the end.
    let mut bytes = Vec::new();
    for number in [RAM_BUNDLE_MAGIC, u32::MAX, 0] {
        bytes.extend_from_slice(&number.to_le_bytes());
    }
    let bundle = RamBundle::parse_indexed_from_slice(&bytes).expect("a bundle");
    assert_eq!(bundle.module_count(), 4_294_967_295);
    let index = index_of("AAAA", "[0]");
    let mut items = split_ram_bundle(&bundle, &index).expect("an index of a bundle");
    for _ in 0..1000 {
        assert!(matches!(
            items.next(),
            Some(Err(Error::InvalidRamBundleEntry))
        ));
    }
    // 100,000 modules of 1,000 tokens each, of which two are made.
    let text = vec![b'x'; 2000];
    let mut bytes = bundle_of(&[Some(&text)]);
    let entry = bytes[12..20].to_vec();
    bytes.splice(12..20, entry.repeat(100_000));
    bytes[4..8].copy_from_slice(&100_000_u32.to_le_bytes());
    let bundle = RamBundle::parse_indexed_from_slice(&bytes).expect("a bundle");
    let mappings = format!("AAAA{}", ",CAAC".repeat(999));
    let index = index_of(&mappings, &format!("[{}0]", "0,".repeat(99_999)));
    let items = split_ram_bundle(&bundle, &index).expect("an index of a bundle");
    for (id, item) in items.take(2).enumerate() {
        let (name, view, map) = item.expect("a module");
        assert_eq!(name, format!("{id}.js"));
        assert_eq!((view.source().len(), map.get_token_count()), (2000, 1000));
    }
}

#[test]
fn a_bundle_of_files() {
    let folder = Folder::new(
        "files",
        &[("0.js", b"zero\nline"), ("3.js", b""), ("03.js", b"old")],
    );
    let bundle = RamBundle::parse_unbundle_from_path(&folder.main()).expect("a bundle");
    assert_eq!(bundle.bundle_type(), RamBundleType::Unbundle);
    assert_eq!(bundle.startup_code().expect("startup code"), b"startup");
    assert_eq!(bundle.module_count(), 4);
    let module = bundle.get_module(0).expect("no error").expect("a module");
    assert_eq!(module.data(), b"zero\nline");
    assert!(bundle.get_module(1).expect("no error").is_none());
    assert!(bundle.get_module(9).expect("no error").is_none());
    let ids: Vec<_> = bundle
        .iter_modules()
        .map(|module| module.expect("a module").id())
        .collect();
    assert_eq!(ids, [0, 3]);
    // Of two files of one number the later name counts.
    let last = bundle.get_module(3).expect("no error").expect("a module");
    assert_eq!(last.data(), b"");
    let index = index_of("AAAA;CACA;AACA", "[0,null,null,2]");
    let items: Vec<_> = split_ram_bundle(&bundle, &index)
        .expect("an index of a bundle")
        .map(|item| item.expect("a module"))
        .collect();
    let texts: Vec<_> = items
        .iter()
        .map(|(name, view, _)| (&name[..], view.source()))
        .collect();
    assert_eq!(texts, [("0.js", "zero\nline"), ("3.js", "")]);
    assert_eq!(
        items[0].2.lookup_token(1, 1).expect("a token").to_string(),
        "a.js:1:0"
    );
}

#[test]
fn numbers_of_files_may_be_far_apart() {
    let folder = Folder::new(
        "apart",
        &[("0.js", b"a"), ("18446744073709551614.js", b"b")],
    );
    let bundle = RamBundle::parse_unbundle_from_path(&folder.main()).expect("a bundle");
    assert_eq!(bundle.module_count(), usize::MAX);
    let ids: Vec<_> = bundle
        .iter_modules()
        .map(|module| module.expect("a module").id())
        .collect();
    assert_eq!(ids, [0, 18446744073709551614]);
    let index = index_of("AAAA;CACA;AACA", "[0,null,null,2]");
    assert!(matches!(
        split_ram_bundle(&bundle, &index),
        Err(Error::InvalidRamBundleEntry)
    ));
}

#[test]
fn what_is_no_bundle_of_files() {
    let folder = Folder::new("no-bundle", &[("+1.js", b"")]);
    assert!(is_unbundle_path(&folder.main()));
    let odd_name = RamBundle::parse_unbundle_from_path(&folder.main());
    assert!(matches!(odd_name, Err(Error::InvalidRamBundleIndex)));
    assert!(!is_unbundle_path(&folder.0) && !is_unbundle_path(&folder.0.join("other.js")));
    fs::write(folder.0.join("js-modules/UNBUNDLE"), "no").expect("a file");
    assert!(!is_unbundle_path(&folder.main()));
    let no_magic = RamBundle::parse_unbundle_from_path(&folder.main());
    assert!(matches!(no_magic, Err(Error::NotARamBundle)));
}

#[test]
fn an_indexed_bundle_of_a_file() {
    let folder = Folder::new("indexed", &[]);
    fs::write(folder.main(), BUNDLE).expect("a file");
    let bundle = RamBundle::parse_indexed_from_path(&folder.main()).expect("a bundle");
    assert_eq!(bundle.module_count(), 1);
    let missing = RamBundle::parse_indexed_from_path(&folder.0.join("missing"));
    assert!(matches!(missing, Err(Error::Io(_))));
}
