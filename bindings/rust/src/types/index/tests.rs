//! Which sections are copied.

use super::*;

const INDEX: &[u8] = br#"{"sections":[
    {"offset":{"line":0,"column":0},"map":{"sources":["a.js"],"mappings":"AAAA"}},
    {"offset":{"line":2,"column":0},"url":"b.map"},
    {"offset":{"line":4,"column":0},"map":{"sources":["c.js"],"mappings":"AAAA"}}]}"#;

fn copied(index: &SourceMapIndex) -> Vec<bool> {
    let sections = index.section_list().iter();
    sections
        .map(|section| section.map.get().is_some())
        .collect()
}

#[test]
fn a_lookup_copies_the_section_that_answers() {
    let index = SourceMapIndex::from_slice(INDEX).expect("an index map");
    assert_eq!(index.get_section_count(), 3);
    let source = |line| index.lookup_token(line, 0)?.get_source();
    assert_eq!(source(5), Some("c.js"));
    assert_eq!(copied(&index), [false, false, true]);
    assert_eq!(copied(&index.clone()), [false, false, true]);
    assert_eq!(source(3), None);
    assert_eq!(copied(&index), [false, true, true]);
    assert_eq!(index.sections().count(), 3);
    assert_eq!(copied(&index), [true; 3]);
}

#[test]
fn a_section_that_is_changed_leaves_the_others_as_they_were() {
    let mut index = SourceMapIndex::from_slice(INDEX).expect("an index map");
    let section = index.get_section_mut(1).expect("a section");
    section.set_url(Some("d.map"));
    let mut json = Vec::new();
    index.to_writer(&mut json).expect("memory");
    let again = SourceMapIndex::from_slice(&json).expect("an index map");
    assert_eq!(
        again.get_section(1).and_then(SourceMapSection::get_url),
        Some("d.map")
    );
    for id in [0, 2] {
        let before = SourceMapIndex::from_slice(INDEX).expect("an index map");
        assert_eq!(again.get_section(id), before.get_section(id));
    }
}
