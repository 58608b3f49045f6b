//! Which handles calls get.

use std::collections::BTreeSet;
use std::thread;

use super::super::MapHandle;
use super::*;

const MAP: &[u8] = br#"{"version":3,"sources":["a.js"],"names":[],"mappings":"AAAA"}"#;

fn map() -> MapHandle {
    MapHandle::open(MAP).expect("a map")
}

fn share_count(shared: &Shared) -> usize {
    let mut count = 1;
    let mut next = shared.more.get();
    while let Some(table) = next {
        count += table.slots.iter().flat_map(Once::get).count();
        next = table.next.get();
    }
    count
}

/// Takes that many handles at once, and returns how many they are.
fn take_at_once(shared: &Shared, count: usize) -> usize {
    let taken: Vec<_> = (0..count).map(|_| shared.take()).collect();
    taken.iter().map(Taken::at).collect::<BTreeSet<_>>().len()
}

#[test]
fn calls_that_meet_get_handles_of_their_own() {
    // More than one table has room for.
    for count in [1, 2, WIDTH + 1, 3 * WIDTH] {
        let map = map();
        assert_eq!(take_at_once(&map.0, count), count);
        assert_eq!(share_count(&map.0), count);
        // The next calls make no more.
        assert_eq!(take_at_once(&map.0, count), count);
        assert_eq!(share_count(&map.0), count);
    }
}

#[test]
fn calls_one_after_another_make_no_share() {
    let map = map();
    for _ in 0..100 {
        drop(map.0.take());
    }
    let asked = thread::scope(|scope| {
        scope
            .spawn(|| map.lookup(0, 0).is_some())
            .join()
            .expect("the thread ends")
    });
    assert!(asked);
    assert_eq!(share_count(&map.0), 1);
}

#[test]
fn threads_that_come_and_go_share_the_shares() {
    let map = map();
    for _ in 0..5 * WIDTH {
        let taken = map.0.take();
        let other = || drop(map.0.take());
        thread::scope(|scope| scope.spawn(other).join().expect("the thread ends"));
        drop(taken);
    }
    assert!(share_count(&map.0) <= 1 + WIDTH);
}

#[test]
fn a_change_closes_the_shares() {
    let mut map = map();
    assert_eq!(take_at_once(&map.0, 5), 5);
    map.set_file(Some("out.js")).expect("memory");
    assert_eq!(share_count(&map.0), 1);
    assert_eq!(take_at_once(&map.0, 5), 5);
    assert_eq!(map.file(), Some("out.js"));
}

#[test]
fn shares_answer_what_the_changed_map_says() {
    let mut map = map();
    let all: Vec<_> = (0..3).map(|_| map.0.take()).collect();
    drop(all);
    for name in ["one", "two"] {
        map.set_source(0, name).expect("memory");
        let first = map.0.take();
        // This one is asked through another handle.
        assert_eq!(map.source(0), Some(name));
        drop(first);
    }
}

#[test]
fn two_values_are_taken_in_one_order() {
    let (one, other) = (map(), map());
    thread::scope(|scope| {
        for _ in 0..4 {
            scope.spawn(|| (0..1000).for_each(|_| drop(take_both(&one.0, &other.0))));
            scope.spawn(|| (0..1000).for_each(|_| drop(take_both(&other.0, &one.0))));
        }
    });
}
