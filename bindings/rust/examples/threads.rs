//! Threads that ask one map for everything it says, without a lock and without a clone.
//!
//!     cargo run --release --example threads -- MAP [THREADS [ROUNDS]]
//!
//! Each thread has to read what one thread alone reads from a map of its own. Then it
//! prints how long a lookup takes with one thread and with all of them.

use std::collections::hash_map::DefaultHasher;
use std::env;
use std::error::Error;
use std::fs;
use std::hash::{Hash, Hasher};
use std::sync::{Arc, Barrier};
use std::thread::{self, JoinHandle};
use std::time::Instant;

use sourcemap::{decode_slice, DecodedMap, SourceMap, SourceMapIndex, SourceView, Token};

/// How many lookups are timed for each thread.
const LOOKUPS: usize = 400_000;

fn read_token(token: Token<'_>, seen: &mut DefaultHasher) {
    token.to_tuple().hash(seen);
    (
        token.get_dst(),
        token.get_name_id(),
        token.get_src_id(),
        token.is_range(),
    )
        .hash(seen);
    token
        .get_source_view()
        .map(SourceView::line_count)
        .hash(seen);
}

fn read_regular(map: &SourceMap, seen: &mut DefaultHasher) {
    (
        map.get_file(),
        map.get_source_root(),
        map.get_debug_id().map(|id| id.to_string()),
    )
        .hash(seen);
    map.sources().for_each(|source| source.hash(seen));
    map.names().for_each(|name| name.hash(seen));
    map.source_contents()
        .for_each(|contents| contents.hash(seen));
    map.ignore_list().for_each(|id| id.hash(seen));
    map.tokens().for_each(|token| read_token(token, seen));
    for token in map.tokens() {
        let (line, column) = token.get_dst();
        map.lookup_token(line, column + 1)
            .map(|token| token.to_string())
            .hash(seen);
    }
    for view in (0..map.get_source_count()).flat_map(|id| map.get_source_view(id)) {
        view.lines().for_each(|line| line.hash(seen));
        map.get_original_function_name(0, 9, "e", view).hash(seen);
    }
    map.to_data_url().ok().hash(seen);
}

fn read_index(map: &SourceMapIndex, seen: &mut DefaultHasher) {
    (
        map.get_file(),
        map.x_facebook_offsets(),
        map.x_metro_module_paths(),
    )
        .hash(seen);
    for section in map.sections() {
        (section.get_offset(), section.get_url()).hash(seen);
        section
            .get_sourcemap()
            .into_iter()
            .for_each(|map| read(map, seen));
    }
    (0..40).for_each(|line| {
        map.lookup_token(line, 7)
            .into_iter()
            .for_each(|token| read_token(token, seen));
    });
    map.flatten()
        .into_iter()
        .for_each(|flat| read_regular(&flat, seen));
}

fn read(map: &DecodedMap, seen: &mut DefaultHasher) {
    let mut text = Vec::new();
    map.to_writer(&mut text).expect("a Vec takes all");
    text.hash(seen);
    match map {
        DecodedMap::Regular(map) => read_regular(map, seen),
        DecodedMap::Index(map) => read_index(map, seen),
        DecodedMap::Hermes(hermes) => {
            read_regular(hermes, seen);
            for token in hermes.tokens() {
                hermes.get_scope_for_token(token).hash(seen);
            }
        }
    }
}

fn all_read(map: &DecodedMap, rounds: usize) -> u64 {
    let mut seen = DefaultHasher::new();
    (0..rounds).for_each(|_| read(map, &mut seen));
    seen.finish()
}

/// Runs a function in threads that begin at once, and returns what they return.
fn in_threads<T: Send + 'static>(
    map: &Arc<DecodedMap>,
    threads: usize,
    run: impl Fn(&DecodedMap) -> T + Clone + Send + 'static,
) -> Vec<T> {
    let start = Arc::new(Barrier::new(threads));
    let spawn = |_| {
        let (map, start, run) = (Arc::clone(map), Arc::clone(&start), run.clone());
        thread::spawn(move || {
            start.wait();
            run(&map)
        })
    };
    let threads: Vec<JoinHandle<T>> = (0..threads).map(spawn).collect();
    threads
        .into_iter()
        .map(|thread| thread.join().expect("the thread ends"))
        .collect()
}

/// The positions of the tokens, in no order: a thread's last answer says nothing of the next.
fn scattered_positions(map: &DecodedMap) -> Result<Arc<[(u32, u32)]>, sourcemap::Error> {
    let of_regular = |map: &SourceMap| map.tokens().map(|token| token.get_dst()).collect();
    let mut positions: Vec<_> = match map {
        DecodedMap::Regular(map) => of_regular(map),
        DecodedMap::Hermes(map) => of_regular(map),
        DecodedMap::Index(map) => of_regular(&map.flatten()?),
    };
    positions.sort_by_key(|&(line, column)| (line ^ column).wrapping_mul(2_654_435_761));
    Ok(positions.into())
}

fn look_up(map: &DecodedMap, positions: &[(u32, u32)]) {
    let found = positions
        .iter()
        .cycle()
        .take(LOOKUPS)
        .filter(|&&(line, column)| {
            let token = map.lookup_token(line, column);
            token.is_some_and(|token| token.get_src_line() != !0)
        });
    std::hint::black_box(found.count());
}

fn nanoseconds(map: &Arc<DecodedMap>, positions: &Arc<[(u32, u32)]>, threads: usize) -> f64 {
    let positions = Arc::clone(positions);
    let start = Instant::now();
    in_threads(map, threads, move |map| look_up(map, &positions));
    start.elapsed().as_nanos() as f64 / LOOKUPS as f64 / threads as f64
}

fn main() -> Result<(), Box<dyn Error>> {
    let words: Vec<String> = env::args().skip(1).collect();
    let path = words
        .first()
        .ok_or("usage: threads MAP [THREADS [ROUNDS]]")?;
    let number = |at: usize, usual| words.get(at).map_or(Ok(usual), |word| word.parse());
    let (threads, rounds) = (number(1, 8)?, number(2, 20)?);
    let json = fs::read(path)?;
    let wanted = all_read(&decode_slice(&json)?, rounds);
    let map = Arc::new(decode_slice(&json)?);
    let read = in_threads(&map, threads, move |map| all_read(map, rounds));
    if read.iter().any(|&read| read != wanted) {
        return Err("a thread read something else".into());
    }
    println!("{threads} threads read the same");
    if rounds > 1 {
        let positions = scattered_positions(&map)?;
        let (one, all) = (
            nanoseconds(&map, &positions, 1),
            nanoseconds(&map, &positions, threads),
        );
        println!(
            "ns a lookup: {one:.1} by one thread, {all:.1} by {threads}, ratio {:.2}",
            one / all
        );
    }
    Ok(())
}
