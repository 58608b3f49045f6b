//! Times lookups of this package beside the crate `sourcemap` 9.3.2.
//!
//!     sourcemap_lookups [--rounds N] MAP..
//!
//! Both decode each map and answer the same million positions, drawn at random
//! and in sorted order. They take turns within a round, and of each figure the
//! least of the rounds counts. A line for each map and order has the nanoseconds
//! of a lookup and the ratio; the status is 1 if the sums of both differ.

use std::env;
use std::fs;
use std::hint::black_box;
use std::process::ExitCode;
use std::time::Instant;

const POSITIONS: usize = 1_000_000;
/// How many positions are timed at once.
const BLOCK: usize = 10_000;

type Position = (u32, u32);

/// What one side took for each block of positions, in nanoseconds, and what it
/// found.
struct Run {
    blocks: Vec<f64>,
    sum: u64,
}

/// The same code over each of the two packages.
macro_rules! side {
    ($side:ident, $package:ident) => {
        mod $side {
            use super::*;
            use $package::{DecodedMap, SourceMap};

            pub struct Side(DecodedMap);

            impl Side {
                pub fn decode(json: &[u8]) -> Side {
                    Side($package::decode_slice(json).expect("a source map"))
                }

                pub fn token_positions(&self) -> Vec<Position> {
                    let positions =
                        |map: &SourceMap| map.tokens().map(|token| token.get_dst()).collect();
                    match &self.0 {
                        DecodedMap::Regular(map) => positions(map),
                        DecodedMap::Hermes(map) => positions(map),
                        DecodedMap::Index(map) => positions(&map.flatten().expect("a flat map")),
                    }
                }

                pub fn look_up(&self, positions: &[Position]) -> Run {
                    let mut run = Run {
                        blocks: Vec::new(),
                        sum: 0,
                    };
                    for block in positions.chunks(BLOCK) {
                        let start = Instant::now();
                        run.sum = run.sum.wrapping_add(black_box(self.sum(block)));
                        run.blocks.push(start.elapsed().as_nanos() as f64);
                    }
                    run
                }

                fn sum(&self, positions: &[Position]) -> u64 {
                    positions.iter().fold(0, |sum, &(line, col)| {
                        let token = self.0.lookup_token(line, col);
                        let value = token.map_or(1, |token| {
                            u64::from(token.get_src_line()) << 32 | u64::from(token.get_src_col())
                        });
                        sum.wrapping_mul(31).wrapping_add(value)
                    })
                }
            }
        }
    };
}

side!(package_side, package);
side!(reference_side, reference);

/// The generator splitmix64.
struct Random(u64);

impl Random {
    fn next(&mut self) -> u64 {
        self.0 = self.0.wrapping_add(0x9e37_79b9_7f4a_7c15);
        let mut value = self.0;
        value = (value ^ value >> 30).wrapping_mul(0xbf58_476d_1ce4_e5b9);
        value = (value ^ value >> 27).wrapping_mul(0x94d0_49bb_1331_11eb);
        value ^ value >> 31
    }

    fn below(&mut self, limit: usize) -> usize {
        (self.next() % limit as u64) as usize
    }
}

/// Positions at tokens or up to three columns after one.
fn draw_positions(tokens: &[Position]) -> Vec<Position> {
    let mut random = Random(1);
    let mut draw = || {
        let (line, column) = tokens[random.below(tokens.len())];
        (line, column.saturating_add(random.below(4) as u32))
    };
    (0..POSITIONS).map(|_| draw()).collect()
}

/// Keeps of each block the least time.
fn keep_least(least: &mut Run, run: Run) {
    for (least, time) in least.blocks.iter_mut().zip(run.blocks) {
        *least = least.min(time);
    }
}

fn nanoseconds(run: &Run) -> f64 {
    run.blocks.iter().sum::<f64>() / POSITIONS as f64
}

/// Times both sides, prints a line for each order, and returns whether they
/// found the same.
fn compare(name: &str, json: &[u8], rounds: usize) -> bool {
    let package = package_side::Side::decode(json);
    let reference = reference_side::Side::decode(json);
    let tokens = package.token_positions();
    assert!(
        tokens == reference.token_positions(),
        "{name}: other tokens"
    );
    let random = draw_positions(&tokens);
    let mut sorted = random.clone();
    sorted.sort();
    let mut is_same = true;
    for (order, positions) in [("random", &random), ("sorted", &sorted)] {
        let mut ours = package.look_up(positions);
        let mut theirs = reference.look_up(positions);
        is_same &= ours.sum == theirs.sum;
        for _ in 1..rounds {
            keep_least(&mut ours, package.look_up(positions));
            keep_least(&mut theirs, reference.look_up(positions));
        }
        let (ours, theirs) = (nanoseconds(&ours), nanoseconds(&theirs));
        let ratio = ours / theirs;
        println!(
            "{name}\t{}\t{order}\t{ours:.1}\t{theirs:.1}\t{ratio:.2}",
            tokens.len()
        );
    }
    is_same
}

fn main() -> ExitCode {
    let mut words: Vec<String> = env::args().skip(1).collect();
    let mut rounds = 5;
    if words.first().is_some_and(|word| word == "--rounds") {
        rounds = words[1].parse().expect("--rounds N");
        words.drain(..2);
    }
    if words.is_empty() {
        eprintln!("usage: sourcemap_lookups [--rounds N] MAP..");
        return ExitCode::from(2);
    }
    println!("map\ttokens\torder\tpackage (ns)\treference (ns)\tratio");
    let mut is_same = true;
    for path in &words {
        let json = fs::read(path).expect(path);
        if !compare(path, &json, rounds) {
            eprintln!("{path}: the sums differ");
            is_same = false;
        }
    }
    ExitCode::from(u8::from(!is_same))
}
