//! Answers positions, one a line as LINE:COLUMN from 0 on standard input, by the
//! map in a file.
//!
//!     cargo run --example lookup -- MAP < POSITIONS
//!
//! For each it prints the original position and its name, `none`, or
//! `bad position`.

use std::env;
use std::error::Error;
use std::fs;
use std::io::{self, BufRead, BufWriter, Write};

use sourcemap::DecodedMap;

fn position(line: &str) -> Option<(u32, u32)> {
    let (line, column) = line.split_once(':')?;
    Some((line.parse().ok()?, column.parse().ok()?))
}

fn answer(map: &DecodedMap, line: &str) -> String {
    let Some((line, column)) = position(line) else {
        return String::from("bad position");
    };
    match map.lookup_token(line, column) {
        Some(token) => token.to_string(),
        None => String::from("none"),
    }
}

fn main() -> Result<(), Box<dyn Error>> {
    let path = env::args().nth(1).ok_or("usage: lookup MAP < POSITIONS")?;
    let map = sourcemap::decode_slice(&fs::read(path)?)?;
    let mut out = BufWriter::new(io::stdout().lock());
    for line in io::stdin().lock().lines() {
        writeln!(out, "{}", answer(&map, &line?))?;
    }
    Ok(out.flush()?)
}
