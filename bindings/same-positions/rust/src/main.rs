//! answers MAP POSITIONS: prints the original position for each line LINE:COLUMN of POSITIONS; what follows a tab does
//! not count.
use std::error::Error;
use std::{env, fs};

fn position(row: &str) -> Result<(u32, u32), Box<dyn Error>> {
    let cell = row.split('\t').next().unwrap_or_default();
    let (line, column) = cell.split_once(':').ok_or("no position")?;
    Ok((line.parse()?, column.parse()?))
}

fn main() -> Result<(), Box<dyn Error>> {
    let paths: Vec<String> = env::args().skip(1).collect();
    let map = sourcemap::decode_slice(&fs::read(&paths[0])?)?;
    for row in fs::read_to_string(&paths[1])?.lines() {
        let (line, column) = position(row)?;
        match map.lookup_token(line, column) {
            Some(token) => println!("{token}"),
            None => println!("none"),
        }
    }
    Ok(())
}
