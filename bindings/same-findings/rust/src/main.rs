//! findings MAP FOLDER NAME [GENERATED]: prints what a check finds in MAP, beside the generated text, the name of the map's
//! file and the files of sources in FOLDER, as `./sourcemap check` does. FOLDER and NAME may be empty.
use std::error::Error;
use std::process::ExitCode;
use std::{env, fs};

use sourcemap::{check, source_files, CheckOptions};

fn main() -> Result<ExitCode, Box<dyn Error>> {
    let paths: Vec<String> = env::args().skip(1).collect();
    let map = fs::read(&paths[0])?;
    let text = paths.get(3).map(fs::read_to_string).transpose()?;
    let folder = Some(&paths[1]).filter(|path| !path.is_empty());
    let files = folder.map(|path| source_files(&map, path)).transpose()?;
    let options = CheckOptions {
        generated: text.as_deref(),
        name: Some(paths[2].as_str()).filter(|name| !name.is_empty()),
        files: files.as_deref(),
        ..CheckOptions::default()
    };
    let report = check(&map, &options)?;
    for finding in &report.findings {
        println!("MAP:{finding}");
    }
    let (invalid, suspicious) = (report.invalid, report.suspicious);
    println!(
        "{invalid} invalid, {suspicious} suspicious, {} shown",
        report.findings.len()
    );
    Ok(ExitCode::from(u8::from(!report.is_valid())))
}
