//! Checks: whether bytes are a valid map by ECMA-426, and what looks wrong in a valid one.

use std::path::Path;
use std::{fmt, fs, io};

use crate::decoder::decode_slice;
use crate::errors::{Error, Result};
use crate::handle::ReportHandle;
use crate::types::{DecodedMap, SourceMap};

/// What a check looks at.
#[derive(Clone, Copy, Debug, PartialEq, Eq)]
pub struct CheckOptions<'a> {
    /// The generated text. If it is given, a valid map is compared with it.
    pub generated: Option<&'a str>,
    /// The name of the map's file, without folders. If it is given, the reference of the generated
    /// text is to end in it. An empty name is none.
    pub name: Option<&'a str>,
    /// The bytes of the file of each source, by id. If they are given, a valid map is compared
    /// with them. A source has no file if its item is `None` or not UTF-8, or if there is no such
    /// item. [`source_files`] reads them from a folder.
    pub files: Option<&'a [Option<Vec<u8>>]>,
    /// How many findings of each code the report has at most. 0 counts as 1.
    pub most: u32,
}

impl Default for CheckOptions<'_> {
    /// No generated text, no name, no files, and 20 findings of each code.
    fn default() -> Self {
        CheckOptions {
            generated: None,
            name: None,
            files: None,
            most: 20,
        }
    }
}

/// How grave a finding is.
#[derive(Clone, Copy, Debug, PartialEq, Eq, PartialOrd, Ord, Hash)]
pub enum Severity {
    /// A rule of the standard is broken.
    Invalid,
    /// The map is valid, but something looks wrong.
    Suspicious,
}

/// Where a finding is, beside its key. All counts from 0.
#[derive(Clone, Copy, Debug, PartialEq, Eq, PartialOrd, Ord, Hash)]
pub enum FindingPosition {
    /// A segment of `mappings`.
    Segment {
        /// Its line.
        line: usize,
        /// Its index among the segments of the line.
        index: usize,
    },
    /// A token, by its generated position.
    Token {
        /// The generated line.
        line: usize,
        /// The generated column.
        column: usize,
    },
    /// Positions are off throughout.
    Shift {
        /// By so many lines.
        lines: i32,
        /// By so many columns.
        columns: i32,
    },
}

/// A place where a map breaks a rule of the standard, or where something looks wrong.
///
/// It is printed as `./sourcemap check` prints it, without the file:
/// `sections[0].map.mappings 1:0: SM132 the segment ends within a number`.
#[derive(Clone, Debug, PartialEq, Eq)]
pub struct Finding {
    /// The number of its code in `docs/CHECK.md`: 132 for `SM132`.
    pub code: u32,
    /// How grave it is.
    pub severity: Severity,
    /// The indexes of the sections that lead to its map, the outermost first; empty for the
    /// whole map.
    pub sections: Vec<usize>,
    /// The key of the map. It is empty if the bytes are no JSON object.
    pub key: String,
    /// Its position, or none if the key says it all.
    pub position: Option<FindingPosition>,
    /// A sentence in English that says what is wrong.
    pub sentence: String,
}

impl fmt::Display for FindingPosition {
    fn fmt(&self, f: &mut fmt::Formatter<'_>) -> fmt::Result {
        match self {
            FindingPosition::Segment { line, index } => write!(f, "{line}:{index}"),
            FindingPosition::Token { line, column } => write!(f, "at {line}:{column}"),
            FindingPosition::Shift { lines, columns } => write!(f, "by {lines}:{columns}"),
        }
    }
}

impl fmt::Display for Finding {
    fn fmt(&self, f: &mut fmt::Formatter<'_>) -> fmt::Result {
        for section in &self.sections {
            write!(f, "sections[{section}].map.")?;
        }
        f.write_str(&self.key)?;
        if let Some(position) = self.position {
            write!(f, " {position}")?;
        }
        write!(f, ": SM{} {}", self.code, self.sentence)
    }
}

/// What a check found.
#[derive(Clone, Debug, PartialEq, Eq)]
pub struct Report {
    /// The first findings of each code.
    pub findings: Vec<Finding>,
    /// How many are invalid, in all.
    pub invalid: u64,
    /// How many are suspicious, in all.
    pub suspicious: u64,
}

impl Report {
    /// Whether the bytes are a valid map by ECMA-426.
    pub fn is_valid(&self) -> bool {
        self.invalid == 0
    }
}

/// Checks whether bytes are a valid map by ECMA-426, the standard of source maps, and looks for
/// what looks wrong in a valid one. Any bytes give a report: bytes that are no JSON text are a
/// finding. The only error is [`OutOfMemory`](crate::Error::OutOfMemory).
///
/// ```
/// use sourcemap::{check, CheckOptions};
/// let json = br#"{"version":3,"sources":["a.js"],"mappings":"AAAA;g"}"#;
/// let report = check(json, &CheckOptions::default()).unwrap();
/// assert!(!report.is_valid());
/// assert_eq!(
///     report.findings[0].to_string(),
///     "mappings 1:0: SM132 the segment ends within a number"
/// );
/// ```
pub fn check(bytes: &[u8], options: &CheckOptions<'_>) -> Result<Report> {
    let report = ReportHandle::of(bytes, options)?;
    let counts = report.counts();
    Ok(Report {
        findings: report.findings(),
        invalid: counts.invalid,
        suspicious: counts.suspicious,
    })
}

/// Reads the files of the sources of a map, for [`CheckOptions::files`]. A source has the file
/// that its name, resolved against `sourceRoot`, names below the folder, or `None` if there is no
/// such file. A name that begins with `/` or has a part `..` has none. The sources of an index map
/// are those of its flat map. There are no files if the bytes are no map, or an index map that
/// cannot be flattened. Any other error of reading a file is returned.
pub fn source_files(bytes: &[u8], folder: impl AsRef<Path>) -> io::Result<Vec<Option<Vec<u8>>>> {
    let folder = folder.as_ref();
    match decode_slice(bytes) {
        Ok(DecodedMap::Regular(map)) => files_of(&map, folder),
        Ok(DecodedMap::Hermes(map)) => files_of(&map, folder),
        Ok(DecodedMap::Index(map)) => match map.flatten() {
            Ok(flat) => files_of(&flat, folder),
            Err(error) => no_files_after(&error),
        },
        Err(error) => no_files_after(&error),
    }
}

fn no_files_after(error: &Error) -> io::Result<Vec<Option<Vec<u8>>>> {
    match error {
        Error::OutOfMemory => Err(io::ErrorKind::OutOfMemory.into()),
        _ => Ok(Vec::new()),
    }
}

fn files_of(map: &SourceMap, folder: &Path) -> io::Result<Vec<Option<Vec<u8>>>> {
    map.sources().map(|name| file_below(folder, name)).collect()
}

fn file_below(folder: &Path, name: &str) -> io::Result<Option<Vec<u8>>> {
    if name.starts_with('/') || name.split('/').any(|part| part == "..") {
        return Ok(None);
    }
    match fs::read(folder.join(name)) {
        Ok(bytes) => Ok(Some(bytes)),
        Err(error) if is_missing(&error) => Ok(None),
        Err(error) => Err(error),
    }
}

/// Whether there is no file of a name.
fn is_missing(error: &io::Error) -> bool {
    const ENOTDIR: i32 = 20;
    const EISDIR: i32 = 21;
    const ENAMETOOLONG: i32 = 36;
    matches!(
        error.kind(),
        io::ErrorKind::NotFound | io::ErrorKind::InvalidInput
    ) || matches!(error.raw_os_error(), Some(ENOTDIR | EISDIR | ENAMETOOLONG))
}
