//! The reference program of the scripts: runs their commands with the crate `sourcemap`.

mod bundles;
mod draws;
mod references;
mod repeat;
mod views;

use draws::Draws;
use repeat::Operation;
use serde_json::Value;
use sourcemap::{
    decode, decode_data_url, decode_slice, DecodedMap, Error, Result, RewriteOptions, SourceMap,
    SourceMapBuilder, SourceMapHermes, SourceMapIndex, SourceView, Token,
};
use std::fs::{self, File};
use std::io::{self, BufWriter, Read, Write};
use std::ops::Deref;
use std::os::fd::AsFd;
use std::process::ExitCode;

const USAGE: &str = "usage, with a map on standard input:
    [slice | stream] (lookup LINE COL | tokens | rewrite | flatten | compose FILE | shift ROWS)
    | roundtrip | stat | batch FILE | dst FILE | positions N SEED [wild] | bench OPERATION N
    | names QUESTIONS [TEXT] | regular | equal | sections | refused | contents
or, with nothing there: slices QUESTIONS TEXT | references QUESTIONS | bundles QUESTIONS | url URL
    | built PAIRS
OPERATION: decode | decode-reader | lookup | tokens | encode | rewrite | flatten
    | compose, of two maps on standard input, each on a line
    | lines, of a text there
    | names, of a map on the first line there and behind it the text that it is of
    | split, of an index map on the first line there and behind it the bundle that it is of
";

/// How the map is read, and how JSON text is printed.
#[derive(Clone, Copy, PartialEq)]
enum Form {
    /// Decoded while it is read. JSON objects have their keys in alphabetical order, so that their
    /// texts can be compared.
    Compared,
    /// Read whole, then decoded. JSON text is as the crate writes it. This takes the least time.
    Slice,
    /// Decoded while it is read. JSON text is as the crate writes it. This takes the least memory.
    Stream,
}

type Output = BufWriter<File>;

fn input() -> io::Result<File> {
    Ok(File::from(io::stdin().as_fd().try_clone_to_owned()?))
}

fn output() -> io::Result<Output> {
    let file = File::from(io::stdout().as_fd().try_clone_to_owned()?);
    Ok(BufWriter::with_capacity(1 << 16, file))
}

fn bytes() -> io::Result<Vec<u8>> {
    let mut bytes = Vec::new();
    input()?.read_to_end(&mut bytes)?;
    Ok(bytes)
}

fn read_map(form: Form) -> Result<DecodedMap> {
    match form {
        Form::Slice => decode_slice(&bytes()?),
        Form::Stream | Form::Compared => decode(input()?),
    }
}

/// A map that is not an index map.
enum Single {
    Regular(SourceMap),
    Hermes(SourceMapHermes),
}

impl Deref for Single {
    type Target = SourceMap;

    fn deref(&self) -> &SourceMap {
        match self {
            Single::Regular(map) => map,
            Single::Hermes(map) => map,
        }
    }
}

fn single(map: DecodedMap) -> Result<Single> {
    match map {
        DecodedMap::Regular(map) => Ok(Single::Regular(map)),
        DecodedMap::Hermes(map) => Ok(Single::Hermes(map)),
        DecodedMap::Index(_) => Err(Error::IncompatibleSourceMap),
    }
}

/// The flattened map of an index map, or any other map as it is.
fn flat(map: DecodedMap) -> Result<Single> {
    match map {
        DecodedMap::Index(index) => Ok(Single::Regular(index.flatten()?)),
        other => single(other),
    }
}

fn regular(map: DecodedMap) -> Result<SourceMap> {
    match map {
        DecodedMap::Regular(map) => Ok(map),
        _ => Err(Error::IncompatibleSourceMap),
    }
}

fn index(map: DecodedMap) -> Result<SourceMapIndex> {
    match map {
        DecodedMap::Index(map) => Ok(map),
        _ => Err(Error::IncompatibleSourceMap),
    }
}

fn write_json(map: &DecodedMap, form: Form, output: &mut Output) -> Result<()> {
    if form == Form::Compared {
        let mut text = Vec::new();
        map.to_writer(&mut text)?;
        let value: Value = serde_json::from_slice(&text)?;
        serde_json::to_writer(&mut *output, &value)?;
    } else {
        map.to_writer(&mut *output)?;
    }
    Ok(writeln!(output)?)
}

fn write_tokens(map: &SourceMap, output: &mut Output) -> io::Result<()> {
    for token in map.tokens() {
        let mark = if token.is_range() { " range" } else { "" };
        writeln!(
            output,
            "{}:{} {token}{mark}",
            token.get_dst_line(),
            token.get_dst_col()
        )?;
    }
    Ok(())
}

/// Writes the line that answers a lookup. With `with_position` this line also has the generated
/// position of the token.
fn write_answer(token: Option<Token<'_>>, with_position: bool, output: &mut Output) -> io::Result<()> {
    match token {
        Some(token) if with_position => writeln!(output, "{token:#}"),
        Some(token) => writeln!(output, "{token}"),
        None => writeln!(output, "none"),
    }
}

fn write_answers(
    map: &DecodedMap,
    positions: &str,
    with_position: bool,
    output: &mut Output,
) -> Result<()> {
    for position in positions.lines() {
        let (line, column) = position.split_once(' ').unwrap_or_default();
        match (line.parse(), column.parse()) {
            (Ok(line), Ok(column)) => {
                write_answer(map.lookup_token(line, column), with_position, output)?
            }
            _ => return Err(io::Error::other(format!("no position: {position}")).into()),
        }
    }
    Ok(())
}

fn write_positions(
    map: &SourceMap,
    mut draws: Draws,
    count: u32,
    is_wild: bool,
    output: &mut Output,
) -> io::Result<()> {
    for _ in 0..count {
        let (line, column) = if is_wild {
            draws.anywhere(map)
        } else {
            draws.beside_token(map)
        };
        writeln!(output, "{line} {column}")?;
    }
    Ok(())
}

fn write_stat(map: DecodedMap, output: &mut Output) -> io::Result<()> {
    let kind = match &map {
        DecodedMap::Regular(_) => "regular",
        DecodedMap::Index(_) => "index",
        DecodedMap::Hermes(_) => "hermes",
    };
    let count = flat(map).map_or(0, |map| map.get_token_count());
    writeln!(output, "{kind}\t{count}")
}

/// Writes the error of a call, or `none` if the call succeeded.
fn write_error<T>(read: Result<T>, output: &mut Output) -> Result<()> {
    match read {
        Ok(_) => Ok(writeln!(output, "none")?),
        Err(error) => Ok(writeln!(output, "{error}")?),
    }
}

/// A writer that fails on each write.
struct Refusing;

impl Write for Refusing {
    fn write(&mut self, _bytes: &[u8]) -> io::Result<usize> {
        Err(io::Error::from(io::ErrorKind::BrokenPipe))
    }

    fn flush(&mut self) -> io::Result<()> {
        Ok(())
    }
}

/// Rewrites the map. Contents that it lacks are loaded from files.
fn with_contents(map: SourceMap) -> Result<SourceMap> {
    let options = RewriteOptions {
        load_local_source_contents: true,
        ..RewriteOptions::default()
    };
    map.rewrite(&options)
}

/// Builds a map with a token for each pair of a generated and an original column. Writes the
/// columns of its tokens.
fn write_built(pairs: &[Value], output: &mut Output) -> Result<()> {
    let number = |pair: &Value, at: usize| pair[at].as_u64().unwrap_or_default() as u32;
    let mut builder = SourceMapBuilder::new(None);
    for pair in pairs {
        builder.add(0, number(pair, 0), 0, number(pair, 1), Some("a.js"), None, false);
    }
    for token in builder.into_sourcemap().tokens() {
        write!(output, "{}:{} ", token.get_dst_col(), token.get_src_col())?;
    }
    Ok(writeln!(output)?)
}

fn rewrite_single(map: Single) -> Result<DecodedMap> {
    let options = RewriteOptions::default();
    Ok(match map {
        Single::Regular(map) => DecodedMap::Regular(map.rewrite(&options)?),
        Single::Hermes(map) => DecodedMap::Hermes(map.rewrite(&options)?),
    })
}

fn shift(mut map: SourceMapIndex, rows: u32) -> Result<DecodedMap> {
    if map.adjust_sections_offset_rows(rows) {
        Ok(DecodedMap::Index(map))
    } else {
        Err(Error::IncompatibleSourceMap)
    }
}

/// The map, adjusted by the map in a file. Both must be regular maps.
fn compose(map: DecodedMap, file: &str) -> Result<DecodedMap> {
    let adjustment = decode_slice(&fs::read(file)?)?;
    let (mut map, adjustment) = (regular(map)?, regular(adjustment)?);
    map.adjust_mappings(&adjustment);
    Ok(DecodedMap::Regular(map))
}

fn view_of(file: &str) -> Result<SourceView> {
    Ok(SourceView::from_string(fs::read_to_string(file)?))
}

/// The questions in a file: a JSON list, with a list for each question.
fn questions_in(file: &str) -> Result<Vec<Value>> {
    Ok(serde_json::from_slice(&fs::read(file)?)?)
}

/// Runs the command and writes its answer. None if the words are not a command.
fn answer(form: Form, words: &[&str], output: &mut Output) -> Option<Result<()>> {
    let map = || read_map(form);
    Some(match *words {
        ["lookup", line, column] => {
            let (line, column) = (line.parse().ok()?, column.parse().ok()?);
            map().and_then(|map| Ok(write_answer(map.lookup_token(line, column), false, output)?))
        }
        ["tokens"] => map()
            .and_then(single)
            .and_then(|map| Ok(write_tokens(&map, output)?)),
        ["rewrite"] => map()
            .and_then(single)
            .and_then(rewrite_single)
            .and_then(|map| write_json(&map, form, output)),
        ["flatten"] => map()
            .and_then(index)
            .and_then(|map| write_json(&DecodedMap::Regular(map.flatten()?), form, output)),
        ["compose", file] => map()
            .and_then(|map| compose(map, file))
            .and_then(|map| write_json(&map, form, output)),
        ["shift", rows] => {
            let rows = rows.parse().ok()?;
            map()
                .and_then(index)
                .and_then(|map| shift(map, rows))
                .and_then(|map| write_json(&map, form, output))
        }
        _ if form != Form::Compared => return None,
        ["roundtrip"] => map().and_then(|map| write_json(&map, form, output)),
        ["stat"] => map().and_then(|map| Ok(write_stat(map, output)?)),
        ["batch", file] => {
            map().and_then(|map| write_answers(&map, &fs::read_to_string(file)?, false, output))
        }
        ["dst", file] => {
            map().and_then(|map| write_answers(&map, &fs::read_to_string(file)?, true, output))
        }
        ["positions", count, seed, ref wild @ ..] if wild.is_empty() || wild == ["wild"] => {
            let (count, seed) = (count.parse().ok()?, seed.parse().ok()?);
            let draws = Draws::with_seed(seed);
            map().and_then(flat).and_then(|map| {
                Ok(write_positions(
                    &map,
                    draws,
                    count,
                    !wild.is_empty(),
                    output,
                )?)
            })
        }
        ["names", questions, ref text @ ..] if text.len() < 2 => map().and_then(|map| {
            let view = text.first().map(|file| view_of(file)).transpose()?;
            Ok(views::write_names(&map, view.as_ref(), &questions_in(questions)?, output)?)
        }),
        ["slices", questions, text] => view_of(text).and_then(|view| {
            Ok(views::write_slices(&view, &questions_in(questions)?, output)?)
        }),
        ["references", questions] => questions_in(questions)
            .and_then(|questions| Ok(references::write_answers(&questions, output)?)),
        ["bundles", questions] => questions_in(questions)
            .and_then(|questions| Ok(bundles::write_answers(&questions, output)?)),
        ["regular"] => bytes()
            .map_err(Error::from)
            .and_then(|bytes| write_error(SourceMap::from_slice(&bytes), output)),
        ["sections"] => bytes()
            .map_err(Error::from)
            .and_then(|bytes| write_error(SourceMapIndex::from_slice(&bytes), output)),
        ["refused"] => map()
            .and_then(regular)
            .and_then(|map| write_error(map.to_writer(Refusing), output)),
        ["contents"] => map()
            .and_then(regular)
            .and_then(|map| write_error(with_contents(map), output)),
        ["built", pairs] => questions_in(pairs).and_then(|pairs| write_built(&pairs, output)),
        ["url", url] => write_error(decode_data_url(url), output),
        ["equal"] => map().and_then(regular).and_then(|map| {
            Ok(writeln!(output, "{}", map.get_token(0) == map.get_token(1))?)
        }),
        ["bench", operation, rounds] => {
            let (operation, rounds) = (Operation::from_word(operation)?, rounds.parse().ok()?);
            let sum = bytes()
                .map_err(Error::from)
                .and_then(|bytes| operation.repeat(&bytes, rounds));
            sum.and_then(|sum| Ok(writeln!(output, "{sum}")?))
        }
        _ => return None,
    })
}

fn main() -> io::Result<ExitCode> {
    let words: Vec<String> = std::env::args().skip(1).collect();
    let words: Vec<&str> = words.iter().map(String::as_str).collect();
    let (form, rest) = match words.as_slice() {
        ["slice", rest @ ..] => (Form::Slice, rest),
        ["stream", rest @ ..] => (Form::Stream, rest),
        rest => (Form::Compared, rest),
    };
    let mut output = output()?;
    let status = match answer(form, rest, &mut output) {
        Some(Ok(())) => 0,
        Some(Err(error)) => {
            writeln!(output, "{error}")?;
            1
        }
        None => {
            output.write_all(USAGE.as_bytes())?;
            2
        }
    };
    output.flush()?;
    Ok(ExitCode::from(status))
}
