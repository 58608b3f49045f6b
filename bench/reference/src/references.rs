//! Answers questions about references to maps, paths, texts of maps and contents from files: a line
//! for each question.

use crate::views::as_line;
use crate::Output;
use serde_json::{json, Value};
use sourcemap::{
    is_sourcemap, is_sourcemap_slice, locate_sourcemap_reference, locate_sourcemap_reference_slice,
    make_relative_path, DecodedMap, Error, Result, RewriteOptions, SourceMapBuilder, SourceMapRef,
    SourceView,
};
use std::env;
use std::io::{self, Write};
use std::os::unix::ffi::OsStrExt;
use std::panic;
use std::path::Path;

/// The bytes of a text that has a character for each byte. The code of the character is the byte.
pub fn bytes_of(text: &str) -> Vec<u8> {
    text.chars().map(|letter| letter as u8).collect()
}

/// A text with a character for each byte.
pub fn text_of(bytes: &[u8]) -> String {
    bytes.iter().map(|&byte| char::from(byte)).collect()
}

/// The kind of an I/O error, or the text of another error.
pub fn error_text(error: &Error) -> String {
    match error {
        Error::Io(cause) => format!("{:?}", cause.kind()),
        error => error.to_string(),
    }
}

fn reference_value(found: Result<Option<SourceMapRef>>) -> Value {
    match found {
        Ok(None) => Value::Null,
        Ok(Some(SourceMapRef::Ref(url))) => json!(["regular", url]),
        Ok(Some(SourceMapRef::LegacyRef(url))) => json!(["legacy", url]),
        Err(error) => json!(error_text(&error)),
    }
}

fn embedded_value(map: Result<Option<DecodedMap>>) -> Value {
    match map {
        Ok(None) => Value::Null,
        Ok(Some(DecodedMap::Regular(_))) => json!(["regular"]),
        Ok(Some(DecodedMap::Index(_))) => json!(["index"]),
        Ok(Some(DecodedMap::Hermes(_))) => json!(["hermes"]),
        Err(error) => json!(error_text(&error)),
    }
}

fn builder_of(question: &Value) -> SourceMapBuilder {
    let mut builder = SourceMapBuilder::new(None);
    let sources = question[3].as_array().map_or(&[][..], Vec::as_slice);
    for (column, source) in (0..).zip(sources) {
        let token = builder.add(0, column, 0, 0, source[0].as_str(), None, false);
        if let Some(contents) = source[1].as_str() {
            builder.set_source_contents(token.src_id, Some(contents));
        }
    }
    builder
}

/// Loads contents from files. The answer is the number of loaded contents, or the error, and then
/// the contents of each source.
fn load_value(question: &Value) -> Value {
    let mut builder = builder_of(question);
    let base = question[2].as_str().map(Path::new);
    let mut answers = vec![match builder.load_local_source_contents(base) {
        Ok(count) => json!(count),
        Err(error) => json!(error_text(&error)),
    }];
    let ids = (0..).take_while(|&id| builder.get_source(id).is_some());
    answers.extend(ids.map(|id| json!(builder.get_source_contents(id))));
    Value::Array(answers)
}

/// The sources of a rewritten map with their contents, or the error.
fn rewrite_value(question: &Value, options: &RewriteOptions<'_>) -> Value {
    match builder_of(question).into_sourcemap().rewrite(options) {
        Ok(map) => (0..map.get_source_count())
            .map(|id| json!([map.get_source(id), map.get_source_contents(id)]))
            .collect(),
        Err(error) => json!(error_text(&error)),
    }
}

/// The answer with `folder` as the current folder, or the error if `folder` cannot be entered.
fn within(folder: &str, answer: impl FnOnce() -> Value) -> Value {
    match env::set_current_dir(folder) {
        Ok(()) => answer(),
        Err(error) => json!(error_text(&error.into())),
    }
}

/// The answer to a question, which is a list of a word and its arguments. Null if the word is
/// unknown.
fn answer(question: &Value) -> Value {
    let text = |at: usize| question[at].as_str().unwrap_or_default();
    let reference = || SourceMapRef::Ref(text(1).to_owned());
    match text(0) {
        "locate" => {
            let bytes = bytes_of(text(1));
            json!([
                reference_value(locate_sourcemap_reference_slice(&bytes)),
                reference_value(locate_sourcemap_reference(bytes.as_slice())),
            ])
        }
        "view" => reference_value(SourceView::from_string(text(1).to_owned()).sourcemap_reference()),
        "resolve" => json!(reference().resolve(text(2))),
        "path" => json!(reference()
            .resolve_path(Path::new(text(2)))
            .map(|path| text_of(path.as_os_str().as_bytes()))),
        "embedded" => embedded_value(reference().get_embedded_sourcemap()),
        "relative" => json!(make_relative_path(text(1), text(2))),
        "map" => {
            let bytes = bytes_of(text(1));
            json!([is_sourcemap_slice(&bytes), is_sourcemap(bytes.as_slice())])
        }
        "load" => within(text(1), || load_value(question)),
        "rewrite" => within(text(1), || {
            let options = RewriteOptions {
                load_local_source_contents: true,
                base_path: question[2].as_str().map(Path::new),
                ..RewriteOptions::default()
            };
            rewrite_value(question, &options)
        }),
        "cut" => {
            let options = RewriteOptions {
                strip_prefixes: &["~"],
                ..RewriteOptions::default()
            };
            rewrite_value(question, &options)
        }
        _ => Value::Null,
    }
}

pub fn write_answers(questions: &[Value], output: &mut Output) -> io::Result<()> {
    panic::set_hook(Box::new(|_| ()));
    questions
        .iter()
        .try_for_each(|question| writeln!(output, "{}", as_line(|| answer(question))))
}
