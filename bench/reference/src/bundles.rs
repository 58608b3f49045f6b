//! Answers questions about RAM bundles: a line for each question.

use crate::references::{bytes_of, error_text, text_of};
use crate::views::as_line;
use crate::Output;
use serde_json::{json, Value};
use sourcemap::ram_bundle::{
    is_ram_bundle_slice, is_unbundle_path, split_ram_bundle, RamBundle, RamBundleModule,
};
use sourcemap::{Error, Result, SourceMap, SourceMapIndex, SourceView, Token};
use std::io::{self, Write};
use std::panic;
use std::path::Path;

/// How many modules of `iter_modules`, and how many items of a split, an answer has at most.
const MOST_MODULES: usize = 12;
const MOST_ITEMS: usize = 20;

/// `Scroll` for an error of the library `scroll`, and `error_text` for any other error.
fn error_value(error: &Error) -> Value {
    match error {
        Error::Scroll(_) => json!("Scroll"),
        error => json!(error_text(error)),
    }
}

fn module(found: Result<Option<RamBundleModule<'_>>>) -> Value {
    match found {
        Ok(found) => json!(found.map(|found| json!([found.id(), text_of(found.data())]))),
        Err(error) => error_value(&error),
    }
}

fn bundle_parts(parsed: Result<RamBundle<'_>>, numbers: &Value) -> Value {
    let bundle = match parsed {
        Ok(bundle) => bundle,
        Err(error) => return error_value(&error),
    };
    let numbers = numbers.as_array().map_or(&[][..], Vec::as_slice);
    let answers = numbers.iter().map(|number| {
        module(bundle.get_module(number.as_u64().unwrap_or_default() as usize))
    });
    let items = bundle.iter_modules().take(MOST_MODULES).map(|item| module(item.map(Some)));
    json!([
        format!("{:?}", bundle.bundle_type()),
        bundle.module_count(),
        match bundle.startup_code() {
            Ok(code) => json!([text_of(code)]),
            Err(error) => error_value(&error),
        },
        answers.collect::<Value>(),
        items.collect::<Value>(),
    ])
}

fn token_parts(token: Token<'_>) -> Value {
    let raw = token.get_raw_token();
    json!([
        raw.dst_line,
        raw.dst_col,
        raw.src_line,
        raw.src_col,
        token.get_source(),
        token.get_name(),
        raw.is_range,
    ])
}

fn item(found: Result<(String, SourceView, SourceMap)>) -> Value {
    match found {
        Ok((name, view, map)) => json!([
            name,
            view.source(),
            map.get_file(),
            map.sources().zip(map.source_contents()).collect::<Vec<_>>(),
            map.names().collect::<Vec<_>>(),
            map.tokens().map(token_parts).collect::<Vec<_>>(),
        ]),
        Err(error) => error_value(&error),
    }
}

fn items(parsed: Result<RamBundle<'_>>, index: &str) -> Value {
    let split = |bundle: &RamBundle<'_>| -> Result<Value> {
        let index = SourceMapIndex::from_slice(index.as_bytes())?;
        Ok(split_ram_bundle(bundle, &index)?.take(MOST_ITEMS).map(item).collect())
    };
    match parsed.and_then(|bundle| split(&bundle)) {
        Ok(items) => items,
        Err(error) => error_value(&error),
    }
}

/// The answer to a question, which is a list of a word and its arguments. Null if the word is
/// unknown.
fn answer(question: &Value) -> Value {
    let text = |at: usize| question[at].as_str().unwrap_or_default();
    let bytes = || bytes_of(text(1));
    let path = Path::new(text(1));
    match text(0) {
        "modules" => json!([
            is_ram_bundle_slice(&bytes()),
            bundle_parts(RamBundle::parse_indexed_from_slice(&bytes()), &question[2]),
        ]),
        "folder" => json!([
            is_unbundle_path(path),
            bundle_parts(RamBundle::parse_unbundle_from_path(path), &question[2]),
        ]),
        "split" => items(RamBundle::parse_indexed_from_vec(bytes()), text(2)),
        "split-folder" => items(RamBundle::parse_unbundle_from_path(path), text(2)),
        _ => Value::Null,
    }
}

pub fn write_answers(questions: &[Value], output: &mut Output) -> io::Result<()> {
    panic::set_hook(Box::new(|_| ()));
    questions
        .iter()
        .try_for_each(|question| writeln!(output, "{}", as_line(|| answer(question))))
}
