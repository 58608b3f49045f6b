//! Answers questions about slices of texts and about names of functions: a line for each question.

use crate::Output;
use serde_json::{json, Value};
use sourcemap::{DecodedMap, SourceView};
use std::io::{self, Write};
use std::panic::{self, AssertUnwindSafe};

fn number(question: &Value, at: usize) -> u32 {
    u32::try_from(question[at].as_u64().unwrap_or(0)).unwrap_or(u32::MAX)
}

/// The JSON text of an answer, or `panic` if `answer` panics.
pub fn as_line(answer: impl FnOnce() -> Value) -> String {
    panic::catch_unwind(AssertUnwindSafe(answer))
        .map_or_else(|_| "panic".to_owned(), |answer| answer.to_string())
}

/// Writes the original name of a function for each question: a line, a column and a minified name.
pub fn write_names(
    map: &DecodedMap,
    view: Option<&SourceView>,
    questions: &[Value],
    output: &mut Output,
) -> io::Result<()> {
    panic::set_hook(Box::new(|_| ()));
    for question in questions {
        let (line, column, name) = (number(question, 0), number(question, 1), question[2].as_str());
        let answer = || json!(map.get_original_function_name(line, column, name, view));
        writeln!(output, "{}", as_line(answer))?;
    }
    Ok(())
}

/// The length of a line in bytes, and a checksum of these bytes. The line itself may be long.
fn line_sum(line: &str) -> Value {
    let sum = line.bytes().fold(0u32, |sum, byte| {
        sum.wrapping_mul(31).wrapping_add(u32::from(byte))
    });
    json!([line.len(), sum])
}

/// Writes the slice for each question: a line, a column and a length in UTF-16 units. If a question
/// has only a line, writes `line_sum` of that line instead. The last line is the count of lines.
pub fn write_slices(view: &SourceView, questions: &[Value], output: &mut Output) -> io::Result<()> {
    panic::set_hook(Box::new(|_| ()));
    for question in questions {
        let (line, column, span) = (number(question, 0), number(question, 1), number(question, 2));
        let is_line = question.as_array().is_some_and(|parts| parts.len() == 1);
        let answer = || match is_line {
            true => json!(view.get_line(line).map(line_sum)),
            false => json!(view.get_line_slice(line, column, span)),
        };
        writeln!(output, "{}", as_line(answer))?;
    }
    writeln!(output, "{}", view.line_count())
}
