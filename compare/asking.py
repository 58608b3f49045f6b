"""Asks the library questions for which neither sourcemap_tool nor sourcemap_bench has a command. This module writes a
small program over the library to a temporary folder. `rt try` builds the program, once for all questions, and proves
nothing about it. The program and the reference program have the same commands:

    names    for each question, a line, a column and a minified name: the original name of the function, as JSON. A
             generated text is optional
    slices   for each question, a line, a column and a length in UTF-16 units: the slice of a text, as JSON. If the
             question is a line alone, the length of the line in bytes and a checksum. After them, the count of lines
    regular  the error if a map is read as a regular map, or `none`
    url      the error if a data URL is decoded, or `none`
    equal    whether the first two tokens of a map are equal
    sections the error if a map is read as an index map, or `none`
    refused  the error if a map is written to a writer that fails on each write, or `none`
    contents the error if a map is rewritten and contents are to be loaded from files, or `none`
    built    the generated and the original columns of the tokens of a map that is built from such pairs of columns
    references
             for each question, the answer that asking_references.py describes
    bundles  for each question, the answer that asking_bundles.py describes
"""
import collections, json, pathlib, re, shutil, subprocess, sys, tempfile
import asking_bundles, asking_references
from comparing import CRATES, answer

PROGRAM = '''//! Answers questions about texts and maps, each in a line.
#![tactic(auto)]

use serde_json::Value;
''' + asking_references.USES + asking_bundles.USES + '''use sourcemap::{
    DecodedMap, Error, Result, RewriteOptions, SourceMap, SourceMapBuilder, SourceMapIndex, SourceView, decode_data_url, decode_slice,
};
use std::alloc::Global;
use std::io::{self, ErrorKind, Read, Write};
use std::rt::Files;

fn number(question: &Value, at: usize) -> u32 {
    match question.get(at).and_then(Value::as_u64) {
        Some(found) if found <= 4294967295 => found as u32,
        _ => 0,
    }
}

fn print<W: io::Write>(alloc: Global, text: Option<&str>, output: &mut W) -> Result<()> {
    put_text(alloc, text, output)?;
    Ok(output.write_all("\\n".as_bytes())?)
}

fn print_sum<W: io::Write>(line: Option<&str>, output: &mut W) -> Result<()> {
    match line {
        None => Ok(output.write_all("null\\n".as_bytes())?),
        Some(line) => {
            let mut sum: u32 = 0;
            for byte in line.as_bytes() {
                sum = sum.wrapping_mul(31).wrapping_add(u32::from(*byte));
            }
            Ok(writeln!(output, "[{},{sum}]", line.len())?)
        }
    }
}

fn write_names<W: io::Write>(alloc: Global, map: &DecodedMap, view: Option<&SourceView>, questions: &[Value], output: &mut W) -> Result<()> {
    for question in questions {
        let name = question.get(2).and_then(Value::as_str);
        print(alloc, map.get_original_function_name(number(question, 0), number(question, 1), name, view), output)?;
    }
    Ok(())
}

fn write_slices<W: io::Write>(alloc: Global, view: &SourceView, questions: &[Value], output: &mut W) -> Result<()> {
    for question in questions {
        let (line, column) = (number(question, 0), number(question, 1));
        match question.get(1) {
            None => print_sum(view.get_line(line), output)?,
            Some(_) => print(alloc, view.get_line_slice(line, column, number(question, 2)), output)?,
        }
    }
    Ok(writeln!(output, "{}", view.line_count())?)
}

fn write_error<T: Drop, W: io::Write>(answer: Result<T>, output: &mut W) -> Result<()> {
    match answer {
        Ok(_) => Ok(writeln!(output, "none")?),
        Err(error) => Ok(writeln!(output, "{error}")?),
    }
}

fn write_equality<W: io::Write>(map: &SourceMap, output: &mut W) -> Result<()> {
    if let (Some(first), Some(second)) = (map.get_token(0), map.get_token(1)) {
        writeln!(output, "{}", first == second)?;
    }
    Ok(())
}

#[derive(Drop)]
struct Refusing;

impl Write for Refusing {
    fn write(&mut self, _bytes: &[u8]) -> io::Result<usize> {
        Err(io::Error::from(ErrorKind::BrokenPipe))
    }

    fn flush(&mut self) -> io::Result<()> {
        Ok(())
    }
}

fn write_load_error<F: Files, W: io::Write>(rt: &F, map: SourceMap, output: &mut W) -> Result<()> {
    let mut options = RewriteOptions::default();
    options.load_local_source_contents = true;
    write_error(map.rewrite(rt, &options), output)
}

fn write_built_tokens<W: io::Write>(alloc: Global, case: &Value, output: &mut W) -> Result<()> {
    let mut builder = SourceMapBuilder::new(alloc, None)?;
    if let Some(pairs) = case.get("questions").and_then(Value::as_array) {
        for pair in pairs.as_slice() {
            builder.add(0, number(pair, 0), 0, number(pair, 1), Some("a.js"), None, false)?;
        }
    }
    let map = builder.into_sourcemap()?;
    for token in map.tokens() {
        write!(output, "{}:{} ", token.get_dst_col(), token.get_src_col())?;
    }
    Ok(output.write_all("\\n".as_bytes())?)
}
''' + asking_references.FUNCTIONS + asking_bundles.FUNCTIONS + '''
fn part<'a>(case: &'a Value, key: &str) -> Option<&'a str> {
    case.get(key).and_then(Value::as_str)
}

fn write_answers<W: io::Write>(alloc: Global, case: &Value, map: Option<&str>, text: Option<&str>, output: &mut W) -> Result<()> {
    let view = match text {
        Some(text) => Some(SourceView::new(alloc, text)?),
        None => None,
    };
    let Some(questions) = case.get("questions").and_then(Value::as_array) else {
        return Ok(());
    };
    match (map, &view) {
        (Some(map), view) => {
            let map = decode_slice(alloc, map.as_bytes())?;
            write_names(alloc, &map, view.as_ref(), questions.as_slice(), output)
        }
        (None, Some(view)) => write_slices(alloc, view, questions.as_slice(), output),
        (None, None) => Ok(()),
    }
}

fn write_answer<F: Files, W: io::Write>(rt: &F, alloc: Global, case: &Value, output: &mut W) -> Result<()> {
    let (map, text) = (part(case, "map"), part(case, "text"));
    let bytes = map.unwrap_or("").as_bytes();
    match part(case, "word").unwrap_or("") {
        "regular" => write_error(SourceMap::from_slice(alloc, bytes), output),
        "url" => write_error(decode_data_url(alloc, text.unwrap_or("")), output),
        "equal" => write_equality(&SourceMap::from_slice(alloc, bytes)?, output),
        "sections" => write_error(SourceMapIndex::from_slice(alloc, bytes), output),
        "refused" => write_error(SourceMap::from_slice(alloc, bytes)?.to_writer(Refusing), output),
        "contents" => write_load_error(rt, SourceMap::from_slice(alloc, bytes)?, output),
        "built" => write_built_tokens(alloc, case, output),
        "references" => put_answers(rt, alloc, case, output),
        "bundles" => put_bundle_answers(rt, alloc, case, output),
        _ => write_answers(alloc, case, map, text, output),
    }
}

fn main(rt: HostRuntime) -> Result<()> {
    let alloc = rt.alloc();
    let mut input = Vec::new(alloc);
    rt.reader().read_to_end(&mut input)?;
    let cases = Value::from_slice(alloc, input.as_slice())?;
    if let Some(cases) = cases.as_array() {
        for case in cases.as_slice() {
            write_answer(&rt, alloc, case, &mut io::writer(&rt))?;
        }
    }
    Ok(())
}
'''

# `word` is one of the commands above. `record` is a map and `text` a text, each of which may be None. `lines` is the
# number of lines that answer the questions. `name` is for messages.
Case = collections.namedtuple('Case', 'name word record text questions lines')
# the libraries that the program calls
LIBRARIES = 'sourcemap sourcemap_index serde_json'
# MOST is the largest input, in bytes, that `rt try` gives a program. A run of several cases has at most MOST_AT_ONCE
# bytes of input and MOST_LINES lines of output. So it is short, and prints less than the 1 MB that it may print.
MOST, MOST_AT_ONCE, MOST_LINES = 64 << 20, 4 << 20, 1000
# the line before the output of each run, with the file name of its input
RUN = re.compile('^== [0-9]{6}\n', re.M)


def data_of(case):
    return json.dumps({'word': case.word, 'map': case.record and json.dumps(case.record), 'text': case.text,
                       'questions': case.questions}).encode()


def is_too_long(case):
    """Whether a case is too long for the program's input."""
    return len(data_of(case)) + 2 > MOST


def inputs_of(cases):
    """Yields the input of each run: some of the cases as JSON, and how many lines answer each of these cases."""
    part, counts, size = [], [], 0
    for case in cases:
        data = data_of(case)
        if part and (size + len(data) + 2 > MOST_AT_ONCE or sum(counts) + case.lines > MOST_LINES):
            yield b'[' + b','.join(part) + b']', counts
            part, counts, size = [], [], 0
        part.append(data)
        counts.append(case.lines)
        size += len(data) + 1
    yield b'[' + b','.join(part) + b']', counts


def program_output(inputs, folder):
    """What the program prints for each input. Builds the program in `folder`, once for all inputs. Exits if `rt try`
    fails."""
    for path in CRATES.iterdir():
        shutil.copytree(path, pathlib.Path(folder, 'crates', path.name), ignore=shutil.ignore_patterns('out', 'must-fail'))
    source, given = pathlib.Path(folder, 'crates/asking/src'), pathlib.Path(folder, 'inputs')
    source.mkdir(parents=True)
    given.mkdir()
    (source / 'main.rt').write_text(PROGRAM)
    below = (CRATES.parent / 'crates.txt').read_text()
    pathlib.Path(folder, 'crates.txt').write_text(f'{below}\nasking: {LIBRARIES}\n')
    for number, data in enumerate(inputs):
        (given / f'{number:06}').write_bytes(data)
    # `rt try` also runs the program in an interpreter, which would take hours: `--steps 1` ends that at the first step
    ended = subprocess.run(['rt', 'try', '--seconds', '3000', '--steps', '1', '--cases', str(given)], cwd=source.parent,
                           stdin=subprocess.DEVNULL, stdout=subprocess.PIPE)
    if ended.returncode:
        sys.exit(ended.stdout[-3000:].decode(errors='replace'))
    return RUN.split(ended.stdout.decode())[1:]


def answers_here(cases):
    """The lines that the library answers to each case. Builds the program that asks it."""
    inputs = list(inputs_of(cases))
    with tempfile.TemporaryDirectory() as folder:
        printed = program_output([data for data, _ in inputs], folder)
    answers = []
    for (_, counts), text in zip(inputs, printed):
        # `splitlines` would also split at characters that JSON does not escape, such as U+2028
        lines = iter(text.split('\n'))
        answers += [[next(lines) for _ in range(count)] for count in counts]
    return answers


def answers_there(reference, case):
    """The lines that the reference program answers to a case."""
    with tempfile.TemporaryDirectory() as work:
        questions, text = pathlib.Path(work, 'questions'), pathlib.Path(work, 'text')
        questions.write_text(json.dumps(case.questions))
        text.write_bytes((case.text or '').encode())
        alone = dict.fromkeys(('regular', 'equal', 'sections', 'refused', 'contents'), [])
        more = {**alone, 'url': [case.text]}.get(case.word, [str(questions)])
        if case.word in ('names', 'slices') and case.text is not None:
            more.append(str(text))
        status, output = answer([reference, case.word, *more], json.dumps(case.record).encode())
        return output.decode().split('\n')[:-1]
