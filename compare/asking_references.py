"""Questions to the library and to the reference program, about references to maps, paths, texts of maps and contents
from files. A question is a list: a word and its arguments. Each answer is a line of JSON, or `panic` if the reference
program panics. The questions and their answers:

    locate BYTES            the kind and the URL of the reference in a text, null if there is no reference, or the
                            error: once by a slice, and once by a reader
    view TEXT               the same once, by a view of the text
    resolve URL BASE        the URL that a reference resolves to against the URL BASE, or null
    path URL PATH           the path that a reference resolves to against PATH, or null
    embedded URL            the kind of the map in a data URL, null for another URL, or the error
    relative BASE TARGET    the path from the folder of the file BASE to TARGET
    map BYTES               whether bytes are a map, by a slice and by a reader
    load CURRENT BASE SOURCES
                            for how many sources a builder loads contents, or the error; and then the contents of all
                            sources
    rewrite CURRENT BASE SOURCES
                            the sources and the contents of a map after `rewrite` with contents loaded from files, or
                            the error
    cut null null SOURCES   the same after `rewrite` with the common prefix of the absolute sources stripped

In BYTES, and in the answer of `path`, each character stands for a byte. CURRENT is the current folder: the library gets
it as an argument, and the reference program changes to it. After CURRENT, BASE is null or a path. If BASE is not
absolute, it is joined to CURRENT. SOURCES is a list of pairs: a source, and its contents or null.
"""
# the imports and the functions that these questions add to the program of asking.py
USES = '''use sourcemap::detector::{
    EmbeddedSourceMap, SourceMapRef, is_sourcemap, is_sourcemap_slice, locate_sourcemap_reference, locate_sourcemap_reference_slice,
};
use sourcemap::utils::make_relative_path;
'''
FUNCTIONS = '''
fn bytes_of(alloc: Global, text: &str) -> Result<Vec<u8>> {
    let mut bytes = Vec::new(alloc);
    for letter in text.chars() {
        bytes.push(letter as u32 as u8)?;
    }
    Ok(bytes)
}

fn put_text<W: io::Write>(alloc: Global, text: Option<&str>, output: &mut W) -> Result<()> {
    match text {
        None => Ok(output.write_all("null".as_bytes())?),
        Some(text) => {
            let text = Value::String(String::from_str(alloc, text)?).to_string(alloc)?;
            Ok(output.write_all(text.as_str().as_bytes())?)
        }
    }
}

fn put_path<W: io::Write>(alloc: Global, path: Option<&str>, output: &mut W) -> Result<()> {
    let Some(path) = path else {
        return put_text(alloc, None, output);
    };
    let mut text = String::new(alloc);
    for byte in path.as_bytes() {
        text.push(char::from(*byte))?;
    }
    put_text(alloc, Some(text.as_str()), output)
}

fn put_error<W: io::Write>(error: &Error, output: &mut W) -> Result<()> {
    match error {
        Error::Io(cause) => Ok(write!(output, "\\"{:?}\\"", cause.kind())?),
        _ => Ok(write!(output, "\\"{error}\\"")?),
    }
}

fn put_reference<W: io::Write>(alloc: Global, found: Result<Option<SourceMapRef>>, output: &mut W) -> Result<()> {
    match found {
        Ok(None) => put_text(alloc, None, output),
        Ok(Some(reference)) => {
            match &reference {
                SourceMapRef::Ref(_) => write!(output, "[\\"regular\\",")?,
                SourceMapRef::LegacyRef(_) => write!(output, "[\\"legacy\\",")?,
            }
            put_text(alloc, Some(reference.get_url()), output)?;
            Ok(write!(output, "]")?)
        }
        Err(error) => put_error(&error, output),
    }
}

fn put_both<W: io::Write>(alloc: Global, bytes: &[u8], output: &mut W) -> Result<()> {
    write!(output, "[")?;
    put_reference(alloc, locate_sourcemap_reference_slice(alloc, bytes), output)?;
    write!(output, ",")?;
    put_reference(alloc, locate_sourcemap_reference(alloc, bytes), output)?;
    Ok(write!(output, "]")?)
}

fn put_kind<W: io::Write>(map: Result<Option<DecodedMap>>, output: &mut W) -> Result<()> {
    match map {
        Ok(None) => Ok(write!(output, "null")?),
        Ok(Some(DecodedMap::Regular(_))) => Ok(write!(output, "[\\"regular\\"]")?),
        Ok(Some(DecodedMap::Index(_))) => Ok(write!(output, "[\\"index\\"]")?),
        Ok(Some(DecodedMap::Hermes(_))) => Ok(write!(output, "[\\"hermes\\"]")?),
        Err(error) => put_error(&error, output),
    }
}

fn builder_of(alloc: Global, sources: &[Value]) -> Result<SourceMapBuilder> {
    let mut builder = SourceMapBuilder::new(alloc, None)?;
    let mut column = 0;
    for source in sources {
        let token = builder.add(0, column, 0, 0, source.get(0).and_then(Value::as_str), None, false)?;
        if let Some(contents) = source.get(1).and_then(Value::as_str) {
            builder.set_source_contents(token.src_id, Some(contents))?;
        }
        column = column.saturating_add(1);
    }
    Ok(builder)
}

fn put_sources<W: io::Write>(alloc: Global, map: Result<SourceMap>, output: &mut W) -> Result<()> {
    let map = match map {
        Ok(map) => map,
        Err(error) => return put_error(&error, output),
    };
    let mut mark = "[";
    for id in 0..map.get_source_count() {
        write!(output, "{mark}[")?;
        put_text(alloc, map.get_source(id), output)?;
        write!(output, ",")?;
        put_text(alloc, map.get_source_contents(id), output)?;
        write!(output, "]")?;
        mark = ",";
    }
    Ok(write!(output, "]")?)
}

fn put_loaded<F: Files, W: io::Write>(rt: &F, alloc: Global, question: &Value, output: &mut W) -> Result<()> {
    let mut builder = builder_of(alloc, sources_of(question))?;
    write!(output, "[")?;
    match builder.load_local_source_contents(rt, text_at(question, 1), question.get(2).and_then(Value::as_str)) {
        Ok(count) => write!(output, "{count}")?,
        Err(error) => put_error(&error, output)?,
    }
    let mut id = 0;
    while builder.get_source(id).is_some() {
        write!(output, ",")?;
        put_text(alloc, builder.get_source_contents(id), output)?;
        id = id.saturating_add(1);
    }
    Ok(write!(output, "]")?)
}

fn rewrite_map<F: Files>(rt: &F, alloc: Global, question: &Value) -> Result<SourceMap> {
    let mut options = RewriteOptions::default();
    match text_at(question, 0) {
        "cut" => options.strip_prefixes = &["~"],
        _ => {
            options.load_local_source_contents = true;
            options.current_dir = Some(text_at(question, 1));
            options.base_path = question.get(2).and_then(Value::as_str);
        }
    }
    builder_of(alloc, sources_of(question))?.into_sourcemap()?.rewrite(rt, &options)
}

fn sources_of(question: &Value) -> &[Value] {
    match question.get(3).and_then(Value::as_array) {
        Some(sources) => sources.as_slice(),
        None => &[],
    }
}

fn text_at<'a>(question: &'a Value, at: usize) -> &'a str {
    question.get(at).and_then(Value::as_str).unwrap_or("")
}

fn put_answer<F: Files, W: io::Write>(rt: &F, alloc: Global, question: &Value, output: &mut W) -> Result<()> {
    let (first, second) = (text_at(question, 1), text_at(question, 2));
    match text_at(question, 0) {
        "locate" => put_both(alloc, bytes_of(alloc, first)?.as_slice(), output),
        "view" => put_reference(alloc, SourceView::new(alloc, first)?.sourcemap_reference(), output),
        "resolve" => {
            let reference = SourceMapRef::Ref(String::from_str(alloc, first)?);
            put_text(alloc, reference.resolve(second)?.as_deref(), output)
        }
        "path" => {
            let reference = SourceMapRef::Ref(String::from_str(alloc, first)?);
            put_path(alloc, reference.resolve_path(second)?.as_deref(), output)
        }
        "embedded" => put_kind(SourceMapRef::Ref(String::from_str(alloc, first)?).get_embedded_sourcemap(), output),
        "relative" => put_text(alloc, Some(make_relative_path(alloc, first, second)?.as_str()), output),
        "map" => {
            let bytes = bytes_of(alloc, first)?;
            let (slice, reader) = (is_sourcemap_slice(alloc, bytes.as_slice())?, is_sourcemap(alloc, bytes.as_slice())?);
            Ok(write!(output, "[{slice},{reader}]")?)
        }
        "load" => put_loaded(rt, alloc, question, output),
        "rewrite" | "cut" => put_sources(alloc, rewrite_map(rt, alloc, question), output),
        _ => Ok(()),
    }
}

fn put_answers<F: Files, W: io::Write>(rt: &F, alloc: Global, case: &Value, output: &mut W) -> Result<()> {
    if let Some(questions) = case.get("questions").and_then(Value::as_array) {
        for question in questions.as_slice() {
            put_answer(rt, alloc, question, output)?;
            output.write_all("\\n".as_bytes())?;
        }
    }
    Ok(())
}
'''
