"""Questions to the library and to the reference program, about RAM bundles. A question is a list: a word and its
arguments. Each answer is a line of JSON, or `panic` if the reference program panics. The questions and their answers:

    modules BYTES NUMBERS   whether bytes begin with the header of an indexed bundle; and the type of the bundle, its
                            `module_count`, its startup code, the modules with these numbers and the first twelve
                            modules, or the error
    folder PATH NUMBERS     whether PATH is the startup code of a file bundle; and the same parts of this bundle, or the
                            error
    split BYTES INDEX       the first twenty items of `split_ram_bundle` of an indexed bundle, or the error
    split-folder PATH INDEX the same for a file bundle

In BYTES, and in answered modules and startup code, each character stands for a byte. INDEX is the text of an index map.
An item has the name and the text of a module, and these parts of its map: the file, the sources with their contents,
the names, and the tokens. A token has its generated and its original line and column, its source, its name, and whether
it is a range token.
"""
# the imports and the functions that these questions add to the program of asking.py
USES = '''use sourcemap::RawToken;
use sourcemap::ram_bundle::{RamBundle, RamBundleModule, is_ram_bundle_slice, is_unbundle_path, split_ram_bundle};
'''
FUNCTIONS = '''
fn put_bytes<W: io::Write>(alloc: Global, bytes: &[u8], output: &mut W) -> Result<()> {
    let mut text = String::new(alloc);
    for byte in bytes {
        text.push(char::from(*byte))?;
    }
    put_text(alloc, Some(text.as_str()), output)
}

fn put_module<W: io::Write>(alloc: Global, found: Result<Option<RamBundleModule<'_>>>, output: &mut W) -> Result<()> {
    match found {
        Ok(None) => put_text(alloc, None, output),
        Ok(Some(found)) => {
            write!(output, "[{},", found.id())?;
            put_bytes(alloc, found.data(), output)?;
            Ok(write!(output, "]")?)
        }
        Err(error) => put_error(&error, output),
    }
}

fn put_bundle<W: io::Write>(alloc: Global, parsed: Result<RamBundle<'_>>, numbers: &[Value], output: &mut W) -> Result<()> {
    let bundle = match parsed {
        Ok(bundle) => bundle,
        Err(error) => return put_error(&error, output),
    };
    write!(output, "[\\"{:?}\\",{},", bundle.bundle_type(), bundle.module_count())?;
    match bundle.startup_code() {
        Ok(code) => {
            write!(output, "[")?;
            put_bytes(alloc, code, output)?;
            write!(output, "]")?;
        }
        Err(error) => put_error(&error, output)?,
    }
    let mut mark = ",[";
    for number in numbers {
        write!(output, "{mark}")?;
        put_module(alloc, bundle.get_module(number.as_u64().unwrap_or(0) as usize), output)?;
        mark = ",";
    }
    mark = "],[";
    for item in bundle.iter_modules().take(12) {
        write!(output, "{mark}")?;
        put_module(alloc, item.map(Some), output)?;
        mark = ",";
    }
    if mark == "],[" {
        write!(output, "{mark}")?;
    }
    Ok(write!(output, "]]")?)
}

fn put_token<W: io::Write>(alloc: Global, map: &SourceMap, raw: RawToken, output: &mut W) -> Result<()> {
    write!(output, "[{},{},{},{},", raw.dst_line, raw.dst_col, raw.src_line, raw.src_col)?;
    put_text(alloc, map.get_source(raw.src_id), output)?;
    write!(output, ",")?;
    put_text(alloc, map.get_name(raw.name_id), output)?;
    Ok(write!(output, ",{}]", raw.is_range)?)
}

fn put_map<W: io::Write>(alloc: Global, map: &SourceMap, output: &mut W) -> Result<()> {
    put_text(alloc, map.get_file(), output)?;
    write!(output, ",[")?;
    for id in 0..map.get_source_count() {
        write!(output, "{}[", if id == 0 { "" } else { "," })?;
        put_text(alloc, map.get_source(id), output)?;
        write!(output, ",")?;
        put_text(alloc, map.get_source_contents(id), output)?;
        write!(output, "]")?;
    }
    write!(output, "],[")?;
    for id in 0..map.get_name_count() {
        write!(output, "{}", if id == 0 { "" } else { "," })?;
        put_text(alloc, map.get_name(id), output)?;
    }
    let mut mark = "],[";
    for token in map.tokens() {
        write!(output, "{mark}")?;
        put_token(alloc, map, token.get_raw_token(), output)?;
        mark = ",";
    }
    Ok(write!(output, "{}", if mark == "," { "]" } else { "],[]" })?)
}

fn put_item<W: io::Write>(alloc: Global, item: Result<(String, SourceView, SourceMap)>, output: &mut W) -> Result<()> {
    match item {
        Ok((name, view, map)) => {
            write!(output, "[")?;
            put_text(alloc, Some(name.as_str()), output)?;
            write!(output, ",")?;
            put_text(alloc, Some(view.source()), output)?;
            write!(output, ",")?;
            put_map(alloc, &map, output)?;
            Ok(write!(output, "]")?)
        }
        Err(error) => put_error(&error, output),
    }
}

fn put_split<W: io::Write>(alloc: Global, parsed: Result<RamBundle<'_>>, text: &str, output: &mut W) -> Result<()> {
    let bundle = match parsed {
        Ok(bundle) => bundle,
        Err(error) => return put_error(&error, output),
    };
    let index = SourceMapIndex::from_slice(alloc, text.as_bytes())?;
    let items = match split_ram_bundle(alloc, &bundle, &index) {
        Ok(items) => items,
        Err(error) => return put_error(&error, output),
    };
    write!(output, "[")?;
    let mut mark = "";
    for item in items.take(20) {
        write!(output, "{mark}")?;
        put_item(alloc, item, output)?;
        mark = ",";
    }
    Ok(write!(output, "]")?)
}

fn put_bundle_answer<F: Files, W: io::Write>(rt: &F, alloc: Global, question: &Value, output: &mut W) -> Result<()> {
    let (first, second) = (text_at(question, 1), text_at(question, 2));
    let numbers = match question.get(2).and_then(Value::as_array) {
        Some(numbers) => numbers.as_slice(),
        None => &[],
    };
    match text_at(question, 0) {
        "modules" => {
            let bytes = bytes_of(alloc, first)?;
            write!(output, "[{},", is_ram_bundle_slice(bytes.as_slice()))?;
            put_bundle(alloc, RamBundle::parse_indexed_from_slice(bytes.as_slice()), numbers, output)?;
            Ok(write!(output, "]")?)
        }
        "folder" => {
            write!(output, "[{},", is_unbundle_path(rt, alloc, first)?)?;
            put_bundle(alloc, RamBundle::parse_unbundle_from_path(rt, alloc, first), numbers, output)?;
            Ok(write!(output, "]")?)
        }
        "split" => put_split(alloc, RamBundle::parse_indexed_from_vec(bytes_of(alloc, first)?), second, output),
        "split-folder" => put_split(alloc, RamBundle::parse_unbundle_from_path(rt, alloc, first), second, output),
        _ => Ok(()),
    }
}

fn put_bundle_answers<F: Files, W: io::Write>(rt: &F, alloc: Global, case: &Value, output: &mut W) -> Result<()> {
    if let Some(questions) = case.get("questions").and_then(Value::as_array) {
        for question in questions.as_slice() {
            put_bundle_answer(rt, alloc, question, output)?;
            output.write_all("\\n".as_bytes())?;
        }
    }
    Ok(())
}
'''
