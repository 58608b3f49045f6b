//! The declarations beside the header: functions, constants, layouts.

use std::collections::BTreeMap;
use std::env;
use std::fs;
use std::mem::{offset_of, size_of};
use std::path::Path;
use std::process::{self, Command};

use super::*;

const HEADER: &str = include_str!("../../../c/include/sourcemap.h");
const DECLARATIONS: &str = include_str!("mod.rs");

/// The signatures by their names, as Rust writes them.
type Signatures = BTreeMap<String, String>;

fn without_comments(text: &str) -> String {
    let mut code = String::new();
    let mut rest = text;
    while let Some((before, comment)) = rest.split_once("/*") {
        code.push_str(before);
        rest = comment.split_once("*/").expect("a comment ends").1;
    }
    code + rest
}

/// The Rust type of a C type: a base name, perhaps a pointer, perhaps const.
fn rust_type(c_type: &str) -> String {
    let is_const = c_type.starts_with("const ");
    let name = c_type
        .trim_start_matches("const ")
        .trim_end_matches('*')
        .trim();
    let base = match name {
        "sm_handle" | "sm_map" | "sm_builder" | "sm_view" | "sm_bundle" | "sm_split"
        | "sm_bytes" | "sm_sections" | "sm_report" => "Handle",
        "sm_error" => "Error",
        "sm_text" => "Text",
        "sm_token" => "RawToken",
        "sm_found" => "Found",
        "sm_counts" => "Counts",
        "sm_position" => "Position",
        "sm_debug_id" => "DebugId",
        "sm_section_start" => "SectionStart",
        "sm_finding" => "Finding",
        "sm_report_counts" => "ReportCounts",
        "sm_code" => "Code",
        "uint8_t" => "u8",
        "uint32_t" => "u32",
        "int64_t" => "i64",
        "size_t" => "usize",
        "bool" => "bool",
        other => panic!("no type for {other}"),
    };
    match (c_type.ends_with('*'), is_const) {
        (false, _) => base.to_owned(),
        (true, true) => format!("*const {base}"),
        (true, false) => format!("*mut {base}"),
    }
}

/// Where the name of a C declaration begins.
fn name_start(declaration: &str) -> usize {
    let is_in_name = |c: char| c.is_alphanumeric() || c == '_';
    declaration
        .rfind(|c| !is_in_name(c))
        .map_or(0, |before| before + 1)
}

fn header_parameter(declaration: &str) -> String {
    let (c_type, name) = declaration.split_at(name_start(declaration));
    format!("{name}: {}", rust_type(c_type.trim()))
}

fn header_signatures() -> Signatures {
    let code = without_comments(HEADER);
    let code: Vec<&str> = code.lines().filter(|line| !line.starts_with('#')).collect();
    let joined = code.join(" ");
    joined.split(';').filter_map(header_signature).collect()
}

fn header_signature(statement: &str) -> Option<(String, String)> {
    let (head, parameters) = statement.trim().strip_suffix(')')?.split_once('(')?;
    // The first one follows the bracket of `extern "C"`.
    let head = head.rsplit('{').next()?.trim();
    let (result, name) = head.split_at(name_start(head));
    let parameters: Vec<String> = parameters
        .split(',')
        .map(str::trim)
        .filter(|parameter| *parameter != "void")
        .map(header_parameter)
        .collect();
    let result = match result.trim() {
        "void" => String::new(),
        result => format!(" -> {}", rust_type(result)),
    };
    Some((
        name.to_owned(),
        format!("({}){result}", parameters.join(", ")),
    ))
}

fn declared_signatures() -> Signatures {
    DECLARATIONS
        .lines()
        .filter_map(|line| line.trim().strip_prefix("pub fn sm_")?.strip_suffix(';'))
        .map(|line| {
            let (name, signature) = line.split_at(line.find('(').expect("parameters"));
            (format!("sm_{name}"), signature.to_owned())
        })
        .collect()
}

#[test]
fn functions_are_those_of_the_header() {
    let header = header_signatures();
    assert!(header.len() > 50, "the header was read");
    assert_eq!(declared_signatures(), header);
}

#[test]
fn constants_are_those_of_the_header() {
    let header: BTreeMap<&str, u64> = HEADER
        .lines()
        .filter_map(|line| line.strip_prefix("#define SM_")?.split_once(' '))
        .filter_map(|(name, rest)| Some((name, number(rest.split_whitespace().next()?)?)))
        .collect();
    let declared: BTreeMap<&str, u64> = DECLARATIONS
        .lines()
        .filter_map(|line| line.strip_prefix("pub const SM_")?.strip_suffix(';'))
        .filter_map(|line| {
            let (name, value) = line.split_once(':')?;
            Some((name, number(value.rsplit(' ').next()?)?))
        })
        .collect();
    assert!(header.len() > 30, "the header was read");
    assert_eq!(declared, header);
}

fn number(text: &str) -> Option<u64> {
    match text {
        "UINT32_MAX" | "u32::MAX" => Some(u64::from(u32::MAX)),
        _ => text.trim_end_matches('u').parse().ok(),
    }
}

#[test]
fn the_version_is_that_of_the_header() {
    // what follows a plus is the release of this library
    let version = env!("CARGO_PKG_VERSION").split('+').next().unwrap();
    let line = format!("#define SM_VERSION \"{version}\"");
    assert!(HEADER.lines().any(|other| other == line));
}

/// Expressions of C, each with its value in Rust.
fn layouts() -> Vec<(String, usize)> {
    let mut layouts = Vec::new();
    macro_rules! layout {
        ($c:ident, $rust:ident $(, $c_field:ident = $field:ident)*) => {
            layouts.push((format!("sizeof({})", stringify!($c)), size_of::<$rust>()));
            $(layouts.push((
                format!("offsetof({}, {})", stringify!($c), stringify!($c_field)),
                offset_of!($rust, $field),
            ));)*
        };
    }
    layout!(sm_handle, Handle, at = at, full = full);
    layout!(sm_text, Text, at = at, length = length);
    layout!(
        sm_error,
        Error,
        code = code,
        number = number,
        start = start,
        size = size
    );
    layout!(
        sm_error,
        Error,
        length = length,
        text_length = text_length,
        text = text
    );
    layout!(sm_position, Position, line = line, column = column);
    layout!(
        sm_token,
        RawToken,
        line = dst_line,
        column = dst_col,
        is_range = is_range
    );
    layout!(
        sm_token,
        RawToken,
        original_line = src_line,
        original_column = src_col
    );
    layout!(sm_token, RawToken, source = src_id, name = name_id);
    layout!(sm_found, Found, token = token, found = found);
    layout!(
        sm_counts,
        Counts,
        tokens = tokens,
        sources = sources,
        names = names
    );
    layout!(sm_counts, Counts, ignored = ignored, sections = sections);
    layout!(sm_debug_id, DebugId);
    layout!(sm_section_start, SectionStart, line = line, column = column);
    layout!(
        sm_section_start,
        SectionStart,
        has_map = has_map,
        has_url = has_url
    );
    layout!(sm_finding, Finding, code = code, severity = severity);
    layout!(
        sm_finding,
        Finding,
        place = place,
        line = line,
        index = index
    );
    layout!(sm_finding, Finding, lines = lines, columns = columns);
    layout!(
        sm_report_counts,
        ReportCounts,
        invalid = invalid,
        suspicious = suspicious,
        findings = findings
    );
    layouts
}

#[test]
fn layouts_are_those_of_the_header() {
    let layouts = layouts();
    let checks: Vec<String> = layouts
        .iter()
        .map(|(expression, value)| format!("_Static_assert({expression} == {value}, \"\");"))
        .collect();
    let code = format!("#include <sourcemap.h>\n{}\n", checks.join("\n"));
    match compile(&code) {
        Some(errors) => assert_eq!(errors, ""),
        None => eprintln!("skipped: there is no C compiler `cc`"),
    }
    // The check can fail.
    let wrong = compile("#include <sourcemap.h>\n_Static_assert(sizeof(sm_text) == 1, \"\");\n");
    assert_ne!(wrong.as_deref(), Some(""));
}

/// Compiles C code beside the header. Returns the compiler's errors, or none
/// without a compiler.
fn compile(code: &str) -> Option<String> {
    let include = Path::new(env!("CARGO_MANIFEST_DIR")).join("../c/include");
    let hash = code.len();
    let file = env::temp_dir().join(format!("sourcemap-layout-{}-{hash}.c", process::id()));
    fs::write(&file, code).expect("a file for the C code");
    let output = Command::new("cc")
        .arg("-fsyntax-only")
        .arg("-I")
        .arg(include)
        .arg(&file)
        .output();
    fs::remove_file(&file).expect("the file is there");
    let output = output.ok()?;
    let errors = String::from_utf8_lossy(&output.stderr).into_owned();
    assert_eq!(output.status.success(), errors.is_empty());
    Some(errors)
}
