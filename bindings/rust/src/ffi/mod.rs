//! The declarations of `sourcemap.h`, in its order.
//!
//! The header lists what a caller owes, and the module `handle` keeps to it.

// The whole header is declared, so that a test can compare both.
#![allow(dead_code)]

use std::os::raw::c_void;

use crate::debug_id::DebugId;
use crate::types::RawToken;

pub const SM_INTERFACE: u32 = 2;
pub const SM_NONE: u32 = u32::MAX;

pub type Code = u32;

pub const SM_OK: Code = 0;
pub const SM_IO: Code = 1;
pub const SM_UTF8: Code = 2;
pub const SM_RANGE: Code = 3;
pub const SM_BAD_JSON: Code = 4;
pub const SM_VLQ_LEFTOVER: Code = 5;
pub const SM_VLQ_NO_VALUES: Code = 6;
pub const SM_VLQ_OVERFLOW: Code = 7;
pub const SM_BAD_SEGMENT_SIZE: Code = 8;
pub const SM_BAD_SOURCE_REFERENCE: Code = 9;
pub const SM_BAD_NAME_REFERENCE: Code = 10;
pub const SM_INCOMPATIBLE: Code = 11;
pub const SM_INVALID_DATA_URL: Code = 12;
pub const SM_CANNOT_FLATTEN: Code = 13;
pub const SM_INVALID_BUNDLE_MAGIC: Code = 14;
pub const SM_INVALID_BUNDLE_INDEX: Code = 15;
pub const SM_INVALID_BUNDLE_ENTRY: Code = 16;
pub const SM_NOT_A_BUNDLE: Code = 17;
pub const SM_INVALID_RANGE_INDEX: Code = 18;
pub const SM_INVALID_BASE64: Code = 19;
pub const SM_OUT_OF_MEMORY: Code = 20;

pub const SM_ABSENT: Code = 32;
pub const SM_WRONG_KIND: Code = 33;
pub const SM_PAST_LIMIT: Code = 34;

pub const SM_COMPILED_TRUNCATED: Code = 35;
pub const SM_COMPILED_MAGIC: Code = 36;
pub const SM_COMPILED_VERSION: Code = 37;
pub const SM_COMPILED_EXTENT: Code = 38;
pub const SM_COMPILED_TEXT: Code = 39;
pub const SM_COMPILED_ORDER: Code = 40;

pub const SM_KIND_EMPTY: u32 = 0;
pub const SM_KIND_REGULAR: u32 = 1;
pub const SM_KIND_INDEX: u32 = 2;
pub const SM_KIND_HERMES: u32 = 3;
pub const SM_KIND_BUILDER: u32 = 4;
pub const SM_KIND_VIEW: u32 = 5;
pub const SM_KIND_BUNDLE: u32 = 6;
pub const SM_KIND_SPLIT: u32 = 7;
pub const SM_KIND_BYTES: u32 = 8;
pub const SM_KIND_SECTIONS: u32 = 9;
pub const SM_KIND_REPORT: u32 = 10;

pub const SM_INVALID: u32 = 0;
pub const SM_SUSPICIOUS: u32 = 1;

pub const SM_PLACE_KEY: u32 = 0;
pub const SM_PLACE_SEGMENT: u32 = 1;
pub const SM_PLACE_TOKEN: u32 = 2;
pub const SM_PLACE_SHIFT: u32 = 3;

/// `sm_handle` and its other names.
#[repr(C)]
pub struct Handle {
    pub at: *mut c_void,
    pub full: bool,
}

impl Handle {
    pub const EMPTY: Handle = Handle {
        at: std::ptr::null_mut(),
        full: false,
    };
}

/// `sm_text`.
#[repr(C)]
pub struct Text {
    pub at: *const u8,
    pub length: usize,
}

impl Text {
    pub const EMPTY: Text = Text::of(&[]);

    pub const fn of(bytes: &[u8]) -> Text {
        Text {
            at: bytes.as_ptr(),
            length: bytes.len(),
        }
    }
}

pub const SM_ERROR_TEXT: usize = 256;

/// `sm_error`.
#[repr(C)]
pub struct Error {
    pub code: Code,
    pub number: u32,
    pub start: u64,
    pub size: u64,
    pub length: u64,
    pub text_length: usize,
    pub text: [u8; SM_ERROR_TEXT],
}

impl Error {
    pub const NONE: Error = Error {
        code: SM_OK,
        number: 0,
        start: 0,
        size: 0,
        length: 0,
        text_length: 0,
        text: [0; SM_ERROR_TEXT],
    };
}

/// `sm_position`.
#[repr(C)]
#[derive(Clone, Copy, Default)]
pub struct Position {
    pub line: u32,
    pub column: u32,
}

/// `sm_found`. Its `sm_token` is the crate's [`RawToken`].
#[repr(C)]
#[derive(Clone, Copy)]
pub struct Found {
    pub token: RawToken,
    pub found: bool,
}

impl Found {
    pub const NONE: Found = Found {
        token: RawToken::ZERO,
        found: false,
    };
}

/// `sm_counts`.
#[repr(C)]
#[derive(Default)]
pub struct Counts {
    pub tokens: u32,
    pub sources: u32,
    pub names: u32,
    pub ignored: u32,
    pub sections: u32,
}

/// `sm_section_start`.
#[repr(C)]
#[derive(Default)]
pub struct SectionStart {
    pub line: u32,
    pub column: u32,
    pub has_map: bool,
    pub has_url: bool,
}

/// `sm_finding`.
#[repr(C)]
#[derive(Default)]
pub struct Finding {
    pub code: u32,
    pub severity: u32,
    pub place: u32,
    pub lines: i32,
    pub columns: i32,
    pub line: usize,
    pub index: usize,
}

/// `sm_report_counts`.
#[repr(C)]
#[derive(Default)]
pub struct ReportCounts {
    pub invalid: u64,
    pub suspicious: u64,
    pub findings: usize,
}

#[rustfmt::skip]
extern "C" {
    pub fn sm_interface() -> u32;
    pub fn sm_kind(handle: *mut Handle) -> u32;
    pub fn sm_close(handle: *mut Handle);
    pub fn sm_open(map: *mut Handle, bytes: *const u8, length: usize, error: *mut Error) -> Code;
    pub fn sm_open_url(map: *mut Handle, url: *const u8, length: usize, error: *mut Error) -> Code;
    pub fn sm_share(handle: *mut Handle, other: *mut Handle, error: *mut Error) -> Code;
    pub fn sm_is_source_map(bytes: *const u8, length: usize, answer: *mut bool, error: *mut Error) -> Code;
    pub fn sm_equal(map: *mut Handle, other: *mut Handle, answer: *mut bool) -> Code;
    pub fn sm_hermes_map(map: *mut Handle, regular: *mut Handle, error: *mut Error) -> Code;

    pub fn sm_count(map: *mut Handle, counts: *mut Counts) -> Code;
    pub fn sm_file(map: *mut Handle, text: *mut Text) -> Code;
    pub fn sm_source_root(map: *mut Handle, text: *mut Text) -> Code;
    pub fn sm_get_debug_id(map: *mut Handle, id: *mut DebugId) -> Code;
    pub fn sm_source(map: *mut Handle, id: u32, text: *mut Text) -> Code;
    pub fn sm_name(map: *mut Handle, id: u32, text: *mut Text) -> Code;
    pub fn sm_contents(map: *mut Handle, id: u32, text: *mut Text) -> Code;
    pub fn sm_ignore_list_from(map: *mut Handle, from: u32, ids: *mut u32, length: usize) -> usize;
    pub fn sm_tokens(map: *mut Handle, first: u32, tokens: *mut RawToken, length: usize) -> usize;
    pub fn sm_token_text(map: *mut Handle, index: u32, text: *mut Handle, error: *mut Error) -> Code;
    pub fn sm_module_offsets(map: *mut Handle, first: u32, offsets: *mut u32, length: usize, written: *mut usize) -> Code;
    pub fn sm_module_path(map: *mut Handle, id: u32, text: *mut Text) -> Code;
    pub fn sm_module_path_count(map: *mut Handle, paths: *mut usize) -> Code;

    pub fn sm_lookup(map: *mut Handle, line: u32, column: u32, found: *mut Found) -> Code;
    pub fn sm_lookup_many(map: *mut Handle, positions: *const Position, count: usize, found: *mut Found, length: usize) -> usize;
    pub fn sm_lookup_span(map: *mut Handle, line: u32, column: u32, found: *mut Found, until: *mut Position) -> Code;
    pub fn sm_lookup_index(map: *mut Handle, line: u32, column: u32, index: *mut u32) -> Code;
    pub fn sm_lookup_source(map: *mut Handle, line: u32, column: u32, text: *mut Text) -> Code;
    pub fn sm_lookup_name(map: *mut Handle, line: u32, column: u32, text: *mut Text) -> Code;
    pub fn sm_lookup_text(map: *mut Handle, line: u32, column: u32, text: *mut Handle, error: *mut Error) -> Code;
    pub fn sm_trace(map: *mut Handle, positions: *const u8, length: usize, text: *mut Handle, error: *mut Error) -> Code;
    pub fn sm_function_name(map: *mut Handle, line: u32, column: u32, minified: *const u8, length: usize, view: *mut Handle, text: *mut Text) -> Code;
    pub fn sm_hermes_function_name(map: *mut Handle, offset: u32, text: *mut Text) -> Code;
    pub fn sm_scope_for(map: *mut Handle, source: u32, line: u32, column: u32, text: *mut Text) -> Code;

    pub fn sm_rewrite(map: *mut Handle, with_names: bool, with_contents: bool, prefixes: *const Text, count: usize, error: *mut Error) -> Code;
    pub fn sm_flatten(map: *mut Handle, error: *mut Error) -> Code;
    pub fn sm_compose(map: *mut Handle, adjustment: *mut Handle, error: *mut Error) -> Code;
    pub fn sm_shift(map: *mut Handle, lines: u32, error: *mut Error) -> Code;
    pub fn sm_set_file(map: *mut Handle, present: bool, text: *const u8, length: usize, error: *mut Error) -> Code;
    pub fn sm_set_source_root(map: *mut Handle, present: bool, text: *const u8, length: usize, error: *mut Error) -> Code;
    pub fn sm_set_debug_id(map: *mut Handle, present: bool, id: *const DebugId, error: *mut Error) -> Code;
    pub fn sm_set_source(map: *mut Handle, id: u32, text: *const u8, length: usize, error: *mut Error) -> Code;
    pub fn sm_set_contents(map: *mut Handle, id: u32, present: bool, text: *const u8, length: usize, error: *mut Error) -> Code;
    pub fn sm_ignore_source(map: *mut Handle, id: u32, error: *mut Error) -> Code;
    pub fn sm_remove_names(map: *mut Handle, error: *mut Error) -> Code;

    pub fn sm_write(map: *mut Handle, text: *mut Handle, error: *mut Error) -> Code;
    pub fn sm_write_url(map: *mut Handle, text: *mut Handle, error: *mut Error) -> Code;
    pub fn sm_bytes_text(bytes: *mut Handle, text: *mut Text) -> Code;

    pub fn sm_section_start_of(map: *mut Handle, id: u32, start: *mut SectionStart) -> Code;
    pub fn sm_section_url(map: *mut Handle, id: u32, text: *mut Text) -> Code;
    pub fn sm_section(map: *mut Handle, id: u32, section: *mut Handle, error: *mut Error) -> Code;
    pub fn sm_sections_new(sections: *mut Handle, error: *mut Error) -> Code;
    pub fn sm_sections_add(sections: *mut Handle, line: u32, column: u32, has_url: bool, url: *const u8, length: usize, has_map: bool, map: *mut Handle, error: *mut Error) -> Code;
    pub fn sm_sections_finish(sections: *mut Handle, map: *mut Handle, has_file: bool, file: *const u8, length: usize, has_offsets: bool, offsets: *const u32, offset_count: usize, has_paths: bool, paths: *const Text, path_count: usize, error: *mut Error) -> Code;

    pub fn sm_builder_new(builder: *mut Handle, has_file: bool, file: *const u8, length: usize, error: *mut Error) -> Code;
    pub fn sm_builder_set_source_root(builder: *mut Handle, present: bool, text: *const u8, length: usize, error: *mut Error) -> Code;
    pub fn sm_builder_set_debug_id(builder: *mut Handle, present: bool, id: *const DebugId, error: *mut Error) -> Code;
    pub fn sm_builder_add_source(builder: *mut Handle, text: *const u8, length: usize, id: *mut u32, error: *mut Error) -> Code;
    pub fn sm_builder_add_name(builder: *mut Handle, text: *const u8, length: usize, id: *mut u32, error: *mut Error) -> Code;
    pub fn sm_builder_source(builder: *mut Handle, id: u32, text: *mut Text) -> Code;
    pub fn sm_builder_set_source(builder: *mut Handle, id: u32, source: *const u8, length: usize, error: *mut Error) -> Code;
    pub fn sm_builder_strip_prefixes(builder: *mut Handle, prefixes: *const Text, count: usize, error: *mut Error) -> Code;
    pub fn sm_builder_set_contents(builder: *mut Handle, id: u32, present: bool, text: *const u8, length: usize, error: *mut Error) -> Code;
    pub fn sm_builder_ignore_source(builder: *mut Handle, id: u32, error: *mut Error) -> Code;
    pub fn sm_builder_add_tokens(builder: *mut Handle, tokens: *const RawToken, count: usize, error: *mut Error) -> usize;
    pub fn sm_builder_finish(builder: *mut Handle, map: *mut Handle, error: *mut Error) -> Code;

    pub fn sm_view_open(view: *mut Handle, text: *const u8, length: usize, error: *mut Error) -> Code;
    pub fn sm_view_text(view: *mut Handle, text: *mut Text) -> Code;
    pub fn sm_view_count(view: *mut Handle, lines: *mut usize) -> Code;
    pub fn sm_view_line(view: *mut Handle, line: u32, text: *mut Text) -> Code;
    pub fn sm_view_slice(view: *mut Handle, line: u32, column: u32, span: u32, text: *mut Text) -> Code;
    pub fn sm_locate_reference(text: *const u8, length: usize, url: *mut Handle, is_legacy: *mut bool, error: *mut Error) -> Code;
    pub fn sm_resolve(url: *const u8, length: usize, base: *const u8, base_length: usize, result: *mut Handle, error: *mut Error) -> Code;
    pub fn sm_resolve_path(url: *const u8, length: usize, base: *const u8, base_length: usize, result: *mut Handle, error: *mut Error) -> Code;
    pub fn sm_relative_path(base: *const u8, base_length: usize, target: *const u8, target_length: usize, path: *mut Handle, error: *mut Error) -> Code;

    pub fn sm_parse_segment(segment: *const u8, length: usize, numbers: *mut i64, capacity: usize, count: *mut usize, error: *mut Error) -> Code;
    pub fn sm_write_segment(numbers: *const i64, count: usize, text: *mut Handle, error: *mut Error) -> Code;

    pub fn sm_debug_id_text(id: *const DebugId, text: *mut Handle, error: *mut Error) -> Code;
    pub fn sm_parse_debug_id(text: *const u8, length: usize, id: *mut DebugId) -> Code;

    pub fn sm_bundle_open(bundle: *mut Handle, bytes: *const u8, length: usize, error: *mut Error) -> Code;
    pub fn sm_bundle_count(bundle: *mut Handle, modules: *mut usize) -> Code;
    pub fn sm_bundle_startup(bundle: *mut Handle, bytes: *mut Text, error: *mut Error) -> Code;
    pub fn sm_bundle_module(bundle: *mut Handle, id: usize, bytes: *mut Text, error: *mut Error) -> Code;
    pub fn sm_split_open(split: *mut Handle, index: *mut Handle, error: *mut Error) -> Code;
    pub fn sm_split_map(split: *mut Handle, bundle: *mut Handle, id: usize, map: *mut Handle, error: *mut Error) -> Code;

    pub fn sm_compile(map: *mut Handle, with_contents: bool, bytes: *mut Handle, error: *mut Error) -> Code;
    pub fn sm_compiled_check(bytes: *const u8, length: usize) -> Code;
    pub fn sm_compiled_verify(bytes: *const u8, length: usize) -> Code;
    pub fn sm_compiled_count(bytes: *const u8, length: usize, counts: *mut Counts) -> Code;
    pub fn sm_compiled_debug_id(bytes: *const u8, length: usize, id: *mut DebugId) -> Code;
    pub fn sm_compiled_lookup(bytes: *const u8, length: usize, line: u32, column: u32, found: *mut Found) -> Code;
    pub fn sm_compiled_lookup_many(bytes: *const u8, length: usize, positions: *const Position, count: usize, found: *mut Found, found_length: usize) -> usize;
    pub fn sm_compiled_token(bytes: *const u8, length: usize, index: u32, found: *mut Found) -> Code;
    pub fn sm_compiled_scope(bytes: *const u8, length: usize, line: u32, column: u32, text: *mut Text) -> Code;
    pub fn sm_compiled_source(bytes: *const u8, length: usize, id: u32, text: *mut Text) -> Code;
    pub fn sm_compiled_name(bytes: *const u8, length: usize, id: u32, text: *mut Text) -> Code;
    pub fn sm_compiled_contents(bytes: *const u8, length: usize, id: u32, text: *mut Text) -> Code;
    pub fn sm_compiled_file(bytes: *const u8, length: usize, text: *mut Text) -> Code;

    pub fn sm_check(report: *mut Handle, bytes: *const u8, length: usize, has_generated: bool, generated: *const u8, generated_length: usize, most: u32, error: *mut Error) -> Code;
    pub fn sm_check_files(report: *mut Handle, bytes: *const u8, length: usize, has_generated: bool, generated: *const u8, generated_length: usize, name: *const u8, name_length: usize, has_files: bool, files: *const Text, count: usize, most: u32, error: *mut Error) -> Code;
    pub fn sm_report_count(report: *mut Handle, counts: *mut ReportCounts) -> Code;
    pub fn sm_report_finding(report: *mut Handle, index: u32, finding: *mut Finding) -> Code;
    pub fn sm_report_sections(report: *mut Handle, index: u32, sections: *mut usize, capacity: usize, count: *mut usize) -> Code;
    pub fn sm_report_key(report: *mut Handle, index: u32, text: *mut Text) -> Code;
    pub fn sm_report_sentence(report: *mut Handle, index: u32, text: *mut Text) -> Code;
}

#[cfg(test)]
mod tests;
