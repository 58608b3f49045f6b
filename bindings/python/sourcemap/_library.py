"""The shared library: where it is found, its structs and its calls.

Quick calls keep the interpreter's lock (`PyDLL`). If they released it, each of them would have to wait for any other
thread that computes. All other calls release it (`CDLL`).
"""
from __future__ import annotations

import ctypes
import ctypes.util
import os
from ctypes import c_bool, c_int32, c_size_t, c_uint32, c_uint64, c_uint8, c_void_p
from pathlib import Path
from typing import Any, Callable, cast

VARIABLE = 'SOURCEMAP_LIBRARY_DIR'
FILES = ('libsourcemap.so', 'libsourcemap.so.2', 'libsourcemap.dylib')
# where a wheel has the library; beside the modules Python would take it for one
INSIDE = Path(__file__).parent / 'lib'
BUILT = Path(__file__).resolve().parents[2] / 'c' / 'out'
INTERFACE = 2

NONE = 0xFFFFFFFF

OK, OUT_OF_MEMORY, ABSENT, WRONG_KIND, PAST_LIMIT = 0, 20, 32, 33, 34
KIND_EMPTY, KIND_REGULAR, KIND_INDEX, KIND_HERMES = 0, 1, 2, 3
INVALID, SUSPICIOUS = 0, 1
PLACE_KEY, PLACE_SEGMENT, PLACE_TOKEN, PLACE_SHIFT = 0, 1, 2, 3


class Handle(ctypes.Structure):
    _fields_ = [('at', c_void_p), ('full', c_bool)]


class Text(ctypes.Structure):
    _fields_ = [('at', c_void_p), ('length', c_size_t)]


class Error(ctypes.Structure):
    _fields_ = [('code', c_uint32), ('number', c_uint32), ('start', c_uint64), ('size', c_uint64),
                ('length', c_uint64), ('text_length', c_size_t), ('text', c_uint8 * 256)]


class Token(ctypes.Structure):
    _fields_ = [('line', c_uint32), ('column', c_uint32), ('original_line', c_uint32), ('original_column', c_uint32),
                ('source', c_uint32), ('name', c_uint32), ('is_range', c_bool)]


class Found(ctypes.Structure):
    _fields_ = [('token', Token), ('found', c_bool)]


class Counts(ctypes.Structure):
    _fields_ = [('tokens', c_uint32), ('sources', c_uint32), ('names', c_uint32), ('ignored', c_uint32),
                ('sections', c_uint32)]


class DebugId(ctypes.Structure):
    _fields_ = [('bytes', c_uint8 * 16)]


class SectionStart(ctypes.Structure):
    _fields_ = [('line', c_uint32), ('column', c_uint32), ('has_map', c_bool), ('has_url', c_bool)]


class Finding(ctypes.Structure):
    _fields_ = [('code', c_uint32), ('severity', c_uint32), ('place', c_uint32), ('lines', c_int32),
                ('columns', c_int32), ('line', c_size_t), ('index', c_size_t)]


class ReportCounts(ctypes.Structure):
    _fields_ = [('invalid', c_uint64), ('suspicious', c_uint64), ('findings', c_size_t)]


def _library_path() -> str:
    """The shared library in the folder that SOURCEMAP_LIBRARY_DIR names. Without that variable, or if it is empty,
    the one in this package, as in a wheel, then the one that was built beside it, or else the one that the system
    finds."""
    named = os.environ.get(VARIABLE)
    folders = [Path(named).absolute()] if named else [INSIDE, BUILT]
    for path in (folder / name for folder in folders for name in FILES):
        if path.is_file():
            return str(path)
    if named:
        raise ImportError(f'{VARIABLE} is {named}, which has no {FILES[0]}')
    found = ctypes.util.find_library('sourcemap')
    if found is None:
        raise ImportError(f'{FILES[0]} was not found: build it by bindings/c/build, install it where the system looks '
                          f'for libraries, or set {VARIABLE} to its folder')
    return found


_path = _library_path()
_short = ctypes.PyDLL(_path)
_long = ctypes.CDLL(_path)

# a pointer of any type; it is never null
P = c_void_p
Call = Callable[..., Any]
CODE = c_uint32


def _call(library: ctypes.CDLL, name: str, result: Any, *arguments: Any) -> Call:
    function: Any = getattr(library, name)
    function.restype = result
    function.argtypes = arguments
    return cast(Call, function)


interface = _call(_short, 'sm_interface', c_uint32)
if interface() != INTERFACE:
    raise ImportError(f'{_path} has version {interface()} of its interface; this package needs version {INTERFACE}')

kind = _call(_short, 'sm_kind', c_uint32, P)
close = _call(_long, 'sm_close', None, P)
open_bytes = _call(_long, 'sm_open', CODE, P, P, c_size_t, P)
open_url = _call(_long, 'sm_open_url', CODE, P, P, c_size_t, P)
share = _call(_short, 'sm_share', CODE, P, P, P)
is_source_map = _call(_long, 'sm_is_source_map', CODE, P, c_size_t, P, P)
equal = _call(_long, 'sm_equal', CODE, P, P, P)
hermes_map = _call(_long, 'sm_hermes_map', CODE, P, P, P)

count = _call(_short, 'sm_count', CODE, P, P)
file = _call(_short, 'sm_file', CODE, P, P)
source_root = _call(_short, 'sm_source_root', CODE, P, P)
get_debug_id = _call(_short, 'sm_get_debug_id', CODE, P, P)
source = _call(_short, 'sm_source', CODE, P, c_uint32, P)
name = _call(_short, 'sm_name', CODE, P, c_uint32, P)
contents = _call(_short, 'sm_contents', CODE, P, c_uint32, P)
ignore_list_from = _call(_short, 'sm_ignore_list_from', c_size_t, P, c_uint32, P, c_size_t)
tokens = _call(_short, 'sm_tokens', c_size_t, P, c_uint32, P, c_size_t)
token_text = _call(_short, 'sm_token_text', CODE, P, c_uint32, P, P)
module_offsets = _call(_short, 'sm_module_offsets', CODE, P, c_uint32, P, c_size_t, P)
module_path = _call(_short, 'sm_module_path', CODE, P, c_uint32, P)
module_path_count = _call(_short, 'sm_module_path_count', CODE, P, P)

# for one position; without argtypes, since ctypes would take half of the call's time to convert the arguments
lookup_one = _short['sm_lookup_many']
lookup_one.restype = c_size_t
lookup_many = _call(_long, 'sm_lookup_many', c_size_t, P, P, c_size_t, P, c_size_t)
lookup_span = _call(_short, 'sm_lookup_span', CODE, P, c_uint32, c_uint32, P, P)
lookup_index = _call(_short, 'sm_lookup_index', CODE, P, c_uint32, c_uint32, P)
lookup_source = _call(_short, 'sm_lookup_source', CODE, P, c_uint32, c_uint32, P)
lookup_name = _call(_short, 'sm_lookup_name', CODE, P, c_uint32, c_uint32, P)
lookup_text = _call(_short, 'sm_lookup_text', CODE, P, c_uint32, c_uint32, P, P)
trace = _call(_long, 'sm_trace', CODE, P, P, c_size_t, P, P)
function_name = _call(_short, 'sm_function_name', CODE, P, c_uint32, c_uint32, P, c_size_t, P, P)
hermes_function_name = _call(_short, 'sm_hermes_function_name', CODE, P, c_uint32, P)
scope_for = _call(_short, 'sm_scope_for', CODE, P, c_uint32, c_uint32, c_uint32, P)

rewrite = _call(_long, 'sm_rewrite', CODE, P, c_bool, c_bool, P, c_size_t, P)
flatten = _call(_long, 'sm_flatten', CODE, P, P)
compose = _call(_long, 'sm_compose', CODE, P, P, P)
shift = _call(_long, 'sm_shift', CODE, P, c_uint32, P)
# a change of a shared map copies it first, so these release the interpreter's lock too
set_file = _call(_long, 'sm_set_file', CODE, P, c_bool, P, c_size_t, P)
set_source_root = _call(_long, 'sm_set_source_root', CODE, P, c_bool, P, c_size_t, P)
set_debug_id = _call(_long, 'sm_set_debug_id', CODE, P, c_bool, P, P)
set_source = _call(_long, 'sm_set_source', CODE, P, c_uint32, P, c_size_t, P)
set_contents = _call(_long, 'sm_set_contents', CODE, P, c_uint32, c_bool, P, c_size_t, P)
ignore_source = _call(_long, 'sm_ignore_source', CODE, P, c_uint32, P)
remove_names = _call(_long, 'sm_remove_names', CODE, P, P)

write = _call(_long, 'sm_write', CODE, P, P, P)
write_url = _call(_long, 'sm_write_url', CODE, P, P, P)
bytes_text = _call(_short, 'sm_bytes_text', CODE, P, P)

section_start_of = _call(_short, 'sm_section_start_of', CODE, P, c_uint32, P)
section_url = _call(_short, 'sm_section_url', CODE, P, c_uint32, P)
section = _call(_long, 'sm_section', CODE, P, c_uint32, P, P)
sections_new = _call(_short, 'sm_sections_new', CODE, P, P)
sections_add = _call(_long, 'sm_sections_add', CODE, P, c_uint32, c_uint32, c_bool, P, c_size_t, c_bool, P, P)
sections_finish = _call(_long, 'sm_sections_finish', CODE, P, P, c_bool, P, c_size_t, c_bool, P, c_size_t, c_bool, P,
                        c_size_t, P)

builder_new = _call(_short, 'sm_builder_new', CODE, P, c_bool, P, c_size_t, P)
builder_set_source_root = _call(_short, 'sm_builder_set_source_root', CODE, P, c_bool, P, c_size_t, P)
builder_set_debug_id = _call(_short, 'sm_builder_set_debug_id', CODE, P, c_bool, P, P)
builder_add_source = _call(_short, 'sm_builder_add_source', CODE, P, P, c_size_t, P, P)
builder_add_name = _call(_short, 'sm_builder_add_name', CODE, P, P, c_size_t, P, P)
builder_source = _call(_short, 'sm_builder_source', CODE, P, c_uint32, P)
builder_set_source = _call(_short, 'sm_builder_set_source', CODE, P, c_uint32, P, c_size_t, P)
builder_strip_prefixes = _call(_long, 'sm_builder_strip_prefixes', CODE, P, P, c_size_t, P)
builder_set_contents = _call(_long, 'sm_builder_set_contents', CODE, P, c_uint32, c_bool, P, c_size_t, P)
builder_ignore_source = _call(_short, 'sm_builder_ignore_source', CODE, P, c_uint32, P)
builder_add_tokens = _call(_long, 'sm_builder_add_tokens', c_size_t, P, P, c_size_t, P)
builder_finish = _call(_long, 'sm_builder_finish', CODE, P, P, P)

view_open = _call(_long, 'sm_view_open', CODE, P, P, c_size_t, P)
view_text = _call(_short, 'sm_view_text', CODE, P, P)
view_count = _call(_short, 'sm_view_count', CODE, P, P)
view_line = _call(_short, 'sm_view_line', CODE, P, c_uint32, P)
view_slice = _call(_short, 'sm_view_slice', CODE, P, c_uint32, c_uint32, c_uint32, P)
locate_reference = _call(_long, 'sm_locate_reference', CODE, P, c_size_t, P, P, P)
resolve = _call(_short, 'sm_resolve', CODE, P, c_size_t, P, c_size_t, P, P)
resolve_path = _call(_short, 'sm_resolve_path', CODE, P, c_size_t, P, c_size_t, P, P)
relative_path = _call(_short, 'sm_relative_path', CODE, P, c_size_t, P, c_size_t, P, P)

parse_segment = _call(_short, 'sm_parse_segment', CODE, P, c_size_t, P, c_size_t, P, P)
write_segment = _call(_short, 'sm_write_segment', CODE, P, c_size_t, P, P)

debug_id_text = _call(_short, 'sm_debug_id_text', CODE, P, P, P)
parse_debug_id = _call(_short, 'sm_parse_debug_id', CODE, P, c_size_t, P)

compile_map = _call(_long, 'sm_compile', CODE, P, c_bool, P, P)
compiled_check = _call(_short, 'sm_compiled_check', CODE, P, c_size_t)
compiled_verify = _call(_long, 'sm_compiled_verify', CODE, P, c_size_t)
compiled_count = _call(_short, 'sm_compiled_count', CODE, P, c_size_t, P)
compiled_debug_id = _call(_short, 'sm_compiled_debug_id', CODE, P, c_size_t, P)
# for one position, as lookup_one
compiled_lookup_one = _short['sm_compiled_lookup_many']
compiled_lookup_one.restype = c_size_t
compiled_lookup_many = _call(_long, 'sm_compiled_lookup_many', c_size_t, P, c_size_t, P, c_size_t, P, c_size_t)
compiled_scope = _call(_short, 'sm_compiled_scope', CODE, P, c_size_t, c_uint32, c_uint32, P)
compiled_source = _call(_short, 'sm_compiled_source', CODE, P, c_size_t, c_uint32, P)
compiled_name = _call(_short, 'sm_compiled_name', CODE, P, c_size_t, c_uint32, P)
compiled_contents = _call(_short, 'sm_compiled_contents', CODE, P, c_size_t, c_uint32, P)
compiled_file = _call(_short, 'sm_compiled_file', CODE, P, c_size_t, P)

bundle_open = _call(_long, 'sm_bundle_open', CODE, P, P, c_size_t, P)
bundle_count = _call(_short, 'sm_bundle_count', CODE, P, P)
bundle_startup = _call(_short, 'sm_bundle_startup', CODE, P, P, P)
bundle_module = _call(_short, 'sm_bundle_module', CODE, P, c_size_t, P, P)
split_open = _call(_long, 'sm_split_open', CODE, P, P, P)
split_map = _call(_long, 'sm_split_map', CODE, P, P, c_size_t, P, P)

check_files = _call(_long, 'sm_check_files', CODE, P, P, c_size_t, c_bool, P, c_size_t, P, c_size_t, c_bool, P, c_size_t,
                    c_uint32, P)
report_count = _call(_short, 'sm_report_count', CODE, P, P)
report_finding = _call(_short, 'sm_report_finding', CODE, P, c_uint32, P)
report_sections = _call(_short, 'sm_report_sections', CODE, P, c_uint32, P, c_size_t, P)
report_key = _call(_short, 'sm_report_key', CODE, P, c_uint32, P)
report_sentence = _call(_short, 'sm_report_sentence', CODE, P, c_uint32, P)
