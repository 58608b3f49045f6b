#include "exports.h"

static const uint8_t NO_BYTES[1] = { 0 };
static const uint32_t NO_OFFSETS[1] = { 0 };

static sm_error error;
static sm_text text;

/* The text may point into a handle that is closed by now. */
static void clear_text(void)
{
    static const sm_text EMPTY = SM_TEXT_EMPTY;
    text = EMPTY;
}

static sm_code count_code(size_t count)
{
    return count > 0 ? SM_OK : SM_WRONG_KIND;
}

/* The code of a call that fills a handle, which it closes again. */
#define FILL(name, filled, call)           \
    static sm_code name(sm_handle *handle) \
    {                                      \
        sm_handle filled = SM_EMPTY;       \
        sm_code code = call;               \
        sm_close(&filled);                 \
        return code;                       \
    }

#define ASK(name, call)                    \
    static sm_code name(sm_handle *handle) \
    {                                      \
        clear_text();                      \
        return call;                       \
    }

#define WRITE(name, type, value, call)     \
    static sm_code name(sm_handle *handle) \
    {                                      \
        type value = { 0 };                \
        return call;                       \
    }

FILL(share, other, sm_share(handle, &other, &error))
FILL(hermes_map, regular, sm_hermes_map(handle, &regular, &error))
WRITE(count, sm_counts, counts, sm_count(handle, &counts))
ASK(file, sm_file(handle, &text))
ASK(source_root, sm_source_root(handle, &text))
WRITE(get_debug_id, sm_debug_id, id, (id.bytes[0] = 0, sm_get_debug_id(handle, &id)))
ASK(source, sm_source(handle, 0, &text))
ASK(name_of, sm_name(handle, 0, &text))
ASK(contents, sm_contents(handle, 0, &text))
FILL(token_text, bytes, sm_token_text(handle, 0, &bytes, &error))
WRITE(lookup_index, uint32_t, index, sm_lookup_index(handle, 0, 0, &index))
ASK(lookup_source, sm_lookup_source(handle, 0, 0, &text))
ASK(lookup_name, sm_lookup_name(handle, 0, 0, &text))
FILL(lookup_text, bytes, sm_lookup_text(handle, 0, 0, &bytes, &error))
ASK(hermes_function_name, sm_hermes_function_name(handle, 0, &text))
ASK(scope_for, sm_scope_for(handle, 0, 0, 0, &text))
FILL(trace, answers, sm_trace(handle, BYTES("0:0\n"), &answers, &error))
ASK(rewrite, sm_rewrite(handle, true, true, &text, 0, &error))
ASK(flatten, sm_flatten(handle, &error))
ASK(shift, sm_shift(handle, 1, &error))
ASK(set_file, sm_set_file(handle, false, NO_BYTES, 0, &error))
ASK(set_source_root, sm_set_source_root(handle, false, NO_BYTES, 0, &error))
WRITE(set_debug_id, sm_debug_id, id, (id.bytes[0] = 0, sm_set_debug_id(handle, false, &id, &error)))
ASK(set_source, sm_set_source(handle, 0, BYTES("a"), &error))
ASK(set_contents, sm_set_contents(handle, 0, false, NO_BYTES, 0, &error))
ASK(ignore_source, sm_ignore_source(handle, 0, &error))
ASK(remove_names, sm_remove_names(handle, &error))
FILL(write_json, json, sm_write(handle, &json, &error))
FILL(write_url, url, sm_write_url(handle, &url, &error))
FILL(compile, bytes, sm_compile(handle, true, &bytes, &error))
ASK(bytes_text, sm_bytes_text(handle, &text))
WRITE(section_start_of, sm_section_start, start, sm_section_start_of(handle, 0, &start))
ASK(section_url, sm_section_url(handle, 0, &text))
ASK(module_path, sm_module_path(handle, 0, &text))
WRITE(module_path_count, size_t, paths, sm_module_path_count(handle, &paths))
FILL(section, map, sm_section(handle, 0, &map, &error))
FILL(sections_finish, map,
        sm_sections_finish(handle, &map, false, NO_BYTES, 0, false, NO_OFFSETS, 0, false, &text, 0, &error))
ASK(builder_set_source_root, sm_builder_set_source_root(handle, false, NO_BYTES, 0, &error))
WRITE(builder_set_debug_id, sm_debug_id, id, (id.bytes[0] = 0, sm_builder_set_debug_id(handle, false, &id, &error)))
WRITE(builder_add_source, uint32_t, id, sm_builder_add_source(handle, BYTES("a.js"), &id, &error))
WRITE(builder_add_name, uint32_t, id, sm_builder_add_name(handle, BYTES("n"), &id, &error))
ASK(builder_source, sm_builder_source(handle, 0, &text))
ASK(builder_set_source, sm_builder_set_source(handle, 0, BYTES("a"), &error))
ASK(builder_strip_prefixes, sm_builder_strip_prefixes(handle, &text, 0, &error))
ASK(builder_set_contents, sm_builder_set_contents(handle, 0, false, NO_BYTES, 0, &error))
ASK(builder_ignore_source, sm_builder_ignore_source(handle, 0, &error))
FILL(builder_finish, map, sm_builder_finish(handle, &map, &error))
ASK(view_text, sm_view_text(handle, &text))
WRITE(view_count, size_t, lines, sm_view_count(handle, &lines))
ASK(view_line, sm_view_line(handle, 0, &text))
ASK(view_slice, sm_view_slice(handle, 0, 0, 0, &text))
WRITE(bundle_count, size_t, modules, sm_bundle_count(handle, &modules))
ASK(bundle_startup, sm_bundle_startup(handle, &text, &error))
ASK(bundle_module, sm_bundle_module(handle, 0, &text, &error))
FILL(split_open, split, sm_split_open(&split, handle, &error))
WRITE(report_count, sm_report_counts, counts, sm_report_count(handle, &counts))
WRITE(report_finding, sm_finding, finding, sm_report_finding(handle, 0, &finding))
ASK(report_key, sm_report_key(handle, 0, &text))
ASK(report_sentence, sm_report_sentence(handle, 0, &text))

static sm_code report_sections(sm_handle *handle)
{
    size_t sections[1] = { 0 }, count = 0;
    return sm_report_sections(handle, 0, sections, 1, &count);
}

static sm_code ignore_list(sm_handle *handle)
{
    uint32_t ids[1] = { 0 };
    return count_code(sm_ignore_list_from(handle, 0, ids, 1));
}

static sm_code tokens(sm_handle *handle)
{
    sm_token found[1] = { { 0 } };
    return count_code(sm_tokens(handle, 0, found, 1));
}

static sm_code module_offsets(sm_handle *handle)
{
    uint32_t offsets[1] = { 0 };
    size_t written = 0;
    return sm_module_offsets(handle, 0, offsets, 1, &written);
}

static sm_code lookup(sm_handle *handle)
{
    sm_found found = { { 0 }, false };
    return sm_lookup(handle, 0, 0, &found);
}

static sm_code lookup_many(sm_handle *handle)
{
    static const sm_position POSITIONS[1] = { { 0, 0 } };
    sm_found found[1] = { { { 0 }, false } };
    return count_code(sm_lookup_many(handle, POSITIONS, 1, found, 1));
}

static sm_code lookup_span(sm_handle *handle)
{
    sm_found found = { { 0 }, false };
    sm_position until = { 0, 0 };
    return sm_lookup_span(handle, 0, 0, &found, &until);
}

/* Makes a call with two handles, the second one filled with something of this kind. The functions below pass `handle`
** as the one or the other. */
static sm_code call_with(sm_handle *handle, uint32_t kind, sm_code (*call)(sm_handle *handle, sm_handle *other))
{
    sm_handle other = SM_EMPTY;
    sm_code code;
    fill(&other, kind);
    code = call(handle, &other);
    sm_close(&other);
    return code;
}

static sm_code equal_both(sm_handle *map, sm_handle *other)
{
    bool answer = false;
    return sm_equal(map, other, &answer);
}

static sm_code equal_reversed(sm_handle *other, sm_handle *map)
{
    return equal_both(map, other);
}

static sm_code compose_both(sm_handle *map, sm_handle *adjustment)
{
    return sm_compose(map, adjustment, &error);
}

static sm_code compose_reversed(sm_handle *adjustment, sm_handle *map)
{
    return sm_compose(map, adjustment, &error);
}

static sm_code split_both(sm_handle *split, sm_handle *bundle)
{
    sm_map map = SM_EMPTY;
    sm_code code = sm_split_map(split, bundle, 0, &map, &error);
    sm_close(&map);
    return code;
}

static sm_code split_reversed(sm_handle *bundle, sm_handle *split)
{
    return split_both(split, bundle);
}

static sm_code name_both(sm_handle *map, sm_handle *view)
{
    return sm_function_name(map, 0, 0, BYTES("b"), view, &text);
}

static sm_code name_reversed(sm_handle *view, sm_handle *map)
{
    return name_both(map, view);
}

static sm_code sections_add(sm_handle *handle)
{
    sm_map none = SM_EMPTY;
    return sm_sections_add(handle, 1, 2, true, BYTES("u"), false, &none, &error);
}

static sm_code sections_add_map(sm_handle *map)
{
    sm_sections sections = SM_EMPTY;
    sm_code code;
    CHECK_NUMBER(sm_sections_new(&sections, &error), SM_OK);
    code = sm_sections_add(&sections, 0, 0, false, NO_BYTES, 0, true, map, &error);
    sm_close(&sections);
    return code;
}

ASK(equal, call_with(handle, SM_KIND_REGULAR, equal_both))
ASK(equal_other, call_with(handle, SM_KIND_REGULAR, equal_reversed))
ASK(compose, call_with(handle, SM_KIND_REGULAR, compose_both))
ASK(compose_adjustment, call_with(handle, SM_KIND_REGULAR, compose_reversed))
ASK(split_map, call_with(handle, SM_KIND_BUNDLE, split_both))
ASK(split_map_bundle, call_with(handle, SM_KIND_SPLIT, split_reversed))
ASK(function_name, call_with(handle, SM_KIND_VIEW, name_both))
ASK(function_name_view, call_with(handle, SM_KIND_REGULAR, name_reversed))

static sm_code builder_add_tokens(sm_handle *handle)
{
    sm_token token = { 0 };
    error.code = SM_OK;
    return sm_builder_add_tokens(handle, &token, 1, &error) == 1 ? SM_OK : error.code;
}

const struct export_row EXPORTS[] = {
    { "sm_share", share, MAPS | KIND(SM_KIND_VIEW) | KIND(SM_KIND_BUNDLE), false },
    { "sm_equal", equal, MAPS, false },
    { "sm_equal, its other map", equal_other, MAPS, false },
    { "sm_hermes_map", hermes_map, KIND(SM_KIND_HERMES), false },
    { "sm_count", count, MAPS, false },
    { "sm_file", file, MAPS, false },
    { "sm_source_root", source_root, MAPS, false },
    { "sm_get_debug_id", get_debug_id, MAPS, false },
    { "sm_source", source, MAPS, false },
    { "sm_name", name_of, MAPS, false },
    { "sm_contents", contents, MAPS, false },
    { "sm_ignore_list_from", ignore_list, LISTS, false },
    { "sm_tokens", tokens, LISTS, false },
    { "sm_token_text", token_text, LISTS, false },
    { "sm_lookup", lookup, MAPS, false },
    { "sm_lookup_many", lookup_many, MAPS, false },
    { "sm_lookup_span", lookup_span, LISTS, false },
    { "sm_lookup_index", lookup_index, LISTS, false },
    { "sm_lookup_source", lookup_source, MAPS, false },
    { "sm_lookup_name", lookup_name, MAPS, false },
    { "sm_lookup_text", lookup_text, MAPS, false },
    { "sm_trace", trace, MAPS, false },
    { "sm_function_name", function_name, MAPS, false },
    { "sm_function_name, its view", function_name_view, KIND(SM_KIND_VIEW), false },
    { "sm_hermes_function_name", hermes_function_name, KIND(SM_KIND_HERMES), false },
    { "sm_scope_for", scope_for, KIND(SM_KIND_HERMES), false },
    { "sm_rewrite", rewrite, LISTS, true },
    { "sm_flatten", flatten, KIND(SM_KIND_INDEX), true },
    { "sm_compose", compose, KIND(SM_KIND_REGULAR), true },
    { "sm_compose, its adjustment", compose_adjustment, KIND(SM_KIND_REGULAR), false },
    { "sm_shift", shift, KIND(SM_KIND_INDEX), true },
    { "sm_set_file", set_file, MAPS, true },
    { "sm_set_source_root", set_source_root, LISTS, true },
    { "sm_set_debug_id", set_debug_id, MAPS, true },
    { "sm_set_source", set_source, LISTS, true },
    { "sm_set_contents", set_contents, LISTS, true },
    { "sm_ignore_source", ignore_source, LISTS, true },
    { "sm_remove_names", remove_names, LISTS, true },
    { "sm_write", write_json, MAPS, false },
    { "sm_write_url", write_url, MAPS, false },
    { "sm_compile", compile, MAPS, false },
    { "sm_bytes_text", bytes_text, KIND(SM_KIND_BYTES), false },
    { "sm_section_start_of", section_start_of, KIND(SM_KIND_INDEX), false },
    { "sm_section_url", section_url, KIND(SM_KIND_INDEX), false },
    { "sm_module_offsets", module_offsets, KIND(SM_KIND_INDEX), false },
    { "sm_module_path", module_path, KIND(SM_KIND_INDEX), false },
    { "sm_module_path_count", module_path_count, KIND(SM_KIND_INDEX), false },
    { "sm_section", section, KIND(SM_KIND_INDEX), false },
    { "sm_sections_add", sections_add, KIND(SM_KIND_SECTIONS), true },
    { "sm_sections_add, its map", sections_add_map, MAPS, false },
    { "sm_sections_finish", sections_finish, KIND(SM_KIND_SECTIONS), true },
    { "sm_builder_set_source_root", builder_set_source_root, KIND(SM_KIND_BUILDER), true },
    { "sm_builder_set_debug_id", builder_set_debug_id, KIND(SM_KIND_BUILDER), true },
    { "sm_builder_add_source", builder_add_source, KIND(SM_KIND_BUILDER), true },
    { "sm_builder_add_name", builder_add_name, KIND(SM_KIND_BUILDER), true },
    { "sm_builder_source", builder_source, KIND(SM_KIND_BUILDER), false },
    { "sm_builder_set_source", builder_set_source, KIND(SM_KIND_BUILDER), true },
    { "sm_builder_strip_prefixes", builder_strip_prefixes, KIND(SM_KIND_BUILDER), true },
    { "sm_builder_set_contents", builder_set_contents, KIND(SM_KIND_BUILDER), true },
    { "sm_builder_ignore_source", builder_ignore_source, KIND(SM_KIND_BUILDER), true },
    { "sm_builder_add_tokens", builder_add_tokens, KIND(SM_KIND_BUILDER), true },
    { "sm_builder_finish", builder_finish, KIND(SM_KIND_BUILDER), true },
    { "sm_view_text", view_text, KIND(SM_KIND_VIEW), false },
    { "sm_view_count", view_count, KIND(SM_KIND_VIEW), false },
    { "sm_view_line", view_line, KIND(SM_KIND_VIEW), false },
    { "sm_view_slice", view_slice, KIND(SM_KIND_VIEW), false },
    { "sm_bundle_count", bundle_count, KIND(SM_KIND_BUNDLE), false },
    { "sm_bundle_startup", bundle_startup, KIND(SM_KIND_BUNDLE), false },
    { "sm_bundle_module", bundle_module, KIND(SM_KIND_BUNDLE), false },
    { "sm_split_open", split_open, KIND(SM_KIND_INDEX), false },
    { "sm_split_map", split_map, KIND(SM_KIND_SPLIT), false },
    { "sm_split_map, its bundle", split_map_bundle, KIND(SM_KIND_BUNDLE), false },
    { "sm_report_count", report_count, KIND(SM_KIND_REPORT), false },
    { "sm_report_finding", report_finding, KIND(SM_KIND_REPORT), false },
    { "sm_report_sections", report_sections, KIND(SM_KIND_REPORT), false },
    { "sm_report_key", report_key, KIND(SM_KIND_REPORT), false },
    { "sm_report_sentence", report_sentence, KIND(SM_KIND_REPORT), false },
};
const size_t EXPORTS_COUNT = sizeof EXPORTS / sizeof EXPORTS[0];

static void fill_split(sm_handle *handle)
{
    sm_map index = SM_EMPTY;
    fill(&index, SM_KIND_INDEX);
    CHECK_NUMBER(sm_split_open(handle, &index, &error), SM_OK);
    sm_close(&index);
}

void fill(sm_handle *handle, uint32_t kind)
{
    bool is_legacy = false;
    switch (kind) {
    case SM_KIND_EMPTY:
        sm_close(handle);
        break;
    case SM_KIND_REGULAR:
        OPEN(handle, FULL_MAP);
        break;
    case SM_KIND_INDEX:
        OPEN(handle, BUNDLE_MAP);
        break;
    case SM_KIND_HERMES:
        OPEN(handle, "{\"mappings\":\"AAAA\",\"sources\":[\"a.js\"],\"ignoreList\":[0],\"x_facebook_sources\":[]}");
        break;
    case SM_KIND_BUILDER:
        CHECK_NUMBER(sm_builder_new(handle, false, NO_BYTES, 0, &error), SM_OK);
        break;
    case SM_KIND_VIEW:
        CHECK_NUMBER(sm_view_open(handle, BYTES("abc"), &error), SM_OK);
        break;
    case SM_KIND_BUNDLE:
        CHECK_NUMBER(sm_bundle_open(handle, BYTES(BUNDLE), &error), SM_OK);
        break;
    case SM_KIND_SPLIT:
        fill_split(handle);
        break;
    case SM_KIND_BYTES:
        CHECK_NUMBER(sm_locate_reference(BYTES("//# sourceMappingURL=a"), handle, &is_legacy, &error), SM_OK);
        break;
    case SM_KIND_SECTIONS:
        CHECK_NUMBER(sm_sections_new(handle, &error), SM_OK);
        break;
    case SM_KIND_REPORT:
        CHECK_NUMBER(sm_check(handle, BYTES(INVALID_MAP), false, NO_BYTES, 0, 20, &error), SM_OK);
        break;
    }
    CHECK_NUMBER(sm_kind(handle), kind);
}
