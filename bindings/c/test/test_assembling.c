/* Index maps that are made of sections. */
#include "inputs.h"
#include "tests.h"

#include <string.h>

#define A_MAP "{\"mappings\":\"AAAA\",\"names\":[],\"sources\":[\"a.js\"],\"version\":3}"
#define B_MAP "{\"mappings\":\"AAAA\",\"names\":[],\"sources\":[\"b.js\"],\"version\":3}"

static const uint32_t ANY_LINE[1] = { 0 };
static const sm_text ANY_PATH[1] = { SM_TEXT_EMPTY };

/* The arguments of a part that is not there. */
#define NO_TEXT false, BYTES("")
#define NO_OFFSETS false, ANY_LINE, 0
#define NO_PATHS false, ANY_PATH, 0

static void begin(sm_sections *sections)
{
    sm_error error = { 0 };
    CHECK_NUMBER(sm_sections_new(sections, &error), SM_OK);
    CHECK_NUMBER(sm_kind(sections), SM_KIND_SECTIONS);
}

static void add_map(sm_sections *sections, uint32_t line, uint32_t column, sm_map *map)
{
    sm_error error = { 0 };
    CHECK_NUMBER(sm_sections_add(sections, line, column, NO_TEXT, true, map, &error), SM_OK);
}

static void finish(sm_sections *sections, sm_map *map)
{
    sm_error error = { 0 };
    CHECK_NUMBER(sm_sections_finish(sections, map, NO_TEXT, NO_OFFSETS, NO_PATHS, &error), SM_OK);
    CHECK_NUMBER(sm_kind(sections), SM_KIND_EMPTY);
}

/* The sections of INDEX_MAP. */
static void add_two(sm_sections *sections)
{
    sm_map a = SM_EMPTY, b = SM_EMPTY;
    OPEN(&a, A_MAP);
    OPEN(&b, B_MAP);
    begin(sections);
    add_map(sections, 0, 0, &a);
    add_map(sections, 10, 4, &b);
    CHECK_HOLDS(&b, B_MAP);
    sm_close(&a);
    sm_close(&b);
}

/* An index map that is made is the one that is opened. */
static void test_two_sections(void)
{
    static const sm_position POSITIONS[] = { { 0, 0 }, { 10, 3 }, { 10, 4 }, { 99, 0 } };
    sm_sections sections = SM_EMPTY;
    sm_map made = SM_EMPTY, opened = SM_EMPTY;
    sm_error error = { 0 };
    sm_section_start start = { 0 };
    sm_text text = SM_TEXT_EMPTY;
    size_t i;
    add_two(&sections);
    OPEN(&made, README_MAP);
    CHECK_NUMBER(sm_sections_finish(&sections, &made, true, BYTES("all.js"), NO_OFFSETS, NO_PATHS, &error), SM_OK);
    CHECK_NUMBER(sm_kind(&sections), SM_KIND_EMPTY);
    CHECK_NUMBER(sm_kind(&made), SM_KIND_INDEX);
    CHECK_HOLDS(&made, INDEX_MAP);
    OPEN(&opened, INDEX_MAP);
    for (i = 0; i < sizeof POSITIONS / sizeof POSITIONS[0]; i++) {
        sm_found one = { { 0 }, false }, other = { { 0 }, false };
        CHECK_NUMBER(sm_lookup(&made, POSITIONS[i].line, POSITIONS[i].column, &one), SM_OK);
        CHECK_NUMBER(sm_lookup(&opened, POSITIONS[i].line, POSITIONS[i].column, &other), SM_OK);
        CHECK_TOKEN(one.token, other.token.line, other.token.column, other.token.original_line,
                    other.token.original_column, other.token.source, other.token.name, other.token.is_range);
        CHECK_NUMBER(sm_lookup_source(&made, POSITIONS[i].line, POSITIONS[i].column, &text), SM_OK);
        CHECK_TEXT(text, i < 2 ? "a.js" : "b.js");
    }
    CHECK_NUMBER(sm_section_start_of(&made, 1, &start), SM_OK);
    CHECK(start.line == 10 && start.column == 4 && start.has_map && !start.has_url);
    CHECK_NUMBER(sm_flatten(&made, &error), SM_OK);
    CHECK_HOLDS(&made, INDEX_MAP_FLAT);
    sm_close(&made);
    sm_close(&opened);
}

/* A URL, both lists of a RAM bundle, and sections that hold an index map and a Hermes map. */
static void test_all_parts(void)
{
    static const uint32_t OFFSETS[] = { 5, SM_NONE, 0 };
    sm_text paths[2];
    sm_sections sections = SM_EMPTY;
    sm_map map = SM_EMPTY, inner = SM_EMPTY, hermes = SM_EMPTY;
    sm_error error = { 0 };
    sm_text text = SM_TEXT_EMPTY;
    uint32_t offsets[4] = { 1, 1, 1, 1 };
    size_t written = 0;
    paths[0] = text_of("a.js");
    paths[1] = text_of("b\xc3\xa9.js");
    add_two(&sections);
    finish(&sections, &inner);
    OPEN(&hermes, HERMES_MAP);
    begin(&sections);
    CHECK_NUMBER(sm_sections_add(&sections, 0, 3, true, BYTES("u"), false, &map, &error), SM_OK);
    add_map(&sections, 1, 0, &inner);
    CHECK_NUMBER(sm_sections_add(&sections, 20, 0, true, BYTES("h"), true, &hermes, &error), SM_OK);
    CHECK_NUMBER(sm_sections_finish(&sections, &map, NO_TEXT, true, OFFSETS, 3, true, paths, 2, &error), SM_OK);
    CHECK_NUMBER(sm_section_url(&map, 0, &text), SM_OK);
    CHECK_TEXT(text, "u");
    CHECK_NUMBER(sm_section_url(&map, 1, &text), SM_ABSENT);
    CHECK_NUMBER(sm_lookup_source(&map, 0, 3, &text), SM_ABSENT);
    CHECK_NUMBER(sm_lookup_source(&map, 11, 4, &text), SM_OK);
    CHECK_TEXT(text, "b.js");
    CHECK_NUMBER(sm_module_offsets(&map, 0, offsets, 4, &written), SM_OK);
    CHECK_NUMBER(written, 3);
    CHECK(memcmp(offsets, OFFSETS, sizeof OFFSETS) == 0 && offsets[3] == 1);
    CHECK_NUMBER(sm_module_path(&map, 1, &text), SM_OK);
    CHECK_TEXT(text, "b\xc3\xa9.js");
    CHECK_NUMBER(sm_module_path(&map, 2, &text), SM_ABSENT);
    CHECK_NUMBER(sm_section(&map, 2, &inner, &error), SM_OK);
    CHECK_NUMBER(sm_kind(&inner), SM_KIND_HERMES);
    sm_close(&map);
    sm_close(&inner);
    sm_close(&hermes);
}

/* Lists that are empty, and none. */
static void test_empty(void)
{
    sm_sections sections = SM_EMPTY;
    sm_map map = SM_EMPTY;
    sm_error error = { 0 };
    begin(&sections);
    finish(&sections, &map);
    CHECK_HOLDS(&map, "{\"sections\":[],\"sources\":null,\"version\":3}");
    begin(&sections);
    CHECK_NUMBER(sm_sections_finish(&sections, &map, true, BYTES(""), true, ANY_LINE, 0, true, ANY_PATH, 0, &error),
                 SM_OK);
    CHECK_HOLDS(&map, "{\"file\":\"\",\"sections\":[],\"sources\":null,\"version\":3,\"x_facebook_offsets\":[],"
                      "\"x_metro_module_paths\":[]}");
    sm_close(&map);
}

/* A call that is refused leaves its handles as they were. */
static void test_refused(void)
{
    sm_sections sections = SM_EMPTY;
    sm_map map = SM_EMPTY, none = SM_EMPTY;
    sm_error error = { 0 };
    sm_text paths[2];
    paths[0] = text_of("a.js");
    paths[1] = text_of("\xff");
    OPEN(&map, A_MAP);
    CHECK_ERROR(sm_sections_add(&none, 0, 0, NO_TEXT, true, &map, &error), &error, SM_WRONG_KIND,
                "the handle holds nothing that has this call");
    add_two(&sections);
    CHECK_NUMBER(sm_sections_add(&sections, 20, 0, true, BYTES("\xff"), true, &map, &error), SM_UTF8);
    CHECK_NUMBER(sm_sections_add(&sections, 20, 0, false, BYTES("\xff"), true, &none, &error), SM_WRONG_KIND);
    CHECK_NUMBER(sm_sections_finish(&sections, &map, true, BYTES("\xff"), NO_OFFSETS, NO_PATHS, &error), SM_UTF8);
    CHECK_NUMBER(sm_sections_finish(&sections, &map, NO_TEXT, NO_OFFSETS, true, paths, 2, &error), SM_UTF8);
    CHECK_NUMBER(sm_kind(&sections), SM_KIND_SECTIONS);
    CHECK_NUMBER(sm_sections_finish(&none, &map, NO_TEXT, NO_OFFSETS, NO_PATHS, &error), SM_WRONG_KIND);
    CHECK_HOLDS(&map, A_MAP);
    CHECK_NUMBER(sm_sections_finish(&sections, &map, true, BYTES("all.js"), NO_OFFSETS, false, paths, 2, &error),
                 SM_OK);
    CHECK_HOLDS(&map, INDEX_MAP);
    sm_close(&map);
}

/* A handle that holds a map has no sections, and keeps its map. */
static void test_no_sections(void)
{
    sm_map map = SM_EMPTY, other = SM_EMPTY;
    sm_error error = { 0 };
    OPEN(&map, A_MAP);
    OPEN(&other, B_MAP);
    CHECK_ERROR(sm_sections_add(&map, 0, 0, NO_TEXT, true, &other, &error), &error, SM_WRONG_KIND,
                "the handle holds nothing that has this call");
    CHECK_HOLDS(&map, A_MAP);
    CHECK_ERROR(sm_sections_finish(&map, &other, NO_TEXT, NO_OFFSETS, NO_PATHS, &error), &error, SM_WRONG_KIND,
                "the handle holds nothing that has this call");
    CHECK_HOLDS(&map, A_MAP);
    CHECK_HOLDS(&other, B_MAP);
    sm_close(&map);
    sm_close(&other);
}

void test_assembling(void)
{
    test_two_sections();
    test_all_parts();
    test_empty();
    test_refused();
    test_no_sections();
}
