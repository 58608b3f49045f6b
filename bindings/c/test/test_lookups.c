/* Lookups, one and many; texts of tokens; traces; names of functions. */
#include "inputs.h"
#include "tests.h"

static void test_regular(void)
{
    sm_map map = SM_EMPTY;
    OPEN(&map, README_MAP);
    CHECK_FOUND(&map, 0, 0, 0, 0, 0, 0, 0, SM_NONE, false);
    CHECK_FOUND(&map, 0, 5, 0, 3, 0, 4, 0, 0, false);
    CHECK_FOUND(&map, 0, 18, 0, 18, 2, 2, 0, 1, false);
    CHECK_FOUND(&map, 1, 0, 0, 24, 2, 8, 0, SM_NONE, false);
    CHECK_FOUND(&map, SM_NONE, SM_NONE, 0, 24, 2, 8, 0, SM_NONE, false);
    sm_close(&map);
}

/* A range token adds the distance of columns on its own line, and stops at the last column. */
static void test_ranges(void)
{
    sm_map map = SM_EMPTY;
    OPEN(&map, "{\"version\":3,\"sources\":[\"a.js\"],\"mappings\":\"AAAO\",\"rangeMappings\":\"B\"}");
    CHECK_FOUND(&map, 0, 5, 0, 0, 0, 12, 0, SM_NONE, true);
    CHECK_FOUND(&map, 3, 5, 0, 0, 0, 7, 0, SM_NONE, true);
    CHECK_FOUND(&map, 0, SM_NONE, 0, 0, 0, SM_NONE, 0, SM_NONE, true);
    OPEN(&map, "{\"version\":3,\"mappings\":\"A\",\"rangeMappings\":\"B\"}");
    CHECK_FOUND(&map, 0, 5, 0, 0, SM_NONE, SM_NONE, SM_NONE, SM_NONE, true);
    sm_close(&map);
}

static void test_index(void)
{
    sm_map map = SM_EMPTY;
    sm_error error = { 0 };
    OPEN(&map, INDEX_MAP);
    /* the token has its position in the map of its section */
    CHECK_FOUND(&map, 10, 4, 0, 0, 0, 0, 0, SM_NONE, false);
    CHECK_FOUND(&map, 10, 9, 0, 0, 0, 0, 0, SM_NONE, false);
    CHECK_NUMBER(sm_flatten(&map, &error), SM_OK);
    CHECK_FOUND(&map, 10, 4, 10, 4, 0, 0, 1, SM_NONE, false);
    CHECK_FOUND(&map, 10, 3, 0, 0, 0, 0, 0, SM_NONE, false);
    sm_close(&map);
}

static void test_none(void)
{
    sm_map map = SM_EMPTY;
    sm_found found = { { 1, 2, 3, 4, 5, 6, true }, true };
    sm_text text = text_of("before");
    OPEN(&map, "{\"version\":3,\"sources\":[\"a.js\"],\"mappings\":\";;EAAA\"}");
    CHECK_NUMBER(sm_lookup(&map, 2, 1, &found), SM_ABSENT);
    CHECK_TOKEN(found.token, 1, 2, 3, 4, 5, 6, true);
    CHECK(found.found);
    CHECK_NUMBER(sm_lookup_source(&map, 2, 1, &text), SM_ABSENT);
    CHECK_NUMBER(sm_lookup_name(&map, 2, 1, &text), SM_ABSENT);
    CHECK_TEXT(text, "before");
    CHECK_NUMBER(sm_lookup(&map, 2, 2, &found), SM_OK);
    OPEN(&map, LINKED_MAP);
    CHECK_NUMBER(sm_lookup(&map, 0, 3, &found), SM_ABSENT);
    sm_close(&map);
}

static void test_many(void)
{
    static const sm_position POSITIONS[] = { { 10, 4 }, { 0, 0 }, { 10, 3 }, { 11, 0 } };
    sm_map map = SM_EMPTY;
    sm_found found[4] = { { { 0 }, false } };
    size_t at;
    OPEN(&map, "{\"version\":3,\"sources\":[\"a.js\"],\"mappings\":\";;;;;;;;;;IAAE,CAAE\"}");
    for (at = 0; at < 4; at++)
        found[at].token.line = 99;
    CHECK_NUMBER(sm_lookup_many(&map, POSITIONS, 3, found, 4), 3);
    CHECK(found[0].found && !found[1].found && !found[2].found && !found[3].found);
    CHECK_TOKEN(found[0].token, 10, 4, 0, 2, 0, SM_NONE, false);
    CHECK_TOKEN(found[1].token, 0, 0, 0, 0, 0, 0, false);
    CHECK_TOKEN(found[2].token, 0, 0, 0, 0, 0, 0, false);
    CHECK_NUMBER(found[3].token.line, 99);
    CHECK_NUMBER(sm_lookup_many(&map, POSITIONS + 3, 1, found + 3, 1), 1);
    CHECK_TOKEN(found[3].token, 10, 5, 0, 4, 0, SM_NONE, false);
    CHECK_NUMBER(sm_lookup_many(&map, POSITIONS, 4, found, 2), 2);
    CHECK_NUMBER(sm_lookup_many(&map, POSITIONS, 0, found, 4), 0);
    sm_close(&map);
}

/* The closest token to a position has this index. */
static void check_index(sm_map *map, uint32_t line, uint32_t column, uint32_t index)
{
    uint32_t found = 99;
    CHECK_NUMBER(sm_lookup_index(map, line, column, &found), SM_OK);
    CHECK_NUMBER(found, index);
}

static void check_no_index(sm_map *map, uint32_t line, uint32_t column, sm_code code)
{
    uint32_t found = 99;
    CHECK_NUMBER(sm_lookup_index(map, line, column, &found), code);
    CHECK_NUMBER(found, 99);
}

static void test_indexes_of_position(void)
{
    sm_map map = SM_EMPTY;
    sm_error error = { 0 };
    check_no_index(&map, 0, 0, SM_WRONG_KIND);
    OPEN(&map, DOUBLED_MAP);
    check_no_index(&map, 0, 0, SM_ABSENT);
    check_index(&map, 0, 1, 0);
    check_index(&map, 0, 2, 1);
    check_index(&map, 0, 3, 2);
    check_index(&map, 0, 4, 3);
    check_index(&map, 1, 1, 3);
    check_index(&map, 1, 2, 4);
    check_index(&map, SM_NONE, SM_NONE, 4);
    OPEN(&map, HERMES_MAP);
    check_index(&map, 0, 7, 1);
    OPEN(&map, INDEX_MAP);
    check_no_index(&map, 10, 4, SM_WRONG_KIND);
    CHECK_NUMBER(sm_flatten(&map, &error), SM_OK);
    check_index(&map, 10, 4, 1);
    OPEN(&map, "{\"version\":3,\"mappings\":\"\"}");
    check_no_index(&map, 0, 0, SM_ABSENT);
    sm_close(&map);
}

static void test_texts_of_position(void)
{
    sm_map map = SM_EMPTY;
    sm_text text = SM_TEXT_EMPTY;
    OPEN(&map, FULL_MAP);
    CHECK_NUMBER(sm_lookup_source(&map, 0, 1, &text), SM_OK);
    CHECK_TEXT(text, "root/a.js");
    CHECK_NUMBER(sm_lookup_name(&map, 0, 1, &text), SM_ABSENT);
    CHECK_NUMBER(sm_lookup_name(&map, 0, 5, &text), SM_OK);
    CHECK_TEXT(text, "n");
    CHECK_NUMBER(sm_lookup_source(&map, 1, 2, &text), SM_ABSENT);
    /* in an index map the ids are those of the section's map */
    OPEN(&map, INDEX_MAP);
    CHECK_NUMBER(sm_lookup_source(&map, 10, 4, &text), SM_OK);
    CHECK_TEXT(text, "b.js");
    CHECK_NUMBER(sm_lookup_source(&map, 10, 3, &text), SM_OK);
    CHECK_TEXT(text, "a.js");
    sm_close(&map);
}

/* The text of the closest token is this one. */
static void check_text_at(sm_map *map, uint32_t line, uint32_t column, const char *wanted)
{
    sm_bytes text = SM_EMPTY;
    sm_error error = { 0 };
    CHECK_NUMBER(sm_lookup_text(map, line, column, &text, &error), SM_OK);
    CHECK_NUMBER(error.code, SM_OK);
    CHECK_HOLDS(&text, wanted);
    sm_close(&text);
}

static void check_no_text_at(sm_map *map, uint32_t line, uint32_t column, sm_code code, const char *why)
{
    sm_handle text = SM_EMPTY;
    sm_error error = { 0 };
    CHECK_ERROR(sm_lookup_text(map, line, column, &text, &error), &error, code, why);
    CHECK_NUMBER(sm_kind(&text), SM_KIND_EMPTY);
    CHECK_NUMBER(sm_view_open(&text, BYTES("before"), &error), SM_OK);
    CHECK_ERROR(sm_lookup_text(map, line, column, &text, &error), &error, code, why);
    CHECK_HOLDS(&text, "before");
    sm_close(&text);
}

static void test_printed(void)
{
    sm_map map = SM_EMPTY;
    sm_error error = { 0 };
    OPEN(&map, README_MAP);
    check_text_at(&map, 0, 0, "coolstuff.js:0:0");
    check_text_at(&map, 0, 5, "coolstuff.js:0:4 name=x");
    check_text_at(&map, 1, 0, "coolstuff.js:2:8");
    CHECK_NUMBER(sm_remove_names(&map, &error), SM_OK);
    check_text_at(&map, 0, 5, "coolstuff.js:0:4");
    OPEN(&map, FULL_MAP);
    check_text_at(&map, 0, 3, "root/a.js:0:0");
    /* a range token, on its own line and on another one */
    check_text_at(&map, 0, 4, "/b.js:1:2 name=n");
    check_text_at(&map, 0, 6, "/b.js:1:4 name=n");
    check_text_at(&map, 0, SM_NONE, "/b.js:1:4294967293 name=n");
    check_text_at(&map, 1, 1, "/b.js:1:2 name=n");
    check_text_at(&map, 1, 2, "<unknown>:4294967295:4294967295");
    /* the first token at the position, and the last one after it */
    OPEN(&map, DOUBLED_MAP);
    check_text_at(&map, 0, 2, "a.js:1:0");
    check_text_at(&map, 0, 3, "a.js:2:0");
    OPEN(&map, HERMES_MAP);
    check_text_at(&map, 0, 7, "a.js:1:5");
    OPEN(&map, INDEX_MAP);
    check_text_at(&map, 10, 4, "b.js:0:0");
    check_text_at(&map, 10, 3, "a.js:0:0");
    sm_close(&map);
}

static void test_not_printed(void)
{
    sm_map map = SM_EMPTY;
    sm_error error = { 0 };
    check_no_text_at(&map, 0, 0, SM_WRONG_KIND, "the handle holds nothing that has this call");
    CHECK_NUMBER(sm_view_open(&map, BYTES("a"), &error), SM_OK);
    check_no_text_at(&map, 0, 0, SM_WRONG_KIND, "the handle holds nothing that has this call");
    OPEN(&map, DOUBLED_MAP);
    check_no_text_at(&map, 0, 0, SM_ABSENT, "there is none");
    OPEN(&map, LINKED_MAP);
    check_no_text_at(&map, 0, 2, SM_ABSENT, "there is none");
    check_no_text_at(&map, 0, 3, SM_ABSENT, "there is none");
    sm_close(&map);
}

static void test_trace(void)
{
    sm_map map = SM_EMPTY;
    sm_bytes text = SM_EMPTY;
    sm_error error = { 0 };
    OPEN(&map, README_MAP);
    CHECK_NUMBER(sm_trace(&map, BYTES("0:5\n0:0\n1:0\n"), &text, &error), SM_OK);
    CHECK_HOLDS(&text, "coolstuff.js:0:4 name=x\ncoolstuff.js:0:0\ncoolstuff.js:2:8\n");
    CHECK_NUMBER(sm_trace(&map, BYTES("0:18\n\nx\n0:5\r\n4294967296:0\n007:0"), &text, &error), SM_OK);
    CHECK_HOLDS(&text, "coolstuff.js:2:2 name=alert\nbad position\nbad position\nbad position\nbad position\n"
                       "coolstuff.js:2:8\n");
    CHECK_NUMBER(sm_trace(&map, BYTES(""), &text, &error), SM_OK);
    CHECK_HOLDS(&text, "");
    OPEN(&map, "{\"version\":3,\"mappings\":\";A\"}");
    CHECK_NUMBER(sm_trace(&map, BYTES("0:0\n1:0\n"), &text, &error), SM_OK);
    CHECK_HOLDS(&text, "none\n<unknown>:4294967295:4294967295\n");
    sm_close(&map);
    sm_close(&text);
}

static void test_function_names(void)
{
    sm_map map = SM_EMPTY;
    sm_view view = SM_EMPTY;
    sm_text name = text_of("before");
    sm_error error = { 0 };
    /* tokens at `function` and at `b`, which is called foo */
    OPEN(&map, "{\"version\":3,\"sources\":[\"a.js\"],\"names\":[\"foo\"],\"mappings\":\"AAAA,SAAAA\"}");
    CHECK_NUMBER(sm_view_open(&view, BYTES("function b(){}"), &error), SM_OK);
    CHECK_NUMBER(sm_function_name(&map, 0, 9, BYTES("b"), &view, &name), SM_OK);
    CHECK_TEXT(name, "foo");
    CHECK_NUMBER(sm_function_name(&map, 0, 9, BYTES("c"), &view, &name), SM_ABSENT);
    CHECK_NUMBER(sm_function_name(&map, 0, 9, BYTES("no name"), &view, &name), SM_ABSENT);
    CHECK_NUMBER(sm_function_name(&map, 0, 0, BYTES("b"), &view, &name), SM_ABSENT);
    CHECK_NUMBER(sm_hermes_function_name(&map, 0, &name), SM_WRONG_KIND);
    CHECK_TEXT(name, "foo");
    OPEN(&map, HERMES_MAP);
    CHECK_NUMBER(sm_hermes_function_name(&map, 0, &name), SM_OK);
    CHECK_TEXT(name, "<global>");
    CHECK_NUMBER(sm_hermes_function_name(&map, 7, &name), SM_OK);
    CHECK_TEXT(name, "foo");
    CHECK_NUMBER(sm_function_name(&map, 0, 0, BYTES(""), &view, &name), SM_OK);
    CHECK_TEXT(name, "<global>");
    CHECK_NUMBER(sm_function_name(&map, 1, 0, BYTES(""), &view, &name), SM_ABSENT);
    /* `foo` begins at 1:5 of the source */
    CHECK_NUMBER(sm_scope_for(&map, 0, 1, 5, &name), SM_OK);
    CHECK_TEXT(name, "foo");
    CHECK_NUMBER(sm_scope_for(&map, 0, 1, 4, &name), SM_OK);
    CHECK_TEXT(name, "<global>");
    CHECK_NUMBER(sm_scope_for(&map, 0, SM_NONE, SM_NONE, &name), SM_OK);
    CHECK_TEXT(name, "foo");
    CHECK_NUMBER(sm_scope_for(&map, 1, 1, 5, &name), SM_ABSENT);
    CHECK_NUMBER(sm_scope_for(&map, SM_NONE, 1, 5, &name), SM_ABSENT);
    CHECK_TEXT(name, "foo");
    OPEN(&map, INDEX_MAP);
    CHECK_NUMBER(sm_function_name(&map, 0, 9, BYTES("b"), &view, &name), SM_ABSENT);
    sm_close(&map);
    sm_close(&view);
}

void test_lookups(void)
{
    test_regular();
    test_ranges();
    test_index();
    test_none();
    test_many();
    test_indexes_of_position();
    test_texts_of_position();
    test_printed();
    test_not_printed();
    test_trace();
    test_function_names();
}
