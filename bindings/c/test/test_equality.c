/* Whether two maps hold the same, and the regular map in a Hermes map. */
#include "inputs.h"
#include "tests.h"

#include <stdio.h>
#include <string.h>

#define NOTHING_HAS_IT "the handle holds nothing that has this call"

/* Compares two maps in either order. */
static void check_equal(sm_map *map, sm_map *other, bool wanted)
{
    bool answer = !wanted;
    CHECK_NUMBER(sm_equal(map, other, &answer), SM_OK);
    CHECK_NUMBER(answer, wanted);
    answer = !wanted;
    CHECK_NUMBER(sm_equal(other, map, &answer), SM_OK);
    CHECK_NUMBER(answer, wanted);
}

/* The same for the maps that two texts hold. */
static void check_texts(const char *json, const char *other_json, bool wanted)
{
    sm_map map = SM_EMPTY, other = SM_EMPTY;
    open_text(&map, json);
    open_text(&other, other_json);
    check_equal(&map, &other, wanted);
    sm_close(&map);
    sm_close(&other);
}

static void test_equal_maps(void)
{
    static const char *const ROWS[][2] = {
        { README_MAP, README_MAP },
        { FULL_MAP, FULL_MAP },
        { INDEX_MAP, INDEX_MAP },
        { LINKED_MAP, LINKED_MAP },
        { HERMES_MAP, HERMES_MAP },
        { BUNDLE_MAP, BUNDLE_MAP },
        { FULL_MAP, ")]}'\n" FULL_MAP },
        /* keys in another order, and some that say nothing */
        { "{\"sources\":[],\"version\":3,\"mappings\":\"A\",\"names\":[],\"other\":1}", "{\"mappings\":\"A\"}" },
        /* ignored sources have no order */
        { "{\"sources\":[\"a\",\"b\"],\"mappings\":\"\",\"ignoreList\":[1,0,1]}",
          "{\"sources\":[\"a\",\"b\"],\"mappings\":\"\",\"ignoreList\":[0,1]}" },
    };
    size_t row;
    for (row = 0; row < sizeof ROWS / sizeof ROWS[0]; row++)
        check_texts(ROWS[row][0], ROWS[row][1], true);
}

/* The text with `to` instead of the first `from`. */
static void with_change(char *changed, size_t size, const char *json, const char *from, const char *to)
{
    const char *at = strstr(json, from);
    CHECK(at != NULL);
    if (at)
        snprintf(changed, size, "%.*s%s%s", (int)(at - json), json, to, at + strlen(from));
}

/* Texts, each with a part of it and what replaces that part in another map. */
static const struct {
    const char *json, *from, *to;
} PARTS[] = {
    { FULL_MAP, "2a\"", "2b\"" },
    { FULL_MAP, "\"debugId\":\"00000000-0000-0000-0000-00000000002a\",", "" },
    { FULL_MAP, "out.js", "in.js" },
    { FULL_MAP, "\"file\":\"out.js\",", "" },
    { FULL_MAP, "\"ignoreList\":[1]", "\"ignoreList\":[0]" },
    { FULL_MAP, "\"ignoreList\":[1],", "" },
    /* the original column, the generated column, a name, one token more */
    { FULL_MAP, "AAAA,", "AAAC," },
    { FULL_MAP, ";E", ";G" },
    { FULL_MAP, "ICCEA", "ICCE" },
    { FULL_MAP, ";E", ";E,C" },
    { FULL_MAP, "\"C;\"", "\"B;\"" },
    { FULL_MAP, "[\"n\"]", "[\"m\"]" },
    { FULL_MAP, "[\"n\"]", "[\"n\",\"m\"]" },
    { FULL_MAP, "\"root\"", "\"r\"" },
    { FULL_MAP, "a.js", "c.js" },
    { FULL_MAP, "let a;", "let b;" },
    { FULL_MAP, ",null]", ",\"\"]" },
    /* no contents of the last source, which is written alike */
    { FULL_MAP, ",null]", "]" },
    { INDEX_MAP, "all.js", "any.js" },
    { INDEX_MAP, "b.js", "c.js" },
    { INDEX_MAP, "\"line\":10", "\"line\":11" },
    { INDEX_MAP, "\"column\":4", "\"column\":5" },
    { INDEX_MAP, "\"url\":null", "\"url\":\"u\"" },
    { LINKED_MAP, "\"u\"", "\"v\"" },
    { BUNDLE_MAP, "[5]", "[6]" },
    { BUNDLE_MAP, ",\"x_facebook_offsets\":[5]", "" },
    { BUNDLE_MAP, "[5]", "[5],\"x_metro_module_paths\":[\"a.js\"]" },
    { HERMES_MAP, "a.js", "b.js" },
    { HERMES_MAP, "foo", "bar" },
    { HERMES_MAP, "KCC", "KCE" },
};

static void test_one_other_part(void)
{
    char changed[1024] = "";
    size_t row;
    for (row = 0; row < sizeof PARTS / sizeof PARTS[0]; row++) {
        with_change(changed, sizeof changed, PARTS[row].json, PARTS[row].from, PARTS[row].to);
        check_texts(PARTS[row].json, changed, false);
    }
}

static void test_other_maps(void)
{
    static const char *const ROWS[][2] = {
        /* other kinds */
        { README_MAP, INDEX_MAP },
        { INDEX_MAP_FLAT, INDEX_MAP },
        { INDEX_MAP, HERMES_MAP },
        { HERMES_MAP_REGULAR, HERMES_MAP },
        /* one source, written in two ways */
        { "{\"sourceRoot\":\"root\",\"sources\":[\"a.js\"],\"mappings\":\"AAAA\"}",
          "{\"sources\":[\"root/a.js\"],\"mappings\":\"AAAA\"}" },
        /* tokens with the same texts, and lists in another order */
        { "{\"names\":[\"x\",\"y\"],\"sources\":[\"a\",\"b\"],\"mappings\":\"AAAAA,CCAAC\"}",
          "{\"names\":[\"y\",\"x\"],\"sources\":[\"b\",\"a\"],\"mappings\":\"ACAAC,CDAAD\"}" },
        /* tokens at one position in another order */
        { "{\"sources\":[\"a\"],\"mappings\":\"AAAA,AACA\"}", "{\"sources\":[\"a\"],\"mappings\":\"AACA,AADA\"}" },
        /* a token that is there twice, which is written once */
        { "{\"sources\":[\"a\"],\"mappings\":\"AAAA,AAAA\"}", "{\"sources\":[\"a\"],\"mappings\":\"AAAA\"}" },
    };
    size_t row;
    for (row = 0; row < sizeof ROWS / sizeof ROWS[0]; row++)
        check_texts(ROWS[row][0], ROWS[row][1], false);
}

/* Two handles on one map, and a change of one of them that is undone. */
static void test_shared(void)
{
    sm_map map = SM_EMPTY, other = SM_EMPTY;
    sm_error error = { 0 };
    OPEN(&map, README_MAP);
    CHECK_NUMBER(sm_share(&map, &other, &error), SM_OK);
    check_equal(&map, &other, true);
    CHECK_NUMBER(sm_set_file(&other, true, BYTES("f"), &error), SM_OK);
    check_equal(&map, &other, false);
    CHECK_NUMBER(sm_set_file(&other, false, BYTES(""), &error), SM_OK);
    check_equal(&map, &other, true);
    CHECK_NUMBER(sm_remove_names(&other, &error), SM_OK);
    check_equal(&map, &other, false);
    CHECK_HOLDS(&map, README_MAP);
    sm_close(&map);
    sm_close(&other);
}

/* Compares in either order: the answer is as it was. */
static void check_no_answer(sm_handle *handle, sm_handle *other)
{
    bool answer = true;
    CHECK_NUMBER(sm_equal(handle, other, &answer), SM_WRONG_KIND);
    CHECK(answer);
    answer = false;
    CHECK_NUMBER(sm_equal(other, handle, &answer), SM_WRONG_KIND);
    CHECK(!answer);
}

static void test_no_maps(void)
{
    sm_map map = SM_EMPTY;
    sm_handle empty = SM_EMPTY, other_empty = SM_EMPTY, view = SM_EMPTY;
    sm_error error = { 0 };
    OPEN(&map, README_MAP);
    CHECK_NUMBER(sm_view_open(&view, BYTES("a"), &error), SM_OK);
    check_no_answer(&map, &empty);
    check_no_answer(&map, &view);
    check_no_answer(&view, &empty);
    check_no_answer(&empty, &other_empty);
    CHECK_HOLDS(&map, README_MAP);
    CHECK_HOLDS(&view, "a");
    sm_close(&map);
    sm_close(&view);
}

/* The regular map answers as the Hermes map does, and has no functions. */
static void test_hermes_map(void)
{
    sm_map map = SM_EMPTY, regular = SM_EMPTY, read = SM_EMPTY;
    sm_text name = text_of("before");
    sm_error error = { 0 };
    OPEN(&map, HERMES_MAP);
    OPEN(&regular, README_MAP);
    CHECK_NUMBER(sm_hermes_map(&map, &regular, &error), SM_OK);
    CHECK_NUMBER(error.code, SM_OK);
    CHECK_NUMBER(sm_kind(&regular), SM_KIND_REGULAR);
    CHECK_HOLDS(&regular, HERMES_MAP_REGULAR);
    OPEN(&read, HERMES_MAP_REGULAR);
    check_equal(&regular, &read, true);
    check_equal(&regular, &map, false);
    CHECK_FOUND(&regular, 0, 4, 0, 0, 0, 0, 0, SM_NONE, false);
    CHECK_FOUND(&map, 0, 4, 0, 0, 0, 0, 0, SM_NONE, false);
    CHECK_FOUND(&regular, 0, 7, 0, 5, 1, 5, 0, SM_NONE, false);
    CHECK_FOUND(&map, 0, 7, 0, 5, 1, 5, 0, SM_NONE, false);
    CHECK_NUMBER(sm_hermes_function_name(&regular, 7, &name), SM_WRONG_KIND);
    CHECK_TEXT(name, "before");
    CHECK_NUMBER(sm_hermes_function_name(&map, 7, &name), SM_OK);
    CHECK_TEXT(name, "foo");
    /* a copy */
    CHECK_NUMBER(sm_set_source(&regular, 0, BYTES("b.js"), &error), SM_OK);
    CHECK_HOLDS(&map, HERMES_MAP);
    sm_close(&map);
    CHECK_FOUND(&regular, 0, 7, 0, 5, 1, 5, 0, SM_NONE, false);
    sm_close(&regular);
    sm_close(&read);
}

/* A regular map with every part; functions that are added make it a Hermes map. */
static void test_full_hermes_map(void)
{
    sm_map map = SM_EMPTY, regular = SM_EMPTY, read = SM_EMPTY;
    sm_error error = { 0 };
    char json[1024] = "";
    with_change(json, sizeof json, FULL_MAP, "\"version\":3}", "\"version\":3,\"x_facebook_sources\":[null]}");
    open_text(&map, json);
    CHECK_NUMBER(sm_kind(&map), SM_KIND_HERMES);
    CHECK_NUMBER(sm_hermes_map(&map, &regular, &error), SM_OK);
    CHECK_HOLDS(&regular, FULL_MAP);
    OPEN(&read, FULL_MAP);
    check_equal(&regular, &read, true);
    sm_close(&map);
    sm_close(&regular);
    sm_close(&read);
}

static void test_no_hermes_map(void)
{
    sm_map map = SM_EMPTY, regular = SM_EMPTY;
    sm_error error = { 0 };
    OPEN(&regular, FULL_MAP);
    CHECK_ERROR(sm_hermes_map(&map, &regular, &error), &error, SM_WRONG_KIND, NOTHING_HAS_IT);
    OPEN(&map, README_MAP);
    CHECK_ERROR(sm_hermes_map(&map, &regular, &error), &error, SM_WRONG_KIND, NOTHING_HAS_IT);
    OPEN(&map, INDEX_MAP);
    CHECK_ERROR(sm_hermes_map(&map, &regular, &error), &error, SM_WRONG_KIND, NOTHING_HAS_IT);
    CHECK_HOLDS(&regular, FULL_MAP);
    CHECK_HOLDS(&map, INDEX_MAP);
    sm_close(&map);
    sm_close(&regular);
}

void test_equality(void)
{
    test_equal_maps();
    test_one_other_part();
    test_other_maps();
    test_shared();
    test_no_maps();
    test_hermes_map();
    test_full_hermes_map();
    test_no_hermes_map();
}
