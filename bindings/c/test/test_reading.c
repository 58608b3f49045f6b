/* Counts, texts by id, the ignore list, tokens and their texts, and sections. */
#include "inputs.h"
#include "tests.h"

#include <stdio.h>
#include <stdlib.h>
#include <string.h>
#include <time.h>

static bool are_counts(sm_map *map, uint32_t tokens, uint32_t sources, uint32_t names, uint32_t ignored,
                       uint32_t sections)
{
    sm_counts counts = { 0 };
    return sm_count(map, &counts) == SM_OK && counts.tokens == tokens && counts.sources == sources
           && counts.names == names && counts.ignored == ignored && counts.sections == sections;
}

static void test_counts(void)
{
    sm_map map = SM_EMPTY;
    OPEN(&map, README_MAP);
    CHECK(are_counts(&map, 9, 1, 2, 0, 0));
    OPEN(&map, FULL_MAP);
    CHECK(are_counts(&map, 3, 2, 1, 1, 0));
    OPEN(&map, HERMES_MAP);
    CHECK(are_counts(&map, 2, 1, 0, 0, 0));
    OPEN(&map, INDEX_MAP);
    CHECK(are_counts(&map, 0, 0, 0, 0, 2));
    sm_close(&map);
}

typedef sm_code text_by_id(sm_map *map, uint32_t id, sm_text *text);

/* The text of an id, or none where `wanted` is a null pointer; then `text` is as it was. */
static void check_by_id(text_by_id *call, sm_map *map, uint32_t id, const char *wanted)
{
    sm_text text = text_of("before");
    CHECK_NUMBER(call(map, id, &text), wanted ? SM_OK : SM_ABSENT);
    CHECK_TEXT(text, wanted ? wanted : "before");
}

static void test_texts_by_id(void)
{
    sm_map map = SM_EMPTY;
    OPEN(&map, FULL_MAP);
    check_by_id(sm_source, &map, 0, "root/a.js");
    check_by_id(sm_source, &map, 1, "/b.js");
    check_by_id(sm_source, &map, 2, NULL);
    check_by_id(sm_source, &map, SM_NONE, NULL);
    check_by_id(sm_name, &map, 0, "n");
    check_by_id(sm_name, &map, 1, NULL);
    check_by_id(sm_contents, &map, 0, "let a;");
    check_by_id(sm_contents, &map, 1, NULL);
    check_by_id(sm_contents, &map, 2, NULL);
    OPEN(&map, "{\"sourceRoot\":\"webpack:///\",\"sources\":[\"./bar.js\"],\"mappings\":\"\"}");
    check_by_id(sm_source, &map, 0, "webpack:///./bar.js");
    OPEN(&map, INDEX_MAP);
    check_by_id(sm_source, &map, 0, NULL);
    check_by_id(sm_name, &map, 0, NULL);
    check_by_id(sm_contents, &map, 0, NULL);
    sm_close(&map);
}

static void test_file_and_root(void)
{
    sm_map map = SM_EMPTY;
    sm_text text = SM_TEXT_EMPTY;
    OPEN(&map, FULL_MAP);
    CHECK_NUMBER(sm_file(&map, &text), SM_OK);
    CHECK_TEXT(text, "out.js");
    CHECK_NUMBER(sm_source_root(&map, &text), SM_OK);
    CHECK_TEXT(text, "root");
    OPEN(&map, README_MAP);
    CHECK_NUMBER(sm_file(&map, &text), SM_ABSENT);
    CHECK_NUMBER(sm_source_root(&map, &text), SM_ABSENT);
    OPEN(&map, INDEX_MAP);
    CHECK_NUMBER(sm_file(&map, &text), SM_OK);
    CHECK_TEXT(text, "all.js");
    CHECK_NUMBER(sm_source_root(&map, &text), SM_ABSENT);
    sm_close(&map);
}

static void test_debug_ids(void)
{
    sm_map map = SM_EMPTY;
    sm_debug_id id = { { 0 } }, wanted = { DEBUG_ID_BYTES };
    OPEN(&map, "{\"mappings\":\"\",\"debugId\":\"" DEBUG_ID "\"}");
    CHECK_NUMBER(sm_get_debug_id(&map, &id), SM_OK);
    CHECK(memcmp(id.bytes, wanted.bytes, sizeof id.bytes) == 0);
    /* of both keys debugId counts */
    OPEN(&map, "{\"mappings\":\"\",\"debug_id\":\"11111111111111111111111111111111\","
               "\"debugId\":\"00000000000000000000000000000000\"}");
    CHECK_NUMBER(sm_get_debug_id(&map, &id), SM_OK);
    CHECK(memcmp(id.bytes, "\0\0\0\0\0\0\0\0\0\0\0\0\0\0\0\0", 16) == 0);
    OPEN(&map, README_MAP);
    CHECK_NUMBER(sm_get_debug_id(&map, &id), SM_ABSENT);
    sm_close(&map);
}

static void test_ignore_list(void)
{
    sm_map map = SM_EMPTY;
    uint32_t ids[4] = { 7, 7, 7, 7 };
    OPEN(&map, "{\"sources\":[\"a\",\"b\",\"c\",\"d\"],\"mappings\":\"\",\"ignoreList\":[3,0,2,0]}");
    CHECK_NUMBER(sm_ignore_list_from(&map, 0, ids, 4), 3);
    CHECK(ids[0] == 0 && ids[1] == 2 && ids[2] == 3 && ids[3] == 7);
    CHECK_NUMBER(sm_ignore_list_from(&map, 1, ids, 1), 1);
    CHECK(ids[0] == 2 && ids[1] == 2);
    CHECK_NUMBER(sm_ignore_list_from(&map, 3, ids, 4), 1);
    CHECK(ids[0] == 3 && ids[1] == 2);
    CHECK_NUMBER(sm_ignore_list_from(&map, 4, ids, 4), 0);
    CHECK_NUMBER(sm_ignore_list_from(&map, SM_NONE, ids, 4), 0);
    CHECK_NUMBER(sm_ignore_list_from(&map, 0, ids, 0), 0);
    OPEN(&map, "{\"sources\":[],\"mappings\":\"\",\"ignoreList\":[4294967295,4294967294]}");
    CHECK_NUMBER(sm_ignore_list_from(&map, SM_NONE, ids, 4), 1);
    CHECK(ids[0] == SM_NONE && ids[1] == 2);
    CHECK_NUMBER(sm_ignore_list_from(&map, 7, ids, 1), 1);
    CHECK(ids[0] == SM_NONE - 1);
    OPEN(&map, INDEX_MAP);
    CHECK_NUMBER(sm_ignore_list_from(&map, 0, ids, 4), 0);
    sm_close(&map);
}

#define IDS 100000
#define PAGE 100

/* Reads all ids by this many at a time, and returns the processor time that it took. */
static clock_t read_ids(sm_map *map, uint32_t *ids, size_t page)
{
    clock_t start = clock();
    uint32_t from = 0;
    size_t read = 0, count;
    do {
        count = sm_ignore_list_from(map, from, ids + read, page);
        read += count;
        from = count > 0 ? ids[read - 1] + 1 : from;
    } while (count == page && read < IDS);
    CHECK_NUMBER(read, IDS);
    return clock() - start;
}

static clock_t least(clock_t one, clock_t other)
{
    return one < other ? one : other;
}

/* Reading a long list by pages takes the time of the list, not of the list times the pages. */
static void test_ignore_list_by_pages(void)
{
    sm_map map = SM_EMPTY;
    uint32_t *ids = calloc(IDS, sizeof *ids);
    char *json = malloc(IDS * 8 + 64);
    clock_t by_pages = 0, at_once = 0;
    size_t length = 0, i, n, wrong = 0;
    length += (size_t)sprintf(json, "{\"sources\":[],\"mappings\":\"\",\"ignoreList\":[");
    for (i = 0; i < IDS; i++)
        length += (size_t)sprintf(json + length, i > 0 ? ",%lu" : "%lu", (unsigned long)(3 * i));
    sprintf(json + length, "]}");
    open_text(&map, json);
    for (n = 0; n < 5; n++) {
        clock_t time = read_ids(&map, ids, IDS);
        at_once = n > 0 ? least(at_once, time) : time;
        memset(ids, 0, IDS * sizeof *ids);
        time = read_ids(&map, ids, PAGE);
        by_pages = n > 0 ? least(by_pages, time) : time;
    }
    for (i = 0; i < IDS; i++)
        wrong += ids[i] != 3 * i;
    CHECK_NUMBER(wrong, 0);
    CHECK(by_pages < 20 * at_once + CLOCKS_PER_SEC / 200);
    sm_close(&map);
    free(json);
    free(ids);
}

static void test_tokens(void)
{
    sm_map map = SM_EMPTY;
    sm_token tokens[10] = { { 0 } };
    OPEN(&map, FULL_MAP);
    CHECK_NUMBER(sm_tokens(&map, 0, tokens, 10), 3);
    CHECK_TOKEN(tokens[0], 0, 0, 0, 0, 0, SM_NONE, false);
    CHECK_TOKEN(tokens[1], 0, 4, 1, 2, 1, 0, true);
    CHECK_TOKEN(tokens[2], 1, 2, SM_NONE, SM_NONE, SM_NONE, SM_NONE, false);
    CHECK_TOKEN(tokens[3], 0, 0, 0, 0, 0, 0, false);
    OPEN(&map, README_MAP);
    CHECK_NUMBER(sm_tokens(&map, 7, tokens, 10), 2);
    CHECK_TOKEN(tokens[0], 0, 18, 2, 2, 0, 1, false);
    CHECK_TOKEN(tokens[1], 0, 24, 2, 8, 0, SM_NONE, false);
    CHECK_NUMBER(sm_tokens(&map, 1, tokens, 1), 1);
    CHECK_TOKEN(tokens[0], 0, 3, 0, 4, 0, 0, false);
    CHECK_TOKEN(tokens[1], 0, 24, 2, 8, 0, SM_NONE, false);
    CHECK_NUMBER(sm_tokens(&map, 9, tokens, 10), 0);
    CHECK_NUMBER(sm_tokens(&map, SM_NONE, tokens, 10), 0);
    CHECK_NUMBER(sm_tokens(&map, 0, tokens, 0), 0);
    OPEN(&map, INDEX_MAP);
    CHECK_NUMBER(sm_tokens(&map, 0, tokens, 10), 0);
    sm_close(&map);
}

static void check_printed(sm_map *map, const char *const *wanted, uint32_t count)
{
    uint32_t index;
    for (index = 0; index < count; index++) {
        sm_bytes text = SM_EMPTY;
        sm_error error = { 0 };
        CHECK_NUMBER(sm_token_text(map, index, &text, &error), SM_OK);
        CHECK_NUMBER(error.code, SM_OK);
        CHECK_NUMBER(sm_kind(&text), SM_KIND_BYTES);
        CHECK_HOLDS(&text, wanted[index]);
        sm_close(&text);
    }
}

static void test_printed_tokens(void)
{
    /* the second one is a range token */
    static const char *const FULL[] = { "root/a.js:0:0", "/b.js:1:2 name=n", "<unknown>:4294967295:4294967295" };
    static const char *const NAMELESS[] = { "root/a.js:0:0", "/b.js:1:2", "<unknown>:4294967295:4294967295" };
    static const char *const DOUBLED[] = { "a.js:0:0", "a.js:1:0", "a.js:2:0", "a.js:3:0", "a.js:4:0" };
    static const char *const HERMES[] = { "a.js:0:0", "a.js:1:5" };
    sm_map map = SM_EMPTY;
    sm_error error = { 0 };
    OPEN(&map, FULL_MAP);
    check_printed(&map, FULL, 3);
    CHECK_NUMBER(sm_remove_names(&map, &error), SM_OK);
    check_printed(&map, NAMELESS, 3);
    OPEN(&map, DOUBLED_MAP);
    check_printed(&map, DOUBLED, 5);
    OPEN(&map, HERMES_MAP);
    check_printed(&map, HERMES, 2);
    sm_close(&map);
}

/* Ids of a map that was built may name nothing. */
static void test_printed_ids(void)
{
    static const char *const WANTED[] = { "<unknown>:1:2" };
    sm_builder builder = SM_EMPTY;
    sm_map map = SM_EMPTY;
    sm_error error = { 0 };
    sm_token token = token_of(0, 0, 1, 2, 5, 6, true);
    CHECK_NUMBER(sm_builder_new(&builder, false, BYTES(""), &error), SM_OK);
    CHECK_NUMBER(sm_builder_add_tokens(&builder, &token, 1, &error), 1);
    CHECK_NUMBER(sm_builder_finish(&builder, &map, &error), SM_OK);
    check_printed(&map, WANTED, 1);
    sm_close(&map);
}

static void test_no_printed_token(void)
{
    sm_map map = SM_EMPTY;
    sm_handle text = SM_EMPTY;
    sm_error error = { 0 };
    CHECK_ERROR(sm_token_text(&map, 0, &text, &error), &error, SM_WRONG_KIND,
                "the handle holds nothing that has this call");
    OPEN(&map, FULL_MAP);
    CHECK_ERROR(sm_token_text(&map, 3, &text, &error), &error, SM_ABSENT, "there is none");
    CHECK_NUMBER(sm_kind(&text), SM_KIND_EMPTY);
    OPEN(&text, README_MAP);
    CHECK_ERROR(sm_token_text(&map, SM_NONE, &text, &error), &error, SM_ABSENT, "there is none");
    OPEN(&map, INDEX_MAP);
    CHECK_ERROR(sm_token_text(&map, 0, &text, &error), &error, SM_WRONG_KIND,
                "the handle holds nothing that has this call");
    CHECK_HOLDS(&text, README_MAP);
    CHECK_HOLDS(&map, INDEX_MAP);
    sm_close(&map);
    sm_close(&text);
}

static void test_sections(void)
{
    sm_map map = SM_EMPTY, section = SM_EMPTY;
    sm_section_start start = { 0 };
    sm_text url = text_of("before");
    sm_error error = { 0 };
    OPEN(&map, INDEX_MAP);
    CHECK_NUMBER(sm_section_start_of(&map, 1, &start), SM_OK);
    CHECK(start.line == 10 && start.column == 4 && start.has_map && !start.has_url);
    CHECK_NUMBER(sm_section_start_of(&map, 2, &start), SM_ABSENT);
    CHECK_NUMBER(sm_section_url(&map, 1, &url), SM_ABSENT);
    CHECK_NUMBER(sm_section_url(&map, 2, &url), SM_ABSENT);
    CHECK_TEXT(url, "before");
    CHECK_NUMBER(sm_section(&map, 1, &section, &error), SM_OK);
    CHECK_ERROR(sm_section(&map, 2, &section, &error), &error, SM_ABSENT, "there is none");
    sm_close(&map);
    /* the section is a copy */
    CHECK_HOLDS(&section, "{\"mappings\":\"AAAA\",\"names\":[],\"sources\":[\"b.js\"],\"version\":3}");
    OPEN(&map, LINKED_MAP);
    CHECK_NUMBER(sm_section_start_of(&map, 0, &start), SM_OK);
    CHECK(start.line == 0 && start.column == 3 && !start.has_map && start.has_url);
    CHECK_NUMBER(sm_section_url(&map, 0, &url), SM_OK);
    CHECK_TEXT(url, "u");
    CHECK_ERROR(sm_section(&map, 0, &section, &error), &error, SM_ABSENT, "there is none");
    CHECK_NUMBER(sm_kind(&section), SM_KIND_REGULAR);
    sm_close(&map);
    sm_close(&section);
}

#define MODULES_MAP \
    "{\"sections\":[],\"x_facebook_offsets\":[5,null,7],\"x_metro_module_paths\":[\"a.js\",\"b.js\"]}"

static void test_modules(void)
{
    sm_map map = SM_EMPTY;
    uint32_t offsets[4] = { 1, 1, 1, 1 };
    size_t written = 99;
    sm_text path = text_of("before");
    OPEN(&map, MODULES_MAP);
    CHECK_NUMBER(sm_module_offsets(&map, 0, offsets, 4, &written), SM_OK);
    CHECK_NUMBER(written, 3);
    CHECK(offsets[0] == 5 && offsets[1] == SM_NONE && offsets[2] == 7 && offsets[3] == 1);
    CHECK_NUMBER(sm_module_offsets(&map, 2, offsets, 1, &written), SM_OK);
    CHECK_NUMBER(written, 1);
    CHECK(offsets[0] == 7 && offsets[1] == SM_NONE);
    CHECK_NUMBER(sm_module_offsets(&map, 3, offsets, 4, &written), SM_OK);
    CHECK_NUMBER(written, 0);
    CHECK_NUMBER(sm_module_path(&map, 2, &path), SM_ABSENT);
    CHECK_TEXT(path, "before");
    CHECK_NUMBER(sm_module_path(&map, 1, &path), SM_OK);
    CHECK_TEXT(path, "b.js");
    CHECK_NUMBER(sm_module_path_count(&map, &written), SM_OK);
    CHECK_NUMBER(written, 2);
    OPEN(&map, "{\"sections\":[],\"x_metro_module_paths\":[]}");
    CHECK_NUMBER(sm_module_path_count(&map, &written), SM_OK);
    CHECK_NUMBER(written, 0);
    OPEN(&map, INDEX_MAP);
    written = 99;
    CHECK_NUMBER(sm_module_path_count(&map, &written), SM_ABSENT);
    CHECK_NUMBER(sm_module_offsets(&map, 0, offsets, 4, &written), SM_ABSENT);
    CHECK_NUMBER(sm_module_path(&map, 0, &path), SM_ABSENT);
    CHECK(offsets[0] == 7 && written == 99);
    OPEN(&map, README_MAP);
    CHECK_NUMBER(sm_module_offsets(&map, 0, offsets, 4, &written), SM_WRONG_KIND);
    CHECK(offsets[0] == 7 && written == 99);
    sm_close(&map);
}

void test_reading(void)
{
    test_counts();
    test_texts_by_id();
    test_file_and_root();
    test_debug_ids();
    test_ignore_list();
    test_ignore_list_by_pages();
    test_tokens();
    test_printed_tokens();
    test_printed_ids();
    test_no_printed_token();
    test_sections();
    test_modules();
}
