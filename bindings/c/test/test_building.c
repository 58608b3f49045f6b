/* Maps that are built. */
#include "inputs.h"
#include "tests.h"

#include <string.h>

static const uint8_t NO_BYTES[1] = { 0 };

static uint32_t add(sm_code (*call)(sm_builder *, const uint8_t *, size_t, uint32_t *, sm_error *), sm_builder *builder,
                    const char *text)
{
    sm_error error = { 0 };
    uint32_t id = SM_NONE;
    CHECK_NUMBER(call(builder, (const uint8_t *)text, strlen(text), &id, &error), SM_OK);
    return id;
}

static void test_all_parts(void)
{
    static const sm_debug_id ID = { { 0, 0, 0, 0, 0, 0, 0, 0, 0, 0, 0, 0, 0, 0, 0, 42 } };
    sm_builder builder = SM_EMPTY;
    sm_map map = SM_EMPTY;
    sm_error error = { 0 };
    sm_token tokens[3];
    tokens[0] = token_of(1, 2, SM_NONE, SM_NONE, SM_NONE, SM_NONE, false);
    tokens[1] = token_of(0, 4, 1, 2, 1, 0, true);
    tokens[2] = token_of(0, 0, 0, 0, 0, SM_NONE, false);
    CHECK_NUMBER(sm_builder_new(&builder, true, BYTES("out.js"), &error), SM_OK);
    CHECK_NUMBER(sm_kind(&builder), SM_KIND_BUILDER);
    CHECK_NUMBER(sm_builder_set_source_root(&builder, true, BYTES("root"), &error), SM_OK);
    CHECK_NUMBER(sm_builder_set_debug_id(&builder, true, &ID, &error), SM_OK);
    CHECK_NUMBER(add(sm_builder_add_source, &builder, "a.js"), 0);
    CHECK_NUMBER(add(sm_builder_add_source, &builder, "b.js"), 1);
    CHECK_NUMBER(add(sm_builder_add_source, &builder, "a.js"), 0);
    CHECK_NUMBER(add(sm_builder_add_name, &builder, "n"), 0);
    CHECK_NUMBER(add(sm_builder_add_name, &builder, "m"), 1);
    CHECK_NUMBER(add(sm_builder_add_name, &builder, "n"), 0);
    CHECK_NUMBER(sm_builder_set_contents(&builder, 1, true, BYTES("let b;"), &error), SM_OK);
    CHECK_NUMBER(sm_builder_ignore_source(&builder, 1, &error), SM_OK);
    CHECK_NUMBER(sm_builder_add_tokens(&builder, tokens, 2, &error), 2);
    CHECK_NUMBER(sm_builder_add_tokens(&builder, tokens + 2, 1, &error), 1);
    CHECK_NUMBER(sm_builder_add_tokens(&builder, tokens, 0, &error), 0);
    CHECK_NUMBER(sm_builder_finish(&builder, &map, &error), SM_OK);
    CHECK_NUMBER(sm_kind(&builder), SM_KIND_EMPTY);
    CHECK_HOLDS(&map, "{\"debugId\":\"00000000-0000-0000-0000-00000000002a\",\"file\":\"out.js\",\"ignoreList\":[1],"
                      "\"mappings\":\"AAAA,ICCEA;E\",\"names\":[\"n\",\"m\"],\"rangeMappings\":\"C;\","
                      "\"sourceRoot\":\"root\",\"sources\":[\"a.js\",\"b.js\"],\"sourcesContent\":[null,\"let b;\"],"
                      "\"version\":3}");
    sm_close(&map);
}

/* Parts that are removed again, and texts that are no text. */
static void test_removed_parts(void)
{
    static const sm_debug_id ID = { { 1 } };
    sm_builder builder = SM_EMPTY;
    sm_map map = SM_EMPTY;
    sm_error error = { 0 };
    uint32_t id = 7;
    CHECK_NUMBER(sm_builder_new(&builder, true, BYTES("\xff"), &error), SM_UTF8);
    CHECK_NUMBER(sm_kind(&builder), SM_KIND_EMPTY);
    CHECK_NUMBER(sm_builder_new(&builder, false, NO_BYTES, 0, &error), SM_OK);
    CHECK_NUMBER(sm_builder_set_source_root(&builder, true, BYTES("root"), &error), SM_OK);
    CHECK_NUMBER(sm_builder_set_source_root(&builder, true, BYTES("\xff"), &error), SM_UTF8);
    CHECK_NUMBER(sm_builder_set_source_root(&builder, false, NO_BYTES, 0, &error), SM_OK);
    CHECK_NUMBER(sm_builder_set_debug_id(&builder, true, &ID, &error), SM_OK);
    CHECK_NUMBER(sm_builder_set_debug_id(&builder, false, &ID, &error), SM_OK);
    CHECK_NUMBER(sm_builder_add_source(&builder, BYTES("\xff"), &id, &error), SM_UTF8);
    CHECK_NUMBER(sm_builder_add_name(&builder, BYTES("\xff"), &id, &error), SM_UTF8);
    CHECK_NUMBER(id, 7);
    CHECK_NUMBER(add(sm_builder_add_source, &builder, "a.js"), 0);
    CHECK_NUMBER(sm_builder_set_contents(&builder, 0, true, BYTES("let"), &error), SM_OK);
    CHECK_NUMBER(sm_builder_set_contents(&builder, 0, true, BYTES("\xff"), &error), SM_UTF8);
    CHECK_NUMBER(sm_builder_set_contents(&builder, 0, false, NO_BYTES, 0, &error), SM_OK);
    memset(&error, 0, sizeof error);
    CHECK_ERROR(sm_builder_set_contents(&builder, 1, true, BYTES("let"), &error), &error, SM_ABSENT, "there is none");
    CHECK_NUMBER(sm_builder_finish(&builder, &map, &error), SM_OK);
    CHECK_HOLDS(&map, "{\"mappings\":\"\",\"names\":[],\"sources\":[\"a.js\"],\"version\":3}");
    sm_close(&map);
}

static void check_source(sm_builder *builder, uint32_t id, const char *wanted)
{
    sm_text text = SM_TEXT_EMPTY;
    CHECK_NUMBER(sm_builder_source(builder, id, &text), SM_OK);
    CHECK_TEXT(text, wanted);
}

/* Sources that are replaced and cut. The text that was added finds its id, and a refused call changes nothing. */
static void test_changed_sources(void)
{
    sm_builder builder = SM_EMPTY;
    sm_map map = SM_EMPTY;
    sm_error error = { 0 };
    sm_text prefixes[3], text = text_of("before");
    prefixes[0] = text_of("/src/lib");
    prefixes[1] = text_of("/src/");
    prefixes[2] = text_of("\xff");
    CHECK_NUMBER(sm_builder_new(&builder, false, NO_BYTES, 0, &error), SM_OK);
    CHECK_NUMBER(add(sm_builder_add_source, &builder, "/src/src/a.js"), 0);
    CHECK_NUMBER(add(sm_builder_add_source, &builder, "/srcs/b.js"), 1);
    CHECK_NUMBER(add(sm_builder_add_source, &builder, "c.js"), 2);
    CHECK_NUMBER(add(sm_builder_add_source, &builder, "~/d.js"), 3);
    CHECK_NUMBER(sm_builder_set_source(&builder, 2, BYTES("/src/lib/c.js"), &error), SM_OK);
    check_source(&builder, 2, "/src/lib/c.js");
    CHECK_NUMBER(sm_builder_set_source(&builder, 2, BYTES("\xff"), &error), SM_UTF8);
    memset(&error, 0, sizeof error);
    CHECK_ERROR(sm_builder_set_source(&builder, 4, BYTES("e.js"), &error), &error, SM_ABSENT, "there is none");
    CHECK_NUMBER(sm_builder_source(&builder, 4, &text), SM_ABSENT);
    CHECK_TEXT(text, "before");
    CHECK_NUMBER(sm_builder_strip_prefixes(&builder, prefixes, 3, &error), SM_UTF8);
    CHECK_NUMBER(sm_builder_strip_prefixes(&builder, prefixes, 0, &error), SM_OK);
    check_source(&builder, 0, "/src/src/a.js");
    prefixes[2] = text_of("~");
    CHECK_NUMBER(sm_builder_strip_prefixes(&builder, prefixes, 3, &error), SM_OK);
    check_source(&builder, 0, "src/a.js");
    check_source(&builder, 1, "/srcs/b.js");
    check_source(&builder, 2, "c.js");
    check_source(&builder, 3, "d.js");
    CHECK_NUMBER(add(sm_builder_add_source, &builder, "/src/src/a.js"), 0);
    CHECK_NUMBER(add(sm_builder_add_source, &builder, "c.js"), 2);
    CHECK_NUMBER(add(sm_builder_add_source, &builder, "d.js"), 4);
    CHECK_NUMBER(sm_builder_finish(&builder, &map, &error), SM_OK);
    CHECK_HOLDS(&map, "{\"mappings\":\"\",\"names\":[],\"sources\":[\"src/a.js\",\"/srcs/b.js\",\"c.js\",\"d.js\","
                      "\"d.js\"],\"version\":3}");
    sm_close(&map);
}

/* Ids that name nothing are kept. */
static void test_foreign_ids(void)
{
    sm_builder builder = SM_EMPTY;
    sm_map map = SM_EMPTY;
    sm_error error = { 0 };
    sm_token tokens[1];
    sm_text text = SM_TEXT_EMPTY;
    tokens[0] = token_of(0, 0, 1, 2, 5, 6, false);
    CHECK_NUMBER(sm_builder_new(&builder, false, NO_BYTES, 0, &error), SM_OK);
    CHECK_NUMBER(sm_builder_add_tokens(&builder, tokens, 1, &error), 1);
    CHECK_NUMBER(sm_builder_finish(&builder, &map, &error), SM_OK);
    CHECK_NUMBER(sm_tokens(&map, 0, tokens, 1), 1);
    CHECK_TOKEN(tokens[0], 0, 0, 1, 2, 5, 6, false);
    CHECK_NUMBER(sm_lookup_source(&map, 0, 0, &text), SM_ABSENT);
    CHECK_NUMBER(sm_lookup_name(&map, 0, 0, &text), SM_ABSENT);
    sm_close(&map);
}

/* A builder that is closed, filled anew, or finished into a map that was full. */
static void test_handles(void)
{
    sm_builder builder = SM_EMPTY;
    sm_map map = SM_EMPTY;
    sm_error error = { 0 };
    CHECK_NUMBER(sm_builder_new(&builder, true, BYTES("one"), &error), SM_OK);
    sm_close(&builder);
    CHECK_NUMBER(sm_builder_new(&builder, true, BYTES("two"), &error), SM_OK);
    CHECK_NUMBER(sm_builder_new(&builder, true, BYTES("three"), &error), SM_OK);
    OPEN(&map, README_MAP);
    CHECK_NUMBER(sm_builder_finish(&builder, &map, &error), SM_OK);
    CHECK_HOLDS(&map, "{\"file\":\"three\",\"mappings\":\"\",\"names\":[],\"sources\":[],\"version\":3}");
    CHECK_NUMBER(sm_builder_finish(&builder, &map, &error), SM_WRONG_KIND);
    CHECK_NUMBER(sm_kind(&map), SM_KIND_REGULAR);
    sm_close(&map);
}

void test_building(void)
{
    test_all_parts();
    test_removed_parts();
    test_changed_sources();
    test_foreign_ids();
    test_handles();
}
