/* Changes of maps, and that a change that fails leaves the map as it was. */
#include "inputs.h"
#include "tests.h"

#include <string.h>

static const uint8_t NO_BYTES[1] = { 0 };

struct rewriting {
    const char *map;
    bool with_names, with_contents;
    const char *prefixes[2];
    size_t count;
    const char *wanted;
};

#define TWO_PATHS(a, b) \
    "{\"mappings\":\"AAAA,CCAA\",\"names\":[],\"sources\":[\"" a "\",\"" b "\"],\"version\":3}"

static const struct rewriting REWRITINGS[] = {
    { README_MAP, true, true, { "", "" }, 0, README_MAP },
    { FULL_MAP, true, true, { "", "" }, 0,
      "{\"debugId\":\"00000000-0000-0000-0000-00000000002a\",\"file\":\"out.js\",\"mappings\":\"AAAA,ICCEA;E\","
      "\"names\":[\"n\"],\"rangeMappings\":\"C;\",\"sources\":[\"root/a.js\",\"/b.js\"],"
      "\"sourcesContent\":[\"let a;\",null],\"version\":3}" },
    { FULL_MAP, false, false, { "root", "" }, 1,
      "{\"debugId\":\"00000000-0000-0000-0000-00000000002a\",\"file\":\"out.js\",\"mappings\":\"AAAA,ICCE;E\","
      "\"names\":[],\"rangeMappings\":\"C;\",\"sources\":[\"a.js\",\"/b.js\"],\"version\":3}" },
    { TWO_PATHS("/x/y/a.js", "/x/y/b.js"), true, true, { "~", "" }, 1, TWO_PATHS("a.js", "b.js") },
    { TWO_PATHS("/x/y/a.js", "/x/y/b.js"), true, true, { "~", "/x" }, 2, TWO_PATHS("y/a.js", "y/b.js") },
    /* what no token uses is removed, and ids count in the order of use */
    { "{\"mappings\":\"ACAAC,CDAA\",\"names\":[\"m\",\"n\"],\"sources\":[\"a\",\"b\",\"c\"]}", true, true, { "", "" }, 0,
      "{\"mappings\":\"AAAAA,CCAA\",\"names\":[\"n\"],\"sources\":[\"b\",\"a\"],\"version\":3}" },
    { HERMES_MAP, true, true, { "", "" }, 0, HERMES_MAP },
};

static void test_rewriting(void)
{
    size_t row;
    for (row = 0; row < sizeof REWRITINGS / sizeof REWRITINGS[0]; row++) {
        const struct rewriting *r = &REWRITINGS[row];
        sm_map map = SM_EMPTY, shared = SM_EMPTY;
        sm_error error = { 0 };
        sm_text prefixes[2];
        char before[1024];
        prefixes[0] = text_of(r->prefixes[0]);
        prefixes[1] = text_of(r->prefixes[1]);
        open_map(&map, (const uint8_t *)r->map, strlen(r->map));
        describe(&map, before, sizeof before);
        CHECK_NUMBER(sm_share(&map, &shared, &error), SM_OK);
        CHECK_NUMBER(sm_rewrite(&map, r->with_names, r->with_contents, prefixes, r->count, &error), SM_OK);
        CHECK_HOLDS(&map, r->wanted);
        CHECK_HOLDS(&shared, before);
        sm_close(&map);
        CHECK_NUMBER(sm_rewrite(&shared, r->with_names, r->with_contents, prefixes, r->count, &error), SM_OK);
        CHECK_HOLDS(&shared, r->wanted);
        sm_close(&shared);
    }
}

static void test_refused_rewriting(void)
{
    sm_map map = SM_EMPTY;
    sm_error error = { 0 };
    sm_text prefix = text_of("\xff");
    OPEN(&map, README_MAP);
    CHECK_NUMBER(sm_rewrite(&map, true, true, &prefix, 1, &error), SM_UTF8);
    CHECK_HOLDS(&map, README_MAP);
    sm_close(&map);
}

static void test_flattening(void)
{
    sm_map map = SM_EMPTY;
    sm_error error = { 0 };
    OPEN(&map, INDEX_MAP);
    CHECK_NUMBER(sm_flatten(&map, &error), SM_OK);
    CHECK_HOLDS(&map, INDEX_MAP_FLAT);
    CHECK_NUMBER(sm_flatten(&map, &error), SM_WRONG_KIND);
    CHECK_HOLDS(&map, INDEX_MAP_FLAT);
    memset(&error, 0, sizeof error);
    OPEN(&map, LINKED_MAP);
    CHECK_ERROR(sm_flatten(&map, &error), &error, SM_CANNOT_FLATTEN,
                "cannot flatten the indexed sourcemap: Section has an unresolved sourcemap: u");
    CHECK_NUMBER(sm_kind(&map), SM_KIND_INDEX);
    OPEN(&map, "{\"sections\":[{\"offset\":{\"line\":4294967295,\"column\":0},\"map\":"
               "{\"sources\":[\"a.js\"],\"mappings\":\";AAAA\"}}]}");
    CHECK_ERROR(sm_flatten(&map, &error), &error, SM_CANNOT_FLATTEN,
                "cannot flatten the indexed sourcemap: a position passes 4294967295");
    CHECK_NUMBER(sm_kind(&map), SM_KIND_INDEX);
    sm_close(&map);
}

/* Fills `map` with these tokens of one source. */
static void build(sm_map *map, const sm_token *tokens, size_t count)
{
    sm_builder builder = SM_EMPTY;
    sm_error error = { 0 };
    uint32_t id = SM_NONE;
    CHECK_NUMBER(sm_builder_new(&builder, false, NO_BYTES, 0, &error), SM_OK);
    CHECK_NUMBER(sm_builder_add_source(&builder, BYTES("a.js"), &id, &error), SM_OK);
    CHECK_NUMBER(sm_builder_add_tokens(&builder, tokens, count, &error), count);
    CHECK_NUMBER(sm_builder_finish(&builder, map, &error), SM_OK);
}

struct composing {
    sm_token originals[2];
    size_t originals_count;
    sm_token adjustments[2];
    size_t adjustments_count;
    sm_code code;
    sm_token wanted[2];
    size_t wanted_count;
};

#define TOKEN(l, c, ol, oc) { (l), (c), (ol), (oc), 0, SM_NONE, false }
#define NO_TOKEN TOKEN(0, 0, 0, 0)

static const struct composing COMPOSINGS[] = {
    { { TOKEN(8, 28, 102, 35), TOKEN(8, 40, 102, 50) }, 2, { TOKEN(17, 23, 8, 30), NO_TOKEN }, 1, SM_OK,
      { TOKEN(17, 23, 102, 35), TOKEN(17, 33, 102, 50) }, 2 },
    { { TOKEN(0, 0, 1, 1), NO_TOKEN }, 1, { TOKEN(3, 0, 0, 5), TOKEN(4, 0, 0, 5) }, 2, SM_OK,
      { TOKEN(3, 0, 1, 1), TOKEN(4, 0, 1, 1) }, 2 },
    { { TOKEN(0, 5, 1, 1), NO_TOKEN }, 1, { TOKEN(3, 0, 0, 5), TOKEN(4, 0, 0, 5) }, 2, SM_OK,
      { TOKEN(4, 0, 1, 1), NO_TOKEN }, 1 },
    { { TOKEN(0, 0, 1, 1), NO_TOKEN }, 1, { TOKEN(0, 4294967295u, 0, 0), NO_TOKEN }, 1, SM_OK,
      { TOKEN(0, 4294967295u, 1, 1), NO_TOKEN }, 1 },
    { { TOKEN(0, 0, 1, 1), TOKEN(0, 1, 1, 2) }, 2, { TOKEN(0, 4294967295u, 0, 0), NO_TOKEN }, 1, SM_INCOMPATIBLE,
      { TOKEN(0, 0, 1, 1), TOKEN(0, 1, 1, 2) }, 2 },
};

static void check_composing(const struct composing *row)
{
    sm_map map = SM_EMPTY, adjustment = SM_EMPTY;
    sm_error error = { 0 };
    sm_token tokens[3] = { { 0 } };
    char before[512];
    size_t at;
    build(&map, row->originals, row->originals_count);
    build(&adjustment, row->adjustments, row->adjustments_count);
    describe(&adjustment, before, sizeof before);
    CHECK_NUMBER(sm_compose(&map, &adjustment, &error), row->code);
    CHECK_NUMBER(error.code, row->code);
    CHECK_NUMBER(sm_tokens(&map, 0, tokens, 3), row->wanted_count);
    for (at = 0; at < row->wanted_count; at++)
        CHECK_TOKEN(tokens[at], row->wanted[at].line, row->wanted[at].column, row->wanted[at].original_line,
                    row->wanted[at].original_column, 0, SM_NONE, false);
    CHECK_HOLDS(&adjustment, before);
    sm_close(&map);
    sm_close(&adjustment);
}

static void test_composing(void)
{
    size_t row;
    for (row = 0; row < sizeof COMPOSINGS / sizeof COMPOSINGS[0]; row++)
        check_composing(&COMPOSINGS[row]);
}

static void test_shifting(void)
{
    sm_map map = SM_EMPTY;
    sm_section_start start = { 0 };
    sm_error error = { 0 };
    OPEN(&map, INDEX_MAP);
    CHECK_NUMBER(sm_shift(&map, 2, &error), SM_OK);
    CHECK_HOLDS(&map, INDEX_MAP_SHIFTED_BY_2);
    CHECK_NUMBER(sm_shift(&map, SM_NONE - 12, &error), SM_OK);
    CHECK_ERROR(sm_shift(&map, 1, &error), &error, SM_PAST_LIMIT, "a line would pass 4294967295");
    CHECK_NUMBER(sm_section_start_of(&map, 0, &start), SM_OK);
    CHECK_NUMBER(start.line, SM_NONE - 10);
    CHECK_NUMBER(sm_section_start_of(&map, 1, &start), SM_OK);
    CHECK_NUMBER(start.line, SM_NONE);
    sm_close(&map);
}

#define PLAIN(rest) "{" rest "\"mappings\":\"AAAA\",\"names\":[],\"sources\":[\"a\"],\"version\":3}"

static void test_setting_texts(void)
{
    sm_map map = SM_EMPTY, shared = SM_EMPTY;
    sm_error error = { 0 };
    sm_text text = SM_TEXT_EMPTY;
    OPEN(&map, PLAIN(""));
    CHECK_NUMBER(sm_share(&map, &shared, &error), SM_OK);
    CHECK_NUMBER(sm_set_file(&map, true, BYTES("f"), &error), SM_OK);
    CHECK_HOLDS(&map, PLAIN("\"file\":\"f\","));
    CHECK_NUMBER(sm_set_file(&map, true, BYTES("\xff"), &error), SM_UTF8);
    CHECK_HOLDS(&map, PLAIN("\"file\":\"f\","));
    CHECK_NUMBER(sm_set_file(&map, true, BYTES(""), &error), SM_OK);
    CHECK_HOLDS(&map, PLAIN("\"file\":\"\","));
    CHECK_NUMBER(sm_set_file(&map, false, NO_BYTES, 0, &error), SM_OK);
    CHECK_HOLDS(&map, PLAIN(""));
    CHECK_NUMBER(sm_set_source_root(&map, true, BYTES("r/"), &error), SM_OK);
    CHECK_NUMBER(sm_source(&map, 0, &text), SM_OK);
    CHECK_TEXT(text, "r/a");
    CHECK_NUMBER(sm_set_source(&map, 0, BYTES("b"), &error), SM_OK);
    CHECK_NUMBER(sm_source(&map, 0, &text), SM_OK);
    CHECK_TEXT(text, "r/b");
    CHECK_ERROR(sm_set_source(&map, 1, BYTES("b"), &error), &error, SM_ABSENT, "there is none");
    CHECK_NUMBER(sm_set_source(&map, 0, BYTES("\xff"), &error), SM_UTF8);
    CHECK_NUMBER(sm_set_source_root(&map, true, BYTES("\xff"), &error), SM_UTF8);
    CHECK_HOLDS(&map, "{\"mappings\":\"AAAA\",\"names\":[],\"sourceRoot\":\"r/\",\"sources\":[\"b\"],\"version\":3}");
    CHECK_NUMBER(sm_set_source_root(&map, false, NO_BYTES, 0, &error), SM_OK);
    CHECK_NUMBER(sm_source(&map, 0, &text), SM_OK);
    CHECK_TEXT(text, "b");
    CHECK_HOLDS(&shared, PLAIN(""));
    OPEN(&map, INDEX_MAP);
    CHECK_NUMBER(sm_set_file(&map, false, NO_BYTES, 0, &error), SM_OK);
    CHECK_NUMBER(sm_file(&map, &text), SM_ABSENT);
    sm_close(&map);
    sm_close(&shared);
}

static void test_other_parts(void)
{
    static const sm_debug_id ID = { { 0, 0, 0, 0, 0, 0, 0, 0, 0, 0, 0, 0, 0, 0, 0, 42 } };
    sm_map map = SM_EMPTY, shared = SM_EMPTY;
    sm_error error = { 0 };
    sm_debug_id id = { { 0 } };
    OPEN(&map, PLAIN(""));
    CHECK_NUMBER(sm_share(&map, &shared, &error), SM_OK);
    CHECK_NUMBER(sm_set_debug_id(&map, true, &ID, &error), SM_OK);
    CHECK_HOLDS(&map, PLAIN("\"debugId\":\"00000000-0000-0000-0000-00000000002a\","));
    CHECK_NUMBER(sm_set_debug_id(&map, false, &ID, &error), SM_OK);
    CHECK_HOLDS(&map, PLAIN(""));
    CHECK_NUMBER(sm_set_contents(&map, 0, true, BYTES("let"), &error), SM_OK);
    CHECK_HOLDS(&map, "{\"mappings\":\"AAAA\",\"names\":[],\"sources\":[\"a\"],\"sourcesContent\":[\"let\"],\"version\":3}");
    CHECK_NUMBER(sm_set_contents(&map, 0, true, BYTES("\xff"), &error), SM_UTF8);
    memset(&error, 0, sizeof error);
    CHECK_ERROR(sm_set_contents(&map, 1, true, BYTES("let"), &error), &error, SM_ABSENT, "there is none");
    CHECK_HOLDS(&map, "{\"mappings\":\"AAAA\",\"names\":[],\"sources\":[\"a\"],\"sourcesContent\":[\"let\"],\"version\":3}");
    CHECK_NUMBER(sm_set_contents(&map, 0, false, NO_BYTES, 0, &error), SM_OK);
    CHECK_HOLDS(&map, PLAIN(""));
    CHECK_NUMBER(sm_ignore_source(&map, 0, &error), SM_OK);
    CHECK_HOLDS(&map, PLAIN("\"ignoreList\":[0],"));
    CHECK_ERROR(sm_ignore_source(&map, 1, &error), &error, SM_ABSENT, "there is none");
    CHECK_HOLDS(&map, PLAIN("\"ignoreList\":[0],"));
    CHECK_HOLDS(&shared, PLAIN(""));
    OPEN(&map, INDEX_MAP);
    CHECK_NUMBER(sm_set_debug_id(&map, true, &ID, &error), SM_OK);
    CHECK_NUMBER(sm_get_debug_id(&map, &id), SM_OK);
    CHECK(memcmp(&id, &ID, sizeof id) == 0);
    sm_close(&map);
    sm_close(&shared);
}

void test_changes(void)
{
    test_rewriting();
    test_refused_rewriting();
    test_flattening();
    test_composing();
    test_shifting();
    test_setting_texts();
    test_other_parts();
}
