/* RAM bundles: modules, startup code, and splitting. */
#include "inputs.h"
#include "tests.h"

#include <string.h>

static void test_modules(size_t length)
{
    sm_bundle bundle = SM_EMPTY;
    sm_text bytes = SM_TEXT_EMPTY;
    sm_error error = { 0 };
    size_t modules = 99;
    CHECK_NUMBER(sm_bundle_open(&bundle, (const uint8_t *)BUNDLE, length, &error), SM_OK);
    CHECK_NUMBER(sm_kind(&bundle), SM_KIND_BUNDLE);
    CHECK_NUMBER(sm_bundle_count(&bundle, &modules), SM_OK);
    CHECK_NUMBER(modules, 1);
    CHECK_NUMBER(sm_bundle_startup(&bundle, &bytes, &error), SM_OK);
    CHECK_TEXT(bytes, "ab");
    CHECK_NUMBER(sm_bundle_module(&bundle, 0, &bytes, &error), SM_OK);
    CHECK_TEXT(bytes, "xyz");
    CHECK_ERROR(sm_bundle_module(&bundle, 1, &bytes, &error), &error, SM_INVALID_BUNDLE_INDEX,
                "invalid module index in ram bundle");
    CHECK_NUMBER(sm_bundle_module(&bundle, SIZE_MAX, &bytes, &error), SM_INVALID_BUNDLE_INDEX);
    CHECK_TEXT(bytes, "xyz");
    sm_close(&bundle);
}

static bool is_range(const sm_error *error, uint64_t start, uint64_t size, uint64_t length)
{
    return error->start == start && error->size == size && error->length == length && error->number == 0;
}

static void test_short_bundles(void)
{
    sm_bundle bundle = SM_EMPTY;
    sm_text bytes = text_of("before");
    sm_error error = { 0 };
    CHECK_NUMBER(sm_bundle_open(&bundle, (const uint8_t *)BUNDLE, 11, &error), SM_RANGE);
    CHECK(is_range(&error, 0, 12, 11));
    CHECK_ERROR(error.code, &error, SM_RANGE, "parse error: 0+12 past 11");
    CHECK_NUMBER(sm_kind(&bundle), SM_KIND_EMPTY);
    CHECK_NUMBER(sm_bundle_open(&bundle, (const uint8_t *)BUNDLE, 24, &error), SM_OK);
    CHECK_NUMBER(sm_bundle_module(&bundle, 0, &bytes, &error), SM_RANGE);
    CHECK(is_range(&error, 22, 3, 24));
    CHECK_ERROR(error.code, &error, SM_RANGE, "parse error: 22+3 past 24");
    CHECK_NUMBER(sm_bundle_open(&bundle, (const uint8_t *)BUNDLE, 21, &error), SM_OK);
    CHECK_NUMBER(sm_bundle_startup(&bundle, &bytes, &error), SM_RANGE);
    CHECK(is_range(&error, 20, 2, 21));
    CHECK_TEXT(bytes, "before");
    sm_close(&bundle);
}

static void test_odd_modules(void)
{
    sm_bundle bundle = SM_EMPTY;
    sm_text bytes = SM_TEXT_EMPTY;
    sm_error error = { 0 };
    CHECK_ERROR(sm_bundle_open(&bundle, BYTES("let a = 1;;;"), &error), &error, SM_INVALID_BUNDLE_MAGIC,
                "invalid magic number for ram bundle");
    CHECK_NUMBER(sm_bundle_open(&bundle, BYTES(ODD_BUNDLE), &error), SM_OK);
    CHECK_NUMBER(sm_bundle_startup(&bundle, &bytes, &error), SM_OK);
    CHECK_TEXT(bytes, "");
    CHECK_NUMBER(sm_bundle_module(&bundle, 0, &bytes, &error), SM_OK);
    CHECK_TEXT(bytes, "a");
    CHECK_ERROR(sm_bundle_module(&bundle, 1, &bytes, &error), &error, SM_ABSENT, "there is none");
    CHECK_ERROR(sm_bundle_module(&bundle, 2, &bytes, &error), &error, SM_INVALID_BUNDLE_ENTRY,
                "invalid ram bundle module entry");
    CHECK_TEXT(bytes, "a");
    sm_close(&bundle);
}

#define MODULE_MAP "{\"file\":\"0.js\",\"mappings\":\"AAAA,EAAE\",\"names\":[],\"sources\":[\"a.js\"],\"version\":3}"

static void test_splitting(void)
{
    sm_bundle bundle = SM_EMPTY;
    sm_map index = SM_EMPTY, map = SM_EMPTY;
    sm_split split = SM_EMPTY;
    sm_text name = SM_TEXT_EMPTY;
    sm_error error = { 0 };
    int round;
    CHECK_NUMBER(sm_bundle_open(&bundle, BYTES(BUNDLE), &error), SM_OK);
    OPEN(&index, BUNDLE_MAP);
    CHECK_NUMBER(sm_split_open(&split, &index, &error), SM_OK);
    CHECK_NUMBER(sm_kind(&split), SM_KIND_SPLIT);
    CHECK_NUMBER(sm_kind(&index), SM_KIND_INDEX);
    /* the split is independent of the index map */
    sm_close(&index);
    /* a module may be asked for again */
    for (round = 0; round < 2; round++) {
        CHECK_NUMBER(sm_split_map(&split, &bundle, 0, &map, &error), SM_OK);
        CHECK_HOLDS(&map, MODULE_MAP);
        CHECK_NUMBER(sm_file(&map, &name), SM_OK);
        CHECK_TEXT(name, "0.js");
    }
    CHECK_ERROR(sm_split_map(&split, &bundle, 1, &map, &error), &error, SM_INVALID_BUNDLE_ENTRY,
                "invalid ram bundle module entry");
    CHECK_HOLDS(&bundle, "a bundle of 1");
    CHECK_NUMBER(sm_kind(&split), SM_KIND_SPLIT);
    sm_close(&bundle);
    sm_close(&split);
    CHECK_HOLDS(&map, MODULE_MAP);
    sm_close(&map);
}

/* Opens a split of an index map that is closed again. */
static void split_by(sm_split *split, const char *text)
{
    sm_map index = SM_EMPTY;
    sm_error error = { 0 };
    open_text(&index, text);
    CHECK_NUMBER(sm_split_open(split, &index, &error), SM_OK);
    sm_close(&index);
}

static void test_modules_without_a_map(void)
{
    sm_bundle bundle = SM_EMPTY;
    sm_map index = SM_EMPTY, map = SM_EMPTY;
    sm_split split = SM_EMPTY;
    sm_error error = { 0 };
    CHECK_NUMBER(sm_bundle_open(&bundle, BYTES(ODD_BUNDLE), &error), SM_OK);
    split_by(&split, ODD_BUNDLE_MAP);
    CHECK_ERROR(sm_split_map(&split, &bundle, 1, &map, &error), &error, SM_ABSENT, "there is none");
    CHECK_ERROR(sm_split_map(&split, &bundle, 2, &map, &error), &error, SM_INVALID_BUNDLE_ENTRY,
                "invalid ram bundle module entry");
    CHECK_NUMBER(sm_split_map(&split, &bundle, SIZE_MAX, &map, &error), SM_INVALID_BUNDLE_ENTRY);
    CHECK_NUMBER(sm_kind(&map), SM_KIND_EMPTY);
    CHECK_NUMBER(sm_split_map(&split, &bundle, 0, &map, &error), SM_OK);
    CHECK_NUMBER(sm_kind(&map), SM_KIND_REGULAR);
    OPEN(&index, INDEX_MAP);
    CHECK_ERROR(sm_split_open(&split, &index, &error), &error, SM_NOT_A_BUNDLE, "not a ram bundle");
    OPEN(&index, LINKED_MAP);
    CHECK_NUMBER(sm_split_open(&split, &index, &error), SM_CANNOT_FLATTEN);
    CHECK_HOLDS(&split, "a split");
    sm_close(&index);
    /* null instead of a line, a list that is too short, and no token before the module */
    split_by(&split, "{\"x_facebook_offsets\":[null],\"sections\":[]}");
    CHECK_NUMBER(sm_split_map(&split, &bundle, 0, &map, &error), SM_ABSENT);
    split_by(&split, "{\"x_facebook_offsets\":[],\"sections\":[]}");
    CHECK_NUMBER(sm_split_map(&split, &bundle, 0, &map, &error), SM_INVALID_BUNDLE_ENTRY);
    split_by(&split, "{\"x_facebook_offsets\":[0],\"sections\":[]}");
    CHECK_NUMBER(sm_split_map(&split, &bundle, 0, &map, &error), SM_INVALID_BUNDLE_ENTRY);
    sm_close(&bundle);
    sm_close(&map);
    sm_close(&split);
}

/* Twelve bytes may claim 4294967295 modules. */
static void test_claimed_modules(void)
{
    sm_bundle bundle = SM_EMPTY;
    sm_map map = SM_EMPTY;
    sm_split split = SM_EMPTY;
    sm_error error = { 0 };
    size_t modules = 0;
    CHECK_NUMBER(sm_bundle_open(&bundle, BYTES("\xe5\xd1\x0b\xfb\xff\xff\xff\xff\0\0\0\0"), &error), SM_OK);
    CHECK_NUMBER(sm_bundle_count(&bundle, &modules), SM_OK);
    CHECK(modules == 4294967295u);
    split_by(&split, BUNDLE_MAP);
    CHECK_NUMBER(sm_split_map(&split, &bundle, 0, &map, &error), SM_INVALID_BUNDLE_ENTRY);
    CHECK_NUMBER(sm_split_map(&split, &bundle, 4294967294u, &map, &error), SM_INVALID_BUNDLE_ENTRY);
    sm_close(&bundle);
    sm_close(&split);
}

/* Text, modules and startup code of a share, when the first handle is closed. */
static void test_shares(void)
{
    sm_handle first = SM_EMPTY, other = SM_EMPTY;
    sm_text text = SM_TEXT_EMPTY;
    sm_error error = { 0 };
    CHECK_NUMBER(sm_bundle_open(&first, BYTES(BUNDLE), &error), SM_OK);
    CHECK_NUMBER(sm_share(&first, &other, &error), SM_OK);
    sm_close(&first);
    CHECK_HOLDS(&other, "a bundle of 1");
    CHECK_NUMBER(sm_bundle_module(&other, 0, &text, &error), SM_OK);
    CHECK_TEXT(text, "xyz");
    CHECK_NUMBER(sm_view_open(&first, BYTES("a\nbc"), &error), SM_OK);
    CHECK_NUMBER(sm_share(&first, &other, &error), SM_OK);
    sm_close(&first);
    CHECK_NUMBER(sm_kind(&other), SM_KIND_VIEW);
    CHECK_NUMBER(sm_view_line(&other, 1, &text), SM_OK);
    CHECK_TEXT(text, "bc");
    sm_close(&other);
}

void test_bundles(void)
{
    test_modules(26);
    test_modules(25);
    test_short_bundles();
    test_odd_modules();
    test_splitting();
    test_modules_without_a_map();
    test_claimed_modules();
    test_shares();
}
