/* Generated texts: lines and slices, references, and what they lead to. */
#include "inputs.h"
#include "tests.h"

#include <string.h>

/* U+1F44C, which has two UTF-16 units */
#define HAND "\xf0\x9f\x91\x8c"

static void test_slices(void)
{
    sm_view view = SM_EMPTY;
    sm_text text = SM_TEXT_EMPTY;
    sm_error error = { 0 };
    CHECK_NUMBER(sm_view_open(&view, BYTES("abc" HAND "def\nblah"), &error), SM_OK);
    CHECK_NUMBER(sm_kind(&view), SM_KIND_VIEW);
    CHECK_NUMBER(sm_view_slice(&view, 0, 3, 1, &text), SM_OK);
    CHECK_TEXT(text, HAND);
    CHECK_NUMBER(sm_view_slice(&view, 0, 4, 1, &text), SM_OK);
    CHECK_TEXT(text, "");
    CHECK_NUMBER(sm_view_slice(&view, 1, 0, 4, &text), SM_OK);
    CHECK_TEXT(text, "blah");
    CHECK_NUMBER(sm_view_slice(&view, 1, 0, 5, &text), SM_ABSENT);
    CHECK_NUMBER(sm_view_slice(&view, 2, 0, 0, &text), SM_ABSENT);
    CHECK_NUMBER(sm_view_slice(&view, 0, 1, SM_NONE, &text), SM_ABSENT);
    CHECK_TEXT(text, "blah");
    CHECK_NUMBER(sm_view_open(&view, BYTES("\xff"), &error), SM_UTF8);
    CHECK_NUMBER(sm_view_text(&view, &text), SM_OK);
    CHECK_TEXT(text, "abc" HAND "def\nblah");
    sm_close(&view);
}

static void test_lines(void)
{
    sm_view view = SM_EMPTY;
    sm_text text = text_of("before");
    sm_error error = { 0 };
    size_t lines = 99;
    CHECK_NUMBER(sm_view_open(&view, BYTES("a\r\nb\rc\n"), &error), SM_OK);
    CHECK_NUMBER(sm_view_count(&view, &lines), SM_OK);
    CHECK_NUMBER(lines, 4);
    CHECK_NUMBER(sm_view_line(&view, 4, &text), SM_ABSENT);
    CHECK_TEXT(text, "before");
    CHECK_NUMBER(sm_view_line(&view, 0, &text), SM_OK);
    CHECK_TEXT(text, "a");
    CHECK_NUMBER(sm_view_line(&view, 1, &text), SM_OK);
    CHECK_TEXT(text, "b");
    CHECK_NUMBER(sm_view_line(&view, 2, &text), SM_OK);
    CHECK_TEXT(text, "c");
    CHECK_NUMBER(sm_view_line(&view, 3, &text), SM_OK);
    CHECK_TEXT(text, "");
    CHECK_NUMBER(sm_view_open(&view, BYTES(""), &error), SM_OK);
    CHECK_NUMBER(sm_view_count(&view, &lines), SM_OK);
    CHECK_NUMBER(lines, 1);
    sm_close(&view);
}

static void test_references(void)
{
    sm_bytes url = SM_EMPTY;
    sm_error error = { 0 };
    bool is_legacy = true;
    CHECK_NUMBER(sm_locate_reference(BYTES("let a;\n//# sourceMappingURL= a.map \n//@ sourceMappingURL=b"), &url,
                                     &is_legacy, &error),
                 SM_OK);
    CHECK_HOLDS(&url, "a.map");
    CHECK(!is_legacy);
    CHECK_NUMBER(sm_locate_reference(BYTES("//@ sourceMappingURL=b"), &url, &is_legacy, &error), SM_OK);
    CHECK_HOLDS(&url, "b");
    CHECK(is_legacy);
    CHECK_ERROR(sm_locate_reference(BYTES("let a; //# sourceMappingURL=c"), &url, &is_legacy, &error), &error, SM_ABSENT,
                "there is none");
    CHECK_NUMBER(sm_locate_reference(BYTES("\xff\n//# sourceMappingURL=c"), &url, &is_legacy, &error), SM_IO);
    CHECK_HOLDS(&url, "b");
    CHECK(is_legacy);
    sm_close(&url);
}

typedef sm_code resolving(const uint8_t *url, size_t length, const uint8_t *base, size_t base_length, sm_bytes *result,
                          sm_error *error);

static void test_resolving(void)
{
    static const struct {
        resolving *call;
        const char *url, *base;
        sm_code code;
        const char *wanted;
    } ROWS[] = {
        { sm_resolve, "a.js.map", "http://x.com/y/a.js", SM_OK, "http://x.com/y/a.js.map" },
        { sm_resolve, "../m/a.js.map?q", "http://x.com/y/a.js", SM_OK, "http://x.com/m/a.js.map?q" },
        { sm_resolve, "https://z.com/a", "http://x.com/y/a.js", SM_OK, "https://z.com/a" },
        { sm_resolve, "data:application/json,{}", "http://x.com/y/a.js", SM_ABSENT, "" },
        { sm_resolve, "a.js.map", "no url", SM_ABSENT, "" },
        { sm_resolve, "\xff", "http://x.com/", SM_UTF8, "" },
        { sm_resolve, "a", "\xff", SM_UTF8, "" },
        { sm_resolve_path, "../m/a.js.map", "/x/y/a.js", SM_OK, "/x/m/a.js.map" },
        { sm_resolve_path, "a%20b", "/x/y/a.js", SM_OK, "/x/y/a b" },
        { sm_resolve_path, "a", "x/y", SM_ABSENT, "" },
        { sm_resolve_path, "http://x.com/a", "/x/y", SM_ABSENT, "" },
        { sm_resolve_path, "data:,", "/x/y", SM_ABSENT, "" },
        { sm_resolve_path, "\xff", "/x/y", SM_UTF8, "" },
        { sm_resolve_path, "a", "/\xff", SM_UTF8, "" },
        /* from the first, which is a file, to the second */
        { sm_relative_path, "/foo/bar/baz.js", "/foo/baz.map", SM_OK, "../baz.map" },
        { sm_relative_path, "/a/x.js", "/a/b/c.map", SM_OK, "b/c.map" },
        { sm_relative_path, "/a/b.js", "/c/d.js", SM_OK, "../c/d.js" },
        { sm_relative_path, "/a/b.js", "/a", SM_OK, "." },
        { sm_relative_path, "\xff", "/a", SM_UTF8, "" },
        { sm_relative_path, "/a", "\xff", SM_UTF8, "" },
    };
    size_t row;
    for (row = 0; row < sizeof ROWS / sizeof ROWS[0]; row++) {
        sm_bytes result = SM_EMPTY;
        sm_error error = { 0 };
        CHECK_NUMBER(ROWS[row].call((const uint8_t *)ROWS[row].url, strlen(ROWS[row].url),
                                    (const uint8_t *)ROWS[row].base, strlen(ROWS[row].base), &result, &error),
                     ROWS[row].code);
        CHECK_NUMBER(error.code, ROWS[row].code);
        if (ROWS[row].code == SM_OK)
            CHECK_HOLDS(&result, ROWS[row].wanted);
        else
            CHECK_NUMBER(sm_kind(&result), SM_KIND_EMPTY);
        sm_close(&result);
    }
}

void test_texts(void)
{
    test_slices();
    test_lines();
    test_references();
    test_resolving();
}
