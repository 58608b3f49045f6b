/* Texts of debug ids, and the ids that texts stand for. */
#include "inputs.h"
#include "tests.h"

#include <string.h>

static const sm_debug_id ID = { DEBUG_ID_BYTES };

static void check_parsed(const char *text, bool is_id)
{
    static const sm_debug_id BEFORE = { { 7, 7, 7, 7, 7, 7, 7, 7, 7, 7, 7, 7, 7, 7, 7, 7 } };
    sm_debug_id id = BEFORE;
    CHECK_NUMBER(sm_parse_debug_id((const uint8_t *)text, strlen(text), &id), is_id ? SM_OK : SM_ABSENT);
    CHECK(memcmp(id.bytes, is_id ? ID.bytes : BEFORE.bytes, sizeof id.bytes) == 0);
}

static void test_ids(void)
{
    check_parsed(DEBUG_ID, true);
    check_parsed("0123456789abcdef0123456789abcdef", true);
    check_parsed("0123456789ABCDEF0123456789ABCDEF", true);
    check_parsed("01234567-89AB-CDEF-0123-456789abcdef", true);
}

static void test_no_ids(void)
{
    static const char *const ROWS[] = {
        "",
        /* 31 digits, and 33 */
        "0123456789abcdef0123456789abcde",
        "0123456789abcdef0123456789abcdef0",
        "0123456789abcdef0123456789abcdef0123",
        "{" DEBUG_ID "}",
        "{0123456789abcdef0123456789abcdef}",
        "{123456789abcdef0123456789abcde}",
        "urn:uuid:" DEBUG_ID,
        DEBUG_ID "0",
        DEBUG_ID "-1",
        " 0123456789abcdef0123456789abcde",
        "0123456789abcdef0123456789abcde\n",
        "+123456789abcdef0123456789abcdef",
        "0123456789abcdef0123456789abcdeg",
        /* hyphens elsewhere, or too few */
        "0123456-789ab-cdef-0123-456789abcdef",
        "01234567-89ab-cdef-0123456789abcdef",
        "01234567-89ab-cdef-0123-456789abcd-f",
        "01234567-89ab-cdef-01234-56789abcdef",
        "01234567_89ab_cdef_0123_456789abcdef",
        /* 32 bytes with U+00E9, and 32 that are not UTF-8 */
        "0123456789abcdef0123456789abcd\xc3\xa9",
        "0123456789abcdef0123456789abcde\xff",
        "01234567-89ab-cdef-0123-456789abcde\xff",
        "\xff",
    };
    size_t row;
    for (row = 0; row < sizeof ROWS / sizeof ROWS[0]; row++)
        check_parsed(ROWS[row], false);
}

/* The length counts: what is after it is not read. */
static void test_length(void)
{
    sm_debug_id id = { { 0 } };
    CHECK_NUMBER(sm_parse_debug_id((const uint8_t *)DEBUG_ID "0", 36, &id), SM_OK);
    CHECK(memcmp(id.bytes, ID.bytes, sizeof id.bytes) == 0);
    CHECK_NUMBER(sm_parse_debug_id((const uint8_t *)DEBUG_ID, 35, &id), SM_ABSENT);
    CHECK_NUMBER(sm_parse_debug_id((const uint8_t *)"", 0, &id), SM_ABSENT);
    CHECK(memcmp(id.bytes, ID.bytes, sizeof id.bytes) == 0);
}

static void test_texts_of_ids(void)
{
    static const struct {
        sm_debug_id id;
        const char *text;
    } ROWS[] = {
        { { DEBUG_ID_BYTES }, DEBUG_ID },
        { { { 0 } }, "00000000-0000-0000-0000-000000000000" },
        { { { 0xff, 0xff, 0xff, 0xff, 0xff, 0xff, 0xff, 0xff, 0xff, 0xff, 0xff, 0xff, 0xff, 0xff, 0xff, 0xff } },
          "ffffffff-ffff-ffff-ffff-ffffffffffff" },
        { { { 0, 1, 2, 3, 4, 5, 6, 7, 8, 9, 10, 11, 12, 13, 14, 15 } }, "00010203-0405-0607-0809-0a0b0c0d0e0f" },
    };
    sm_bytes text = SM_EMPTY;
    sm_error error = { 0 };
    size_t row;
    /* what the handle held before is dropped */
    OPEN(&text, README_MAP);
    for (row = 0; row < sizeof ROWS / sizeof ROWS[0]; row++) {
        sm_text printed = SM_TEXT_EMPTY;
        sm_debug_id id = { { 0 } };
        CHECK_NUMBER(sm_debug_id_text(&ROWS[row].id, &text, &error), SM_OK);
        CHECK_NUMBER(error.code, SM_OK);
        CHECK_NUMBER(sm_kind(&text), SM_KIND_BYTES);
        CHECK_HOLDS(&text, ROWS[row].text);
        CHECK_NUMBER(sm_bytes_text(&text, &printed), SM_OK);
        CHECK_NUMBER(sm_parse_debug_id(printed.at, printed.length, &id), SM_OK);
        CHECK(memcmp(id.bytes, ROWS[row].id.bytes, sizeof id.bytes) == 0);
    }
    sm_close(&text);
}

void test_debug_id_texts(void)
{
    test_ids();
    test_no_ids();
    test_length();
    test_texts_of_ids();
}
