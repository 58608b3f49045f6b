/* Segments of mappings: their numbers, and their texts. */
#include "inputs.h"
#include "tests.h"

#include <string.h>

/* more than any row has */
#define MOST 6
/* what the array and the count hold before a call */
#define BEFORE 77

/* the greatest magnitude, 2^62 - 1 */
#define GREATEST INT64_C(4611686018427387903)

static const struct {
    const char *text;
    size_t count;
    int64_t numbers[MOST - 1];
} SEGMENTS[] = {
    { "A", 1, { 0 } },
    { "AAAA", 4, { 0, 0, 0, 0 } },
    { "GAAIA", 5, { 3, 0, 0, 4, 0 } },
    { "HgBhB", 3, { -3, 16, -16 } },
    { "+///////////H", 1, { GREATEST } },
    { "////////////HA", 2, { -GREATEST, 0 } },
};
#define SEGMENTS_COUNT (sizeof SEGMENTS / sizeof SEGMENTS[0])

/* Parses with an array of so many numbers, and checks what is in it and past its end. */
static void check_parsed(const char *segment, size_t capacity, size_t count, const int64_t *wanted)
{
    int64_t numbers[MOST];
    size_t found = BEFORE, at;
    sm_error error = { 0 };
    for (at = 0; at < MOST; at++)
        numbers[at] = BEFORE;
    CHECK_NUMBER(sm_parse_segment((const uint8_t *)segment, strlen(segment), numbers, capacity, &found, &error), SM_OK);
    CHECK_NUMBER(error.code, SM_OK);
    CHECK_NUMBER(found, count);
    for (at = 0; at < MOST; at++)
        CHECK(numbers[at] == (at < capacity && at < count ? wanted[at] : BEFORE));
}

static void test_numbers(void)
{
    static const int64_t ZERO = 0;
    size_t row, capacity;
    for (row = 0; row < SEGMENTS_COUNT; row++)
        for (capacity = 0; capacity <= MOST; capacity++)
            check_parsed(SEGMENTS[row].text, capacity, SEGMENTS[row].count, SEGMENTS[row].numbers);
    /* digits that the library does not write: a 0 with a sign, and a 0 of two digits */
    check_parsed("B", MOST, 1, &ZERO);
    check_parsed("gA", MOST, 1, &ZERO);
}

static void test_unreadable(void)
{
    static const struct {
        const char *segment;
        sm_code code;
        uint32_t number;
        /* a null pointer: unspecified */
        const char *text;
    } ROWS[] = {
        { "", SM_VLQ_NO_VALUES, 0, "vlq decode did not produce any values" },
        { "Ag", SM_VLQ_LEFTOVER, 0, "leftover cur/shift in vlq decode" },
        { "ggggggggggggg", SM_VLQ_LEFTOVER, 0, "leftover cur/shift in vlq decode" },
        { "ggggggggggggI", SM_VLQ_OVERFLOW, 0, "vlq decode caused an overflow" },
        { "gggggggggggggA", SM_VLQ_OVERFLOW, 0, "vlq decode caused an overflow" },
        { "A!", SM_INVALID_BASE64, '!', "invalid base64 character: !" },
        /* the first error from the left */
        { "A!ggggggggggggI", SM_INVALID_BASE64, '!', "invalid base64 character: !" },
        { "ggggggggggggI!", SM_VLQ_OVERFLOW, 0, "vlq decode caused an overflow" },
        /* the byte is no digit, so the number is not too long */
        { "ggggggggggggg!", SM_INVALID_BASE64, '!', "invalid base64 character: !" },
        /* U+00E9, whose first byte is no digit */
        { "A\xc3\xa9", SM_INVALID_BASE64, 0xc3, "invalid base64 character: \xc3\x83" },
        { "\xff", SM_UTF8, 0, NULL },
        { "!\xff", SM_UTF8, 0, NULL },
    };
    size_t row, capacity;
    for (row = 0; row < sizeof ROWS / sizeof ROWS[0]; row++) {
        for (capacity = 0; capacity <= 1; capacity++) {
            int64_t numbers[1] = { BEFORE };
            size_t count = BEFORE;
            sm_error error = { 0 };
            sm_code code = sm_parse_segment((const uint8_t *)ROWS[row].segment, strlen(ROWS[row].segment), numbers,
                                            capacity, &count, &error);
            CHECK_NUMBER(code, ROWS[row].code);
            CHECK_NUMBER(error.code, ROWS[row].code);
            CHECK_NUMBER(error.number, ROWS[row].number);
            if (ROWS[row].text)
                CHECK_ERROR(code, &error, ROWS[row].code, ROWS[row].text);
            CHECK(numbers[0] == BEFORE && count == BEFORE);
        }
    }
}

static void test_writing(void)
{
    size_t row;
    sm_bytes text = SM_EMPTY;
    sm_error error = { 0 };
    for (row = 0; row < SEGMENTS_COUNT; row++) {
        CHECK_NUMBER(sm_write_segment(SEGMENTS[row].numbers, SEGMENTS[row].count, &text, &error), SM_OK);
        CHECK_NUMBER(sm_kind(&text), SM_KIND_BYTES);
        CHECK_HOLDS(&text, SEGMENTS[row].text);
    }
    CHECK_NUMBER(sm_write_segment(SEGMENTS[0].numbers, 0, &text, &error), SM_OK);
    CHECK_HOLDS(&text, "");
    CHECK_NUMBER(error.code, SM_OK);
    sm_close(&text);
}

static void test_unwritable(void)
{
    static const int64_t ROWS[][2] = {
        { GREATEST + 1, 0 },  { 0, GREATEST + 1 }, { -GREATEST - 1, 0 },
        { 0, -GREATEST - 1 }, { INT64_MAX, 0 },    { 0, INT64_MIN },
    };
    size_t row;
    sm_handle text = SM_EMPTY;
    sm_error error = { 0 };
    CHECK_ERROR(sm_write_segment(ROWS[0], 2, &text, &error), &error, SM_VLQ_OVERFLOW, "vlq decode caused an overflow");
    CHECK_NUMBER(sm_kind(&text), SM_KIND_EMPTY);
    OPEN(&text, README_MAP);
    for (row = 0; row < sizeof ROWS / sizeof ROWS[0]; row++)
        CHECK_ERROR(sm_write_segment(ROWS[row], 2, &text, &error), &error, SM_VLQ_OVERFLOW,
                    "vlq decode caused an overflow");
    CHECK_HOLDS(&text, README_MAP);
    sm_close(&text);
}

/* A number about each power of two, and its negative, is read as it was written. */
static void test_round_trips(void)
{
    int bit, offset;
    sm_bytes segment = SM_EMPTY;
    sm_error error = { 0 };
    for (bit = 0; bit < 62; bit++) {
        for (offset = -1; offset <= 1; offset++) {
            int64_t number = ((int64_t)1 << bit) + offset, numbers[2], found[2] = { BEFORE, BEFORE };
            sm_text text = SM_TEXT_EMPTY;
            size_t count = BEFORE;
            numbers[0] = number;
            numbers[1] = -number;
            CHECK_NUMBER(sm_write_segment(numbers, 2, &segment, &error), SM_OK);
            CHECK_NUMBER(sm_bytes_text(&segment, &text), SM_OK);
            CHECK_NUMBER(sm_parse_segment(text.at, text.length, found, 2, &count, &error), SM_OK);
            CHECK(count == 2 && found[0] == number && found[1] == -number);
        }
    }
    sm_close(&segment);
}

void test_segments(void)
{
    test_numbers();
    test_unreadable();
    test_writing();
    test_unwritable();
    test_round_trips();
}
