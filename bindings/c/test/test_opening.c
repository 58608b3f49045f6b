/* Opening, sharing, writing and closing; each error that bytes can have. */
#include "inputs.h"
#include "tests.h"

#include <string.h>

static void test_interface(void)
{
    CHECK_NUMBER(sm_interface(), SM_INTERFACE);
    CHECK(strcmp(SM_VERSION, "9.3.2") == 0);
}

static void test_kinds(void)
{
    sm_map map = SM_EMPTY;
    CHECK_NUMBER(sm_kind(&map), SM_KIND_EMPTY);
    OPEN(&map, README_MAP);
    CHECK_NUMBER(sm_kind(&map), SM_KIND_REGULAR);
    OPEN(&map, INDEX_MAP);
    CHECK_NUMBER(sm_kind(&map), SM_KIND_INDEX);
    OPEN(&map, HERMES_MAP);
    CHECK_NUMBER(sm_kind(&map), SM_KIND_HERMES);
    sm_close(&map);
    CHECK_NUMBER(sm_kind(&map), SM_KIND_EMPTY);
    sm_close(&map);
    CHECK_NUMBER(sm_kind(&map), SM_KIND_EMPTY);
}

/* What is written is what was read. */
static void test_round_trip(const uint8_t *json, size_t length)
{
    sm_map map = SM_EMPTY, again = SM_EMPTY;
    sm_bytes url = SM_EMPTY;
    sm_text text = SM_TEXT_EMPTY;
    sm_error error = { 0 };
    open_map(&map, json, length);
    CHECK_HOLDS(&map, (const char *)json);
    CHECK_NUMBER(sm_write_url(&map, &url, &error), SM_OK);
    CHECK_NUMBER(sm_bytes_text(&url, &text), SM_OK);
    CHECK(text.length > 50 && memcmp(text.at, "data:application/json;charset=utf-8;base64,", 43) == 0);
    CHECK_NUMBER(sm_open_url(&again, text.at, text.length, &error), SM_OK);
    CHECK_HOLDS(&again, (const char *)json);
    sm_close(&map);
    sm_close(&again);
    sm_close(&url);
}

static void test_urls(void)
{
    sm_map map = SM_EMPTY;
    sm_bytes url = SM_EMPTY;
    sm_text text = SM_TEXT_EMPTY;
    sm_error error = { 0 };
    const char *json = "{\"mappings\":\"A\",\"names\":[],\"sources\":[],\"version\":3}";
    CHECK_NUMBER(sm_open_url(&map, BYTES("data:application/json;base64,eyJtYXBwaW5ncyI6IkEifQ=="), &error), SM_OK);
    CHECK_HOLDS(&map, json);
    CHECK_NUMBER(sm_write_url(&map, &url, &error), SM_OK);
    CHECK_NUMBER(sm_bytes_text(&url, &text), SM_OK);
    CHECK_TEXT(text, "data:application/json;charset=utf-8;base64,"
                     "eyJtYXBwaW5ncyI6IkEiLCJuYW1lcyI6W10sInNvdXJjZXMiOltdLCJ2ZXJzaW9uIjozfQ==");
    CHECK_ERROR(sm_open_url(&map, BYTES("data:application/json;charset=latin1;base64,eyJtYXBwaW5ncyI6IkEifQ=="), &error),
                &error, SM_INVALID_DATA_URL, "the provided data URL is invalid");
    CHECK_NUMBER(sm_open_url(&map, BYTES("data:\xff"), &error), SM_UTF8);
    CHECK_NUMBER(error.code, SM_UTF8);
    memset(&error, 0, sizeof error);
    /* the bytes in it are `[]` */
    CHECK_ERROR(sm_open_url(&map, BYTES("data:application/json;base64,W10="), &error), &error, SM_BAD_JSON,
                "bad json: a field has the wrong type");
    CHECK_HOLDS(&map, json);
    sm_close(&map);
    sm_close(&url);
}

struct refused {
    const char *bytes;
    sm_code code;
    uint32_t number;
    const char *text;
};

#define OF_MAPPINGS(mappings) "{\"version\":3,\"sources\":[\"a.js\"],\"names\":[],\"mappings\":\"" mappings "\"}"

static const struct refused REFUSED[] = {
    { "", SM_BAD_JSON, 0, "bad json: the text is not JSON" },
    { "{", SM_BAD_JSON, 0, "bad json: the text is not JSON" },
    { "[]", SM_BAD_JSON, 1, "bad json: a field has the wrong type" },
    { "{\"mappings\":1}", SM_BAD_JSON, 1, "bad json: a field has the wrong type" },
    { OF_MAPPINGS("g"), SM_VLQ_LEFTOVER, 0, "leftover cur/shift in vlq decode" },
    { OF_MAPPINGS("gggggggggggggA"), SM_VLQ_OVERFLOW, 0, "vlq decode caused an overflow" },
    { OF_MAPPINGS("AAAAAA"), SM_BAD_SEGMENT_SIZE, 6, "got 6 segments, expected 4 or 5" },
    { OF_MAPPINGS("AA"), SM_BAD_SEGMENT_SIZE, 2, "got 2 segments, expected 4 or 5" },
    { OF_MAPPINGS("ACAA"), SM_BAD_SOURCE_REFERENCE, 1, "bad reference to source #1" },
    { OF_MAPPINGS("ADAA"), SM_BAD_SOURCE_REFERENCE, 4294967295u, "bad reference to source #4294967295" },
    { OF_MAPPINGS("AAAAA"), SM_BAD_NAME_REFERENCE, 0, "bad reference to name #0" },
    { "{\"mappings\":\"A\",\"rangeMappings\":\"!\"}", SM_INVALID_BASE64, '!', "invalid base64 character: !" },
    { "{\"sections\":[{\"offset\":{\"line\":0,\"column\":0},\"map\":" OF_MAPPINGS("g") "}]}", SM_VLQ_LEFTOVER, 0,
      "leftover cur/shift in vlq decode" },
};

/* A map that is refused leaves what the handle held. */
static void test_refused_bytes(void)
{
    sm_map map = SM_EMPTY;
    sm_error error = { 0 };
    size_t row;
    OPEN(&map, README_MAP);
    for (row = 0; row < sizeof REFUSED / sizeof REFUSED[0]; row++) {
        sm_code code = sm_open(&map, (const uint8_t *)REFUSED[row].bytes, strlen(REFUSED[row].bytes), &error);
        CHECK_NUMBER(error.number, REFUSED[row].number);
        CHECK(error.start == 0 && error.size == 0 && error.length == 0);
        CHECK_ERROR(code, &error, REFUSED[row].code, REFUSED[row].text);
        CHECK_HOLDS(&map, README_MAP);
    }
    CHECK_NUMBER(sm_open(&map, BYTES(")]}x\rA"), &error), SM_IO);
    CHECK(error.code == SM_IO && error.text_length > 0 && error.text[0] != 0);
    sm_close(&map);
}

/* An error's text that is longer than its array is cut; the length is that of the whole text. */
static void test_long_error(void)
{
    sm_map map = SM_EMPTY;
    sm_error error = { 0 };
    char json[600], url[301];
    memset(url, 'u', 300);
    url[300] = 0;
    strcpy(json, "{\"sections\":[{\"offset\":{\"line\":0,\"column\":0},\"url\":\"");
    strcat(json, url);
    strcat(json, "\"}]}");
    open_map(&map, (const uint8_t *)json, strlen(json));
    CHECK_NUMBER(sm_flatten(&map, &error), SM_CANNOT_FLATTEN);
    /* "cannot flatten the indexed sourcemap: Section has an unresolved sourcemap: " has 75 bytes */
    CHECK_NUMBER(error.text_length, 375);
    CHECK_NUMBER(strlen((const char *)error.text), SM_ERROR_TEXT - 1);
    CHECK(memcmp(error.text, "cannot flatten the indexed sourcemap: Section has an unresolved sourcemap: uuu", 78) == 0);
    sm_close(&map);
}

static void test_sharing(void)
{
    sm_map map = SM_EMPTY, other = SM_EMPTY, third = SM_EMPTY;
    sm_error error = { 0 };
    OPEN(&map, README_MAP);
    OPEN(&other, INDEX_MAP);
    CHECK_NUMBER(sm_share(&map, &other, &error), SM_OK);
    CHECK_NUMBER(sm_share(&other, &third, &error), SM_OK);
    CHECK_HOLDS(&other, README_MAP);
    /* a change of one is not seen by the others */
    CHECK_NUMBER(sm_remove_names(&other, &error), SM_OK);
    CHECK_HOLDS(&map, README_MAP);
    CHECK_HOLDS(&third, README_MAP);
    CHECK_HOLDS(&other, "{\"mappings\":\"AAAA,GAAI,GAAI,EACR,IAAI,GAAK,EAAG,CACV,MAAM\",\"names\":[],"
                        "\"sources\":[\"coolstuff.js\"],\"version\":3}");
    sm_close(&map);
    CHECK_HOLDS(&third, README_MAP);
    sm_close(&third);
    sm_close(&other);
}

static void test_detection(void)
{
    static const struct {
        const char *bytes;
        bool is_map;
    } ROWS[] = {
        { README_MAP, true },
        { INDEX_MAP, true },
        { ")]}'\n" README_MAP, true },
        { "{\"version\":3,\"mappings\":\"\"}", false },
        { "{\"file\":\"a\",\"sources\":[],\"mappings\":\"\"}", true },
        { "{\"version\":null,\"sources\":[],\"mappings\":\"\"}", false },
        { "{}", false },
        { "let a;", false },
        { "", false },
    };
    sm_error error = { 0 };
    size_t row;
    for (row = 0; row < sizeof ROWS / sizeof ROWS[0]; row++) {
        bool answer = !ROWS[row].is_map;
        CHECK_NUMBER(sm_is_source_map((const uint8_t *)ROWS[row].bytes, strlen(ROWS[row].bytes), &answer, &error), SM_OK);
        CHECK_NUMBER(answer, ROWS[row].is_map);
    }
}

/* Bytes after a junk header. */
static void test_header(void)
{
    sm_map map = SM_EMPTY;
    OPEN(&map, ")]}'\r\n" README_MAP);
    CHECK_HOLDS(&map, README_MAP);
    sm_close(&map);
}

void test_opening(void)
{
    test_interface();
    test_kinds();
    test_round_trip(BYTES(README_MAP));
    test_round_trip(BYTES(FULL_MAP));
    test_round_trip(BYTES(INDEX_MAP));
    test_round_trip(BYTES(HERMES_MAP));
    test_urls();
    test_refused_bytes();
    test_long_error();
    test_sharing();
    test_detection();
    test_header();
}
