/* Checks, and their reports finding by finding. */
#include "inputs.h"
#include "tests.h"

#include <stdio.h>
#include <string.h>

#define CAPACITY 4

static const uint8_t NO_TEXT[1] = { 0 };

/* A finding of a report, and its texts. */
struct finding {
    uint32_t code, severity, place;
    size_t line, index;
    const char *key, *sentence;
};

static void check_map(sm_report *report, const char *json, uint32_t most)
{
    sm_error error = { 0 };
    CHECK_NUMBER(sm_check(report, (const uint8_t *)json, strlen(json), false, NO_TEXT, 0, most, &error), SM_OK);
    CHECK_NUMBER(sm_kind(report), SM_KIND_REPORT);
}

static void check_counts(sm_report *report, uint64_t invalid, uint64_t suspicious, size_t findings)
{
    sm_report_counts counts = { 7, 7, 7 };
    CHECK_NUMBER(sm_report_count(report, &counts), SM_OK);
    CHECK_NUMBER(counts.invalid, invalid);
    CHECK_NUMBER(counts.suspicious, suspicious);
    CHECK_NUMBER(counts.findings, findings);
}

static void check_finding(sm_report *report, uint32_t at, const struct finding *wanted)
{
    sm_finding found = { 1, 1, 1, 1, 1, 1, 1 };
    sm_text text = SM_TEXT_EMPTY;
    CHECK_NUMBER(sm_report_finding(report, at, &found), SM_OK);
    CHECK_NUMBER(found.code, wanted->code);
    CHECK_NUMBER(found.severity, wanted->severity);
    CHECK_NUMBER(found.place, wanted->place);
    CHECK_NUMBER(found.line, wanted->line);
    CHECK_NUMBER(found.index, wanted->index);
    CHECK(found.lines == 0 && found.columns == 0);
    CHECK_NUMBER(sm_report_key(report, at, &text), SM_OK);
    CHECK_TEXT(text, wanted->key);
    CHECK_NUMBER(sm_report_sentence(report, at, &text), SM_OK);
    CHECK_TEXT(text, wanted->sentence);
}

static void check_sections(sm_report *report, uint32_t at, size_t count, size_t first, size_t second)
{
    size_t sections[CAPACITY] = { 9, 9, 9, 9 }, counted = 9;
    CHECK_NUMBER(sm_report_sections(report, at, sections, CAPACITY, &counted), SM_OK);
    CHECK_NUMBER(counted, count);
    CHECK_NUMBER(sections[0], first);
    CHECK_NUMBER(sections[1], second);
    CHECK(sections[2] == 9 && sections[3] == 9);
}

/* docs/CHECK.md: the rules are in the order of its tables. */
static void test_keys(void)
{
    static const struct finding WANTED[] = {
        { 104, SM_INVALID, SM_PLACE_KEY, 0, 0, "version", "version is no number" },
        { 106, SM_INVALID, SM_PLACE_KEY, 0, 0, "file", "file is no text" },
        { 108, SM_INVALID, SM_PLACE_KEY, 0, 0, "sources", "there is no sources" },
        { 111, SM_INVALID, SM_PLACE_KEY, 0, 0, "names", "names is no list of texts" },
        { 114, SM_INVALID, SM_PLACE_KEY, 0, 0, "ignoreList", "ignoreList has a number that is not below the number of sources" },
        { 116, SM_INVALID, SM_PLACE_KEY, 0, 0, "mappings", "mappings is no text" }
    };
    sm_report report = SM_EMPTY;
    uint32_t at;
    check_map(&report, "{\"version\":\"3\",\"file\":1,\"names\":[0],\"ignoreList\":[0],\"mappings\":[]}", 20);
    check_counts(&report, 6, 0, 6);
    for (at = 0; at < 6; at++) {
        check_finding(&report, at, &WANTED[at]);
        check_sections(&report, at, 0, 9, 9);
    }
    sm_close(&report);
}

static void test_whole_text(void)
{
    static const struct finding NO_JSON = { 101, SM_INVALID, SM_PLACE_KEY, 0, 0, "", "the bytes are no JSON text" };
    static const struct finding NO_OBJECT = { 102, SM_INVALID, SM_PLACE_KEY, 0, 0, "", "the JSON value is no object" };
    sm_report report = SM_EMPTY;
    check_map(&report, ")]}'\n{}", 20);
    check_counts(&report, 1, 0, 1);
    check_finding(&report, 0, &NO_JSON);
    check_map(&report, "[]", 20);
    check_counts(&report, 1, 0, 1);
    check_finding(&report, 0, &NO_OBJECT);
    sm_close(&report);
}

/* Two segments are right. The second line ends within a number, the third has a foreign byte and an empty segment. */
#define BAD_SEGMENTS "{\"version\":3,\"sources\":[\"a\"],\"names\":[],\"mappings\":\"AAAA,CCAA;AAAA,g;!,,A\"}"

static void test_segments_of(void)
{
    static const struct finding WANTED[] = {
        { 140, SM_INVALID, SM_PLACE_SEGMENT, 0, 1, "mappings", "the map has no source with this index" },
        { 140, SM_INVALID, SM_PLACE_SEGMENT, 1, 0, "mappings", "the map has no source with this index" },
        { 132, SM_INVALID, SM_PLACE_SEGMENT, 1, 1, "mappings", "the segment ends within a number" },
        { 131, SM_INVALID, SM_PLACE_SEGMENT, 2, 0, "mappings", "a byte is no digit of base64" },
        { 133, SM_INVALID, SM_PLACE_SEGMENT, 2, 1, "mappings", "the segment does not have 1, 4 or 5 numbers" }
    };
    sm_report report = SM_EMPTY;
    uint32_t at;
    check_map(&report, BAD_SEGMENTS, 20);
    check_counts(&report, 5, 0, 5);
    for (at = 0; at < 5; at++)
        check_finding(&report, at, &WANTED[at]);
    sm_close(&report);
}

/* At most so many findings of each code are kept; all are counted. */
static void test_most(void)
{
    static const struct finding FIRST = { 140, SM_INVALID, SM_PLACE_SEGMENT, 0, 1, "mappings",
                                          "the map has no source with this index" };
    static const struct finding NEXT = { 132, SM_INVALID, SM_PLACE_SEGMENT, 1, 1, "mappings", "the segment ends within a number" };
    sm_report report = SM_EMPTY;
    check_map(&report, BAD_SEGMENTS, 1);
    check_counts(&report, 5, 0, 4);
    check_finding(&report, 0, &FIRST);
    check_finding(&report, 1, &NEXT);
    check_map(&report, BAD_SEGMENTS, 0);
    check_counts(&report, 5, 0, 4);
    check_map(&report, BAD_SEGMENTS, SM_NONE);
    check_counts(&report, 5, 0, 5);
    sm_close(&report);
}

/* Section 0 holds a map, section 1 an index map, whose section 0 holds another map. */
#define SECTION(line, map) "{\"offset\":{\"line\":" line ",\"column\":0},\"map\":" map "}"
#define BAD_MAP "{\"version\":3,\"sources\":[],\"mappings\":\";F\"}"
#define NESTED \
    "{\"version\":3,\"sections\":[" SECTION("0", BAD_MAP) "," \
    SECTION("9", "{\"version\":3,\"sections\":[" SECTION("0", BAD_MAP) ",{\"map\":1}]}") "]}"

static void test_sections_of(void)
{
    static const struct finding SEGMENT = { 135, SM_INVALID, SM_PLACE_SEGMENT, 1, 0, "mappings",
                                            "the generated column is below 0" };
    static const struct finding OFFSET = { 122, SM_INVALID, SM_PLACE_KEY, 0, 0, "sections[1].offset", "there is no offset" };
    static const struct finding MAP = { 129, SM_INVALID, SM_PLACE_KEY, 0, 0, "sections[1].map", "map is no object" };
    sm_report report = SM_EMPTY;
    size_t one[1] = { 9 }, counted = 9;
    check_map(&report, NESTED, 20);
    check_counts(&report, 4, 0, 4);
    check_finding(&report, 0, &SEGMENT);
    check_sections(&report, 0, 1, 0, 9);
    check_finding(&report, 1, &SEGMENT);
    check_sections(&report, 1, 2, 1, 0);
    check_finding(&report, 2, &OFFSET);
    check_sections(&report, 2, 1, 1, 9);
    check_finding(&report, 3, &MAP);
    check_sections(&report, 3, 1, 1, 9);
    /* as many as fit are written, and all are counted */
    CHECK_NUMBER(sm_report_sections(&report, 1, one, 1, &counted), SM_OK);
    CHECK(one[0] == 1 && counted == 2);
    counted = 9;
    CHECK_NUMBER(sm_report_sections(&report, 0, one, 0, &counted), SM_OK);
    CHECK(one[0] == 1 && counted == 1);
    sm_close(&report);
}

static void test_valid(void)
{
    static const char *const VALID[] = { "{\"version\":3,\"sources\":[],\"mappings\":\"\"}",
                                         "{\"version\":3,\"sections\":[]}" };
    sm_report report = SM_EMPTY;
    size_t row;
    for (row = 0; row < sizeof VALID / sizeof VALID[0]; row++) {
        check_map(&report, VALID[row], 20);
        check_counts(&report, 0, 0, 0);
    }
    sm_close(&report);
}

/* What a call that finds nothing would have written is as it was. */
static void test_absent(void)
{
    sm_report report = SM_EMPTY;
    sm_finding finding = { 7, 7, 7, 7, 7, 7, 7 };
    sm_report_counts counts = { 7, 7, 7 };
    sm_text text = text_of("before");
    size_t sections[1] = { 7 }, counted = 7;
    CHECK_NUMBER(sm_report_count(&report, &counts), SM_WRONG_KIND);
    CHECK(counts.invalid == 7 && counts.suspicious == 7 && counts.findings == 7);
    check_map(&report, "[]", 20);
    CHECK_NUMBER(sm_report_finding(&report, 1, &finding), SM_ABSENT);
    CHECK_NUMBER(sm_report_finding(&report, SM_NONE, &finding), SM_ABSENT);
    CHECK(finding.code == 7 && finding.index == 7);
    CHECK_NUMBER(sm_report_sections(&report, 1, sections, 1, &counted), SM_ABSENT);
    CHECK(sections[0] == 7 && counted == 7);
    CHECK_NUMBER(sm_report_key(&report, 1, &text), SM_ABSENT);
    CHECK_NUMBER(sm_report_sentence(&report, 1, &text), SM_ABSENT);
    CHECK_TEXT(text, "before");
    sm_close(&report);
}

static const struct finding CONTENTS = { 214, SM_SUSPICIOUS, SM_PLACE_KEY, 0, 0, "sources[0]",
                                         "the map has no contents for the source" };

/* What looks wrong in valid maps, at each kind of place. */
static void test_suspicious(void)
{
    static const struct finding BACK = { 221, SM_SUSPICIOUS, SM_PLACE_SEGMENT, 0, 1, "mappings",
                                         "the segment has a lower column than the one before it" };
    static const struct finding PAST = { 232, SM_SUSPICIOUS, SM_PLACE_TOKEN, 0, 2, "mappings",
                                         "the generated line has fewer columns" };
    sm_report report = SM_EMPTY;
    sm_error error = { 0 };
    check_map(&report, "{\"version\":3,\"sources\":[],\"mappings\":\"K,D\"}", 20);
    check_counts(&report, 0, 1, 1);
    check_finding(&report, 0, &BACK);
    CHECK_NUMBER(sm_check(&report, BYTES("{\"version\":3,\"sources\":[],\"mappings\":\"E\"}"), true, BYTES("a"), 20, &error),
                 SM_OK);
    check_counts(&report, 0, 1, 1);
    check_finding(&report, 0, &PAST);
    sm_close(&report);
}

/* An index map is looked at as its flat map: the sections of the section start on line 3. */
static void test_index_map(void)
{
    static const struct finding UNUSED = { 211, SM_SUSPICIOUS, SM_PLACE_KEY, 0, 0, "sources[1]", "no token has the source" };
    static const struct finding PAST = { 203, SM_SUSPICIOUS, SM_PLACE_TOKEN, 3, 0, "mappings",
                                         "the original line has fewer columns" };
    static const char MAP[] =
        "{\"version\":3,\"sections\":["
        SECTION("0", "{\"version\":3,\"sources\":[\"a\",\"b\"],\"sourcesContent\":[\"x\",\"\"],\"mappings\":\"AAAA\"}") ","
        SECTION("1", "{\"version\":3,\"sections\":["
                SECTION("2", "{\"version\":3,\"sources\":[\"a\"],\"mappings\":\"AAAE\"}") "]}") "]}";
    sm_report report = SM_EMPTY;
    check_map(&report, MAP, 20);
    check_counts(&report, 0, 2, 2);
    check_finding(&report, 0, &PAST);
    check_finding(&report, 1, &UNUSED);
    check_sections(&report, 0, 0, 9, 9);
    sm_close(&report);
}

/* Four names, each at the start of a line, in a text that has a new first line. */
#define FOUR_LINES \
    "{\"version\":3,\"sources\":[\"a.js\"],\"names\":[\"one\",\"two\",\"three\",\"four\"]," \
    "\"mappings\":\"AAAAA;AACAC;AACAC;AACAC\"}"

static void test_shift(void)
{
    sm_report report = SM_EMPTY;
    sm_error error = { 0 };
    sm_finding found = { 0 };
    CHECK_NUMBER(sm_check(&report, BYTES(FOUR_LINES), true, BYTES("/* */\none\ntwo\nthree\nfour\n"), 20, &error), SM_OK);
    check_counts(&report, 0, 2, 2);
    check_finding(&report, 0, &CONTENTS);
    CHECK_NUMBER(sm_report_finding(&report, 1, &found), SM_OK);
    CHECK(found.code == 242 && found.severity == SM_SUSPICIOUS && found.place == SM_PLACE_SHIFT);
    CHECK(found.lines == 1 && found.columns == 0 && found.line == 0 && found.index == 0);
    sm_close(&report);
}

/* The generated text is read only if there is one. A call that fails leaves the report. */
static void test_generated(void)
{
    sm_report report = SM_EMPTY;
    sm_error error = { 0 };
    check_map(&report, BAD_SEGMENTS, 20);
    CHECK_NUMBER(sm_check(&report, BYTES(README_MAP), true, BYTES("a\xff"), 20, &error), SM_UTF8);
    CHECK_NUMBER(error.code, SM_UTF8);
    check_counts(&report, 5, 0, 5);
    CHECK_NUMBER(sm_check(&report, BYTES(README_MAP), false, BYTES("a\xff"), 20, &error), SM_OK);
    check_counts(&report, 0, 1, 1);
    check_finding(&report, 0, &CONTENTS);
    CHECK_NUMBER(sm_check(&report, BYTES(README_MAP), true, BYTES(README_TEXT), 20, &error), SM_OK);
    check_counts(&report, 0, 1, 1);
    sm_close(&report);
}

#define NO_SEGMENTS "{\"version\":3,\"sources\":[],\"mappings\":\"\"}"

static const sm_text NO_FILES[1] = { SM_NO_FILE };

static void check_name(sm_report *report, const char *generated, const char *name)
{
    sm_error error = { 0 };
    CHECK_NUMBER(sm_check_files(report, BYTES(NO_SEGMENTS), true, (const uint8_t *)generated, strlen(generated),
                                (const uint8_t *)name, strlen(name), false, NO_FILES, 0, 20, &error),
                 SM_OK);
}

/* The reference of the generated text is to end in the name of the map's file, if there is one. */
static void test_names(void)
{
    static const struct finding OTHER = { 225, SM_SUSPICIOUS, SM_PLACE_KEY, 0, 0, "",
                                          "the reference of the generated text ends in another file name" };
    static const char *const RIGHT[][2] = { { "//# sourceMappingURL=maps/a%20b.map?v=1", "a b.map" },
                                            { "//# sourceMappingURL=data:application/json;base64,e30=", "a.map" },
                                            { "//# sourceMappingURL=b.map", "" },
                                            { "x", "a.map" } };
    sm_report report = SM_EMPTY;
    sm_error error = { 0 };
    size_t row;
    for (row = 0; row < sizeof RIGHT / sizeof RIGHT[0]; row++) {
        check_name(&report, RIGHT[row][0], RIGHT[row][1]);
        check_counts(&report, 0, 0, 0);
    }
    check_name(&report, "x\n//# sourceMappingURL=b.map", "a.map");
    check_counts(&report, 0, 1, 1);
    check_finding(&report, 0, &OTHER);
    /* bytes that are no text are refused, also where there is no generated text */
    CHECK_NUMBER(sm_check_files(&report, BYTES(NO_SEGMENTS), false, BYTES("\xff"), BYTES("\xff"), false, NO_FILES, 0,
                                20, &error),
                 SM_UTF8);
    CHECK_NUMBER(error.code, SM_UTF8);
    check_counts(&report, 0, 1, 1);
    sm_close(&report);
}

/* The first of two sources has contents. */
#define TWO_SOURCES \
    "{\"version\":3,\"sources\":[\"a.js\",\"b.js\"],\"sourcesContent\":[\"ab\"],\"mappings\":\"AAAA,CCAC\"}"

static void check_files(sm_report *report, const sm_text *files, size_t count)
{
    sm_error error = { 0 };
    CHECK_NUMBER(sm_check_files(report, BYTES(TWO_SOURCES), false, BYTES("\xff"), NO_TEXT, 0, true, files, count, 20,
                                &error),
                 SM_OK);
}

/* A file is that of the source of its index, and stands for contents that the map lacks. */
static void test_files(void)
{
    static const struct finding PAST = { 203, SM_SUSPICIOUS, SM_PLACE_TOKEN, 0, 1, "mappings",
                                         "the original line has fewer columns" };
    static const struct finding OTHER = { 226, SM_SUSPICIOUS, SM_PLACE_KEY, 0, 0, "sources[0]",
                                          "the contents are not those of the file" };
    static const struct finding MISSING = { 227, SM_SUSPICIOUS, SM_PLACE_KEY, 0, 0, "sources[1]",
                                            "the source has neither contents nor a file" };
    sm_text files[2] = { SM_NO_FILE, SM_NO_FILE };
    sm_report report = SM_EMPTY;
    sm_error error = { 0 };
    size_t count;
    for (count = 0; count <= 2; count++) {
        check_files(&report, files, count);
        check_counts(&report, 0, 1, 1);
        check_finding(&report, 0, &MISSING);
    }
    files[0] = text_of("ab");
    files[1] = text_of("x");
    check_files(&report, files, 2);
    check_counts(&report, 0, 0, 0);
    files[0] = text_of("abc");
    files[1] = text_of("");
    check_files(&report, files, 2);
    check_counts(&report, 0, 2, 2);
    check_finding(&report, 0, &PAST);
    check_finding(&report, 1, &OTHER);
    CHECK_NUMBER(sm_check_files(&report, BYTES(TWO_SOURCES), true, BYTES("\xff"), NO_TEXT, 0, true, files, 2, 20,
                                &error),
                 SM_UTF8);
    check_counts(&report, 0, 2, 2);
    sm_close(&report);
}

/* Texts stay where they are until the report is filled or closed. */
static void test_borrowed(void)
{
    sm_report report = SM_EMPTY;
    sm_text key = SM_TEXT_EMPTY, sentence = SM_TEXT_EMPTY, other = SM_TEXT_EMPTY;
    check_map(&report, NESTED, 20);
    CHECK_NUMBER(sm_report_key(&report, 2, &key), SM_OK);
    CHECK_NUMBER(sm_report_sentence(&report, 0, &sentence), SM_OK);
    CHECK_NUMBER(sm_report_key(&report, 0, &other), SM_OK);
    check_counts(&report, 4, 0, 4);
    CHECK_TEXT(key, "sections[1].offset");
    CHECK_TEXT(sentence, "the generated column is below 0");
    sm_close(&report);
}

void test_checks(void)
{
    test_keys();
    test_whole_text();
    test_segments_of();
    test_most();
    test_sections_of();
    test_valid();
    test_suspicious();
    test_index_map();
    test_shift();
    test_absent();
    test_generated();
    test_names();
    test_files();
    test_borrowed();
}
