/* Each allocation of a call is refused in turn. Then nothing has changed, every export answers as before, and the same
** call succeeds. */
#include "exports.h"
#include "refusing.h"
#include "tests.h"

#include <stdio.h>
#include <stdlib.h>
#include <string.h>

#define SIZE 8192

struct handles {
    sm_handle subject, shared, other, out;
};

struct refusal_row {
    const char *name;
    /* Fills the handles that the call takes. */
    void (*prepare)(struct handles *h);
    sm_code (*call)(struct handles *h, sm_error *error);
    sm_code code;
    /* What subject and out hold after the call; a null pointer: what they held before. */
    const char *subject, *out;
};

static uint64_t with_value(uint64_t sum, uint64_t value)
{
    return (sum ^ value) * 1099511628211u;
}

/* Adds a code, and what a handle holds then. */
static uint64_t with_answer(uint64_t sum, sm_code code, sm_handle *handle)
{
    char text[SIZE], *at;
    sum = with_value(sum, code);
    describe(handle, text, sizeof text);
    for (at = text; *at; at++)
        sum = (sum ^ (uint8_t)*at) * 1099511628211u;
    return sum;
}

#define DATA_URL "data:application/json;base64,eyJtYXBwaW5ncyI6IkEifQ=="
#define BAD_DATA_URL "data:application/json;base64,!"
#define REFERENCE "../b c"
#define BASE_URL "http://x.com/a/b/c"
#define PATH_REFERENCE "../b"
#define BASE_PATH "/a/b/c"
#define BASE_FILE "/a/b/c.js"
#define TARGET_FILE "/a/d/e.map"
#define SEGMENT "GAAIA"

static const int64_t NUMBERS[5] = { 3, 0, 0, 4, 0 };
static const int64_t TOO_LARGE[2] = { 1, INT64_MIN };
static const sm_debug_id ID = { DEBUG_ID_BYTES };

/* The exports that no row of EXPORTS calls, since they take no full handle. fill() calls those that fill one. */
static uint64_t with_free_exports(uint64_t sum)
{
    sm_handle out = SM_EMPTY;
    sm_error error = { 0 };
    bool is_map = false;
    int64_t numbers[5] = { 0 };
    sm_debug_id id = { { 0 } };
    size_t count = 0, at;
    sum = with_value(sum, sm_interface());
    sum = with_value(sum, sm_is_source_map(BYTES(FULL_MAP), &is_map, &error));
    sum = with_value(sum, is_map);
    sum = with_answer(sum, sm_open_url(&out, BYTES(DATA_URL), &error), &out);
    sum = with_answer(sum, sm_open_url(&out, BYTES(BAD_DATA_URL), &error), &out);
    sum = with_answer(sum, sm_resolve(BYTES(REFERENCE), BYTES(BASE_URL), &out, &error), &out);
    sum = with_answer(sum, sm_resolve_path(BYTES(PATH_REFERENCE), BYTES(BASE_PATH), &out, &error), &out);
    sum = with_answer(sum, sm_relative_path(BYTES(BASE_FILE), BYTES(TARGET_FILE), &out, &error), &out);
    sum = with_value(sum, sm_parse_segment(BYTES(SEGMENT), numbers, 5, &count, &error));
    sum = with_value(sum, count);
    for (at = 0; at < 5; at++)
        sum = with_value(sum, (uint64_t)numbers[at]);
    sum = with_answer(sum, sm_write_segment(NUMBERS, 5, &out, &error), &out);
    sum = with_answer(sum, sm_debug_id_text(&ID, &out, &error), &out);
    sum = with_value(sum, sm_parse_debug_id(BYTES(DEBUG_ID), &id));
    for (at = 0; at < sizeof id.bytes; at++)
        sum = with_value(sum, id.bytes[at]);
    sm_close(&out);
    return with_value(sum, sm_kind(&out));
}

/* A checksum of what every export answers, on a handle of each kind that it is for. */
static uint64_t answers_of_all(void)
{
    uint64_t sum = with_free_exports(1469598103934665603u);
    size_t row;
    for (row = 0; row < EXPORTS_COUNT; row++) {
        uint32_t kind;
        for (kind = SM_KIND_REGULAR; kind <= SM_KIND_REPORT; kind++) {
            sm_handle handle = SM_EMPTY;
            if (!(EXPORTS[row].kinds & KIND(kind)))
                continue;
            fill(&handle, kind);
            sum = with_answer(sum, EXPORTS[row].call(&handle), &handle);
            sm_close(&handle);
        }
    }
    return sum;
}

/*
** Handles that calls take
*/

static void prepare_none(struct handles *h)
{
    (void)h;
}

static void prepare_full(struct handles *h)
{
    OPEN(&h->subject, FULL_MAP);
}

static void prepare_index(struct handles *h)
{
    OPEN(&h->subject, INDEX_MAP);
}

static void prepare_linked(struct handles *h)
{
    OPEN(&h->subject, LINKED_MAP);
}

static void prepare_hermes(struct handles *h)
{
    OPEN(&h->subject, HERMES_MAP);
}

/* Shares the subject with a second handle, so that a change copies the map first. */
static void share(struct handles *h)
{
    sm_error error = { 0 };
    CHECK_NUMBER(sm_share(&h->subject, &h->shared, &error), SM_OK);
}

static void prepare_shared_full(struct handles *h)
{
    prepare_full(h);
    share(h);
}

static void prepare_shared_index(struct handles *h)
{
    prepare_index(h);
    share(h);
}

static void prepare_shared_hermes(struct handles *h)
{
    prepare_hermes(h);
    share(h);
}

static void prepare_composition(struct handles *h)
{
    OPEN(&h->subject, README_MAP);
    share(h);
    OPEN(&h->other, "{\"sources\":[\"a\"],\"mappings\":\";AAAA\"}");
}

static void prepare_bundle(struct handles *h)
{
    sm_error error = { 0 };
    CHECK_NUMBER(sm_bundle_open(&h->subject, BYTES(BUNDLE), &error), SM_OK);
    OPEN(&h->other, BUNDLE_MAP);
}

/* Cut within the startup code. */
static void prepare_short_bundle(struct handles *h)
{
    sm_error error = { 0 };
    CHECK_NUMBER(sm_bundle_open(&h->subject, (const uint8_t *)BUNDLE, 21, &error), SM_OK);
}

static void prepare_odd_bundle(struct handles *h)
{
    sm_error error = { 0 };
    CHECK_NUMBER(sm_bundle_open(&h->subject, BYTES(ODD_BUNDLE), &error), SM_OK);
    OPEN(&h->other, ODD_BUNDLE_MAP);
}

/* The index map of the bundle makes way for a split, the bundle for the index map. */
static void split_subject(struct handles *h)
{
    sm_split split = SM_EMPTY;
    sm_error error = { 0 };
    CHECK_NUMBER(sm_split_open(&split, &h->other, &error), SM_OK);
    sm_close(&h->other);
    h->other = h->subject;
    h->subject = split;
}

static void prepare_split(struct handles *h)
{
    prepare_bundle(h);
    split_subject(h);
}

static void prepare_odd_split(struct handles *h)
{
    prepare_odd_bundle(h);
    split_subject(h);
}

/*
** Calls
*/

#define CALL(name, expression)                                \
    static sm_code name(struct handles *h, sm_error *error)   \
    {                                                         \
        (void)h;                                              \
        return expression;                                    \
    }

static const sm_text PREFIX = { (const uint8_t *)"root", 4 };
static const sm_text NO_FILE = SM_NO_FILE;
/* README_TEXT, and a reference to another map than a.map. */
#define REFERRING README_TEXT "\n//# sourceMappingURL=b.map"
/* That of FULL_MAP. */
static const sm_debug_id SMALL_ID = { { 0, 0, 0, 0, 0, 0, 0, 0, 0, 0, 0, 0, 0, 0, 0, 42 } };

CALL(open_full, sm_open(&h->out, BYTES(FULL_MAP), error))
CALL(open_index, sm_open(&h->out, BYTES(INDEX_MAP), error))
CALL(open_hermes, sm_open(&h->out, BYTES(HERMES_MAP), error))
CALL(open_bad, sm_open(&h->out, BYTES("{\"sources\":[\"a\",\"b\"],\"mappings\":\"AAAA,AAAAAA\"}"), error))
CALL(open_url, sm_open_url(&h->out, BYTES(DATA_URL), error))
CALL(open_bad_url, sm_open_url(&h->out, BYTES(BAD_DATA_URL), error))
CALL(share_map, sm_share(&h->subject, &h->out, error))
CALL(hermes_map, sm_hermes_map(&h->subject, &h->out, error))
CALL(token_text, sm_token_text(&h->subject, 1, &h->out, error))
CALL(missing_token_text, sm_token_text(&h->subject, 3, &h->out, error))
CALL(lookup_text, sm_lookup_text(&h->subject, 0, 6, &h->out, error))
CALL(missing_lookup_text, sm_lookup_text(&h->subject, 0, 0, &h->out, error))
CALL(trace, sm_trace(&h->subject, BYTES("0:0\n0:4\n9:9\nx\n"), &h->out, error))
CALL(rewrite, sm_rewrite(&h->subject, true, true, &PREFIX, 1, error))
CALL(flatten, sm_flatten(&h->subject, error))
CALL(compose, sm_compose(&h->subject, &h->other, error))
CALL(shift, sm_shift(&h->subject, 2, error))
CALL(set_file, sm_set_file(&h->subject, true, BYTES("f"), error))
CALL(set_source_root, sm_set_source_root(&h->subject, true, BYTES("r"), error))
CALL(set_debug_id, sm_set_debug_id(&h->subject, true, &SMALL_ID, error))
CALL(set_source, sm_set_source(&h->subject, 0, BYTES("c.js"), error))
CALL(set_contents, sm_set_contents(&h->subject, 1, true, BYTES("let b;"), error))
CALL(ignore_source, sm_ignore_source(&h->subject, 0, error))
CALL(remove_names, sm_remove_names(&h->subject, error))
CALL(write_json, sm_write(&h->subject, &h->out, error))
CALL(write_url, sm_write_url(&h->subject, &h->out, error))
CALL(compile, sm_compile(&h->subject, true, &h->out, error))
CALL(section, sm_section(&h->subject, 1, &h->out, error))
CALL(builder_new, sm_builder_new(&h->out, true, BYTES("f"), error))
CALL(sections_new, sm_sections_new(&h->out, error))
CALL(view_open, sm_view_open(&h->out, BYTES("a\nb\r\nc"), error))
CALL(resolve, sm_resolve(BYTES(REFERENCE), BYTES(BASE_URL), &h->out, error))
CALL(resolve_path, sm_resolve_path(BYTES(PATH_REFERENCE), BYTES(BASE_PATH), &h->out, error))
CALL(relative_path, sm_relative_path(BYTES(BASE_FILE), BYTES(TARGET_FILE), &h->out, error))
CALL(write_segment, sm_write_segment(NUMBERS, 5, &h->out, error))
CALL(debug_id_text, sm_debug_id_text(&ID, &h->out, error))
CALL(write_too_large, sm_write_segment(TOO_LARGE, 2, &h->out, error))
CALL(bundle_open, sm_bundle_open(&h->out, BYTES(BUNDLE), error))
CALL(split_open, sm_split_open(&h->out, &h->other, error))
CALL(split_map, sm_split_map(&h->subject, &h->other, 0, &h->out, error))
CALL(missing_split_map, sm_split_map(&h->subject, &h->other, 1, &h->out, error))
CALL(invalid_split_map, sm_split_map(&h->subject, &h->other, 2, &h->out, error))
CALL(check_map, sm_check(&h->out, BYTES(INVALID_MAP), false, BYTES("\xff"), 20, error))
CALL(check_with_text, sm_check(&h->out, BYTES(README_MAP), true, BYTES(README_TEXT), 20, error))
CALL(check_with_no_text, sm_check(&h->out, BYTES(README_MAP), true, BYTES("\xff"), 20, error))
CALL(check_with_file,
     sm_check_files(&h->out, BYTES(README_MAP), false, BYTES("\xff"), BYTES(""), true, &NO_FILE, 1, 20, error))
CALL(check_with_name,
     sm_check_files(&h->out, BYTES(README_MAP), true, BYTES(REFERRING), BYTES("a.map"), false, &NO_FILE, 1, 20, error))
CALL(check_with_no_name,
     sm_check_files(&h->out, BYTES(README_MAP), false, BYTES(""), BYTES("\xff"), true, &NO_FILE, 1, 20, error))

/* A call that borrows a text, and fails: the text is as it was. */
#define BORROW(name, expression)                            \
    static sm_code name(struct handles *h, sm_error *error) \
    {                                                       \
        sm_text bytes = text_of("before");                  \
        sm_code code = expression;                          \
        CHECK_TEXT(bytes, "before");                        \
        return code;                                        \
    }

BORROW(bundle_startup, sm_bundle_startup(&h->subject, &bytes, error))
BORROW(bundle_module, sm_bundle_module(&h->subject, 0, &bytes, error))
BORROW(missing_module, sm_bundle_module(&h->subject, 1, &bytes, error))
BORROW(invalid_module, sm_bundle_module(&h->subject, 2, &bytes, error))
BORROW(no_module, sm_bundle_module(&h->subject, 3, &bytes, error))

static sm_code detect(struct handles *h, sm_error *error)
{
    bool is_map = false;
    sm_code code = sm_is_source_map(BYTES(FULL_MAP), &is_map, error);
    (void)h;
    CHECK(is_map == (code == SM_OK));
    return code;
}

static sm_code locate(struct handles *h, sm_error *error)
{
    bool is_legacy = false;
    return sm_locate_reference(BYTES("let a;\n//# sourceMappingURL=a.map"), &h->out, &is_legacy, error);
}

/* A call that parses a segment, and writes its numbers or nothing. */
static sm_code parse(const uint8_t *segment, size_t length, sm_error *error)
{
    static const int64_t BEFORE[5] = { 9, 9, 9, 9, 9 };
    int64_t numbers[5] = { 9, 9, 9, 9, 9 };
    size_t count = 9;
    sm_code code = sm_parse_segment(segment, length, numbers, 5, &count, error);
    CHECK_NUMBER(count, code == SM_OK ? 5 : 9);
    CHECK(memcmp(numbers, code == SM_OK ? NUMBERS : BEFORE, sizeof numbers) == 0);
    return code;
}

CALL(parse_segment, parse(BYTES(SEGMENT), error))
CALL(parse_bad_segment, parse(BYTES("GAAI!"), error))

#define FULL_MAP_WITH(file, ignored, mappings, names, root, source, contents)                                          \
    "{\"debugId\":\"00000000-0000-0000-0000-00000000002a\",\"file\":\"" file "\",\"ignoreList\":[" ignored "],"       \
    "\"mappings\":\"" mappings "\",\"names\":[" names "],\"rangeMappings\":\"C;\",\"sourceRoot\":\"" root "\","       \
    "\"sources\":[\"" source "\",\"/b.js\"],\"sourcesContent\":[\"let a;\"," contents "],\"version\":3}"
#define TOKENS "AAAA,ICCEA;E"
#define NAME "\"n\""
#define FULL_MAP_REWRITTEN                                                                                            \
    "{\"debugId\":\"00000000-0000-0000-0000-00000000002a\",\"file\":\"out.js\",\"mappings\":\"AAAA,ICCEA;E\","        \
    "\"names\":[\"n\"],\"rangeMappings\":\"C;\",\"sources\":[\"a.js\",\"/b.js\"],"                                    \
    "\"sourcesContent\":[\"let a;\",null],\"version\":3}"
#define SECOND_SECTION "{\"mappings\":\"AAAA\",\"names\":[],\"sources\":[\"b.js\"],\"version\":3}"
#define MODULE_MAP "{\"file\":\"0.js\",\"mappings\":\"AAAA,EAAE\",\"names\":[],\"sources\":[\"a.js\"],\"version\":3}"
/* README_MAP, its generated text moved one line down */
#define README_MAP_MOVED \
    "{\"mappings\":\";" README_MAPPINGS "\",\"names\":[\"x\",\"alert\"],\"sources\":[\"coolstuff.js\"],\"version\":3}"
/* what describe() prints of a compiled map: magic number and version, up to a zero byte */
#define COMPILED "\217SMC\1"
#define EMPTY_URL                                 \
    "data:application/json;charset=utf-8;base64," \
    "eyJtYXBwaW5ncyI6IiIsIm5hbWVzIjpbXSwic291cmNlcyI6W10sInZlcnNpb24iOjN9"

static void prepare_empty(struct handles *h)
{
    OPEN(&h->subject, "{\"mappings\":\"\"}");
}

#define ALONE_AND_SHARED(name, call, kind, wanted)                    \
    { name, prepare_##kind, call, SM_OK, wanted, NULL },              \
    { name " of a shared map", prepare_shared_##kind, call, SM_OK, wanted, NULL }

static const struct refusal_row ROWS[] = {
    { "open", prepare_none, open_full, SM_OK, NULL, FULL_MAP },
    { "open an index map", prepare_none, open_index, SM_OK, NULL, INDEX_MAP },
    { "open a Hermes map", prepare_none, open_hermes, SM_OK, NULL, HERMES_MAP },
    { "open a bad map", prepare_none, open_bad, SM_BAD_SEGMENT_SIZE, NULL, NULL },
    { "open a URL", prepare_none, open_url, SM_OK, NULL,
      "{\"mappings\":\"A\",\"names\":[],\"sources\":[],\"version\":3}" },
    { "open a bad URL", prepare_none, open_bad_url, SM_INVALID_DATA_URL, NULL, NULL },
    { "share", prepare_full, share_map, SM_OK, NULL, FULL_MAP },
    { "copy the map in a Hermes map", prepare_hermes, hermes_map, SM_OK, NULL, HERMES_MAP_REGULAR },
    { "copy the map in a shared Hermes map", prepare_shared_hermes, hermes_map, SM_OK, NULL, HERMES_MAP_REGULAR },
    { "copy the map in a regular map", prepare_full, hermes_map, SM_WRONG_KIND, NULL, NULL },
    { "print a token", prepare_full, token_text, SM_OK, NULL, "/b.js:1:2 name=n" },
    { "print a missing token", prepare_full, missing_token_text, SM_ABSENT, NULL, NULL },
    { "print a token of an index map", prepare_index, token_text, SM_WRONG_KIND, NULL, NULL },
    { "print the closest token", prepare_full, lookup_text, SM_OK, NULL, "/b.js:1:4 name=n" },
    { "print the closest token of an index map", prepare_index, lookup_text, SM_OK, NULL, "a.js:0:0" },
    { "print no closest token", prepare_linked, missing_lookup_text, SM_ABSENT, NULL, NULL },
    { "detect", prepare_none, detect, SM_OK, NULL, NULL },
    { "trace", prepare_full, trace, SM_OK, NULL,
      "root/a.js:0:0\n/b.js:1:2 name=n\n<unknown>:4294967295:4294967295\nbad position\n" },
    ALONE_AND_SHARED("rewrite", rewrite, full, FULL_MAP_REWRITTEN),
    ALONE_AND_SHARED("rewrite a Hermes map", rewrite, hermes, NULL),
    ALONE_AND_SHARED("flatten", flatten, index, INDEX_MAP_FLAT),
    { "flatten what has no map", prepare_linked, flatten, SM_CANNOT_FLATTEN, NULL, NULL },
    { "compose", prepare_composition, compose, SM_OK, README_MAP_MOVED, NULL },
    ALONE_AND_SHARED("shift", shift, index, INDEX_MAP_SHIFTED_BY_2),
    ALONE_AND_SHARED("set the file", set_file, full, FULL_MAP_WITH("f", "1", TOKENS, NAME, "root", "a.js", "null")),
    ALONE_AND_SHARED("set the root", set_source_root, full,
                     FULL_MAP_WITH("out.js", "1", TOKENS, NAME, "r", "a.js", "null")),
    ALONE_AND_SHARED("set the debug id", set_debug_id, full, NULL),
    ALONE_AND_SHARED("set a source", set_source, full,
                     FULL_MAP_WITH("out.js", "1", TOKENS, NAME, "root", "c.js", "null")),
    ALONE_AND_SHARED("set contents", set_contents, full,
                     FULL_MAP_WITH("out.js", "1", TOKENS, NAME, "root", "a.js", "\"let b;\"")),
    ALONE_AND_SHARED("ignore a source", ignore_source, full,
                     FULL_MAP_WITH("out.js", "0,1", TOKENS, NAME, "root", "a.js", "null")),
    ALONE_AND_SHARED("remove names", remove_names, full,
                     FULL_MAP_WITH("out.js", "1", "AAAA,ICCE;E", "", "root", "a.js", "null")),
    { "write", prepare_full, write_json, SM_OK, NULL, FULL_MAP },
    { "write an index map", prepare_index, write_json, SM_OK, NULL, INDEX_MAP },
    { "write a Hermes map", prepare_hermes, write_json, SM_OK, NULL, HERMES_MAP },
    { "write a URL", prepare_empty, write_url, SM_OK, NULL, EMPTY_URL },
    { "compile", prepare_full, compile, SM_OK, NULL, COMPILED },
    { "compile an index map", prepare_index, compile, SM_OK, NULL, COMPILED },
    { "compile a Hermes map", prepare_hermes, compile, SM_OK, NULL, COMPILED },
    { "compile what has no map", prepare_linked, compile, SM_CANNOT_FLATTEN, NULL, NULL },
    { "copy a section", prepare_index, section, SM_OK, NULL, SECOND_SECTION },
    { "begin to build", prepare_none, builder_new, SM_OK, NULL, "a builder" },
    { "begin an index map", prepare_none, sections_new, SM_OK, NULL, "sections" },
    { "open a view", prepare_none, view_open, SM_OK, NULL, "a\nb\r\nc" },
    { "locate", prepare_none, locate, SM_OK, NULL, "a.map" },
    { "resolve", prepare_none, resolve, SM_OK, NULL, "http://x.com/a/b%20c" },
    { "resolve a path", prepare_none, resolve_path, SM_OK, NULL, "/a/b" },
    { "path to a file", prepare_none, relative_path, SM_OK, NULL, "../d/e.map" },
    { "parse a segment", prepare_none, parse_segment, SM_OK, NULL, NULL },
    { "parse a bad segment", prepare_none, parse_bad_segment, SM_INVALID_BASE64, NULL, NULL },
    { "write a segment", prepare_none, write_segment, SM_OK, NULL, SEGMENT },
    { "print a debug id", prepare_none, debug_id_text, SM_OK, NULL, DEBUG_ID },
    { "write a number that is too large", prepare_none, write_too_large, SM_VLQ_OVERFLOW, NULL, NULL },
    { "open a bundle", prepare_none, bundle_open, SM_OK, NULL, "a bundle of 1" },
    { "open a split", prepare_bundle, split_open, SM_OK, NULL, "a split" },
    { "startup code past the end", prepare_short_bundle, bundle_startup, SM_RANGE, NULL, NULL },
    { "a module past the end", prepare_short_bundle, bundle_module, SM_RANGE, NULL, NULL },
    { "a missing module", prepare_odd_bundle, missing_module, SM_ABSENT, NULL, NULL },
    { "an invalid module", prepare_odd_bundle, invalid_module, SM_INVALID_BUNDLE_ENTRY, NULL, NULL },
    { "no such module", prepare_odd_bundle, no_module, SM_INVALID_BUNDLE_INDEX, NULL, NULL },
    { "map of a module", prepare_split, split_map, SM_OK, NULL, MODULE_MAP },
    { "map of a missing module", prepare_odd_split, missing_split_map, SM_ABSENT, NULL, NULL },
    { "map of an invalid module", prepare_odd_split, invalid_split_map, SM_INVALID_BUNDLE_ENTRY, NULL, NULL },
    { "check", prepare_none, check_map, SM_OK, NULL, INVALID_MAP_FINDINGS },
    { "check a valid map", prepare_none, check_with_text, SM_OK, NULL, README_MAP_FINDINGS },
    { "check with bytes that are no text", prepare_none, check_with_no_text, SM_UTF8, NULL, NULL },
    { "check beside files", prepare_none, check_with_file, SM_OK, NULL,
      "SM227 1 sources[0] 0:0 the source has neither contents nor a file\n" },
    { "check beside a name", prepare_none, check_with_name, SM_OK, NULL,
      README_MAP_FINDINGS "SM225 1  0:0 the reference of the generated text ends in another file name\n" },
    { "check beside a name that is no text", prepare_none, check_with_no_name, SM_UTF8, NULL, NULL },
};

struct descriptions {
    char subject[SIZE], shared[SIZE], other[SIZE], out[SIZE];
};

static void describe_all(struct handles *h, struct descriptions *d)
{
    describe(&h->subject, d->subject, SIZE);
    describe(&h->shared, d->shared, SIZE);
    describe(&h->other, d->other, SIZE);
    describe(&h->out, d->out, SIZE);
}

static void check_named(bool holds, const char *name, unsigned long n, const char *what)
{
    char text[256];
    snprintf(text, sizeof text, "%s, allocation %lu refused: %s", name, n, what);
    check(holds, text, __FILE__, __LINE__);
}

static void check_same(const struct descriptions *got, const char *subject, const char *out,
                       const struct descriptions *before, const char *name, unsigned long n)
{
    check_named(strcmp(got->subject, subject) == 0, name, n, "the subject is not as it should be");
    check_named(strcmp(got->out, out) == 0, name, n, "what the call fills is not as it should be");
    check_named(strcmp(got->shared, before->shared) == 0, name, n, "a shared map has changed");
    check_named(strcmp(got->other, before->other) == 0, name, n, "the other handle has changed");
}

static void close_all(struct handles *h)
{
    sm_close(&h->subject);
    sm_close(&h->shared);
    sm_close(&h->other);
    sm_close(&h->out);
}

/* Makes the call with allocation `n` refused, and then with memory. Returns whether it came to that allocation. */
static bool refuse_one(const struct refusal_row *row, unsigned long n, bool and_all_later, uint64_t answers)
{
    static struct descriptions before, now;
    struct handles h = { SM_EMPTY, SM_EMPTY, SM_EMPTY, SM_EMPTY };
    sm_error error = { 0 };
    sm_code code;
    bool was_refused;
    row->prepare(&h);
    CHECK_NUMBER(sm_view_open(&h.out, BYTES("before"), &error), SM_OK);
    describe_all(&h, &before);
    refuse(n, and_all_later);
    code = row->call(&h, &error);
    was_refused = refuse_none() >= n;
    if (code == SM_OUT_OF_MEMORY) {
        check_named(was_refused, row->name, n, "out of memory, and none was refused");
        check_named(error.code == code, row->name, n, "the error does not say so");
        describe_all(&h, &now);
        check_same(&now, before.subject, before.out, &before, row->name, n);
        check_named(answers_of_all() == answers, row->name, n, "afterwards an export answers otherwise");
        memset(&error, 0, sizeof error);
        code = row->call(&h, &error);
    }
    check_named(code == row->code && error.code == row->code, row->name, n, "the code is another one");
    describe_all(&h, &now);
    check_same(&now, row->subject ? row->subject : before.subject, row->out ? row->out : before.out, &before, row->name, n);
    close_all(&h);
    return was_refused;
}

static void test_row(const struct refusal_row *row, unsigned long most, uint64_t answers)
{
    int all;
    for (all = 0; all < 2; all++) {
        unsigned long n = 1;
        while (n <= most && refuse_one(row, n, all != 0, answers))
            n++;
    }
}

/*
** Building
*/

#define BUILT                                                                                                     \
    "{\"debugId\":\"00000000-0000-0000-0000-00000000002a\",\"file\":\"out.js\",\"ignoreList\":[1],"               \
    "\"mappings\":\"AAAA,ICCEA;E\",\"names\":[\"n\"],\"rangeMappings\":\"C;\",\"sourceRoot\":\"root\","           \
    "\"sources\":[\"root/a.js\",\"b.js\"],\"sourcesContent\":[null,\"let b;\"],\"version\":3}"

/* Whether a call of a builder is to be made again: memory ran out. Checks that every export answers as before, or
** that the call succeeded. */
static bool is_to_repeat(sm_code code, const sm_error *error, unsigned long *failures, uint64_t answers)
{
    if (code == SM_OUT_OF_MEMORY) {
        CHECK_NUMBER(error->code, SM_OUT_OF_MEMORY);
        CHECK(answers_of_all() == answers);
        ++*failures;
        return true;
    }
    CHECK_NUMBER(code, SM_OK);
    return false;
}

#define REPEAT(call)                                        \
    do                                                      \
        code = (call);                                      \
    while (is_to_repeat(code, &error, failures, answers) && *failures < 10)

/* Builds one map, and makes each call that fails again. Returns how many calls failed. */
static void build(sm_map *map, unsigned long *failures, uint64_t answers)
{
    sm_builder builder = SM_EMPTY;
    sm_error error = { 0 };
    sm_code code;
    sm_token tokens[3];
    uint32_t id = SM_NONE;
    size_t done = 0;
    tokens[0] = token_of(1, 2, SM_NONE, SM_NONE, SM_NONE, SM_NONE, false);
    tokens[1] = token_of(0, 4, 1, 2, 1, 0, true);
    tokens[2] = token_of(0, 0, 0, 0, 0, SM_NONE, false);
    REPEAT(sm_builder_new(&builder, true, BYTES("out.js"), &error));
    REPEAT(sm_builder_set_source_root(&builder, true, BYTES("root"), &error));
    REPEAT(sm_builder_set_debug_id(&builder, true, &SMALL_ID, &error));
    REPEAT(sm_builder_add_source(&builder, BYTES("root/root/a.js"), &id, &error));
    CHECK_NUMBER(id, 0);
    REPEAT(sm_builder_add_source(&builder, BYTES("c.js"), &id, &error));
    CHECK_NUMBER(id, 1);
    REPEAT(sm_builder_set_source(&builder, 1, BYTES("root/b.js"), &error));
    /* a call that failed and cut a prefix would cut a second one when it is made again */
    REPEAT(sm_builder_strip_prefixes(&builder, &PREFIX, 1, &error));
    REPEAT(sm_builder_add_name(&builder, BYTES("n"), &id, &error));
    CHECK_NUMBER(id, 0);
    REPEAT(sm_builder_set_contents(&builder, 1, true, BYTES("let b;"), &error));
    REPEAT(sm_builder_ignore_source(&builder, 1, &error));
    while (done < 3 && *failures < 10) {
        size_t added;
        error.code = SM_OK;
        added = sm_builder_add_tokens(&builder, tokens + done, 3 - done, &error);
        done += added;
        is_to_repeat(error.code, &error, failures, answers);
    }
    code = sm_builder_finish(&builder, map, &error);
    CHECK_NUMBER(sm_kind(&builder), SM_KIND_EMPTY);
    /* finishing empties the builder also when it fails, so the map is built anew */
    if (is_to_repeat(code, &error, failures, answers) && *failures < 10)
        build(map, failures, answers);
}

static void test_building_refused(unsigned long most, uint64_t answers)
{
    unsigned long n, made = 1;
    for (n = 1; n <= most && n <= made; n++) {
        sm_map map = SM_EMPTY;
        unsigned long failures = 0;
        refuse(n, false);
        build(&map, &failures, answers);
        made = refuse_none();
        CHECK(failures <= 1);
        CHECK_HOLDS(&map, BUILT);
        sm_close(&map);
    }
    CHECK(n > 5);
}

/* Makes an index map, and each call that fails again. */
static void assemble(sm_map *a, sm_map *b, sm_map *map, unsigned long *failures, uint64_t answers)
{
    static const uint32_t OFFSETS[] = { 5, SM_NONE };
    sm_sections sections = SM_EMPTY;
    sm_error error = { 0 };
    sm_code code;
    REPEAT(sm_sections_new(&sections, &error));
    REPEAT(sm_sections_add(&sections, 0, 0, false, BYTES(""), true, a, &error));
    REPEAT(sm_sections_add(&sections, 10, 4, true, BYTES("u"), true, b, &error));
    REPEAT(sm_sections_add(&sections, 20, 0, false, BYTES(""), false, b, &error));
    do {
        code = sm_sections_finish(&sections, map, true, BYTES("f"), true, OFFSETS, 2, true, &PREFIX, 1, &error);
        if (!is_to_repeat(code, &error, failures, answers)) {
            CHECK_NUMBER(sm_kind(&sections), SM_KIND_EMPTY);
            return;
        }
        CHECK_NUMBER(sm_kind(map), SM_KIND_EMPTY);
    } while (sm_kind(&sections) == SM_KIND_SECTIONS && *failures < 10);
    /* the call had taken the sections when memory ran out */
    CHECK_NUMBER(sm_kind(&sections), SM_KIND_EMPTY);
    if (*failures < 10)
        assemble(a, b, map, failures, answers);
}

static void test_assembling_refused(unsigned long most, uint64_t answers)
{
    unsigned long n, made = 1;
    for (n = 1; n <= most && n <= made; n++) {
        sm_map map = SM_EMPTY, a = SM_EMPTY, b = SM_EMPTY;
        unsigned long failures = 0;
        OPEN(&a, FULL_MAP);
        OPEN(&b, HERMES_MAP);
        refuse(n, false);
        assemble(&a, &b, &map, &failures, answers);
        made = refuse_none();
        CHECK(failures <= 1);
        CHECK_HOLDS(&map, "{\"file\":\"f\",\"sections\":[{\"map\":" FULL_MAP ",\"offset\":{\"column\":0,\"line\":0},"
                          "\"url\":null},{\"map\":" HERMES_MAP ",\"offset\":{\"column\":4,\"line\":10},\"url\":\"u\"},"
                          "{\"map\":null,\"offset\":{\"column\":0,\"line\":20},\"url\":null}],\"sources\":null,"
                          "\"version\":3,\"x_facebook_offsets\":[5,null],\"x_metro_module_paths\":[\"root\"]}");
        CHECK_HOLDS(&a, FULL_MAP);
        CHECK_HOLDS(&b, HERMES_MAP);
        sm_close(&map);
        sm_close(&a);
        sm_close(&b);
    }
    CHECK(n > 5);
}

/*
** A map of many parts, whose opening takes more allocations than the small ones
*/

#define PARTS 60

static char *map_of_parts(void)
{
    char *json = malloc(PARTS * 64 + 256), *at = json;
    int part;
    at += sprintf(at, "{\"mappings\":\"");
    for (part = 0; part < PARTS; part++)
        at += sprintf(at, "%s", part == 0 ? "AAAAA" : ",CCAAC");
    at += sprintf(at, "\",\"names\":[");
    for (part = 0; part < PARTS; part++)
        at += sprintf(at, "%s\"name%d\"", part == 0 ? "" : ",", part);
    at += sprintf(at, "],\"sources\":[");
    for (part = 0; part < PARTS; part++)
        at += sprintf(at, "%s\"%d.js\"", part == 0 ? "" : ",", part);
    sprintf(at, "],\"version\":3}");
    return json;
}

static void test_many_parts_refused(unsigned long most, uint64_t answers)
{
    char *json = map_of_parts();
    unsigned long n, made = 1;
    for (n = 1; n <= most && n <= made; n++) {
        sm_map map = SM_EMPTY;
        sm_error error = { 0 };
        sm_code code;
        refuse(n, false);
        code = sm_open(&map, (const uint8_t *)json, strlen(json), &error);
        made = refuse_none();
        if (code == SM_OUT_OF_MEMORY) {
            CHECK_NUMBER(sm_kind(&map), SM_KIND_EMPTY);
            CHECK(answers_of_all() == answers);
            code = sm_open(&map, (const uint8_t *)json, strlen(json), &error);
        }
        CHECK_NUMBER(code, SM_OK);
        CHECK_HOLDS(&map, json);
        sm_close(&map);
    }
    CHECK(n > 100 || n > most);
    free(json);
}

/* Calls that allocate nothing return the same code when every allocation is refused. */
static void test_without_memory(void)
{
    static const char *const FREE[] = {
        "sm_count", "sm_file", "sm_source_root", "sm_get_debug_id", "sm_source", "sm_name", "sm_contents",
        "sm_ignore_list_from", "sm_tokens", "sm_lookup", "sm_lookup_many", "sm_lookup_span", "sm_lookup_index",
        "sm_lookup_source", "sm_lookup_name", "sm_hermes_function_name", "sm_scope_for", "sm_bytes_text",
        "sm_section_start_of", "sm_section_url", "sm_module_offsets", "sm_module_path", "sm_module_path_count",
        "sm_builder_source", "sm_view_text", "sm_view_count", "sm_view_line", "sm_view_slice", "sm_bundle_count",
        "sm_report_count", "sm_report_finding", "sm_report_sections", "sm_report_key", "sm_report_sentence"
    };
    size_t row, name;
    uint32_t kind;
    for (row = 0; row < EXPORTS_COUNT; row++) {
        for (name = 0; name < sizeof FREE / sizeof FREE[0]; name++) {
            if (strcmp(EXPORTS[row].name, FREE[name]) != 0)
                continue;
            for (kind = SM_KIND_EMPTY; kind <= SM_KIND_REPORT; kind++) {
                sm_handle handle = SM_EMPTY;
                sm_code code, without;
                fill(&handle, kind);
                code = EXPORTS[row].call(&handle);
                refuse(1, true);
                without = EXPORTS[row].call(&handle);
                check_named(refuse_none() == 0 && without == code, FREE[name], 1, "memory is allocated");
                sm_close(&handle);
            }
        }
    }
}

/* The same, for calls that take a second map or no handle. */
static void test_pairs_without_memory(void)
{
    static const char *const TEXTS[] = { FULL_MAP, INDEX_MAP, HERMES_MAP };
    size_t row;
    for (row = 0; row < sizeof TEXTS / sizeof TEXTS[0]; row++) {
        sm_map map = SM_EMPTY, other = SM_EMPTY;
        sm_debug_id id = { { 0 } };
        bool are_equal = false;
        sm_code equal, parsed;
        open_text(&map, TEXTS[row]);
        open_text(&other, TEXTS[row]);
        refuse(1, true);
        equal = sm_equal(&map, &other, &are_equal);
        parsed = sm_parse_debug_id(BYTES(DEBUG_ID), &id);
        CHECK_NUMBER(refuse_none(), 0);
        CHECK(equal == SM_OK && are_equal);
        CHECK(parsed == SM_OK && memcmp(id.bytes, ID.bytes, sizeof id.bytes) == 0);
        sm_close(&map);
        sm_close(&other);
    }
}

/* The same, for calls on the bytes of a compiled map. */
static void test_bytes_without_memory(void)
{
    static const sm_position POSITIONS[1] = { { 0, 0 } };
    sm_map map = SM_EMPTY;
    sm_bytes bytes = SM_EMPTY;
    sm_error error = { 0 };
    sm_found found = { { 0 }, false };
    sm_counts counts = { 0 };
    sm_debug_id id = { { 0 } };
    sm_text file = SM_TEXT_EMPTY, text = SM_TEXT_EMPTY;
    sm_code code;
    OPEN(&map, FULL_MAP);
    CHECK_NUMBER(sm_compile(&map, true, &bytes, &error), SM_OK);
    CHECK_NUMBER(sm_bytes_text(&bytes, &file), SM_OK);
    refuse(1, true);
    code = sm_compiled_check(file.at, file.length);
    code |= sm_compiled_verify(file.at, file.length);
    code |= sm_compiled_count(file.at, file.length, &counts);
    code |= sm_compiled_debug_id(file.at, file.length, &id);
    code |= sm_compiled_lookup(file.at, file.length, 0, 0, &found);
    code |= sm_compiled_token(file.at, file.length, 0, &found);
    code |= sm_compiled_source(file.at, file.length, 0, &text);
    code |= sm_compiled_name(file.at, file.length, 0, &text);
    code |= sm_compiled_contents(file.at, file.length, 0, &text);
    code |= sm_compiled_file(file.at, file.length, &text);
    code |= sm_compiled_scope(file.at, file.length, 0, 0, &text) ^ SM_ABSENT;
    code |= sm_compiled_lookup_many(file.at, file.length, POSITIONS, 1, &found, 1) ^ 1;
    CHECK_NUMBER(refuse_none(), 0);
    CHECK_NUMBER(code, SM_OK);
    sm_close(&bytes);
    sm_close(&map);
}

void test_refusals(unsigned long most)
{
    uint64_t answers = answers_of_all();
    size_t row;
    CHECK(answers == answers_of_all());
    for (row = 0; row < sizeof ROWS / sizeof ROWS[0]; row++)
        test_row(&ROWS[row], most, answers);
    test_building_refused(most, answers);
    test_assembling_refused(most, answers);
    test_many_parts_refused(most, answers);
    test_without_memory();
    test_pairs_without_memory();
    test_bytes_without_memory();
}
