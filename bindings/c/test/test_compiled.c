/* Compiled maps: what sm_compile() makes, and what the calls on its bytes answer, from eight threads too. */
#include "inputs.h"
#include "tests.h"

#include <pthread.h>
#include <stdlib.h>
#include <string.h>

#define THREADS 8
#define ROUNDS 500
/* docs/COMPILED.md: where the header says where the tables begin, how much of them each block takes, and the bytes of a
** start */
#define TABLES 48
#define OF_A_BLOCK 40
#define START 8

struct file {
    uint8_t *at;
    size_t length;
};

/* Compiles the map of a text into memory of its own. */
static struct file compiled(const char *map_text, bool with_contents)
{
    sm_map map = SM_EMPTY;
    sm_bytes bytes = SM_EMPTY;
    sm_error error = { 0 };
    sm_text text = SM_TEXT_EMPTY;
    struct file file;
    open_text(&map, map_text);
    CHECK_NUMBER(sm_compile(&map, with_contents, &bytes, &error), SM_OK);
    CHECK_NUMBER(sm_bytes_text(&bytes, &text), SM_OK);
    file.at = malloc(text.length + 1);
    file.length = text.length;
    if (file.at == NULL)
        abort();
    memcpy(file.at, text.at, text.length);
    sm_close(&bytes);
    sm_close(&map);
    return file;
}

static uint32_t number_at(const uint8_t *at)
{
    return at[0] | (uint32_t)at[1] << 8 | (uint32_t)at[2] << 16 | (uint32_t)at[3] << 24;
}

static void test_lookups_in_bytes(void)
{
    struct file file = compiled(FULL_MAP, true);
    sm_found found = { { 0 }, false };
    CHECK_NUMBER(sm_compiled_check(file.at, file.length), SM_OK);
    CHECK_NUMBER(sm_compiled_verify(file.at, file.length), SM_OK);
    CHECK_NUMBER(sm_compiled_lookup(file.at, file.length, 0, 3, &found), SM_OK);
    CHECK(found.found);
    CHECK_TOKEN(found.token, 0, 0, 0, 0, 0, SM_NONE, false);
    /* a range token, one column further on */
    CHECK_NUMBER(sm_compiled_lookup(file.at, file.length, 0, 5, &found), SM_OK);
    CHECK_TOKEN(found.token, 0, 4, 1, 3, 1, 0, true);
    CHECK_NUMBER(sm_compiled_lookup(file.at, file.length, SM_NONE, SM_NONE, &found), SM_OK);
    CHECK_TOKEN(found.token, 1, 2, SM_NONE, SM_NONE, SM_NONE, SM_NONE, false);
    free(file.at);
}

static void test_tokens_in_bytes(void)
{
    struct file file = compiled(FULL_MAP, true);
    sm_found found = { { 0 }, false };
    CHECK_NUMBER(sm_compiled_token(file.at, file.length, 3, &found), SM_ABSENT);
    CHECK_NUMBER(sm_compiled_token(file.at, file.length, SM_NONE, &found), SM_ABSENT);
    CHECK(!found.found);
    CHECK_NUMBER(sm_compiled_token(file.at, file.length, 0, &found), SM_OK);
    CHECK(found.found);
    CHECK_TOKEN(found.token, 0, 0, 0, 0, 0, SM_NONE, false);
    CHECK_NUMBER(sm_compiled_token(file.at, file.length, 1, &found), SM_OK);
    CHECK_TOKEN(found.token, 0, 4, 1, 2, 1, 0, true);
    CHECK_NUMBER(sm_compiled_token(file.at, file.length, 2, &found), SM_OK);
    CHECK_TOKEN(found.token, 1, 2, SM_NONE, SM_NONE, SM_NONE, SM_NONE, false);
    free(file.at);
}

static void test_texts_in_bytes(void)
{
    struct file file = compiled(FULL_MAP, true);
    sm_text text = text_of("before");
    CHECK_NUMBER(sm_compiled_contents(file.at, file.length, 1, &text), SM_ABSENT);
    CHECK_NUMBER(sm_compiled_source(file.at, file.length, 2, &text), SM_ABSENT);
    CHECK_NUMBER(sm_compiled_name(file.at, file.length, SM_NONE, &text), SM_ABSENT);
    CHECK_NUMBER(sm_compiled_scope(file.at, file.length, 0, 0, &text), SM_ABSENT);
    CHECK_TEXT(text, "before");
    CHECK_NUMBER(sm_compiled_source(file.at, file.length, 0, &text), SM_OK);
    CHECK_TEXT(text, "root/a.js");
    CHECK(text.at > file.at && text.at < file.at + file.length);
    CHECK_NUMBER(sm_compiled_source(file.at, file.length, 1, &text), SM_OK);
    CHECK_TEXT(text, "/b.js");
    CHECK_NUMBER(sm_compiled_name(file.at, file.length, 0, &text), SM_OK);
    CHECK_TEXT(text, "n");
    CHECK_NUMBER(sm_compiled_contents(file.at, file.length, 0, &text), SM_OK);
    CHECK_TEXT(text, "let a;");
    CHECK_NUMBER(sm_compiled_file(file.at, file.length, &text), SM_OK);
    CHECK_TEXT(text, "out.js");
    free(file.at);
    file = compiled(FULL_MAP, false);
    CHECK_NUMBER(sm_compiled_contents(file.at, file.length, 0, &text), SM_ABSENT);
    free(file.at);
}

static void test_counts_in_bytes(void)
{
    static const sm_debug_id ID = { { 0, 0, 0, 0, 0, 0, 0, 0, 0, 0, 0, 0, 0, 0, 0, 42 } };
    struct file file = compiled(FULL_MAP, true);
    sm_counts counts = { 9, 9, 9, 9, 9 };
    sm_debug_id id = { { 0 } };
    sm_text text = text_of("before");
    CHECK_NUMBER(sm_compiled_count(file.at, file.length, &counts), SM_OK);
    CHECK(counts.tokens == 3 && counts.sources == 2 && counts.names == 1);
    CHECK(counts.ignored == 0 && counts.sections == 0);
    CHECK_NUMBER(sm_compiled_debug_id(file.at, file.length, &id), SM_OK);
    CHECK(memcmp(&id, &ID, sizeof id) == 0);
    free(file.at);
    file = compiled(README_MAP, true);
    CHECK_NUMBER(sm_compiled_debug_id(file.at, file.length, &id), SM_ABSENT);
    CHECK(memcmp(&id, &ID, sizeof id) == 0);
    CHECK_NUMBER(sm_compiled_file(file.at, file.length, &text), SM_ABSENT);
    CHECK_TEXT(text, "before");
    free(file.at);
}

/* Of a Hermes map the functions are compiled too, of an index map its flat map. */
static void test_other_kinds(void)
{
    struct file file = compiled(INDEX_MAP, false), flat = compiled(INDEX_MAP_FLAT, false);
    sm_found found = { { 0 }, false };
    sm_text text = SM_TEXT_EMPTY;
    CHECK(file.length == flat.length && memcmp(file.at, flat.at, file.length) == 0);
    CHECK_NUMBER(sm_compiled_lookup(file.at, file.length, 10, 4, &found), SM_OK);
    CHECK_TOKEN(found.token, 10, 4, 0, 0, 1, SM_NONE, false);
    free(file.at);
    free(flat.at);
    file = compiled(HERMES_MAP, false);
    CHECK_NUMBER(sm_compiled_scope(file.at, file.length, 0, 4, &text), SM_OK);
    CHECK_TEXT(text, "<global>");
    CHECK_NUMBER(sm_compiled_scope(file.at, file.length, 7, 0, &text), SM_OK);
    CHECK_TEXT(text, "foo");
    free(file.at);
}

static void test_many_in_bytes(void)
{
    static const sm_position POSITIONS[] = { { 0, 0 }, { 0, 1 }, { 0, 2 }, { 0, 3 }, { 1, 9 } };
    struct file file = compiled(DOUBLED_MAP, false);
    sm_found found[5] = { { { 0 }, false } };
    found[4].token.line = 99;
    CHECK_NUMBER(sm_compiled_lookup_many(file.at, file.length, POSITIONS, 5, found, 4), 4);
    CHECK(!found[0].found && found[1].found && found[2].found && found[3].found);
    CHECK_TOKEN(found[1].token, 0, 1, 0, 0, 0, SM_NONE, false);
    /* of two tokens at 0:2 the first at that position, the last after it */
    CHECK_TOKEN(found[2].token, 0, 2, 1, 0, 0, SM_NONE, false);
    CHECK_TOKEN(found[3].token, 0, 2, 2, 0, 0, SM_NONE, false);
    CHECK_NUMBER(found[4].token.line, 99);
    CHECK_NUMBER(sm_compiled_lookup_many(file.at, file.length - 1, POSITIONS, 5, found, 5), 0);
    CHECK_TOKEN(found[3].token, 0, 2, 2, 0, 0, SM_NONE, false);
    free(file.at);
}

/* Every call on bytes that are no compiled map returns why, and writes nothing. */
static void check_refused(const uint8_t *at, size_t length, sm_code code)
{
    sm_found found = { { 1, 2, 3, 4, 5, 6, true }, true };
    sm_counts counts = { 1, 2, 3, 4, 5 };
    sm_debug_id id = { DEBUG_ID_BYTES }, same = { DEBUG_ID_BYTES };
    sm_text text = text_of("before");
    CHECK_NUMBER(sm_compiled_check(at, length), code);
    CHECK_NUMBER(sm_compiled_verify(at, length), code);
    CHECK_NUMBER(sm_compiled_lookup(at, length, 0, 0, &found), code);
    CHECK_NUMBER(sm_compiled_token(at, length, 0, &found), code);
    CHECK_TOKEN(found.token, 1, 2, 3, 4, 5, 6, true);
    CHECK_NUMBER(sm_compiled_count(at, length, &counts), code);
    CHECK(counts.tokens == 1 && counts.sources == 2 && counts.sections == 5);
    CHECK_NUMBER(sm_compiled_debug_id(at, length, &id), code);
    CHECK(memcmp(&id, &same, sizeof id) == 0);
    CHECK_NUMBER(sm_compiled_scope(at, length, 0, 0, &text), code);
    CHECK_NUMBER(sm_compiled_source(at, length, 0, &text), code);
    CHECK_NUMBER(sm_compiled_name(at, length, 0, &text), code);
    CHECK_NUMBER(sm_compiled_contents(at, length, 0, &text), code);
    CHECK_NUMBER(sm_compiled_file(at, length, &text), code);
    CHECK_TEXT(text, "before");
}

static void test_refused_bytes(void)
{
    struct file file = compiled(README_MAP, false);
    uint8_t *at = file.at;
    check_refused(at, 0, SM_COMPILED_TRUNCATED);
    check_refused(at, 63, SM_COMPILED_TRUNCATED);
    check_refused(at, file.length - 1, SM_COMPILED_TRUNCATED);
    /* memory has one byte more than the file */
    at[file.length] = 0;
    check_refused(at, file.length + 1, SM_COMPILED_EXTENT);
    at[4]++;
    check_refused(at, file.length, SM_COMPILED_VERSION);
    at[4]--;
    at[0]++;
    check_refused(at, file.length, SM_COMPILED_MAGIC);
    at[0]--;
    /* tables that begin near 2^32 */
    at[TABLES + 3] = 255;
    check_refused(at, file.length, SM_COMPILED_EXTENT);
    at[TABLES + 3] = 0;
    CHECK_NUMBER(sm_compiled_check(at, file.length), SM_OK);
    free(at);
}

/* Faults behind the header: each is an error of the call that meets it. */
static void test_damaged_bytes(void)
{
    struct file file = compiled(README_MAP, false);
    uint32_t tables = number_at(file.at + TABLES), texts = tables + OF_A_BLOCK;
    uint32_t first = number_at(file.at + texts);
    sm_text text = text_of("before");
    CHECK_NUMBER(sm_compiled_verify(file.at, file.length), SM_OK);
    file.at[first] = 0xff;
    CHECK_NUMBER(sm_compiled_source(file.at, file.length, 0, &text), SM_UTF8);
    CHECK_NUMBER(sm_compiled_verify(file.at, file.length), SM_UTF8);
    file.at[first] = 'c';
    file.at[texts + 3] = 255;
    CHECK_NUMBER(sm_compiled_source(file.at, file.length, 0, &text), SM_COMPILED_TEXT);
    CHECK_NUMBER(sm_compiled_verify(file.at, file.length), SM_COMPILED_TEXT);
    file.at[texts + 3] = 0;
    CHECK_TEXT(text, "before");
    /* the first token behind all others of its line */
    file.at[tables] = 200;
    CHECK_NUMBER(sm_compiled_verify(file.at, file.length), SM_COMPILED_ORDER);
    CHECK_NUMBER(sm_compiled_check(file.at, file.length), SM_OK);
    file.at[tables] = 0;
    CHECK_NUMBER(sm_compiled_verify(file.at, file.length), SM_OK);
    free(file.at);
}

static void test_not_compiled(void)
{
    sm_map map = SM_EMPTY;
    sm_bytes bytes = SM_EMPTY;
    sm_error error = { 0 };
    CHECK_ERROR(sm_compile(&map, true, &bytes, &error), &error, SM_WRONG_KIND,
                "the handle holds nothing that has this call");
    OPEN(&map, LINKED_MAP);
    CHECK_ERROR(sm_compile(&map, true, &bytes, &error), &error, SM_CANNOT_FLATTEN,
                "cannot flatten the indexed sourcemap: Section has an unresolved sourcemap: u");
    CHECK_NUMBER(sm_kind(&bytes), SM_KIND_EMPTY);
    CHECK_NUMBER(sm_kind(&map), SM_KIND_INDEX);
    sm_close(&map);
}

struct work {
    struct file file;
    uint64_t sum;
};

/* Sums original lines and columns over the columns 0 to 29, and the lengths of names, ROUNDS times. */
static void *run(void *at)
{
    struct work *work = at;
    uint32_t round, column;
    for (round = 0; round < ROUNDS; round++) {
        for (column = 0; column < 30; column++) {
            sm_found found = { { 0 }, false };
            sm_text name = SM_TEXT_EMPTY;
            sm_compiled_lookup(work->file.at, work->file.length, 0, column, &found);
            sm_compiled_name(work->file.at, work->file.length, found.token.name, &name);
            work->sum += found.token.original_line + found.token.original_column + name.length;
        }
    }
    return NULL;
}

void test_compiled_by_threads(void)
{
    struct work works[THREADS];
    pthread_t threads[THREADS];
    struct file file = compiled(README_MAP, false);
    int at;
    memset(works, 0, sizeof works);
    for (at = 0; at < THREADS; at++) {
        works[at].file = file;
        CHECK(pthread_create(&threads[at], NULL, run, &works[at]) == 0);
    }
    for (at = 0; at < THREADS; at++) {
        CHECK(pthread_join(threads[at], NULL) == 0);
        /* for each token: how many columns it answers, times the sum of its original line and column; then the names,
        ** one byte at 3 and 3 columns, five at 6 */
        CHECK_NUMBER(works[at].sum, (3 * 0 + 3 * 4 + 2 * 8 + 4 * 1 + 3 * 5 + 2 * 10 + 1 * 13 + 6 * 4 + 6 * 10
                                     + 3 * 1 + 3 * 1 + 6 * 5) * ROUNDS);
    }
    free(file.at);
}

void test_compiled(void)
{
    test_lookups_in_bytes();
    test_tokens_in_bytes();
    test_texts_in_bytes();
    test_counts_in_bytes();
    test_other_kinds();
    test_many_in_bytes();
    test_refused_bytes();
    test_damaged_bytes();
    test_not_compiled();
}
