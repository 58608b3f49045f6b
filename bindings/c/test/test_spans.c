/* Lookups that also write up to which position their answer holds. */
#include "inputs.h"
#include "tests.h"

#define END { SM_NONE, SM_NONE }

static void check_span(sm_map *map, sm_position at, sm_position until, sm_token token)
{
    sm_found found = { { 0 }, false };
    sm_position end = { 0, 0 };
    CHECK_NUMBER(sm_lookup_span(map, at.line, at.column, &found, &end), SM_OK);
    CHECK(found.found);
    check_token(found.token, token, "the token of a span", __FILE__, __LINE__);
    CHECK_NUMBER(end.line, until.line);
    CHECK_NUMBER(end.column, until.column);
}

static void check_no_span(sm_map *map, uint32_t line, uint32_t column, sm_code code)
{
    sm_found found = { { 1, 2, 3, 4, 5, 6, true }, true };
    sm_position until = { 8, 9 };
    CHECK_NUMBER(sm_lookup_span(map, line, column, &found, &until), code);
    CHECK_TOKEN(found.token, 1, 2, 3, 4, 5, 6, true);
    CHECK(found.found && until.line == 8 && until.column == 9);
}

static void test_positions(void)
{
    static const struct {
        sm_position at, until;
        sm_token token;
    } ROWS[] = {
        { { 0, 1 }, { 0, 2 }, { 0, 1, 0, 0, 0, SM_NONE, false } },
        /* two tokens are at the position, so the second one follows at once */
        { { 0, 2 }, { 0, 2 }, { 0, 2, 1, 0, 0, SM_NONE, false } },
        { { 0, 3 }, { 0, 4 }, { 0, 2, 2, 0, 0, SM_NONE, false } },
        { { 0, 4 }, { 1, 2 }, { 0, 4, 3, 0, 0, SM_NONE, false } },
        { { 0, 99 }, { 1, 2 }, { 0, 4, 3, 0, 0, SM_NONE, false } },
        { { 0, SM_NONE }, { 1, 2 }, { 0, 4, 3, 0, 0, SM_NONE, false } },
        { { 1, 1 }, { 1, 2 }, { 0, 4, 3, 0, 0, SM_NONE, false } },
        { { 1, 2 }, END, { 1, 2, 4, 0, 0, SM_NONE, false } },
        { { 7, 0 }, END, { 1, 2, 4, 0, 0, SM_NONE, false } },
        { END, END, { 1, 2, 4, 0, 0, SM_NONE, false } },
    };
    sm_map map = SM_EMPTY;
    size_t row;
    OPEN(&map, DOUBLED_MAP);
    for (row = 0; row < sizeof ROWS / sizeof ROWS[0]; row++)
        check_span(&map, ROWS[row].at, ROWS[row].until, ROWS[row].token);
    sm_close(&map);
}

/* The column of a range token is that of the position looked up. */
static void test_ranges(void)
{
    static const struct {
        sm_position at, until;
        sm_token token;
    } ROWS[] = {
        { { 0, 0 }, { 0, 4 }, { 0, 0, 0, 7, 0, SM_NONE, true } },
        { { 0, 3 }, { 0, 4 }, { 0, 0, 0, 10, 0, SM_NONE, true } },
        { { 0, 5 }, { 1, 1 }, { 0, 4, 1, 7, 0, SM_NONE, false } },
        { { 1, 9 }, END, { 1, 1, 2, 15, 0, SM_NONE, true } },
        { { 2, 9 }, END, { 1, 1, 2, 7, 0, SM_NONE, true } },
        { { 1, SM_NONE }, END, { 1, 1, 2, SM_NONE, 0, SM_NONE, true } },
    };
    sm_map map = SM_EMPTY;
    size_t row;
    OPEN(&map, "{\"sources\":[\"a.js\"],\"mappings\":\"AAAO,IACA;CACA\",\"rangeMappings\":\"B;B\"}");
    for (row = 0; row < sizeof ROWS / sizeof ROWS[0]; row++)
        check_span(&map, ROWS[row].at, ROWS[row].until, ROWS[row].token);
    sm_close(&map);
}

static void test_no_token(void)
{
    sm_map map = SM_EMPTY;
    OPEN(&map, DOUBLED_MAP);
    check_no_span(&map, 0, 0, SM_ABSENT);
    OPEN(&map, "{\"mappings\":\";;E\"}");
    check_no_span(&map, 1, SM_NONE, SM_ABSENT);
    check_no_span(&map, 2, 1, SM_ABSENT);
    OPEN(&map, "{\"mappings\":\"\"}");
    check_no_span(&map, SM_NONE, SM_NONE, SM_ABSENT);
    sm_close(&map);
}

static void test_kinds(void)
{
    static const sm_position STARTS[] = { { 0, 0 }, { 0, 5 }, { 10, 4 }, END };
    sm_map map = SM_EMPTY;
    sm_error error = { 0 };
    check_no_span(&map, 0, 0, SM_WRONG_KIND);
    OPEN(&map, INDEX_MAP);
    check_no_span(&map, 10, 4, SM_WRONG_KIND);
    CHECK_NUMBER(sm_flatten(&map, &error), SM_OK);
    check_span(&map, STARTS[0], STARTS[2], token_of(0, 0, 0, 0, 0, SM_NONE, false));
    check_span(&map, STARTS[2], STARTS[3], token_of(10, 4, 0, 0, 1, SM_NONE, false));
    OPEN(&map, HERMES_MAP);
    check_span(&map, STARTS[0], STARTS[1], token_of(0, 0, 0, 0, 0, SM_NONE, false));
    check_span(&map, STARTS[2], STARTS[3], token_of(0, 5, 1, 5, 0, SM_NONE, false));
    CHECK_NUMBER(sm_view_open(&map, BYTES("a"), &error), SM_OK);
    check_no_span(&map, 0, 0, SM_WRONG_KIND);
    sm_close(&map);
}

/* A token at the last position that there can be begins where the span before it ends. */
static void test_last_position(void)
{
    static const sm_position MIDDLE = { 0, 5 }, LAST = END;
    sm_builder builder = SM_EMPTY;
    sm_map map = SM_EMPTY;
    sm_error error = { 0 };
    sm_token tokens[2];
    tokens[0] = token_of(0, 0, SM_NONE, SM_NONE, SM_NONE, SM_NONE, false);
    tokens[1] = token_of(SM_NONE, SM_NONE, SM_NONE, SM_NONE, SM_NONE, SM_NONE, false);
    CHECK_NUMBER(sm_builder_new(&builder, false, BYTES(""), &error), SM_OK);
    CHECK_NUMBER(sm_builder_add_tokens(&builder, tokens, 2, &error), 2);
    CHECK_NUMBER(sm_builder_finish(&builder, &map, &error), SM_OK);
    check_span(&map, MIDDLE, LAST, tokens[0]);
    check_span(&map, LAST, LAST, tokens[1]);
    sm_close(&map);
}

/*
** Walks over the first lines of a map
*/

#define LINES 3
#define COLUMNS 12
#define POSITIONS (LINES * COLUMNS)
/* The number of no token. */
#define MISSING 99

static sm_position position_of(uint32_t number)
{
    sm_position at;
    at.line = number / COLUMNS;
    at.column = number % COLUMNS;
    return at;
}

static bool is_before(sm_position a, sm_position b)
{
    return a.line < b.line || (a.line == b.line && a.column < b.column);
}

static uint32_t index_at(sm_map *map, sm_position at)
{
    uint32_t index = MISSING;
    sm_code code = sm_lookup_index(map, at.line, at.column, &index);
    CHECK_NUMBER(code, index == MISSING ? SM_ABSENT : SM_OK);
    return index;
}

/* The token is the closest one at all positions of its span, and the next one where the span ends. */
static void walk_from(sm_map *map, uint32_t first)
{
    sm_position at = position_of(first), until = { 0, 0 };
    sm_found found = { { 0 }, false }, alone = { { 0 }, false };
    uint32_t index = index_at(map, at), number;
    sm_code code = sm_lookup_span(map, at.line, at.column, &found, &until);
    CHECK_NUMBER(code, index == MISSING ? SM_ABSENT : SM_OK);
    CHECK_NUMBER(sm_lookup(map, at.line, at.column, &alone), code);
    CHECK_NUMBER(found.found, alone.found);
    check_token(found.token, alone.token, "the token of a span", __FILE__, __LINE__);
    if (code != SM_OK)
        return;
    for (number = first; number < POSITIONS && is_before(position_of(number), until); number++)
        CHECK_NUMBER(index_at(map, position_of(number)), index);
    CHECK(!is_before(until, at));
    if (is_before(at, until) && until.line != SM_NONE)
        CHECK_NUMBER(index_at(map, until), index + 1);
}

static void test_walks(void)
{
    static const char *const MAPS_WALKED[] = {
        README_MAP,
        FULL_MAP,
        HERMES_MAP,
        DOUBLED_MAP,
        "{\"sources\":[\"a.js\"],\"mappings\":\"IAAA,AACA,AACA,EACA,EACA;;A,A,C,E,A\",\"rangeMappings\":\"P\"}",
        "{\"mappings\":\"\"}",
    };
    size_t row;
    uint32_t first;
    for (row = 0; row < sizeof MAPS_WALKED / sizeof MAPS_WALKED[0]; row++) {
        sm_map map = SM_EMPTY;
        open_text(&map, MAPS_WALKED[row]);
        for (first = 0; first < POSITIONS; first++)
            walk_from(&map, first);
        sm_close(&map);
    }
}

void test_spans(void)
{
    test_positions();
    test_ranges();
    test_no_token();
    test_kinds();
    test_last_position();
    test_walks();
}
