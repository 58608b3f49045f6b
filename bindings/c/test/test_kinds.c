/* Each export with each kind of handle: those that it is not for are refused, and stay as they were. */
#include "exports.h"
#include "tests.h"

#include <stdio.h>
#include <string.h>

static void check_pair(const struct export_row *row, uint32_t kind)
{
    sm_handle handle = SM_EMPTY;
    char before[2048], after[2048], what[128];
    sm_code code;
    bool is_for = (row->kinds & KIND(kind)) != 0;
    fill(&handle, kind);
    describe(&handle, before, sizeof before);
    code = row->call(&handle);
    snprintf(what, sizeof what, "%s with a handle of kind %lu: code %lu", row->name, (unsigned long)kind,
             (unsigned long)code);
    check((code == SM_WRONG_KIND) != is_for, what, __FILE__, __LINE__);
    if (!is_for || !row->changes) {
        describe(&handle, after, sizeof after);
        snprintf(what, sizeof what, "%s changed a handle of kind %lu", row->name, (unsigned long)kind);
        check(strcmp(before, after) == 0, what, __FILE__, __LINE__);
    }
    sm_close(&handle);
}

/* What a refused call would have written is as it was. */
static void test_outputs(void)
{
    sm_handle empty = SM_EMPTY;
    sm_map map = SM_EMPTY;
    sm_error error = { 0 };
    sm_text text = text_of("before");
    sm_counts counts = { 1, 2, 3, 4, 5 };
    size_t number = 7;
    OPEN(&map, README_MAP);
    CHECK_NUMBER(sm_source(&empty, 0, &text), SM_WRONG_KIND);
    CHECK_NUMBER(sm_view_line(&map, 0, &text), SM_WRONG_KIND);
    CHECK_NUMBER(sm_bytes_text(&map, &text), SM_WRONG_KIND);
    CHECK_TEXT(text, "before");
    CHECK_NUMBER(sm_count(&empty, &counts), SM_WRONG_KIND);
    CHECK(counts.tokens == 1 && counts.sections == 5);
    CHECK_NUMBER(sm_view_count(&map, &number), SM_WRONG_KIND);
    CHECK_NUMBER(sm_module_path_count(&map, &number), SM_WRONG_KIND);
    CHECK_NUMBER(number, 7);
    CHECK_ERROR(sm_share(&empty, &map, &error), &error, SM_WRONG_KIND, "the handle holds nothing that has this call");
    CHECK_ERROR(sm_write(&empty, &map, &error), &error, SM_WRONG_KIND, "the handle holds nothing that has this call");
    CHECK_HOLDS(&map, README_MAP);
    sm_close(&map);
}

void test_wrong_kinds(void)
{
    size_t row;
    uint32_t kind;
    for (row = 0; row < EXPORTS_COUNT; row++)
        for (kind = SM_KIND_EMPTY; kind <= SM_KIND_REPORT; kind++)
            check_pair(&EXPORTS[row], kind);
    test_outputs();
}
