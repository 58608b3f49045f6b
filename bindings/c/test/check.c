#include "check.h"

#include <stdio.h>
#include <string.h>

static unsigned long made, failed;

static void count(bool holds, const char *file, int line)
{
    made++;
    if (!holds) {
        failed++;
        printf("%s:%d: ", file, line);
    }
}

void check(bool condition, const char *what, const char *file, int line)
{
    count(condition, file, line);
    if (!condition)
        printf("%s\n", what);
}

void check_number(uint64_t got, uint64_t wanted, const char *what, const char *file, int line)
{
    count(got == wanted, file, line);
    if (got != wanted)
        printf("%s is %llu, not %llu\n", what, (unsigned long long)got, (unsigned long long)wanted);
}

void check_text(sm_text got, const char *wanted, const char *what, const char *file, int line)
{
    bool same = got.length == strlen(wanted) && memcmp(got.at, wanted, got.length) == 0;
    count(same, file, line);
    if (!same)
        printf("%s is \"%.*s\", not \"%s\"\n", what, (int)got.length, (const char *)got.at, wanted);
}

void check_holds(sm_handle *handle, const char *wanted, const char *what, const char *file, int line)
{
    char text[4096];
    bool same;
    describe(handle, text, sizeof text);
    same = strcmp(text, wanted) == 0;
    count(same, file, line);
    if (!same)
        printf("%s holds\n  %s\nand not\n  %s\n", what, text, wanted);
}

void check_error(sm_code got, sm_error *error, sm_code code, const char *text, const char *what, const char *file,
                 int line)
{
    bool same = got == code && error->code == code && strcmp((const char *)error->text, text) == 0
                && error->text_length == strlen(text);
    count(same, file, line);
    if (!same)
        printf("%s is %lu (%lu, \"%s\", %lu bytes), not %lu (\"%s\")\n", what, (unsigned long)got,
               (unsigned long)error->code, (const char *)error->text, (unsigned long)error->text_length,
               (unsigned long)code, text);
    memset(error, 0, sizeof *error);
}

static bool is_same_token(sm_token a, sm_token b)
{
    return a.line == b.line && a.column == b.column && a.original_line == b.original_line
           && a.original_column == b.original_column && a.source == b.source && a.name == b.name
           && a.is_range == b.is_range;
}

void check_token(sm_token got, sm_token wanted, const char *what, const char *file, int line)
{
    bool same = is_same_token(got, wanted);
    count(same, file, line);
    if (!same)
        printf("%s is (%lu,%lu) from (%lu,%lu) of %lu, name %lu, range %d\n", what, (unsigned long)got.line,
               (unsigned long)got.column, (unsigned long)got.original_line, (unsigned long)got.original_column,
               (unsigned long)got.source, (unsigned long)got.name, got.is_range);
}

sm_token token_of(uint32_t line, uint32_t column, uint32_t original_line, uint32_t original_column, uint32_t source,
                  uint32_t name, bool is_range)
{
    sm_token token = { 0 };
    token.line = line;
    token.column = column;
    token.original_line = original_line;
    token.original_column = original_column;
    token.source = source;
    token.name = name;
    token.is_range = is_range;
    return token;
}

static void describe_map(sm_handle *map, char *text, size_t size)
{
    sm_bytes json = SM_EMPTY;
    sm_error error = { 0 };
    sm_text bytes = SM_TEXT_EMPTY;
    if (sm_write(map, &json, &error) == SM_OK && sm_bytes_text(&json, &bytes) == SM_OK)
        snprintf(text, size, "%.*s", (int)bytes.length, (const char *)bytes.at);
    else
        snprintf(text, size, "a map that cannot be written: %s", (const char *)error.text);
    sm_close(&json);
}

static void describe_text(sm_code code, sm_text found, char *text, size_t size)
{
    if (code == SM_OK)
        snprintf(text, size, "%.*s", (int)found.length, (const char *)found.at);
    else
        snprintf(text, size, "code %lu", (unsigned long)code);
}

/* Each finding by code, sections, key, position and sentence. */
static void describe_report(sm_handle *report, char *text, size_t size)
{
    sm_finding found = { 0 };
    sm_text key = SM_TEXT_EMPTY, sentence = SM_TEXT_EMPTY;
    size_t sections[8] = { 0 }, count = 0, at, end = 0;
    uint32_t index;
    text[0] = 0;
    for (index = 0; end < size && sm_report_finding(report, index, &found) == SM_OK; index++) {
        end += (size_t)snprintf(text + end, size - end, "SM%lu %lu ", (unsigned long)found.code, (unsigned long)found.severity);
        sm_report_sections(report, index, sections, 8, &count);
        for (at = 0; at < count && at < 8 && end < size; at++)
            end += (size_t)snprintf(text + end, size - end, "%lu.", (unsigned long)sections[at]);
        sm_report_key(report, index, &key);
        sm_report_sentence(report, index, &sentence);
        if (end < size)
            end += (size_t)snprintf(text + end, size - end, "%.*s %lu:%lu %.*s\n", (int)key.length, (const char *)key.at,
                                    (unsigned long)found.line, (unsigned long)found.index, (int)sentence.length,
                                    (const char *)sentence.at);
    }
}

void describe(sm_handle *handle, char *text, size_t size)
{
    sm_text found = SM_TEXT_EMPTY;
    size_t items = 0;
    switch (sm_kind(handle)) {
    case SM_KIND_REGULAR:
    case SM_KIND_INDEX:
    case SM_KIND_HERMES:
        describe_map(handle, text, size);
        break;
    case SM_KIND_VIEW:
        describe_text(sm_view_text(handle, &found), found, text, size);
        break;
    case SM_KIND_BYTES:
        describe_text(sm_bytes_text(handle, &found), found, text, size);
        break;
    case SM_KIND_BUNDLE:
        sm_bundle_count(handle, &items);
        snprintf(text, size, "a bundle of %lu", (unsigned long)items);
        break;
    case SM_KIND_SPLIT:
        snprintf(text, size, "a split");
        break;
    case SM_KIND_BUILDER:
        snprintf(text, size, "a builder");
        break;
    case SM_KIND_SECTIONS:
        snprintf(text, size, "sections");
        break;
    case SM_KIND_REPORT:
        describe_report(handle, text, size);
        break;
    default:
        snprintf(text, size, "%s", sm_kind(handle) == SM_KIND_EMPTY ? "nothing" : "an unknown kind");
    }
}

int report(void)
{
    printf("%lu passed, %lu failed\n", made - failed, failed);
    return failed == 0 && made > 0 ? 0 : 1;
}

unsigned long checks_made(void)
{
    return made;
}

unsigned long checks_failed(void)
{
    return failed;
}
