/* Checks that count, and print where they fail. */
#ifndef CHECK_H
#define CHECK_H

#include <sourcemap.h>

/* A literal as bytes and their count, two arguments. */
#define BYTES(literal) (const uint8_t *)(literal), sizeof(literal) - 1

#define CHECK(condition) check((condition), #condition, __FILE__, __LINE__)
#define CHECK_NUMBER(got, wanted) check_number((got), (wanted), #got, __FILE__, __LINE__)
#define CHECK_TEXT(got, wanted) check_text((got), (wanted), #got, __FILE__, __LINE__)
/* What a handle holds, as describe() prints it. */
#define CHECK_HOLDS(handle, wanted) check_holds((handle), (wanted), #handle, __FILE__, __LINE__)
/* That a call failed with this code and printed text. */
#define CHECK_ERROR(got, error, code, text) check_error((got), (error), (code), (text), #got, __FILE__, __LINE__)
#define CHECK_TOKEN(got, l, c, ol, oc, s, n, r) check_token((got), token_of((l), (c), (ol), (oc), (s), (n), (r)), #got, __FILE__, __LINE__)
/* The closest token of a position is this one. */
#define CHECK_FOUND(map, l, c, tl, tc, ol, oc, s, n, r)                     \
    do {                                                                    \
        sm_found found_ = { { 0 }, false };                                 \
        CHECK_NUMBER(sm_lookup((map), (l), (c), &found_), SM_OK);           \
        CHECK(found_.found);                                                \
        CHECK_TOKEN(found_.token, (tl), (tc), (ol), (oc), (s), (n), (r));   \
    } while (0)

void check(bool condition, const char *what, const char *file, int line);
void check_number(uint64_t got, uint64_t wanted, const char *what, const char *file, int line);
void check_text(sm_text got, const char *wanted, const char *what, const char *file, int line);
void check_holds(sm_handle *handle, const char *wanted, const char *what, const char *file, int line);
void check_error(sm_code got, sm_error *error, sm_code code, const char *text, const char *what, const char *file,
                 int line);
void check_token(sm_token got, sm_token wanted, const char *what, const char *file, int line);

sm_token token_of(uint32_t line, uint32_t column, uint32_t original_line, uint32_t original_column, uint32_t source,
                  uint32_t name, bool is_range);

/* Prints what a handle holds: a map as its JSON, a text as it is, a report by its findings, of the rest the kind and a
** count. At most `size` bytes with the zero byte. */
void describe(sm_handle *handle, char *text, size_t size);

/* Prints the counts, and returns the exit status. */
int report(void);

/* How many checks were made, and how many of them failed. */
unsigned long checks_made(void);
unsigned long checks_failed(void);

#endif
