/* The groups of tests. */
#ifndef TESTS_H
#define TESTS_H

#include <stdbool.h>

void test_opening(void);
void test_equality(void);
void test_reading(void);
void test_lookups(void);
void test_spans(void);
void test_changes(void);
void test_building(void);
void test_assembling(void);
void test_texts(void);
void test_segments(void);
void test_debug_id_texts(void);
void test_bundles(void);
void test_compiled(void);
void test_checks(void);
/* Eight threads look into the bytes of one compiled map. */
void test_compiled_by_threads(void);
void test_wrong_kinds(void);
/* With `keeps_map` the first handle is closed after all threads have ended, so no thread ever has the only handle on
** the map. A race detector that does not see the order that reference counts make then has nothing to report. */
void test_threads(bool keeps_map);
/* Refuses the first `most` allocations in turn. */
void test_refusals(unsigned long most);

#endif
