/* The tests of the C library: all of them, or with allocations refused.
**
**   tests            all but refused allocations
**   tests refuse N   the first N allocations of each call refused in turn
**   tests threads    those with threads alone
**
** The last line is `N passed, M failed`, and the status is 1 if M is not 0. */
#include "check.h"
#include "tests.h"

#include <stdlib.h>
#include <string.h>

int main(int count, char **words)
{
    if (count == 3 && strcmp(words[1], "refuse") == 0) {
        test_refusals(strtoul(words[2], NULL, 10));
        return report();
    }
    if (count == 2 && strcmp(words[1], "threads") == 0) {
        test_threads(true);
        test_compiled_by_threads();
        return report();
    }
    test_opening();
    test_equality();
    test_reading();
    test_lookups();
    test_spans();
    test_changes();
    test_building();
    test_assembling();
    test_texts();
    test_segments();
    test_debug_id_texts();
    test_bundles();
    test_compiled();
    test_checks();
    test_compiled_by_threads();
    test_wrong_kinds();
    test_threads(false);
    test_threads(true);
    return report();
}
