/* Four threads, each with a handle of its own on one map. */
#include "inputs.h"
#include "tests.h"

#include <pthread.h>
#include <string.h>

#define THREADS 4
#define ROUNDS 2000

struct work {
    sm_map map;
    uint64_t sum;
    bool changed;
};

/* Sums original lines and columns over the columns 0 to 29, ROUNDS times. Then changes and closes its own map. */
static void *run(void *at)
{
    struct work *work = at;
    sm_error error = { 0 };
    sm_text name = SM_TEXT_EMPTY;
    uint32_t round, column;
    for (round = 0; round < ROUNDS; round++) {
        for (column = 0; column < 30; column++) {
            sm_found found = { { 0 }, false };
            sm_lookup(&work->map, 0, column, &found);
            work->sum += found.token.original_line + found.token.original_column;
        }
    }
    work->changed = sm_remove_names(&work->map, &error) == SM_OK && sm_name(&work->map, 0, &name) == SM_ABSENT;
    sm_close(&work->map);
    return NULL;
}

void test_threads(bool keeps_map)
{
    struct work works[THREADS];
    pthread_t threads[THREADS];
    sm_map map = SM_EMPTY;
    sm_error error = { 0 };
    int at;
    memset(works, 0, sizeof works);
    OPEN(&map, README_MAP);
    for (at = 0; at < THREADS; at++)
        CHECK_NUMBER(sm_share(&map, &works[at].map, &error), SM_OK);
    for (at = 0; at < THREADS; at++)
        CHECK(pthread_create(&threads[at], NULL, run, &works[at]) == 0);
    if (!keeps_map)
        sm_close(&map);
    for (at = 0; at < THREADS; at++) {
        CHECK(pthread_join(threads[at], NULL) == 0);
        /* for each token: how many columns it answers, times the sum of its original line and column */
        CHECK_NUMBER(works[at].sum, (3 * 0 + 3 * 4 + 2 * 8 + 4 * 1 + 3 * 5 + 2 * 10 + 1 * 13 + 6 * 4 + 6 * 10) * ROUNDS);
        CHECK(works[at].changed);
    }
    if (keeps_map)
        CHECK_HOLDS(&map, README_MAP);
    sm_close(&map);
}
