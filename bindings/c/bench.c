/* Times lookups and opening of two libraries in turn.
**
**   bench LIBRARY OTHER MAP..
**
** LIBRARY and OTHER are shared objects with the functions of sourcemap.h. For each map it draws positions at the tokens
** and a little after them, and times the two in turn, in each round: the positions one by one as they are drawn, then
** sorted, then both in one call of sm_lookup_many, and opening. It prints the medians of all rounds, in nanoseconds of
** processor time a lookup and milliseconds an opening, and their quotient. Both must answer alike.
**
**   cc -O2 -Iinclude bench.c -ldl -o bench */
#define _POSIX_C_SOURCE 200809L
#include <sourcemap.h>

#include <dlfcn.h>
#include <stdio.h>
#include <stdlib.h>
#include <string.h>
#include <time.h>

#define POSITIONS 200000
#define ROUNDS 9

enum { RANDOM, SORTED, RANDOM_MANY, SORTED_MANY, OPENING, TASKS };
static const char *const NAMES[TASKS] = { "random", "sorted", "random, many", "sorted, many", "open, ms" };

struct library {
    sm_code (*open)(sm_map *, const uint8_t *, size_t, sm_error *);
    void (*close)(sm_handle *);
    sm_code (*flatten)(sm_map *, sm_error *);
    uint32_t (*kind)(sm_handle *);
    sm_code (*count)(sm_map *, sm_counts *);
    size_t (*tokens)(sm_map *, uint32_t, sm_token *, size_t);
    sm_code (*lookup)(sm_map *, uint32_t, uint32_t, sm_found *);
    size_t (*lookup_many)(sm_map *, const sm_position *, size_t, sm_found *, size_t);
};

struct input {
    uint8_t *bytes;
    size_t length;
    sm_position *drawn, *sorted;
    sm_found *found;
};

static void fail(const char *what)
{
    fprintf(stderr, "bench: %s\n", what);
    exit(1);
}

static void *allocate(size_t size)
{
    void *at = malloc(size);
    if (!at)
        fail("out of memory");
    return at;
}

static void *function(void *object, const char *name)
{
    void *found = dlsym(object, name);
    if (!found)
        fail(dlerror());
    return found;
}

static struct library load(const char *path)
{
    struct library library;
    void *object = dlopen(path, RTLD_NOW | RTLD_LOCAL);
    if (!object)
        fail(dlerror());
    *(void **)&library.open = function(object, "sm_open");
    *(void **)&library.close = function(object, "sm_close");
    *(void **)&library.flatten = function(object, "sm_flatten");
    *(void **)&library.kind = function(object, "sm_kind");
    *(void **)&library.count = function(object, "sm_count");
    *(void **)&library.tokens = function(object, "sm_tokens");
    *(void **)&library.lookup = function(object, "sm_lookup");
    *(void **)&library.lookup_many = function(object, "sm_lookup_many");
    return library;
}

static double now(void)
{
    struct timespec time;
    clock_gettime(CLOCK_THREAD_CPUTIME_ID, &time);
    return (double)time.tv_sec * 1e9 + (double)time.tv_nsec;
}

static uint32_t draw(uint32_t below)
{
    static uint64_t state = 42;
    state = state * 6364136223846793005u + 1442695040888963407u;
    return (uint32_t)((state >> 33) % below);
}

static int compare_positions(const void *a, const void *b)
{
    const sm_position *p = a, *q = b;
    if (p->line != q->line)
        return p->line < q->line ? -1 : 1;
    return (p->column > q->column) - (p->column < q->column);
}

static void open_map(const struct library *library, const struct input *input, sm_map *map)
{
    sm_error error = { 0 };
    if (library->open(map, input->bytes, input->length, &error) != SM_OK)
        fail((const char *)error.text);
}

static void read_file(const char *path, struct input *input)
{
    FILE *file = fopen(path, "rb");
    long size;
    if (!file || fseek(file, 0, SEEK_END) != 0 || (size = ftell(file)) <= 0)
        fail(path);
    rewind(file);
    input->bytes = allocate((size_t)size);
    input->length = fread(input->bytes, 1, (size_t)size, file);
    fclose(file);
}

/* Positions at tokens and up to 5 columns after them. Returns the number of tokens. */
static uint32_t draw_positions(const struct library *library, struct input *input)
{
    sm_map map = SM_EMPTY;
    sm_counts counts = { 0 };
    sm_error error = { 0 };
    sm_token *tokens;
    int at;
    open_map(library, input, &map);
    if (library->kind(&map) == SM_KIND_INDEX && library->flatten(&map, &error) != SM_OK)
        fail((const char *)error.text);
    library->count(&map, &counts);
    if (counts.tokens == 0)
        fail("a map without tokens");
    tokens = allocate(counts.tokens * sizeof *tokens);
    memset(tokens, 0, counts.tokens * sizeof *tokens);
    library->tokens(&map, 0, tokens, counts.tokens);
    for (at = 0; at < POSITIONS; at++) {
        sm_token token = tokens[draw(counts.tokens)];
        input->drawn[at].line = token.line;
        input->drawn[at].column = token.column + draw(6);
    }
    memcpy(input->sorted, input->drawn, POSITIONS * sizeof *input->drawn);
    qsort(input->sorted, POSITIONS, sizeof *input->sorted, compare_positions);
    free(tokens);
    library->close(&map);
    return counts.tokens;
}

/* The sum of original line and column, so that the compiler cannot drop a lookup. */
static uint64_t sum_found(const sm_found *found)
{
    return found->found ? found->token.original_line + (uint64_t)found->token.original_column : 0;
}

static uint64_t look_up_each(const struct library *library, sm_map *map, const sm_position *positions)
{
    uint64_t sum = 0;
    int at;
    for (at = 0; at < POSITIONS; at++) {
        sm_found found = { { 0 }, false };
        library->lookup(map, positions[at].line, positions[at].column, &found);
        sum += sum_found(&found);
    }
    return sum;
}

static uint64_t look_up_many(const struct library *library, sm_map *map, const struct input *input,
                             const sm_position *positions)
{
    uint64_t sum = 0;
    int at;
    library->lookup_many(map, positions, POSITIONS, input->found, POSITIONS);
    for (at = 0; at < POSITIONS; at++)
        sum += sum_found(&input->found[at]);
    return sum;
}

static uint64_t open_once(const struct library *library, const struct input *input)
{
    sm_map map = SM_EMPTY;
    open_map(library, input, &map);
    library->close(&map);
    return 0;
}

static uint64_t run(int task, const struct library *library, sm_map *map, const struct input *input)
{
    switch (task) {
    case RANDOM:
        return look_up_each(library, map, input->drawn);
    case SORTED:
        return look_up_each(library, map, input->sorted);
    case RANDOM_MANY:
        return look_up_many(library, map, input, input->drawn);
    case SORTED_MANY:
        return look_up_many(library, map, input, input->sorted);
    default:
        return open_once(library, input);
    }
}

static int compare_times(const void *a, const void *b)
{
    double s = *(const double *)a, t = *(const double *)b;
    return (s > t) - (s < t);
}

static double median(double *times)
{
    qsort(times, ROUNDS, sizeof *times, compare_times);
    return times[ROUNDS / 2];
}

static void compare(const struct library libraries[2], const char *path)
{
    static double times[TASKS][2][ROUNDS];
    struct input input = { 0 };
    sm_map maps[2] = { SM_EMPTY, SM_EMPTY };
    int round, task, which;
    read_file(path, &input);
    input.drawn = allocate(POSITIONS * sizeof *input.drawn);
    input.sorted = allocate(POSITIONS * sizeof *input.sorted);
    input.found = allocate(POSITIONS * sizeof *input.found);
    memset(input.found, 0, POSITIONS * sizeof *input.found);
    printf("%s: %lu tokens, %lu bytes\n", path, (unsigned long)draw_positions(&libraries[0], &input),
           (unsigned long)input.length);
    for (which = 0; which < 2; which++)
        open_map(&libraries[which], &input, &maps[which]);
    for (round = 0; round < ROUNDS; round++) {
        for (task = 0; task < TASKS; task++) {
            uint64_t sums[2];
            int turn;
            for (turn = 0; turn < 2; turn++) {
                double start = now();
                which = (round + turn) % 2;
                sums[which] = run(task, &libraries[which], &maps[which], &input);
                times[task][which][round] = now() - start;
            }
            if (sums[0] != sums[1])
                fail("the libraries answer differently");
        }
    }
    for (task = 0; task < TASKS; task++) {
        double unit = task == OPENING ? 1e6 : POSITIONS;
        double one = median(times[task][0]) / unit, other = median(times[task][1]) / unit;
        printf("  %-14s %8.1f %8.1f  %.2f\n", NAMES[task], one, other, one / other);
    }
    for (which = 0; which < 2; which++)
        libraries[which].close(&maps[which]);
    free(input.bytes);
    free(input.drawn);
    free(input.sorted);
    free(input.found);
}

int main(int count, char **words)
{
    struct library libraries[2];
    int at;
    if (count < 4)
        fail("usage: bench LIBRARY OTHER MAP..");
    libraries[0] = load(words[1]);
    libraries[1] = load(words[2]);
    for (at = 3; at < count; at++)
        compare(libraries, words[at]);
    return 0;
}
