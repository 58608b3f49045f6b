/* Measures compiled maps beside the maps that they are made of. bench/compiled builds and runs it.
**
**   compiled MAP ..           a row of a table for each map
**   compiled answer FILE      one answer of a compiled map in mapped memory, and nothing else
**   compiled keep FILE        reads all of a compiled map, prints a line, and waits for the end of standard input
*/
#define _GNU_SOURCE
#include <fcntl.h>
#include <sourcemap.h>
#include <spawn.h>
#include <stdio.h>
#include <stdlib.h>
#include <string.h>
#include <sys/mman.h>
#include <sys/resource.h>
#include <sys/stat.h>
#include <sys/wait.h>
#include <time.h>
#include <unistd.h>

enum { POSITIONS = 1000000, ROUNDS = 5, PROCESSES = 4 };

typedef struct mapped {
    const uint8_t *at;
    size_t length;
} mapped;

static const char *self;

static void fail(const char *what)
{
    fprintf(stderr, "compiled: %s\n", what);
    exit(1);
}

static double now(clockid_t clock)
{
    struct timespec time;
    clock_gettime(clock, &time);
    return time.tv_sec * 1e3 + time.tv_nsec / 1e6;
}

static double processor(void)
{
    return now(CLOCK_PROCESS_CPUTIME_ID);
}

static mapped map_file(const char *path)
{
    struct stat status;
    mapped file;
    int descriptor = open(path, O_RDONLY);
    if (descriptor < 0 || fstat(descriptor, &status) != 0)
        fail(path);
    file.length = (size_t)status.st_size;
    file.at = mmap(NULL, file.length, PROT_READ, MAP_SHARED, descriptor, 0);
    if (file.at == MAP_FAILED)
        fail(path);
    close(descriptor);
    return file;
}

static uint64_t state = 88172645463325252u;

static uint32_t draw(uint32_t below)
{
    state ^= state << 13, state ^= state >> 7, state ^= state << 17;
    return below ? (uint32_t)(state % below) : 0;
}

/* Positions at drawn tokens, or up to three columns after. */
static sm_position *draw_positions(sm_map *map, uint32_t tokens)
{
    sm_position *positions = malloc(POSITIONS * sizeof *positions);
    sm_token *all = malloc(tokens * sizeof *all);
    if (!positions || !all || sm_tokens(map, 0, all, tokens) != tokens)
        fail("no tokens");
    for (size_t at = 0; at < POSITIONS; at++) {
        sm_token token = all[draw(tokens)];
        positions[at].line = token.line, positions[at].column = token.column + draw(4);
    }
    free(all);
    return positions;
}

static long peak(void)
{
    struct rusage usage;
    getrusage(RUSAGE_SELF, &usage);
    return usage.ru_maxrss;
}

/* The least processor time of decoding, in milliseconds. */
static double time_decoding(mapped json)
{
    double least = 1e9;
    for (int round = 0; round < ROUNDS; round++) {
        sm_map map = SM_EMPTY;
        sm_error error;
        double begun = processor(), taken;
        if (sm_open(&map, json.at, json.length, &error) != SM_OK)
            fail((const char *)error.text);
        taken = processor() - begun;
        sm_close(&map);
        least = taken < least ? taken : least;
    }
    return least;
}

static double time_compiling(sm_map *map, bool with_contents, size_t *length)
{
    double least = 1e9;
    for (int round = 0; round < ROUNDS; round++) {
        sm_bytes bytes = SM_EMPTY;
        sm_text text;
        sm_error error;
        double begun = processor(), taken;
        if (sm_compile(map, with_contents, &bytes, &error) != SM_OK)
            fail((const char *)error.text);
        taken = processor() - begun;
        sm_bytes_text(&bytes, &text);
        *length = text.length;
        sm_close(&bytes);
        least = taken < least ? taken : least;
    }
    return least;
}

/* The memory that compiling adds to that of the map, in kilobytes, in a process of its own. */
static long memory_of_compiling(mapped json)
{
    long added = 0;
    int ends[2];
    pid_t child;
    if (pipe(ends) != 0)
        fail("pipe");
    child = fork();
    if (child == 0) {
        sm_map map = SM_EMPTY;
        sm_bytes bytes = SM_EMPTY;
        sm_error error;
        long before;
        sm_open(&map, json.at, json.length, &error);
        before = peak();
        sm_compile(&map, true, &bytes, &error);
        added = peak() - before;
        _exit(write(ends[1], &added, sizeof added) != sizeof added);
    }
    if (read(ends[0], &added, sizeof added) != sizeof added)
        fail("a process ended early");
    waitpid(child, NULL, 0);
    close(ends[0]), close(ends[1]);
    return added;
}

static uint64_t sum_of(const sm_found *found)
{
    uint64_t sum = 0;
    for (size_t at = 0; at < POSITIONS; at++)
        sum = sum * 31 + found[at].token.original_line + found[at].token.original_column + found[at].token.name;
    return sum;
}

/* The least time of a million lookups in the map and in the file, in nanoseconds a lookup. */
static void time_lookups(sm_map *map, sm_text file, const sm_position *positions, double *in_map, double *in_file)
{
    sm_found *here = calloc(POSITIONS, sizeof *here), *there = calloc(POSITIONS, sizeof *there);
    *in_map = *in_file = 1e9;
    for (int round = 0; round < ROUNDS; round++) {
        double begun = processor(), between, ended;
        sm_lookup_many(map, positions, POSITIONS, here, POSITIONS);
        between = processor();
        sm_compiled_lookup_many(file.at, file.length, positions, POSITIONS, there, POSITIONS);
        ended = processor();
        if (between - begun < *in_map)
            *in_map = between - begun;
        if (ended - between < *in_file)
            *in_file = ended - between;
    }
    if (sum_of(here) != sum_of(there))
        fail("the answers differ");
    free(here), free(there);
}

static void run_answer(const char *path)
{
    mapped file = map_file(path);
    sm_found found;
    sm_text source;
    if (sm_compiled_lookup(file.at, file.length, 0, 1000000, &found) == SM_OK)
        sm_compiled_source(file.at, file.length, found.token.source, &source);
}

/* The least wall time of a process that answers one position, in milliseconds, and its page faults. */
static double time_answer(const char *path, long *faults)
{
    double least = 1e9;
    for (int round = 0; round < 20; round++) {
        struct rusage usage;
        double begun = now(CLOCK_MONOTONIC), taken;
        char *words[] = {(char *)self, "answer", (char *)path, NULL};
        pid_t child;
        if (posix_spawn(&child, self, NULL, NULL, words, NULL) != 0 || wait4(child, NULL, 0, &usage) != child)
            fail("a process");
        taken = now(CLOCK_MONOTONIC) - begun;
        if (taken < least)
            least = taken, *faults = usage.ru_minflt + usage.ru_majflt;
    }
    return least;
}

static void run_keep(const char *path)
{
    mapped file = map_file(path);
    unsigned sum = 0;
    char end;
    for (size_t at = 0; at < file.length; at += 4096)
        sum += file.at[at];
    printf("%u\n", sum), fflush(stdout);
    if (read(0, &end, 1) < 0)
        fail("read");
}

static long proportional(pid_t process)
{
    char line[256];
    long found = 0, value;
    FILE *file;
    snprintf(line, sizeof line, "/proc/%d/smaps_rollup", (int)process);
    if ((file = fopen(line, "r")) == NULL)
        fail(line);
    while (fgets(line, sizeof line, file))
        if (sscanf(line, "Pss: %ld", &value) == 1)
            found = value;
    fclose(file);
    return found;
}

/* The memory of so many processes that read the same file, each page counted once, in kilobytes. */
static long memory_of(const char *path, int processes)
{
    long sum = 0;
    pid_t children[PROCESSES];
    int in[PROCESSES][2], out[PROCESSES][2];
    char line[32];
    for (int at = 0; at < processes; at++) {
        if (pipe(in[at]) != 0 || pipe(out[at]) != 0)
            fail("pipe");
        fcntl(in[at][1], F_SETFD, FD_CLOEXEC);
        children[at] = fork();
        if (children[at] == 0) {
            dup2(in[at][0], 0), dup2(out[at][1], 1);
            execl(self, self, "keep", path, (char *)NULL);
            _exit(127);
        }
    }
    for (int at = 0; at < processes; at++)
        if (read(out[at][0], line, sizeof line) <= 0)
            fail("a process ended early");
    for (int at = 0; at < processes; at++)
        sum += proportional(children[at]);
    for (int at = 0; at < processes; at++) {
        close(in[at][0]), close(in[at][1]), close(out[at][0]), close(out[at][1]);
        waitpid(children[at], NULL, 0);
    }
    return sum;
}

/* The length of the text of the map without contents. */
static size_t length_without_contents(mapped json)
{
    sm_map map = SM_EMPTY;
    sm_bytes bytes = SM_EMPTY;
    sm_error error;
    sm_counts counts;
    sm_text text;
    sm_open(&map, json.at, json.length, &error);
    sm_count(&map, &counts);
    for (uint32_t id = 0; id < counts.sources; id++)
        sm_set_contents(&map, id, false, NULL, 0, &error);
    if (sm_write(&map, &bytes, &error) != SM_OK || sm_bytes_text(&bytes, &text) != SM_OK)
        fail((const char *)error.text);
    sm_close(&bytes), sm_close(&map);
    return text.length;
}

static void write_file(const char *path, sm_text text)
{
    FILE *file = fopen(path, "wb");
    if (!file || fwrite(text.at, 1, text.length, file) != text.length || fclose(file) != 0)
        fail(path);
}

static void print_row(const char *path)
{
    mapped json = map_file(path);
    char name[] = "/tmp/compiled-XXXXXX";
    sm_map map = SM_EMPTY;
    sm_bytes bytes = SM_EMPTY;
    sm_text text;
    sm_error error;
    sm_counts counts;
    sm_position *positions;
    size_t bare, whole;
    double decoding, compiling, in_map, in_file, answering;
    long faults = 0, one, all;
    close(mkstemp(name));
    if (sm_open(&map, json.at, json.length, &error) != SM_OK)
        fail((const char *)error.text);
    sm_count(&map, &counts);
    decoding = time_decoding(json);
    time_compiling(&map, false, &bare);
    compiling = time_compiling(&map, true, &whole);
    if (sm_compile(&map, false, &bytes, &error) != SM_OK)
        fail((const char *)error.text);
    sm_bytes_text(&bytes, &text);
    write_file(name, text);
    positions = draw_positions(&map, counts.tokens);
    time_lookups(&map, text, positions, &in_map, &in_file);
    answering = time_answer(name, &faults);
    one = memory_of(name, 1), all = memory_of(name, PROCESSES);
    printf("| `%s`, %u | %.2f, %.2f bytes a token | %.2f (%.3g ms) | %.2f | %.2f (%.0f ns) | %.2f ms, %ld faults | %.2f |\n",
           basename(path), counts.tokens, (double)bare / length_without_contents(json), (double)bare / counts.tokens, compiling / decoding, compiling,
           memory_of_compiling(json) * 1024.0 / whole, in_file / in_map, in_file, answering, faults, (double)all / one);
    fflush(stdout);
    sm_close(&bytes), sm_close(&map);
    free(positions);
    unlink(name);
}

int main(int count, char **words)
{
    self = "/proc/self/exe";
    if (count == 3 && strcmp(words[1], "answer") == 0)
        return run_answer(words[2]), 0;
    if (count == 3 && strcmp(words[1], "keep") == 0)
        return run_keep(words[2]), 0;
    puts("| Map, tokens | file, of the JSON | compiling, of decoding | memory of compiling, of the file | a lookup, of one in the map "
         "| open, answer, end | memory of four processes, of one |");
    puts("|---|---|---|---|---|---|---|");
    for (int at = 1; at < count; at++)
        print_row(words[at]);
    return 0;
}
