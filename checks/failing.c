/* A library that is loaded with LD_PRELOAD. It replaces functions of the C library, and makes the
 * allocations, the reads or the writes of a program fail, each in another run. The program is
 * started once. It is forked for each run: where the allocation fails, so that no run does again
 * what comes before it; or before `main` runs, for reads, for writes and where runs share files.
 *
 *   FAILING_CALL     which calls fail: allocation, read or write
 *   FAILING_HOW      fails: this call alone fails. onward: this call and all later ones fail.
 *                    interrupted: this call alone is interrupted.
 *                    ends: this call and all later ones move nothing.
 *                    each_interrupted: every second call is interrupted, in one run.
 *                    nothing: no call fails, in one run.
 *   FAILING_SHORT    if it is set, each read, or each write, moves at most one byte
 *   FAILING_INPUT    the file that is the standard input of each run
 *   FAILING_MILLIS   about how many processor milliseconds all runs may take together, by the time
 *                    of the first of them. This limits the number of runs, but not below 40. The
 *                    runs are spread over the calls.
 *   FAILING_SECONDS  the number of seconds after which a run is ended
 *
 * Prints a line with the number of calls of a run in which none fails. Then prints a line for each
 * way in which runs ended. First in this line is the status, or the sum of 128 and the number of
 * the signal that ended the run. Then come standard output and standard error, each as hexadecimal
 * digits after an `x`. Last are the numbers of the calls that failed in these runs. Number 0 is the
 * run in which no call fails.
 */
#define _GNU_SOURCE
#include <dlfcn.h>
#include <errno.h>
#include <fcntl.h>
#include <stdio.h>
#include <stdlib.h>
#include <string.h>
#include <sys/mman.h>
#include <sys/resource.h>
#include <sys/syscall.h>
#include <sys/uio.h>
#include <sys/wait.h>
#include <unistd.h>

enum call { NONE, ALLOCATION, READ, WRITE };
enum how { FAILS, ONWARD, INTERRUPTED, ENDS, EACH_INTERRUPTED, NOTHING, HOWS };

static const char *const NAMES[HOWS] = {
    "fails", "onward", "interrupted", "ends", "each_interrupted", "nothing",
};

static enum call failing = NONE;
static enum how how;
static int is_short;
/* the number of the call that fails, counted from 1; 0 if none fails */
static long at;
/* the number of calls so far, in memory that the forked runs share */
static long *calls;

/* the calls that fail: so many of a number of calls, spread over them */
struct choice {
    long runs, whole;
};

/* The number of the call that fails in run `i`, counted from 0. */
static long chosen(struct choice choice, long i) {
    long more = choice.whole % choice.runs;
    return 1 + i * (choice.whole / choice.runs) + (i < more ? i : more);
}

/* In a run that forks at its calls: how to tell the process that started it of each, and the next of them. */
static struct {
    int on, tells, hears, seconds;
    struct choice choice;
    long next;
} forking;

/* the number of a call that failed, and how the run ended */
struct message {
    long number;
    int status;
};

enum { MOST_FILES = 64 };

static void give_up(const char *why) {
    dprintf(2, "failing.c: %s\n", why);
    _exit(99);
}

static int status_of(pid_t run) {
    int status;
    while (waitpid(run, &status, 0) < 0)
        if (errno != EINTR) give_up("a run is lost");
    return WIFEXITED(status) ? WEXITSTATUS(status) : 128 + WTERMSIG(status);
}

/* Tells of a run that has ended, and waits until what it wrote was read. */
static void tell(long number, int status) {
    struct message message = {number, status};
    char heard;
    if (syscall(SYS_write, forking.tells, &message, sizeof message) != sizeof message) give_up("nobody listens");
    if (syscall(SYS_read, forking.hears, &heard, 1) != 1) give_up("nobody answers");
}

/* Forks a run in which this call fails. Returns 1 in it. Returns 0 where none fails, when that run has ended and open
 * files are again where they were. */
static int fork_here(long number) {
    if (number != chosen(forking.choice, forking.next)) return 0;
    if (++forking.next == forking.choice.runs) forking.on = 0;
    int before = errno;
    off_t places[MOST_FILES];
    for (int file = 0; file < MOST_FILES; file++) places[file] = lseek(file, 0, SEEK_CUR);
    /* `fork` would free locks that are held here, in a call of the C library that allocates */
    pid_t made = _Fork();
    if (made < 0) give_up("no process");
    if (made == 0) {
        forking.on = 0;
        alarm(forking.seconds);
        at = number;
        return 1;
    }
    tell(number, status_of(made));
    for (int file = 1; file <= 2; file++)
        if (ftruncate(file, places[file])) give_up("what a run wrote cannot be taken back");
    for (int file = 0; file < MOST_FILES; file++)
        if (places[file] >= 0) lseek(file, places[file], SEEK_SET);
    *calls = number;
    errno = before;
    return 0;
}

static void *(*next_malloc)(size_t);
static void *(*next_calloc)(size_t, size_t);
static void *(*next_realloc)(void *, size_t);
static int (*next_memalign)(void **, size_t, size_t);
static void *(*next_aligned)(size_t, size_t);

/* Counts this call if it is of the kind that fails. Returns whether it must fail. */
static int is_failing(enum call call) {
    if (call != failing) return 0;
    long number = ++*calls;
    if (forking.on) return fork_here(number);
    if (at == 0 || how == NOTHING) return 0;
    if (how == EACH_INTERRUPTED) return number % 2 == 1;
    return how == ONWARD || how == ENDS ? number >= at : number == at;
}

static void look_up(void) {
    if (next_malloc) return;
    next_calloc = dlsym(RTLD_NEXT, "calloc");
    next_realloc = dlsym(RTLD_NEXT, "realloc");
    next_memalign = dlsym(RTLD_NEXT, "posix_memalign");
    next_aligned = dlsym(RTLD_NEXT, "aligned_alloc");
    next_malloc = dlsym(RTLD_NEXT, "malloc");
}

static void *none(void) {
    errno = ENOMEM;
    return NULL;
}

void *malloc(size_t size) {
    look_up();
    return is_failing(ALLOCATION) ? none() : next_malloc(size);
}

void *calloc(size_t count, size_t size) {
    look_up();
    return is_failing(ALLOCATION) ? none() : next_calloc(count, size);
}

void *realloc(void *old, size_t size) {
    look_up();
    return is_failing(ALLOCATION) ? none() : next_realloc(old, size);
}

int posix_memalign(void **memory, size_t alignment, size_t size) {
    look_up();
    return is_failing(ALLOCATION) ? ENOMEM : next_memalign(memory, alignment, size);
}

void *aligned_alloc(size_t alignment, size_t size) {
    look_up();
    return is_failing(ALLOCATION) ? none() : next_aligned(alignment, size);
}

static ssize_t fails_with(int error) {
    errno = error;
    return -1;
}

/* How many of `size` bytes a read or a write may move. If it must fail, -1, and `errno` is set. */
static ssize_t limit_call(enum call call, size_t size) {
    if (!is_failing(call)) return is_short && call == failing && size > 1 ? 1 : (ssize_t)size;
    if (how == INTERRUPTED || how == EACH_INTERRUPTED) return fails_with(EINTR);
    return how == ENDS ? 0 : fails_with(call == READ ? EIO : ENOSPC);
}

ssize_t read(int file, void *to, size_t size) {
    ssize_t most = size == 0 ? 0 : limit_call(READ, size);
    return most <= 0 && size > 0 ? most : syscall(SYS_read, file, to, most);
}

ssize_t pread(int file, void *to, size_t size, off_t offset) {
    ssize_t most = size == 0 ? 0 : limit_call(READ, size);
    return most <= 0 && size > 0 ? most : syscall(SYS_pread64, file, to, most, offset);
}

ssize_t write(int file, const void *from, size_t size) {
    ssize_t most = size == 0 ? 0 : limit_call(WRITE, size);
    return most <= 0 && size > 0 ? most : syscall(SYS_write, file, from, most);
}

ssize_t __read(int file, void *to, size_t size) __attribute__((alias("read")));
ssize_t pread64(int file, void *to, size_t size, off_t offset) __attribute__((alias("pread")));
ssize_t __write(int file, const void *from, size_t size) __attribute__((alias("write")));

/* Writes only the first part that is not empty, by one call of `write`. A writer may do so. */
ssize_t writev(int file, const struct iovec *parts, int count) {
    for (int part = 0; part < count; part++)
        if (parts[part].iov_len > 0) return write(file, parts[part].iov_base, parts[part].iov_len);
    return 0;
}

/* A way in which runs ended, and the numbers of the calls that failed in these runs. */
struct ending {
    long runs;
    long *failed;
    int status;
    size_t sizes[2];
    unsigned char *texts[2];
    struct ending *next;
};

static struct ending *endings;

static const char *setting(const char *name, const char *otherwise) {
    const char *given = getenv(name);
    return given ? given : otherwise;
}

static unsigned char *text_of(int file, size_t *size) {
    *size = lseek(file, 0, SEEK_END);
    unsigned char *text = next_malloc(*size + 1);
    if (!text) give_up("no memory");
    for (size_t done = 0; done < *size;) {
        ssize_t more = syscall(SYS_pread64, file, text + done, *size - done, done);
        if (more <= 0) give_up("what a run wrote cannot be read");
        done += more;
    }
    return text;
}

static int is_same(const struct ending *one, const struct ending *other) {
    if (one->status != other->status) return 0;
    for (int i = 0; i < 2; i++)
        if (one->sizes[i] != other->sizes[i] || memcmp(one->texts[i], other->texts[i], one->sizes[i])) return 0;
    return 1;
}

static void note(long call, int status, int const files[2]) {
    struct ending found = {0, NULL, status, {0, 0}, {NULL, NULL}, NULL};
    for (int i = 0; i < 2; i++) found.texts[i] = text_of(files[i], &found.sizes[i]);
    struct ending **slot = &endings;
    while (*slot && !is_same(*slot, &found)) slot = &(*slot)->next;
    if (*slot) {
        free(found.texts[0]);
        free(found.texts[1]);
    } else {
        if (!(*slot = next_malloc(sizeof found))) give_up("no memory");
        **slot = found;
    }
    struct ending *one = *slot;
    /* the list is full: its capacity doubles */
    if ((one->runs & (one->runs - 1)) == 0) {
        size_t capacity = one->runs ? 2 * one->runs : 1;
        if (!(one->failed = next_realloc(one->failed, capacity * sizeof *one->failed))) give_up("no memory");
    }
    one->failed[one->runs++] = call;
}

static void report(long count) {
    printf("%ld\n", count);
    for (struct ending *one = endings; one; one = one->next) {
        printf("%d", one->status);
        for (int i = 0; i < 2; i++) {
            printf(" x");
            for (size_t j = 0; j < one->sizes[i]; j++) printf("%02x", one->texts[i][j]);
        }
        for (long i = 0; i < one->runs; i++) printf(" %ld", one->failed[i]);
        printf("\n");
    }
    fflush(stdout);
}

/* what all runs have in common */
struct runs {
    enum call call;
    const char *input;
    int seconds;
    int files[2];
};

/* Forks a run, which continues as the program. Returns 0 in it. */
static pid_t start(const struct runs *all, long number) {
    for (int i = 0; i < 2; i++)
        if (ftruncate(all->files[i], 0) || lseek(all->files[i], 0, SEEK_SET)) give_up("no room for what runs write");
    *calls = 0;
    pid_t made = fork();
    if (made < 0) give_up("no process");
    if (made > 0) return made;
    struct rlimit no_core = {0, 0};
    setrlimit(RLIMIT_CORE, &no_core);
    int from = open(all->input, O_RDONLY);
    if (from < 0) give_up("no input");
    dup2(from, 0);
    close(from);
    dup2(all->files[0], 1);
    dup2(all->files[1], 2);
    at = number;
    failing = all->call;
    return 0;
}

/* Makes the run in which call `number` fails. Returns 1 in the run, and 0 in the parent when the run has ended. */
static int run(const struct runs *all, long number) {
    pid_t made = start(all, number);
    if (made == 0) {
        alarm(all->seconds);
        return 1;
    }
    note(number, status_of(made), all->files);
    return 0;
}

enum after { ENDED, IN_RUN, CHANGED };

/* Makes one run in which no call fails, and that forks at the calls that are chosen. Returns IN_RUN in these runs, and
 * ENDED in the parent when all have ended. If the run itself does not end as the first one, the others have changed what
 * it reads, as runs do that share files: all but the first one are forgotten, and CHANGED is returned. */
static enum after run_from_calls(const struct runs *all, struct choice choice, long count) {
    int told[2], heard[2];
    if (pipe2(told, O_CLOEXEC) || pipe2(heard, O_CLOEXEC)) give_up("no pipe");
    struct ending *first = endings;
    pid_t made = start(all, 0);
    if (made == 0) {
        close(told[0]);
        close(heard[1]);
        forking.tells = told[1];
        forking.hears = heard[0];
        forking.seconds = all->seconds;
        forking.choice = choice;
        forking.on = choice.runs > 0;
        return IN_RUN;
    }
    close(told[1]);
    close(heard[0]);
    struct message message;
    while (syscall(SYS_read, told[0], &message, sizeof message) == sizeof message) {
        note(message.number, message.status, all->files);
        if (syscall(SYS_write, heard[1], "", 1) != 1) give_up("a run is gone");
    }
    close(told[0]);
    close(heard[1]);
    note(0, status_of(made), all->files);
    if (first->failed[first->runs - 1] == 0 && *calls == count) {
        first->runs--;
        return ENDED;
    }
    first->runs = 1;
    first->next = NULL;
    return CHANGED;
}

/* The processor milliseconds of all runs so far. */
static double millis_of_runs(void) {
    struct rusage used;
    getrusage(RUSAGE_CHILDREN, &used);
    return 1e3 * (used.ru_utime.tv_sec + used.ru_stime.tv_sec) + 1e-3 * (used.ru_utime.tv_usec + used.ru_stime.tv_usec);
}

enum { FEWEST = 40 };

/* How many runs may be made if one takes so long, of a number of calls. */
static long within(double most, double millis, long calls) {
    double runs = most / millis;
    if (runs < FEWEST) runs = FEWEST;
    return runs < calls ? (long)runs : calls;
}

/* Makes the runs in which an allocation fails, each forked where it fails. Some of them come first, to see how long one
 * takes. */
static enum after fail_allocations(const struct runs *all, long count, double most) {
    long few = count < FEWEST ? count : FEWEST;
    double before = millis_of_runs();
    enum after after = run_from_calls(all, (struct choice){few, count}, count);
    if (after != ENDED || few == count) return after;
    double each = (millis_of_runs() - before) / few;
    return run_from_calls(all, (struct choice){within(most, each, count), count}, count);
}

__attribute__((constructor)) static void begin(void) {
    const char *name = getenv("FAILING_CALL");
    if (!name) return;
    look_up();
    enum call call = !strcmp(name, "allocation") ? ALLOCATION : !strcmp(name, "read") ? READ : WRITE;
    const char *way = setting("FAILING_HOW", "fails");
    while (how < HOWS && strcmp(NAMES[how], way)) how++;
    if (how == HOWS) give_up("no such way to fail");
    is_short = getenv("FAILING_SHORT") != NULL;
    const char *input = setting("FAILING_INPUT", "/dev/null");
    double most = atof(setting("FAILING_MILLIS", "1e12"));
    int seconds = atoi(setting("FAILING_SECONDS", "60"));
    unsetenv("FAILING_CALL");
    unsetenv("LD_PRELOAD");
    struct runs all = {call, input, seconds, {memfd_create("output", 0), memfd_create("errors", 0)}};
    calls = mmap(NULL, sizeof *calls, PROT_READ | PROT_WRITE, MAP_SHARED | MAP_ANONYMOUS, -1, 0);
    if (all.files[0] < 0 || all.files[1] < 0 || calls == MAP_FAILED) give_up("no room");
    /* the run in which no call fails */
    if (run(&all, 0)) return;
    long count = *calls;
    /* these two ways make only one run, whatever the number of its call */
    long whole = how == EACH_INTERRUPTED || how == NOTHING ? 1 : count;
    /* half a millisecond is for the start of a run */
    struct choice choice = {within(most, 0.5 + millis_of_runs(), whole), whole};
    enum after after = call == ALLOCATION ? fail_allocations(&all, count, most) : CHANGED;
    if (after == IN_RUN) return;
    for (long i = 0; after == CHANGED && i < choice.runs; i++)
        if (run(&all, chosen(choice, i))) return;
    report(count);
    _exit(0);
}
