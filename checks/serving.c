/* A library that is loaded with LD_PRELOAD, and runs a program many times. The program is started
 * once, with as many arguments as each run will have, at most seven. It is forked for each run,
 * before `main` runs.
 *
 * A request on standard input has the arguments of a run, and then its standard input. Each is a
 * text: the number of its bytes, and then the bytes. Numbers have 32 bits, in the byte order of the
 * machine. A reply on standard output has the status of the run as a number. If a signal ended the
 * run, it is the sum of 128 and the number of the signal. Then the reply has standard output and
 * standard error of the run, each as a text. A run may take SERVING_SECONDS seconds of processor
 * time, ten times as many seconds of real time, and SERVING_BYTES bytes of address space.
 */
#define _GNU_SOURCE
#include <errno.h>
#include <stdint.h>
#include <stdlib.h>
#include <string.h>
#include <sys/mman.h>
#include <sys/resource.h>
#include <sys/wait.h>
#include <unistd.h>

static void give_up(void) { _exit(99); }

/* Reads `size` bytes. Returns 0 if standard input ends before the first of them. */
static int take(void *to, size_t size) {
    for (size_t done = 0; done < size;) {
        ssize_t more = read(0, (char *)to + done, size - done);
        if (more == 0 && done == 0) return 0;
        if (more <= 0 && !(more < 0 && errno == EINTR)) give_up();
        if (more > 0) done += more;
    }
    return 1;
}

static void give(int to, const void *from, size_t size) {
    for (size_t done = 0; done < size;) {
        ssize_t more = write(to, (const char *)from + done, size - done);
        if (more <= 0 && !(more < 0 && errno == EINTR)) give_up();
        if (more > 0) done += more;
    }
}

/* The next text of a request, with a zero byte after it. NULL if standard input has ended. */
static char *text(uint32_t *size) {
    if (!take(size, sizeof *size)) return NULL;
    char *made = malloc((size_t)*size + 1);
    if (!made || (*size && !take(made, *size))) give_up();
    made[*size] = 0;
    return made;
}

/* A new file in memory. */
static int file_of(const char *name) {
    int made = memfd_create(name, MFD_CLOEXEC);
    if (made < 0) give_up();
    return made;
}

/* Writes the number of bytes of a file, and then these bytes, to standard output. */
static void give_file(int file) {
    char part[65536];
    uint32_t size = lseek(file, 0, SEEK_END);
    give(1, &size, sizeof size);
    for (size_t done = 0; done < size;) {
        ssize_t more = pread(file, part, sizeof part, done);
        if (more <= 0) give_up();
        give(1, part, more);
        done += more;
    }
}

static long setting(const char *name, long otherwise) {
    const char *given = getenv(name);
    return given ? atol(given) : otherwise;
}

static void limit(int what, rlim_t most) {
    struct rlimit both = {most, most};
    setrlimit(what, &both);
}

__attribute__((constructor)) static void serve(int argc, char **argv) {
    if (!getenv("SERVING_SECONDS")) return;
    long seconds = setting("SERVING_SECONDS", 10), bytes = setting("SERVING_BYTES", 1L << 30);
    unsetenv("SERVING_SECONDS");
    unsetenv("LD_PRELOAD");
    int files[3] = {file_of("input"), file_of("output"), file_of("errors")};
    for (;;) {
        uint32_t size;
        char *words[8];
        for (int i = 1; i < argc && i < 8; i++)
            if (!(words[i] = text(&size))) _exit(0);
        char *input = text(&size);
        if (!input) _exit(0);
        for (int i = 0; i < 3; i++)
            if (ftruncate(files[i], 0) || lseek(files[i], 0, SEEK_SET)) give_up();
        give(files[0], input, size);
        lseek(files[0], 0, SEEK_SET);
        pid_t made = fork();
        if (made < 0) give_up();
        if (made == 0) {
            for (int i = 0; i < 3; i++) dup2(files[i], i);
            for (int i = 1; i < argc && i < 8; i++) argv[i] = words[i];
            free(input);
            limit(RLIMIT_CORE, 0);
            limit(RLIMIT_AS, bytes);
            limit(RLIMIT_CPU, seconds);
            alarm(10 * seconds);
            return;
        }
        int32_t status;
        while (waitpid(made, &status, 0) < 0)
            if (errno != EINTR) give_up();
        status = WIFEXITED(status) ? WEXITSTATUS(status) : 128 + WTERMSIG(status);
        give(1, &status, sizeof status);
        give_file(files[1]);
        give_file(files[2]);
        for (int i = 1; i < argc && i < 8; i++) free(words[i]);
        free(input);
    }
}
