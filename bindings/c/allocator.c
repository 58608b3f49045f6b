/*
** allocator.c - the memory of proved code, over malloc, for targets for which the
** kit has no such file. It does what the kit's c/liblibc_c.a does on x86-64, and is
** assumed as that is: no proof covers it.
**
** A block of 0 bytes is a block of as many bytes as its alignment, which is at most
** that of malloc. Where memory runs out, the pointer is one that nothing may use.
*/
#include <stdbool.h>
#include <stddef.h>
#include <stdlib.h>

struct tried {
    bool ok;
    void *at;
};

struct tried rattle_alloc(size_t size, size_t alignment);
struct tried rattle_realloc(void *at, size_t kept, size_t size, size_t alignment);
void rattle_dealloc(void *at);

static struct tried tried(void *at) {
    static char nothing;
    return (struct tried){at != NULL, at ? at : &nothing};
}

struct tried rattle_alloc(size_t size, size_t alignment) {
    return tried(malloc(size ? size : alignment));
}

struct tried rattle_realloc(void *at, size_t kept, size_t size, size_t alignment) {
    (void)kept;
    return tried(realloc(at, size ? size : alignment));
}

void rattle_dealloc(void *at) {
    free(at);
}
