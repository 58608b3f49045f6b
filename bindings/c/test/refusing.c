#include "refusing.h"

#include <stddef.h>

static bool is_counting, refuses_later;
static unsigned long count, refused;

void *__real_malloc(size_t size);
void *__real_calloc(size_t items, size_t size);
void *__real_realloc(void *at, size_t size);
void *__wrap_malloc(size_t size);
void *__wrap_calloc(size_t items, size_t size);
void *__wrap_realloc(void *at, size_t size);

void refuse(unsigned long n, bool and_all_later)
{
    count = 0;
    refused = n;
    refuses_later = and_all_later;
    is_counting = true;
}

unsigned long refuse_none(void)
{
    is_counting = false;
    return count;
}

static bool is_refused(void)
{
    if (!is_counting)
        return false;
    count++;
    return count == refused || (refuses_later && count > refused);
}

void *__wrap_malloc(size_t size)
{
    return is_refused() ? NULL : __real_malloc(size);
}

void *__wrap_calloc(size_t items, size_t size)
{
    return is_refused() ? NULL : __real_calloc(items, size);
}

void *__wrap_realloc(void *at, size_t size)
{
    return is_refused() ? NULL : __real_realloc(at, size);
}
