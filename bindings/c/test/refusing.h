/* Allocations that are refused. The tests are linked with --wrap for malloc, calloc and realloc. */
#ifndef REFUSING_H
#define REFUSING_H

#include <stdbool.h>

/* Refuses allocation number `n` from now on, counted from 1, and no other; with `and_all_later` all later ones too. */
void refuse(unsigned long n, bool and_all_later);

/* Refuses none any more. Returns how many allocations were made or refused since refuse(). */
unsigned long refuse_none(void);

#endif
