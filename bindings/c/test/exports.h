/* A call of each export that takes a handle, with arguments that are good where the handle is of the right kind. */
#ifndef EXPORTS_H
#define EXPORTS_H

#include "inputs.h"

#define KIND(kind) (1u << (kind))
#define MAPS (KIND(SM_KIND_REGULAR) | KIND(SM_KIND_INDEX) | KIND(SM_KIND_HERMES))
#define LISTS (KIND(SM_KIND_REGULAR) | KIND(SM_KIND_HERMES))

struct export_row {
    const char *name;
    /* Returns what the export returned; SM_WRONG_KIND of one that returned a count of 0. */
    sm_code (*call)(sm_handle *handle);
    /* The kinds that the call is for. */
    uint32_t kinds;
    bool changes;
};

extern const struct export_row EXPORTS[];
extern const size_t EXPORTS_COUNT;

/* Fills `handle` with something of this kind. */
void fill(sm_handle *handle, uint32_t kind);

#endif
