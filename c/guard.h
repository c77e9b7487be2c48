/* Slices that touch pages nobody may touch, and catching the faults of whoever does. */
#ifndef GUARD_H
#define GUARD_H

#include "calls.h"

/* Which end of a slice touches the forbidden page. */
enum { AT_END, AT_START, ENDS };

/* For each slice pages of its own, between two that are forbidden. */
typedef struct grounds {
    size_t pages;
    uint32_t *first[SLICES];
} grounds;

void open_grounds(grounds *g, size_t pages);
void close_grounds(grounds *g);

/* The call with its slices moved there. Those that it may only read can't be written to, and all words around the slices are noted. */
call stand(const grounds *g, const call *c, int end);

/* Whether the words around the slices are as they were. */
int unharmed(const grounds *g, const call *c);

/* All can be written to again. */
void release(const grounds *g, const call *c);

/* From here on faults come back from `faults`. */
void catch_faults(void);

/* Whether `act` faults. */
int faults(void (*act)(void *), void *with);

#endif
