/* A call and what has to come of it. */
#ifndef EXPECT_H
#define EXPECT_H

#include "calls.h"

/* What comes back by value, and what a slice has to hold afterwards; the rest of it is zero. */
typedef struct expected {
    outcome given;
    slice front[SLICES];
} expected;

/* One check for what comes back by value, one for each slice lent for writing. */
void check_call(const call *c, const expected *e, const char *what);

#endif
