/* The entry points over words as one kind of call, so that a test can put any slice of any of them anywhere. */
#ifndef CALLS_H
#define CALLS_H

#include <stddef.h>
#include <stdint.h>

enum { BODY, BUILD, PARSE, VERIFY, MANY, ENTRIES };

/* Of a batch, the tokens are those of all statements, each with their number before them. */
enum { RULES, COMMANDS, NODES, EDGES, TOKENS, FRAMES, LIST, WORK, ANSWERS, INDEX, SLICES };

typedef struct slice {
    uint32_t *words;
    size_t length;
} slice;

typedef struct call {
    int entry;
    uint32_t provable, logic;
    uint32_t number; /* the rule of a body, the allowance of a parse or a batch */
    slice slices[SLICES];
} call;

/* What comes back by value: the fields in order, zeros after them. */
typedef struct outcome {
    size_t words[4];
} outcome;

/* Whether the entry point is lent such a slice, and whether it may write to it. */
int takes(int entry, int kind);
int writes(int entry, int kind);

outcome ask(const call *c);

/* The call with slices of its own, each in a block of its exact size. Words lent for writing are copied or, if `bare`,
 * left as the allocator gave them, so that a checker of undefined words notices who looks at them. */
call own(const call *c, int bare);
void disown(call *c);

/* How many words of a slice hold something that the outcome speaks of; the rest has to be zero. */
size_t meant(const call *c, outcome o, int kind);

#endif
