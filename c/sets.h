/* Set S of the training sheet and its tree, and a set of one rule. */
#ifndef SETS_H
#define SETS_H

#include "calls.h"
#include "jiehkavon.h"

#define LENGTH(array) (sizeof(array) / sizeof((array)[0]))

/* An array as a slice, to begin one with and to put somewhere. It is not written to. */
#define WORDS(array) {(uint32_t *)(array), LENGTH(array)}
#define SLICE(array) ((slice)WORDS(array))

/* The words of an item in a rule. */
#define CONSTANT(symbol) 0, symbol, 0
#define SLOT(typecode, variable) 1, typecode, variable

enum { PROVABLE = 1, LOGIC = 2, S_NODES = 17, S_EDGES = 19 };

extern const slice rules_s, nodes_s, edges_s;

/* A set in which `c5 s3` hides `c5 s2`, the garden path that says so, its tree with and without that, a sentence that needs it and its list. */
enum { E_NODES = 16, E_EDGES = 16, E_COPIED = 8, E_FRAMES = 2 };
extern const slice rules_e, path_e, nodes_e, edges_e, tokens_e, list_e;

/* 1 5 10 7 11 6 and its list. */
extern const slice ten_passes, ten_passes_list;

/* 2: c10, its tree, and 1 10 with its list; the same as a batch of one. */
extern const slice rules_one, nodes_one, edges_one, tokens_one, list_one, many_one;

/* Four statements over set S: the ten-pass sentence, 1 10 10, no tokens, and 1 10; the lists of the two that are accepted, and all answers. */
extern const slice many_s, many_s_list, many_s_answers;
enum { S_RULES = 9, S_INDEX = S_RULES + S_NODES + 1 };

/* The same with a table of the constants that leave node 0, of which 14 is the greatest. */
enum { S_FULL_INDEX = S_INDEX + 15 };

/* The conversions, asked for. */
extern const slice conversions;

/* A call over set S, with the ten-pass sentence or, for a batch, the four statements, and no room at all. */
call call_s(int entry, uint32_t number);

/* A build of the set with the garden path, in garbage that is just enough. */
call build_e(void);

/* Slices lent for writing hold this before a call: so many words that are no zeros. */
enum { MOST_GARBAGE = JIEHKAVON_MOST_LIST };
slice garbage(size_t length);

/* The provable typecode, `count` times c14 of set S, and c10. The longest statement has LONGEST of c14, and one more makes it too long. */
enum { LONGEST = JIEHKAVON_MOST_TOKENS - 2 };
slice prefixes(size_t count);

/* The same as a batch of one: its number of tokens, then its tokens. */
slice counted_prefixes(size_t count);

#endif
