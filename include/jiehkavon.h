/* SPDX-License-Identifier: MIT OR Apache-2.0 (the file NOTICE says more) */
/* A Metamath statement parser that is proved. This is its C boundary; the code behind it is libdesk_c.a, for x86-64.
 *
 * A slice is two arguments, a pointer to 32-bit words, or to bytes, and how many there are. An empty slice may have
 * any pointer, NULL among them. What a caller owes is this alone: the words of each slice are there for the length of
 * the call, and a slice lent for writing overlaps no other slice of the call. Nothing is asked of the words
 * themselves. Every call ends, allocates nothing, keeps no pointer and has no state; two threads may call at once with
 * slices of their own.
 *
 * Every call but the reading of a package takes the provable and the logic typecode and the rules. A rule is its
 * result typecode, the number of its items, and three words for each item: 0, a constant and 0, or 1, the typecode of a
 * slot and its variable, a number of the caller's choice. No two slots of a rule may have one variable, since in
 * Metamath both would have to get the same expression; in two rules one number means two variables. Rules are numbered
 * from 1. A rule of one slot is a conversion.
 */
#ifndef JIEHKAVON_H
#define JIEHKAVON_H

#include <stddef.h>
#include <stdint.h>

#ifdef __cplusplus
extern "C" {
#endif

/* What an answer's number means. */
enum {
    JIEHKAVON_OK = 0,              /* accepted, or built */
    JIEHKAVON_TOO_SHORT = 1,       /* fewer than two tokens */
    JIEHKAVON_UNPARSEABLE = 2,     /* no rule goes on at the place */
    JIEHKAVON_UNFINISHED = 3,      /* the tokens end where a rule wants more; the place is the last one */
    JIEHKAVON_NOT_WELL_TYPED = 4,  /* no well typed tree that spells the statement */
    JIEHKAVON_PASSES_USED_UP = 5,  /* a further pass is needed and the allowance is used up */
    JIEHKAVON_FRAMES_FULL = 6,     /* a frame is needed and the frame slice is full; of a parse, or of a garden path */
    JIEHKAVON_LIST_FULL = 7,       /* an entry is needed and the list or its work slice is full; or a package does not
                                    * fit a slice lent for it, or a batch its answers or its index */
    JIEHKAVON_BAD_TABLES = 8,      /* the nodes or the edges are bad */
    JIEHKAVON_TOO_LONG = 9,        /* more than JIEHKAVON_MOST_TOKENS tokens */
    JIEHKAVON_BAD_RULES = 10,      /* the rules, or the two typecodes, are bad; one variable in two slots is */
    JIEHKAVON_COLLISION = 11,      /* a body equals, begins or continues an earlier one, whatever the variables are */
    JIEHKAVON_NODES_FULL = 12,     /* a node is needed and none is free */
    JIEHKAVON_EDGES_FULL = 13,     /* an edge is needed and none is free */
    JIEHKAVON_SIXTH_REDUCE = 14,   /* an edge, or a list on the way to one, would get a sixth reduce */
    JIEHKAVON_OFFSET_TOO_LARGE = 15, /* a garden path would raise an offset past JIEHKAVON_MOST_OFFSET */
    JIEHKAVON_BAD_COPY = 16,       /* a copy from or to a leaf, or of a node to itself; a garden path that doesn't fit
                                    * the tree; words that are no command */
    JIEHKAVON_TOO_MANY_TAKEN = 17, /* a garden path would take up more than JIEHKAVON_MOST_TAKEN edges */
    JIEHKAVON_BAD_LENGTH = 20,     /* a record's length is cut short, is under 2, or goes past the package */
    JIEHKAVON_UNKNOWN_KIND = 21,   /* there is no such kind of record */
    JIEHKAVON_WRONG_SIZE = 22,     /* a record's body has a wrong size, a statement can't be written, or the statement
                                    * words of a batch end within a statement */
    JIEHKAVON_WRONG_ORDER = 23     /* a record may not stand here, is missing, or comes after the end record */
};

/* Limits. What passes them is refused, by the numbers above. */
enum {
    JIEHKAVON_MOST_SYMBOL = 65535, /* symbols and typecodes are 1 to this, and so are variables */
    JIEHKAVON_MOST_RULES = 2048,
    JIEHKAVON_MOST_ITEMS = 32,     /* of a rule */
    JIEHKAVON_MOST_NODES = 8192,
    JIEHKAVON_MOST_EDGES = 16384,
    JIEHKAVON_MOST_REDUCES = 5,    /* of an edge */
    JIEHKAVON_MOST_OFFSET = 255,   /* of a reduce */
    JIEHKAVON_MOST_TAKEN = 16384,  /* edges that a garden path takes up */
    JIEHKAVON_MOST_TOKENS = 32769  /* of a statement, its typecode among them */
};

/* Sizes. */
enum {
    JIEHKAVON_ITEM_WIDTH = 3,      /* words of an item in a rule: kind, symbol, variable */
    JIEHKAVON_PATH_ITEM_WIDTH = 2, /* words of an item in a garden path: kind and symbol */
    JIEHKAVON_ROW_WIDTH = 16,      /* words of an edge: from, kind, symbol, to, count, five times rule and offset, 0 */
    JIEHKAVON_CLONE_WIDTH = 16,    /* words of a frame that a build is lent; one of a parse is a single word */
    JIEHKAVON_ANSWER_WIDTH = 4,    /* words of a statement's answer in a batch: number, place, length, passes */
    JIEHKAVON_PASSES_A_TOKEN = 4,  /* passes for each token after the typecode that are always enough */
    JIEHKAVON_LIST_A_TOKEN = 18    /* words of the list, and of its work slice, likewise */
};

/* Passes and room that are always enough for a statement of `tokens` tokens, its typecode among them: for n tokens
 * after the typecode 4n passes, n - 1 frames, and 18n words for the list and 18n for its work slice. With these a
 * parse never answers 5, 6 or 7; that is proved, for any tables. Lending more changes nothing. A statement of no or
 * too many tokens is refused before it is walked and needs none. */
static inline size_t jiehkavon_walked(size_t tokens) {
    return tokens > 0 && tokens <= JIEHKAVON_MOST_TOKENS ? tokens - 1 : 0;
}
static inline uint32_t jiehkavon_enough_passes(size_t tokens) {
    return JIEHKAVON_PASSES_A_TOKEN * (uint32_t)jiehkavon_walked(tokens);
}
static inline size_t jiehkavon_enough_frames(size_t tokens) {
    return jiehkavon_walked(jiehkavon_walked(tokens));
}
static inline size_t jiehkavon_enough_list(size_t tokens) {
    return JIEHKAVON_LIST_A_TOKEN * jiehkavon_walked(tokens);
}

/* Words of the index that a batch needs, for so many rules and node words; it answers 7 with less. More change no
 * answer, but those after these serve as a table of the constants that leave node 0, the first of them for constant 0,
 * and save time: so many more as the greatest of these constants and one are all that can be used. */
static inline size_t jiehkavon_enough_index(size_t rules, size_t nodes) {
    return rules + nodes + 1;
}

/* Passes, frames and list words for the longest statement, as constants: so much is enough for every statement. */
enum {
    JIEHKAVON_MOST_PASSES = JIEHKAVON_PASSES_A_TOKEN * (JIEHKAVON_MOST_TOKENS - 1),
    JIEHKAVON_MOST_FRAMES = JIEHKAVON_MOST_TOKENS - 2,
    JIEHKAVON_MOST_LIST = JIEHKAVON_LIST_A_TOKEN * (JIEHKAVON_MOST_TOKENS - 1)
};

/* Frames, and words of them, that are always enough for the garden paths of a build; that is proved too. A build without
 * garden paths needs none, set.mm with its own needs 12. Lending more changes nothing. */
enum {
    JIEHKAVON_MOST_CLONES = JIEHKAVON_MOST_TAKEN + 1,
    JIEHKAVON_MOST_CLONE_WORDS = JIEHKAVON_CLONE_WIDTH * JIEHKAVON_MOST_CLONES
};

/* What a parse or a check answers. */
typedef struct jiehkavon_answer {
    uint32_t number; /* JIEHKAVON_OK, or why not */
    uint32_t place;  /* for 2 and 3 the token, the typecode being token 0; else 0 */
    uint32_t length; /* the words of the list; 0 if refused, and for a check */
    uint32_t passes; /* the passes used, a refused one among them; 0 if no walk was begun, and for a check */
} jiehkavon_answer;

/* What a batch answers. */
typedef struct jiehkavon_batch {
    uint32_t number;   /* JIEHKAVON_OK, or why not */
    size_t place;      /* for 22 the statement that is not whole, counted from 0; else 0 */
    size_t statements; /* how many statements were answered; 0 if refused */
    size_t words;      /* the words of the list slice that are lists; 0 if refused */
} jiehkavon_batch;

/* What a build answers. */
typedef struct jiehkavon_built {
    uint32_t number; /* JIEHKAVON_OK, or why not */
    uint32_t nodes;  /* the words of the node slice that are nodes; 0 if refused */
    uint32_t edges;  /* the rows of the edge slice that are edges; 0 if refused */
} jiehkavon_built;

/* A part of the rule slice: its first word and how many; 0 and 0 where there is no body. */
typedef struct jiehkavon_stretch {
    uint32_t start;
    uint32_t length;
} jiehkavon_stretch;

/* Where the body of rule `rule` stands in the rules: three words for each item. It is empty if there is no such rule,
 * or if any rule is bad. */
jiehkavon_stretch jiehkavon_body(
    uint32_t provable, uint32_t logic,
    const uint32_t *rules, size_t rules_length,
    uint32_t rule);

/* The first word of a command. */
enum {
    JIEHKAVON_GARDEN_PATH = 1,     /* then the number of items of its prefix, that of its shadow, and the items of both,
                                    * two words each: no slot has a variable here */
    JIEHKAVON_TYPE_CONVERSIONS = 2 /* nothing more */
};

/* Makes the tree of the rules, and runs the commands after them in the order given; conversions that none of them asks
 * for come last, so that no commands at all, and the conversions alone, give the same tree. The nodes are at the front
 * of `nodes`, the edges at the front of `edges`, zeros after them. A node is one word, 0 for a branch, else the rule of
 * a leaf; node 0 is the root and needs room too. The rows of the edges rise by from, kind and symbol, so that no two
 * have the same three. `frames` is room for garden paths, JIEHKAVON_CLONE_WIDTH words each, and zero afterwards. If
 * refused (6, 10 to 17), the first fault is told and all three slices are zero. */
jiehkavon_built jiehkavon_build(
    uint32_t provable, uint32_t logic,
    const uint32_t *rules, size_t rules_length,
    const uint32_t *commands, size_t commands_length,
    uint32_t *nodes, size_t nodes_length,
    uint32_t *edges, size_t edges_length,
    uint32_t *frames, size_t frames_length);

/* Walks a statement through the tables, in at most `allowance` passes. `tokens` begins with the typecode; where that
 * is the provable one, the logic one is wanted. If accepted, the front of `list` holds the formula's rule numbers in
 * postfix order, zeros after them; it is a well typed tree over the rules and spells the statement, whatever the
 * tables are. If refused (1 to 10), `list` is zero. `frames` and `work` are zero afterwards in either case. The edge
 * slice has to be cut to the count that the build gave: a row of zeros is no edge. Rows that don't rise as a build's do
 * are bad tables (8). */
jiehkavon_answer jiehkavon_parse(
    uint32_t provable, uint32_t logic,
    const uint32_t *rules, size_t rules_length,
    const uint32_t *nodes, size_t nodes_length,
    const uint32_t *edges, size_t edges_length,
    const uint32_t *tokens, size_t tokens_length,
    uint32_t allowance,
    uint32_t *frames, size_t frames_length,
    uint32_t *list, size_t list_length,
    uint32_t *work, size_t work_length);

/* Walks many statements through the tables. `statements` has for each the number of its tokens, then its tokens, which
 * is how a package is read too. Rules and tables are checked once, and a rule or a node's rows are found by number.
 *
 * Each statement is answered as jiehkavon_parse answers it under the same rules, tables and allowance, with all of
 * `frames` and of `work`, and with the part of `list` that the lists before it have left free. Its answer is
 * JIEHKAVON_ANSWER_WIDTH words of `answers`: the fields of a jiehkavon_answer in their order. An accepted list begins
 * where the one before it ends; a refused statement takes no words and does not stop the others. So a statement is
 * never refused with 5, 6 or 7 where the allowance, `frames` and `work` are enough for the longest one and `list` has
 * what is enough for each of them, added up. `index` is for the call alone, and needs jiehkavon_enough_index words;
 * what is lent beyond makes it faster.
 *
 * The batch itself is refused by 10, then 8, then 22 where the words end within a statement, whose number is the place,
 * then 7 for answers of fewer than four words a statement or an index that is too short; all else is a statement's own.
 * If it is refused, all five slices lent for writing are zero. If not, the lists are at the front of `list` and the
 * answers at the front of `answers`, zeros after them, and `frames`, `work` and `index` are zero. No statements at all
 * are right too. */
jiehkavon_batch jiehkavon_parse_many(
    uint32_t provable, uint32_t logic,
    const uint32_t *rules, size_t rules_length,
    const uint32_t *nodes, size_t nodes_length,
    const uint32_t *edges, size_t edges_length,
    const uint32_t *statements, size_t statements_length,
    uint32_t allowance,
    uint32_t *frames, size_t frames_length,
    uint32_t *list, size_t list_length,
    uint32_t *work, size_t work_length,
    uint32_t *answers, size_t answers_length,
    uint32_t *index, size_t index_length);

/* Checks a list, whoever made it: 0 exactly if its tree is well typed, has the wanted typecode and spells the
 * statement, else 4. Before that come 10, 1, 9, and 7 for a work slice shorter than the list. `work` is zero
 * afterwards. */
jiehkavon_answer jiehkavon_verify(
    uint32_t provable, uint32_t logic,
    const uint32_t *rules, size_t rules_length,
    const uint32_t *tokens, size_t tokens_length,
    const uint32_t *list, size_t list_length,
    uint32_t *work, size_t work_length);

/* A package is rules and statements in one file. Its numbers are little-endian, and it is a row of records: four bytes
 * that say how many follow in this record, two for its kind, then words of four bytes.
 *
 *   kind 1   the provable and the logic typecode; the first record, and no other
 *   kind 2   a rule, as in the rule slice
 *   kind 3   the tokens of a statement, the typecode first; after all rules
 *   kind 4   nothing; the end
 *   kind 5   a rule in the old form, two words for each item; it is read as one whose slots have the variables 1, 2, 3
 *            and so on, and stands where kind 2 may
 *
 * In a slice of words a statement is the number of its tokens, then its tokens. */

/* Words that are enough for the rules of a package of so many bytes, and as many for its statements: three for eight
 * bytes, since a rule in the old form has more words than its record. */
static inline size_t jiehkavon_enough_words(size_t bytes) {
    return 3 * (bytes / 8 + 1);
}

/* Bytes that are enough for the package of rules and statements of so many words. */
static inline size_t jiehkavon_enough_bytes(size_t rules_length, size_t statements_length) {
    return 20 + 6 * (rules_length + statements_length);
}

/* What reading a package answers. If refused, all but the first two are 0. */
typedef struct jiehkavon_package {
    uint32_t number;   /* JIEHKAVON_OK, or why not */
    size_t place;      /* for 20 to 23 the record, counted from 0; else 0 */
    uint32_t provable; /* the two typecodes */
    uint32_t logic;
    size_t rules;      /* the words of the rule slice that are rules */
    size_t statements; /* how many statements there are */
    size_t words;      /* the words of the statement slice that are statements */
} jiehkavon_package;

/* What writing a package answers. */
typedef struct jiehkavon_written {
    uint32_t number; /* JIEHKAVON_OK, or why not */
    size_t place;    /* always 0 */
    size_t length;   /* the bytes of the package; 0 if refused */
} jiehkavon_written;

/* Reads a package. The rules are at the front of `rules`, the statements at the front of `statements`, zeros after
 * them. If refused, both slices are zero. At each record come 23 for no byte before the end record or one after it,
 * then 20, 21, 22, and 23 for a wrong order; after the last record 7, then 10. */
jiehkavon_package jiehkavon_package_read(
    const uint8_t *bytes, size_t bytes_length,
    uint32_t *rules, size_t rules_length,
    uint32_t *statements, size_t statements_length);

/* Writes a package to the front of `bytes`, zeros after it. If refused, `bytes` is zero: 10, then 22 for a statement
 * of 2^30 tokens or more and for words that end within a statement, then 7. Rules are written as kind 2. Reading what
 * was written gives the same typecodes, rules and statements; writing what was read gives the same bytes, where no rule
 * was read as kind 5. */
jiehkavon_written jiehkavon_package_write(
    uint32_t provable, uint32_t logic,
    const uint32_t *rules, size_t rules_length,
    const uint32_t *statements, size_t statements_length,
    uint8_t *bytes, size_t bytes_length);

#ifdef __cplusplus
}
#endif

#endif
