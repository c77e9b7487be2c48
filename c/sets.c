#include "sets.h"

/* Rules 1 to 9. Variables are not in the tree, so that of rule 8 they may be the last and the first there are. */
static const uint32_t rule_words[] = {
    2, 1, CONSTANT(10),
    2, 1, CONSTANT(11),
    3, 1, CONSTANT(12),
    4, 1, CONSTANT(13),
    3, 1, SLOT(4, 1),
    2, 2, CONSTANT(14), SLOT(2, 1),
    2, 5, CONSTANT(5), SLOT(2, 1), CONSTANT(7), SLOT(2, 2), CONSTANT(6),
    2, 3, SLOT(3, 65535), CONSTANT(8), SLOT(3, 1),
    2, 3, SLOT(3, 1), CONSTANT(9), SLOT(3, 2),
};

static const uint32_t node_words[S_NODES] = {0, 1, 2, 3, 4, 0, 6, 0, 0, 0, 0, 7, 0, 0, 8, 0, 9};

/* from, kind, symbol, to; they rise by the first three, and three have one reduce, rule 5 at offset 0 */
static const uint32_t edge_words[S_EDGES][16] = {
    {0, 0, 5, 7},
    {0, 0, 10, 1},
    {0, 0, 11, 2},
    {0, 0, 12, 3},
    {0, 0, 13, 4},
    {0, 0, 14, 5},
    {0, 1, 3, 12},
    {0, 1, 4, 12, 1, 5, 0},
    {5, 1, 2, 6},
    {7, 1, 2, 8},
    {8, 0, 7, 9},
    {9, 1, 2, 10},
    {10, 0, 6, 11},
    {12, 0, 8, 13},
    {12, 0, 9, 15},
    {13, 1, 3, 14},
    {13, 1, 4, 14, 1, 5, 0},
    {15, 1, 3, 16},
    {15, 1, 4, 16, 1, 5, 0},
};

static const uint32_t ten_pass_words[] = {1, 5, 10, 7, 11, 6};
static const uint32_t ten_pass_list_words[] = {1, 2, 7};

static const uint32_t e_rules[] = {
    3, 1, CONSTANT(20),
    2, 1, CONSTANT(21),
    2, 3, SLOT(3, 1), CONSTANT(8), SLOT(3, 2),
    3, 5, CONSTANT(5), SLOT(3, 1), CONSTANT(9), SLOT(3, 2), CONSTANT(6),
    2, 5, CONSTANT(5), SLOT(2, 1), CONSTANT(7), SLOT(2, 2), CONSTANT(6),
};
static const uint32_t e_path[] = {JIEHKAVON_GARDEN_PATH, 2, 2, 0, 5, 1, 3, 0, 5, 1, 2};
static const uint32_t e_nodes[E_NODES] = {0, 1, 2, 0, 0, 3, 0, 0, 0, 0, 4, 0, 0, 0, 5, 0};

/* two are the path's: E_COPIED is a branch that was copied, and the last an edge that reduces rule 3 and leads to the shadow's node */
static const uint32_t e_edges[E_EDGES][16] = {
    {0, 0, 5, 6},
    {0, 0, 20, 1},
    {0, 0, 21, 2},
    {0, 1, 3, 3},
    {3, 0, 8, 4},
    {4, 1, 3, 5},
    {6, 1, 2, 11},
    {6, 1, 3, 7},
    {7, 0, 8, 15},
    {7, 0, 9, 8},
    {8, 1, 3, 9},
    {9, 0, 6, 10},
    {11, 0, 7, 12},
    {12, 1, 2, 13},
    {13, 0, 6, 14},
    {15, 1, 3, 11, 1, 3, 0},
};
static const uint32_t e_tokens[] = {1, 5, 20, 8, 20, 7, 21, 6};
static const uint32_t e_list[] = {1, 1, 3, 2, 5};

static const uint32_t one_rule[] = {2, 1, CONSTANT(10)};
static const uint32_t one_nodes[] = {0, 1};
static const uint32_t one_edge[16] = {0, 0, 10, 1};
static const uint32_t one_tokens[] = {1, 10};
static const uint32_t one_list[] = {1};
static const uint32_t one_many[] = {2, 1, 10};

static const uint32_t s_many[] = {6, 1, 5, 10, 7, 11, 6, 3, 1, 10, 10, 0, 2, 1, 10};
static const uint32_t s_many_list[] = {1, 2, 7, 1};
static const uint32_t s_many_answers[] = {0, 0, 3, 10, 2, 1, 0, 2, 1, 0, 0, 0, 0, 0, 1, 2};
static const uint32_t conversion_words[] = {JIEHKAVON_TYPE_CONVERSIONS};

const slice rules_s = WORDS(rule_words);
const slice nodes_s = WORDS(node_words);
const slice edges_s = {(uint32_t *)edge_words, S_EDGES * 16};
const slice ten_passes = WORDS(ten_pass_words);
const slice ten_passes_list = WORDS(ten_pass_list_words);
const slice rules_e = WORDS(e_rules);
const slice path_e = WORDS(e_path);
const slice nodes_e = WORDS(e_nodes);
const slice edges_e = {(uint32_t *)e_edges, E_EDGES * 16};
const slice tokens_e = WORDS(e_tokens);
const slice list_e = WORDS(e_list);
const slice rules_one = WORDS(one_rule);
const slice nodes_one = WORDS(one_nodes);
const slice edges_one = WORDS(one_edge);
const slice tokens_one = WORDS(one_tokens);
const slice list_one = WORDS(one_list);
const slice many_one = WORDS(one_many);
const slice many_s = WORDS(s_many);
const slice many_s_list = WORDS(s_many_list);
const slice many_s_answers = WORDS(s_many_answers);
const slice conversions = WORDS(conversion_words);

call call_s(int entry, uint32_t number) {
    call c = {.entry = entry, .provable = PROVABLE, .logic = LOGIC, .number = number};
    c.slices[RULES] = rules_s;
    if (entry == PARSE || entry == MANY) {
        c.slices[NODES] = nodes_s;
        c.slices[EDGES] = edges_s;
    }
    c.slices[TOKENS] = entry == MANY ? many_s : ten_passes;
    return c;
}

call build_e(void) {
    call c = {.entry = BUILD, .provable = PROVABLE, .logic = LOGIC};
    c.slices[RULES] = rules_e;
    c.slices[COMMANDS] = path_e;
    c.slices[NODES] = garbage(E_NODES);
    c.slices[EDGES] = garbage((size_t)E_EDGES * JIEHKAVON_ROW_WIDTH);
    c.slices[FRAMES] = garbage((size_t)E_FRAMES * JIEHKAVON_CLONE_WIDTH);
    return c;
}

slice garbage(size_t length) {
    static uint32_t words[MOST_GARBAGE];
    for (uint32_t i = 0; words[0] == 0 && i < MOST_GARBAGE; i++)
        words[MOST_GARBAGE - 1 - i] = 0xbad00000u + i;
    return (slice){words, length};
}

slice counted_prefixes(size_t count) {
    static uint32_t words[LONGEST + 4];
    words[0] = (uint32_t)count + 2;
    words[1] = PROVABLE;
    for (size_t i = 2; i <= count + 1; i++)
        words[i] = 14;
    words[count + 2] = 10;
    return (slice){words, count + 3};
}

slice prefixes(size_t count) {
    const slice counted = counted_prefixes(count);
    return (slice){counted.words + 1, counted.length - 1};
}
