#include "sheet.h"

#include <stdio.h>
#include <string.h>

#include "check.h"
#include "expect.h"
#include "jiehkavon.h"
#include "sets.h"

static void check_bodies(void) {
    static const uint32_t stretches[][3] = {
        {0, 0, 0}, {1, 2, 3}, {2, 7, 3}, {3, 12, 3}, {4, 17, 3}, {5, 22, 3}, {6, 27, 6}, {7, 35, 15}, {8, 52, 9}, {9, 63, 9}, {10, 0, 0},
        {2049, 0, 0}, {UINT32_MAX, 0, 0},
    };
    for (size_t i = 0; i < LENGTH(stretches); i++) {
        call c = call_s(BODY, stretches[i][0]);
        expected e = {.given = {{stretches[i][1], stretches[i][2], 0, 0}}};
        check_call(&c, &e, "body of set S");
        c.logic = PROVABLE;
        e.given = (outcome){{0, 0, 0, 0}};
        check_call(&c, &e, "body of bad rules");
    }
}

/* Set S in so much room. */
static void check_build(size_t nodes, size_t edge_words, uint32_t number) {
    call c = call_s(BUILD, 0);
    expected e = {.given = {{number, 0, 0, 0}}};
    c.slices[NODES] = garbage(nodes);
    c.slices[EDGES] = garbage(edge_words);
    c.slices[FRAMES] = garbage(nodes);
    if (number == JIEHKAVON_OK) {
        e.given = (outcome){{JIEHKAVON_OK, S_NODES, S_EDGES, 0}};
        e.front[NODES] = nodes_s;
        e.front[EDGES] = edges_s;
    }
    check_call(&c, &e, "build of set S");
    c.slices[COMMANDS] = conversions;
    check_call(&c, &e, "build of set S with its conversions asked for");
}

static void check_builds(void) {
    const size_t all = (size_t)S_EDGES * JIEHKAVON_ROW_WIDTH;
    check_build(S_NODES, all, JIEHKAVON_OK);
    check_build(S_NODES + 5, all + 40, JIEHKAVON_OK);
    check_build(S_NODES - 1, all, JIEHKAVON_NODES_FULL);
    check_build(0, 0, JIEHKAVON_NODES_FULL);
    check_build(S_NODES, all - 1, JIEHKAVON_EDGES_FULL);
    check_build(S_NODES, 0, JIEHKAVON_EDGES_FULL);
}

/* Rules that can't be built, whatever the room. */
static void check_refused_builds(void) {
    static const uint32_t empty_body[] = {2, 0};
    static const uint32_t old_form[] = {2, 1, 0, 10};
    static const uint32_t third_of_constant[] = {2, 1, 0, 10, 1};
    static const uint32_t no_variable[] = {2, 1, SLOT(3, 0)};
    static const uint32_t past_the_last[] = {2, 1, SLOT(3, 65536)};
    static const uint32_t twice[] = {2, 2, SLOT(3, 7), SLOT(4, 7)};
    static const uint32_t twice_and_apart[] = {2, 4, SLOT(3, 7), CONSTANT(10), SLOT(3, 8), SLOT(3, 7)};
    static const uint32_t equal_ends[] = {2, 1, SLOT(2, 9)};
    static const uint32_t collision[] = {2, 1, CONSTANT(10), 3, 2, CONSTANT(10), CONSTANT(11)};
    static const uint32_t other_variable[] = {2, 2, CONSTANT(10), SLOT(2, 5), 2, 2, CONSTANT(10), SLOT(2, 6)};
    static const uint32_t six_links[] = {20, 1, CONSTANT(30), 2, 2, CONSTANT(31), SLOT(26, 1), 26, 1, SLOT(25, 1), 25, 1, SLOT(24, 1),
                                         24, 1, SLOT(23, 1), 23, 1, SLOT(22, 1), 22, 1, SLOT(21, 1), 21, 1, SLOT(20, 1)};
    static const uint32_t bad_copy[] = {2, 2, CONSTANT(10), SLOT(2, 1), 2, 2, CONSTANT(10), SLOT(3, 1), 2, 1, SLOT(3, 1)};
    const struct {
        slice rules;
        uint32_t number;
    } rows[] = {
        {WORDS(empty_body), JIEHKAVON_BAD_RULES},
        {WORDS(old_form), JIEHKAVON_BAD_RULES},
        {WORDS(third_of_constant), JIEHKAVON_BAD_RULES},
        {WORDS(no_variable), JIEHKAVON_BAD_RULES},
        {WORDS(past_the_last), JIEHKAVON_BAD_RULES},
        {WORDS(twice), JIEHKAVON_BAD_RULES},
        {WORDS(twice_and_apart), JIEHKAVON_BAD_RULES},
        {WORDS(equal_ends), JIEHKAVON_BAD_RULES},
        {WORDS(collision), JIEHKAVON_COLLISION},
        {WORDS(other_variable), JIEHKAVON_COLLISION},
        {WORDS(six_links), JIEHKAVON_SIXTH_REDUCE},
        {WORDS(bad_copy), JIEHKAVON_BAD_COPY},
    };
    for (size_t i = 0; i < LENGTH(rows); i++) {
        call c = call_s(BUILD, 0);
        expected e = {.given = {{rows[i].number, 0, 0, 0}}};
        c.slices[RULES] = rows[i].rules;
        c.slices[NODES] = garbage(100);
        c.slices[EDGES] = garbage(1600);
        check_call(&c, &e, "build of rules that can't be built");
    }
}

typedef struct row {
    size_t length;
    uint32_t tokens[6];
    outcome given;
    uint32_t list[5];
} row;

static void check_rows(void) {
    static const row rows[] = {
        {0, {0}, {{1, 0, 0, 0}}, {0}},
        {1, {1}, {{1, 0, 0, 0}}, {0}},
        {2, {1, 10}, {{0, 0, 1, 2}}, {1}},
        {6, {1, 5, 10, 7, 11, 6}, {{0, 0, 3, 10}}, {1, 2, 7}},
        {4, {1, 13, 8, 12}, {{0, 0, 4, 7}}, {4, 5, 3, 8}},
        {4, {1, 13, 8, 13}, {{0, 0, 5, 7}}, {4, 5, 4, 5, 8}},
        {2, {3, 13}, {{0, 0, 2, 2}}, {4, 5}},
        {2, {1, 13}, {{3, 1, 0, 3}}, {0}},
        {3, {1, 10, 10}, {{2, 1, 0, 2}}, {0}},
        {2, {1, 6}, {{2, 1, 0, 1}}, {0}},
        {3, {1, 5, 6}, {{2, 2, 0, 3}}, {0}},
        {3, {1, 5, 10}, {{3, 2, 0, 5}}, {0}},
        {2, {1, 65546}, {{2, 1, 0, 1}}, {0}},
    };
    for (size_t i = 0; i < LENGTH(rows); i++) {
        const row *r = &rows[i];
        call c = call_s(PARSE, jiehkavon_enough_passes(r->length));
        expected e = {.given = r->given};
        char what[40];
        snprintf(what, sizeof what, "row %zu of the sheet", i);
        c.slices[TOKENS] = (slice){(uint32_t *)r->tokens, r->length};
        c.slices[FRAMES] = garbage(jiehkavon_enough_frames(r->length));
        c.slices[LIST] = garbage(jiehkavon_enough_list(r->length));
        c.slices[WORK] = garbage(jiehkavon_enough_list(r->length));
        e.front[LIST] = (slice){(uint32_t *)r->list, r->given.words[2]};
        check_call(&c, &e, what);
    }
}

/* The ten-pass sentence with room that is short by one, and just enough. */
static void check_rooms(void) {
    static const struct {
        uint32_t allowance;
        size_t frames, list, work;
        outcome given;
    } rows[] = {
        {9, 1, 3, 3, {{JIEHKAVON_PASSES_USED_UP, 0, 0, 9}}},  {10, 1, 3, 3, {{JIEHKAVON_OK, 0, 3, 10}}},
        {10, 0, 3, 3, {{JIEHKAVON_FRAMES_FULL, 0, 0, 2}}},    {10, 1, 2, 3, {{JIEHKAVON_LIST_FULL, 0, 0, 10}}},
        {10, 1, 3, 2, {{JIEHKAVON_LIST_FULL, 0, 0, 10}}},     {UINT32_MAX, 9, 9, 9, {{JIEHKAVON_OK, 0, 3, 10}}},
        {0, 0, 0, 0, {{JIEHKAVON_PASSES_USED_UP, 0, 0, 0}}},
    };
    for (size_t i = 0; i < LENGTH(rows); i++) {
        call c = call_s(PARSE, rows[i].allowance);
        expected e = {.given = rows[i].given};
        c.slices[FRAMES] = garbage(rows[i].frames);
        c.slices[LIST] = garbage(rows[i].list);
        c.slices[WORK] = garbage(rows[i].work);
        if (rows[i].given.words[0] == JIEHKAVON_OK)
            e.front[LIST] = ten_passes_list;
        check_call(&c, &e, "the ten-pass sentence");
    }
}

/* Refusals before the walk, in their order. */
static void check_refused_parses(void) {
    expected e = {.given = {{JIEHKAVON_BAD_RULES, 0, 0, 0}}};
    call c = call_s(PARSE, 99);
    c.slices[FRAMES] = c.slices[LIST] = c.slices[WORK] = garbage(20);
    c.slices[EDGES].length--;
    c.slices[TOKENS].length = 0;
    c.provable = 0;
    check_call(&c, &e, "parse with bad rules");
    c.provable = PROVABLE;
    e.given.words[0] = JIEHKAVON_BAD_TABLES;
    check_call(&c, &e, "parse with bad tables");
    c.slices[EDGES] = edges_s;
    e.given.words[0] = JIEHKAVON_TOO_SHORT;
    check_call(&c, &e, "parse of no tokens");
    c.slices[TOKENS] = prefixes(LONGEST + 1);
    e.given.words[0] = JIEHKAVON_TOO_LONG;
    check_call(&c, &e, "parse of one token too many");
}

/* A row of zeros after the edges is no edge; a node of zero after the nodes is a branch. */
static void check_uncut_tables(void) {
    uint32_t nodes[S_NODES + 1] = {0}, edges[(S_EDGES + 1) * JIEHKAVON_ROW_WIDTH] = {0};
    call c = call_s(PARSE, 99);
    expected e = {.given = {{JIEHKAVON_OK, 0, 3, 10}}};
    memcpy(nodes, nodes_s.words, S_NODES * sizeof(uint32_t));
    memcpy(edges, edges_s.words, edges_s.length * sizeof(uint32_t));
    c.slices[FRAMES] = c.slices[LIST] = c.slices[WORK] = garbage(20);
    c.slices[NODES] = SLICE(nodes);
    e.front[LIST] = ten_passes_list;
    check_call(&c, &e, "a node too many");
    c.slices[EDGES] = SLICE(edges);
    e = (expected){.given = {{JIEHKAVON_BAD_TABLES, 0, 0, 0}}};
    check_call(&c, &e, "a row of zeros");
}

/* Rows of set S that don't rise: any two swapped, one twice, one with the key of the row before it. */
static void check_order(void) {
    enum { ROW = JIEHKAVON_ROW_WIDTH, BYTES = ROW * sizeof(uint32_t) };
    uint32_t edges[(S_EDGES + 1) * ROW];
    call c = call_s(PARSE, 99);
    const expected e = {.given = {{JIEHKAVON_BAD_TABLES, 0, 0, 0}}};
    c.slices[FRAMES] = c.slices[LIST] = c.slices[WORK] = garbage(20);
    c.slices[EDGES] = (slice){edges, edges_s.length};
    for (size_t i = 1; i < S_EDGES; i++) {
        for (size_t j = 0; j < i; j++) {
            memcpy(edges, edges_s.words, S_EDGES * BYTES);
            memcpy(edges + i * ROW, edges_s.words + j * ROW, BYTES);
            memcpy(edges + j * ROW, edges_s.words + i * ROW, BYTES);
            check_call(&c, &e, "two rows swapped");
        }
        memcpy(edges, edges_s.words, S_EDGES * BYTES);
        memcpy(edges + i * ROW, edges_s.words + (i - 1) * ROW, 3 * sizeof(uint32_t));
        check_call(&c, &e, "a key twice");
    }
    c.slices[EDGES] = SLICE(edges);
    for (size_t i = 0; i < S_EDGES; i++) {
        memcpy(edges, edges_s.words, (i + 1) * BYTES);
        memcpy(edges + (i + 1) * ROW, edges_s.words + i * ROW, (S_EDGES - i) * BYTES);
        check_call(&c, &e, "a row twice");
    }
}

static void check_longest(void) {
    static uint32_t list[LONGEST + 1];
    call c = call_s(PARSE, JIEHKAVON_MOST_PASSES);
    expected e = {.given = {{JIEHKAVON_OK, 0, LENGTH(list), 3 * LENGTH(list) - 1}}};
    c.slices[TOKENS] = prefixes(LONGEST);
    check(c.slices[TOKENS].length == JIEHKAVON_MOST_TOKENS, "the longest statement has %zu tokens", c.slices[TOKENS].length);
    c.slices[FRAMES] = garbage(JIEHKAVON_MOST_FRAMES);
    c.slices[LIST] = c.slices[WORK] = garbage(JIEHKAVON_MOST_LIST);
    for (size_t i = 0; i < LENGTH(list); i++)
        list[i] = i == 0 ? 1 : 6;
    e.front[LIST] = SLICE(list);
    check_call(&c, &e, "parse of the longest statement");
    c.entry = VERIFY;
    c.slices[LIST] = SLICE(list);
    c.slices[WORK] = garbage(LENGTH(list));
    e = (expected){.given = {{JIEHKAVON_OK, 0, 0, 0}}};
    check_call(&c, &e, "check of the longest statement");
}

static void check_verifies(void) {
    static const uint32_t swapped[] = {2, 1, 7}, short_by_one[] = {1, 2};
    const struct {
        slice list;
        size_t work;
        uint32_t number;
    } rows[] = {
        {ten_passes_list, 3, JIEHKAVON_OK},
        {ten_passes_list, 7, JIEHKAVON_OK},
        {ten_passes_list, 2, JIEHKAVON_LIST_FULL},
        {WORDS(swapped), 3, JIEHKAVON_NOT_WELL_TYPED},
        {WORDS(short_by_one), 3, JIEHKAVON_NOT_WELL_TYPED},
        {{NULL, 0}, 3, JIEHKAVON_NOT_WELL_TYPED},
    };
    for (size_t i = 0; i < LENGTH(rows); i++) {
        call c = call_s(VERIFY, 0);
        expected e = {.given = {{rows[i].number, 0, 0, 0}}};
        c.slices[LIST] = rows[i].list;
        c.slices[WORK] = garbage(rows[i].work);
        check_call(&c, &e, "check of the ten-pass sentence");
        c.slices[TOKENS].length = 1;
        e.given.words[0] = JIEHKAVON_TOO_SHORT;
        check_call(&c, &e, "check of a statement of one token");
        c.logic = LOGIC + 70000;
        e.given.words[0] = JIEHKAVON_BAD_RULES;
        check_call(&c, &e, "check with bad rules");
    }
}

/* Set T: the conversion at the end pops the frame that wants it. */
static void check_set_t(void) {
    static const uint32_t rules[] = {20, 1, CONSTANT(30), 21, 1, SLOT(20, 1), 22, 1, SLOT(21, 1), 2, 2, CONSTANT(31), SLOT(22, 1)};
    static const uint32_t tokens[] = {1, 31, 30}, list[] = {1, 2, 3, 4};
    uint32_t nodes[9], edges[9 * JIEHKAVON_ROW_WIDTH];
    jiehkavon_built built =
        jiehkavon_build(PROVABLE, LOGIC, rules, LENGTH(rules), NULL, 0, nodes, LENGTH(nodes), edges, LENGTH(edges), NULL, 0);
    call c = call_s(PARSE, 99);
    expected e = {.given = {{JIEHKAVON_OK, 0, LENGTH(list), 5}}};
    check(built.number == JIEHKAVON_OK, "build of set T gave %u", built.number);
    c.slices[RULES] = SLICE(rules);
    c.slices[NODES] = (slice){nodes, built.nodes};
    c.slices[EDGES] = (slice){edges, (size_t)JIEHKAVON_ROW_WIDTH * built.edges};
    c.slices[TOKENS] = SLICE(tokens);
    c.slices[FRAMES] = c.slices[LIST] = c.slices[WORK] = garbage(60);
    e.front[LIST] = SLICE(list);
    check_call(&c, &e, "set T's sentence");
    c.entry = VERIFY;
    c.slices[LIST] = SLICE(list);
    e = (expected){.given = {{JIEHKAVON_OK, 0, 0, 0}}};
    check_call(&c, &e, "check of set T's sentence");
}

/* A build of the set with the garden path, with other commands and in other room. */
static void check_build_e(slice commands, size_t nodes, size_t edge_words, size_t frame_words, uint32_t number) {
    call c = build_e();
    expected e = {.given = {{number, 0, 0, 0}}};
    c.slices[COMMANDS] = commands;
    c.slices[NODES] = garbage(nodes);
    c.slices[EDGES] = garbage(edge_words);
    c.slices[FRAMES] = garbage(frame_words);
    if (number == JIEHKAVON_OK) {
        e.given = (outcome){{JIEHKAVON_OK, E_NODES, E_EDGES, 0}};
        e.front[NODES] = nodes_e;
        e.front[EDGES] = edges_e;
    }
    check_call(&c, &e, "build with a garden path");
}

static void check_garden_path(void) {
    static const uint32_t then_none[] = {JIEHKAVON_GARDEN_PATH, 2, 2, 0, 5, 1, 3, 0, 5, 1, 2, 3};
    static const uint32_t absent[] = {JIEHKAVON_GARDEN_PATH, 2, 2, 0, 5, 1, 7, 0, 5, 1, 2};
    const size_t all = (size_t)E_EDGES * JIEHKAVON_ROW_WIDTH, frames = (size_t)E_FRAMES * JIEHKAVON_CLONE_WIDTH;
    check_build_e(path_e, E_NODES, all, frames, JIEHKAVON_OK);
    check_build_e(path_e, E_NODES + 3, all + 20, JIEHKAVON_MOST_CLONE_WORDS, JIEHKAVON_OK);
    check_build_e(path_e, E_NODES, all, 0, JIEHKAVON_FRAMES_FULL);
    check_build_e(path_e, E_NODES, all, frames - 1, JIEHKAVON_FRAMES_FULL);
    check_build_e(path_e, E_NODES - 1, all, frames, JIEHKAVON_NODES_FULL);
    check_build_e(path_e, E_NODES, all - 1, frames, JIEHKAVON_EDGES_FULL);
    check_build_e(SLICE(then_none), E_NODES, all, frames, JIEHKAVON_BAD_COPY);
    check_build_e(SLICE(absent), E_NODES, all, frames, JIEHKAVON_BAD_COPY);
    check_build_e((slice){path_e.words, path_e.length - 1}, E_NODES, all, frames, JIEHKAVON_BAD_COPY);
}

/* Paths that copy until something gives out, in all the room that can be used. */
static void check_garden_limits(void) {
    static const uint32_t offsets[] = {2, 2, SLOT(2, 1), SLOT(2, 2), 2, 3, CONSTANT(10), SLOT(2, 1), CONSTANT(11), 2, 1, SLOT(4, 1),
                                       2, 4, CONSTANT(10), CONSTANT(10), SLOT(4, 1), CONSTANT(12)};
    static const uint32_t offset_paths[] = {2, 1, 2, 2, 0, 10, 1, 4, 0, 10, 1, 2, 1, 3, 2, 0, 10, 0, 10, 1, 4, 0, 10, 1, 2};
    static const uint32_t circle[] = {2, 2, SLOT(2, 1), CONSTANT(11), 2, 3, CONSTANT(10), SLOT(2, 1), SLOT(2, 2), 2, 1, SLOT(4, 1),
                                      2, 4, CONSTANT(10), CONSTANT(10), SLOT(2, 1), SLOT(2, 2)};
    static const uint32_t circle_paths[] = {2, 1, 2, 2, 0, 10, 1, 4, 0, 10, 1, 2, 1, 3, 3, 0, 10, 0, 10, 1, 4, 0, 10, 0,
                                            10, 1, 2, 1, 3, 2, 0, 10, 0, 10, 1, 2, 0, 10, 1, 2};
    static const uint32_t runaway[] = {2, 3, CONSTANT(10), CONSTANT(10), SLOT(2, 1),
                                       2, 4, CONSTANT(10), CONSTANT(10), CONSTANT(10), SLOT(2, 1)};
    static const uint32_t runaway_path[] = {1, 3, 3, 0, 10, 0, 10, 0, 10, 0, 10, 0, 10, 1, 2};
    const struct {
        slice rules, commands;
        size_t frames;
        uint32_t number;
    } rows[] = {
        {WORDS(offsets), WORDS(offset_paths), JIEHKAVON_MOST_CLONES, JIEHKAVON_OFFSET_TOO_LARGE},
        {WORDS(circle), WORDS(circle_paths), JIEHKAVON_MOST_CLONES, JIEHKAVON_TOO_MANY_TAKEN},
        {WORDS(circle), WORDS(circle_paths), JIEHKAVON_MOST_CLONES - 1, JIEHKAVON_FRAMES_FULL},
        {WORDS(runaway), WORDS(runaway_path), JIEHKAVON_MOST_CLONES, JIEHKAVON_NODES_FULL},
    };
    for (size_t i = 0; i < LENGTH(rows); i++) {
        call c = {.entry = BUILD, .provable = PROVABLE, .logic = LOGIC};
        expected e = {.given = {{rows[i].number, 0, 0, 0}}};
        c.slices[RULES] = rows[i].rules;
        c.slices[COMMANDS] = rows[i].commands;
        c.slices[NODES] = garbage(JIEHKAVON_MOST_NODES);
        c.slices[EDGES] = garbage((size_t)JIEHKAVON_MOST_EDGES * JIEHKAVON_ROW_WIDTH);
        c.slices[FRAMES] = garbage(JIEHKAVON_CLONE_WIDTH * rows[i].frames);
        check_call(&c, &e, "a garden path that goes on");
    }
}

/* The sentence that needs the path: without it there is no rule that goes on, with it the list comes, and the check takes that. */
static void check_garden_sentence(void) {
    enum { BEFORE = E_COPIED * JIEHKAVON_ROW_WIDTH, BARE = (E_EDGES - 2) * JIEHKAVON_ROW_WIDTH };
    uint32_t bare[BARE];
    call c = call_s(PARSE, jiehkavon_enough_passes(tokens_e.length));
    expected e = {.given = {{JIEHKAVON_UNPARSEABLE, 3, 0, 6}}};
    c.slices[RULES] = rules_e;
    c.slices[NODES] = (slice){nodes_e.words, E_NODES - 1};
    memcpy(bare, edges_e.words, BEFORE * sizeof(uint32_t));
    memcpy(bare + BEFORE, edges_e.words + BEFORE + JIEHKAVON_ROW_WIDTH, (BARE - BEFORE) * sizeof(uint32_t));
    c.slices[EDGES] = SLICE(bare);
    c.slices[TOKENS] = tokens_e;
    c.slices[FRAMES] = garbage(jiehkavon_enough_frames(tokens_e.length));
    c.slices[LIST] = c.slices[WORK] = garbage(jiehkavon_enough_list(tokens_e.length));
    check_call(&c, &e, "a sentence without its garden path");
    c.slices[NODES] = nodes_e;
    c.slices[EDGES] = edges_e;
    e = (expected){.given = {{JIEHKAVON_OK, 0, list_e.length, 14}}};
    e.front[LIST] = list_e;
    check_call(&c, &e, "a sentence with its garden path");
    c.entry = VERIFY;
    c.slices[LIST] = list_e;
    e = (expected){.given = {{JIEHKAVON_OK, 0, 0, 0}}};
    check_call(&c, &e, "check of that sentence");
}

void check_sheet(void) {
    static const struct {
        const char *name;
        void (*run)(void);
    } tests[] = {
        {"bodies", check_bodies},
        {"builds of set S", check_builds},
        {"refused builds", check_refused_builds},
        {"a garden path", check_garden_path},
        {"garden paths that go on", check_garden_limits},
        {"a sentence that needs its garden path", check_garden_sentence},
        {"rows of the sheet", check_rows},
        {"the ten-pass sentence in little room", check_rooms},
        {"refused parses, in their order", check_refused_parses},
        {"tables that were not cut", check_uncut_tables},
        {"rows that do not rise", check_order},
        {"the longest statement", check_longest},
        {"the check alone", check_verifies},
        {"set T", check_set_t},
    };
    for (size_t i = 0; i < LENGTH(tests); i++) {
        test(tests[i].name);
        tests[i].run();
    }
}
