#include "many.h"

#include <stdio.h>
#include <string.h>

#include "check.h"
#include "expect.h"
#include "jiehkavon.h"
#include "sets.h"

enum { STATEMENTS = 4, WIDTH = JIEHKAVON_ANSWER_WIDTH };

/* Where the four statements begin in their words, and where the last one ends; and how many list words there are by then. */
static const size_t starts[STATEMENTS + 1] = {0, 7, 11, 12, 15}, lists[STATEMENTS + 1] = {0, 3, 3, 3, 4};

/* The four statements in the least room that they need. */
static call four(void) {
    call c = call_s(MANY, 10);
    c.slices[FRAMES] = garbage(1);
    c.slices[LIST] = garbage(many_s_list.length);
    c.slices[WORK] = garbage(3);
    c.slices[ANSWERS] = garbage(many_s_answers.length);
    c.slices[INDEX] = garbage(S_INDEX);
    return c;
}

/* What comes of the first `count` of them. */
static expected of_first(size_t count) {
    expected e = {.given = {{JIEHKAVON_OK, 0, count, lists[count]}}};
    e.front[LIST] = (slice){many_s_list.words, lists[count]};
    e.front[ANSWERS] = (slice){many_s_answers.words, WIDTH * count};
    return e;
}

static expected refused(uint32_t number, size_t place) {
    return (expected){.given = {{number, place, 0, 0}}};
}

static void check_four(void) {
    call c = four();
    const expected e = of_first(STATEMENTS);
    check_call(&c, &e, "four statements in the least room");
    for (int kind = FRAMES; kind <= INDEX; kind++) {
        c.slices[kind].length += 5;
        check_call(&c, &e, "four statements in more room");
    }
    c.number = UINT32_MAX;
    check_call(&c, &e, "four statements with any passes");
}

/* What is lent of the index beyond its size changes nothing: the table of constants is whole, or ends before any of them, or goes on. */
static void check_long_index(void) {
    const expected e = of_first(STATEMENTS);
    call c = four();
    for (size_t more = 0; more <= 20; more++) {
        c.slices[INDEX] = garbage(S_INDEX + more);
        check_call(&c, &e, "four statements with a longer index");
    }
    c.slices[INDEX] = garbage(S_INDEX + JIEHKAVON_MOST_SYMBOL + 9);
    check_call(&c, &e, "four statements with room for every constant");
}

/* Tokens that are no constants, with a table that is longer than all of them but the last. */
static void check_odd_tokens(void) {
    static const uint32_t words[] = {2, 1, 0, 2, 1, 15, 2, 1, 65536, 2, 1, 65546, 2, 1, UINT32_MAX};
    static const uint32_t answers[] = {2, 1, 0, 1, 2, 1, 0, 1, 2, 1, 0, 1, 2, 1, 0, 1, 2, 1, 0, 1};
    static const size_t more[] = {0, 1, 15, 16, 65536, 65537, 65547, 65548};
    for (size_t i = 0; i < LENGTH(more); i++) {
        call c = four();
        expected e = {.given = {{JIEHKAVON_OK, 0, 5, 0}}};
        c.slices[TOKENS] = SLICE(words);
        c.slices[ANSWERS] = garbage(LENGTH(answers));
        c.slices[INDEX] = garbage(S_INDEX + more[i]);
        e.front[ANSWERS] = SLICE(answers);
        check_call(&c, &e, "tokens that are no constants");
    }
}

/* ---- refusals of the batch */

/* The words cut anywhere: they end after a statement, or within one whose number is the place. */
static void check_cut_words(void) {
    size_t whole = 0;
    for (size_t length = 0; length <= many_s.length; length++) {
        call c = four();
        whole += whole < STATEMENTS && length == starts[whole + 1];
        const expected e = length == starts[whole] ? of_first(whole) : refused(JIEHKAVON_WRONG_SIZE, whole);
        c.slices[TOKENS].length = length;
        check_call(&c, &e, "statement words that are cut");
    }
}

/* A count that passes the end: by one, by many, and by so many that a sum of words or of bytes would wrap. */
static void check_large_counts(void) {
    static const uint32_t large[] = {100, 0x3fffffff, 0x40000000, 0x7fffffff, 0x80000000, UINT32_MAX - 1, UINT32_MAX};
    uint32_t words[15];
    for (size_t i = 0; i < STATEMENTS * (LENGTH(large) + 1); i++) {
        const size_t statement = i % STATEMENTS, turn = i / STATEMENTS, left = many_s.length - starts[statement];
        const expected e = refused(JIEHKAVON_WRONG_SIZE, statement);
        call c = four();
        memcpy(words, many_s.words, sizeof words);
        words[starts[statement]] = turn < LENGTH(large) ? large[turn] : (uint32_t)left;
        c.slices[TOKENS] = SLICE(words);
        check_call(&c, &e, "a count that is too large");
    }
}

/* The tokens of one are taken by another: the words are whole, and the statements others. */
static void check_moved_counts(void) {
    static const uint32_t words[] = {10, 1, 5, 10, 7, 11, 6, 3, 1, 10, 10, 3, 2, 1, 10};
    static const uint32_t answers[] = {2, 5, 0, 10, 2, 1, 0, 1};
    call c = four();
    expected e = {.given = {{JIEHKAVON_OK, 0, 2, 0}}};
    c.slices[TOKENS] = SLICE(words);
    e.front[ANSWERS] = SLICE(answers);
    check_call(&c, &e, "counts that were changed");
}

static void check_short_rooms(void) {
    for (int i = 0; i < 2 * (INDEX - ANSWERS + 1); i++) {
        const int kind = i % 2 == 0 ? ANSWERS : INDEX;
        const expected e = refused(JIEHKAVON_LIST_FULL, 0);
        call c = four();
        c.slices[kind].length = i < 2 ? c.slices[kind].length - 1 : 0;
        c.slices[LIST] = garbage(60);
        check_call(&c, &e, "answers or an index that are too short");
    }
}

/* All at once, and one after the other put right. */
static void check_refusals(void) {
    call c = four();
    expected e = refused(JIEHKAVON_BAD_RULES, 0);
    c.logic = PROVABLE;
    c.slices[EDGES].length--;
    c.slices[TOKENS].length--;
    c.slices[ANSWERS].length = 15;
    c.slices[INDEX].length--;
    check_call(&c, &e, "a batch with bad rules");
    c.logic = LOGIC;
    e = refused(JIEHKAVON_BAD_TABLES, 0);
    check_call(&c, &e, "a batch with bad tables");
    c.slices[EDGES] = edges_s;
    e = refused(JIEHKAVON_WRONG_SIZE, 3);
    check_call(&c, &e, "a batch of words that are not whole");
    c.slices[TOKENS] = many_s;
    e = refused(JIEHKAVON_LIST_FULL, 0);
    check_call(&c, &e, "a batch without room for its answers and its index");
    c.slices[ANSWERS].length++;
    check_call(&c, &e, "a batch without room for its index");
    c.slices[INDEX].length++;
    e = of_first(STATEMENTS);
    check_call(&c, &e, "a batch that was put right");
}

/* ---- statements in little room */

/* Of the set of one rule: 1 10, and again, with a single list word. The second has none left. */
static void check_one_list_word(void) {
    static const uint32_t words[] = {2, 1, 10, 2, 1, 10}, answers[] = {0, 0, 1, 2, 7, 0, 0, 2};
    call c = {.entry = MANY, .provable = PROVABLE, .logic = LOGIC, .number = 4};
    expected e = {.given = {{JIEHKAVON_OK, 0, 2, 1}}};
    c.slices[RULES] = rules_one;
    c.slices[NODES] = nodes_one;
    c.slices[EDGES] = edges_one;
    c.slices[TOKENS] = SLICE(words);
    c.slices[LIST] = garbage(1);
    c.slices[WORK] = garbage(1);
    c.slices[ANSWERS] = garbage(LENGTH(answers));
    c.slices[INDEX] = garbage(jiehkavon_enough_index(1, nodes_one.length));
    e.front[LIST] = list_one;
    e.front[ANSWERS] = SLICE(answers);
    check_call(&c, &e, "two statements and one list word");
}

/* One that has no room takes none: 1 10, the ten-pass sentence, and 1 10 in three list words. */
static void check_room_that_is_left(void) {
    static const uint32_t words[] = {2, 1, 10, 6, 1, 5, 10, 7, 11, 6, 2, 1, 10};
    static const uint32_t answers[] = {0, 0, 1, 2, 7, 0, 0, 10, 0, 0, 1, 2}, list[] = {1, 1};
    call c = four();
    expected e = {.given = {{JIEHKAVON_OK, 0, 3, 2}}};
    c.slices[TOKENS] = SLICE(words);
    c.slices[LIST] = garbage(3);
    e.front[LIST] = SLICE(list);
    e.front[ANSWERS] = SLICE(answers);
    check_call(&c, &e, "a statement without room between two that have it");
}

/* What the single parse says of the statement at `start`, with the list words from `used` on. It has to be the batch's answer and list. */
static size_t check_alone(const call *many, size_t start, const uint32_t *answer, slice list, size_t used) {
    const slice tokens = many->slices[TOKENS];
    call one = *many;
    expected e = {.given = {{answer[0], answer[1], answer[2], answer[3]}}};
    one.entry = PARSE;
    one.slices[TOKENS] = (slice){tokens.words + start + 1, tokens.words[start]};
    one.slices[LIST].words += used;
    one.slices[LIST].length -= used;
    e.front[LIST] = (slice){list.words + used, answer[2]};
    check_call(&one, &e, "a statement of a batch alone");
    return used + answer[2];
}

/* Each statement of a batch that is not refused, in the room that is free for it. */
static void check_each(const call *c) {
    call mine = own(c, 0);
    const outcome o = ask(&mine);
    size_t start = 0, used = 0;
    check(o.words[0] == JIEHKAVON_OK && o.words[1] == 0, "a batch gave %zu at %zu", o.words[0], o.words[1]);
    for (size_t i = 0; i < o.words[2]; i++) {
        used = check_alone(c, start, mine.slices[ANSWERS].words + WIDTH * i, mine.slices[LIST], used);
        start += 1 + c->slices[TOKENS].words[start];
    }
    check(start == c->slices[TOKENS].length && used == o.words[3], "a batch ended at word %zu with %zu list words", start, used);
    disown(&mine);
}

static void check_little_room(void) {
    static const size_t rooms[][4] = {
        {0, 1, 4, 3}, {1, 1, 4, 3},  {2, 1, 4, 3},  {9, 1, 4, 3},  {10, 0, 4, 3}, {10, 1, 0, 3}, {10, 1, 1, 3}, {10, 1, 2, 3},
        {10, 1, 3, 3}, {10, 1, 4, 0}, {10, 1, 4, 1}, {10, 1, 4, 2}, {10, 1, 4, 3}, {99, 9, 9, 9}, {0, 0, 0, 0},  {99, 9, 9, 1},
    };
    for (size_t i = 0; i < LENGTH(rooms); i++) {
        call c = four();
        c.number = (uint32_t)rooms[i][0];
        c.slices[FRAMES] = garbage(rooms[i][1]);
        c.slices[LIST] = garbage(rooms[i][2]);
        c.slices[WORK] = garbage(rooms[i][3]);
        check_each(&c);
    }
}

/* ---- odd statements */

static void check_no_tokens(void) {
    static const uint32_t words[] = {0, 0, 1, 1, 0}, answers[] = {1, 0, 0, 0, 1, 0, 0, 0, 1, 0, 0, 0, 1, 0, 0, 0};
    for (size_t length = 0; length <= LENGTH(words); length++) {
        const size_t count = length > 3 ? length - 1 : length;
        call c = four();
        expected e = {.given = {{JIEHKAVON_OK, 0, count, 0}}};
        c.slices[TOKENS] = (slice){(uint32_t *)words, length};
        c.slices[ANSWERS] = garbage(WIDTH * count);
        e.front[ANSWERS] = (slice){(uint32_t *)answers, WIDTH * count};
        if (length == 3)
            e = refused(JIEHKAVON_WRONG_SIZE, 2);
        check_call(&c, &e, "statements of no tokens, or of one");
    }
}

/* One token too many between two statements. It is 9, the statement's own, and needs no room. */
static void check_too_long(void) {
    static uint32_t words[3 + LONGEST + 4 + 3] = {2, 1, 10};
    static const uint32_t last[] = {2, 1, 10}, answers[] = {0, 0, 1, 2, 9, 0, 0, 0, 0, 0, 1, 2}, list[] = {1, 1};
    const slice long_one = counted_prefixes(LONGEST + 1);
    call c = four();
    expected e = {.given = {{JIEHKAVON_OK, 0, 3, 2}}};
    check(LENGTH(words) == 6 + long_one.length, "the too long statement has %zu words", long_one.length);
    memcpy(words + 3, long_one.words, long_one.length * sizeof(uint32_t));
    memcpy(words + LENGTH(words) - 3, last, sizeof last);
    c.slices[TOKENS] = SLICE(words);
    c.slices[LIST] = garbage(2);
    e.front[LIST] = SLICE(list);
    e.front[ANSWERS] = SLICE(answers);
    check_call(&c, &e, "a statement that is too long between two others");
}

void check_batches(void) {
    static const struct {
        const char *name;
        void (*run)(void);
    } tests[] = {
        {"a batch of four", check_four},
        {"a longer index", check_long_index},
        {"tokens that are no constants, in a batch", check_odd_tokens},
        {"statement words that are cut", check_cut_words},
        {"counts that pass the end", check_large_counts},
        {"counts that were changed", check_moved_counts},
        {"answers and index too short", check_short_rooms},
        {"refused batches, in their order", check_refusals},
        {"two statements and one list word", check_one_list_word},
        {"list words that are left", check_room_that_is_left},
        {"each statement of a batch alone", check_little_room},
        {"statements of no tokens", check_no_tokens},
        {"a statement that is too long in a batch", check_too_long},
    };
    for (size_t i = 0; i < LENGTH(tests); i++) {
        test(tests[i].name);
        tests[i].run();
    }
}
