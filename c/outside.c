#include "outside.h"

#include <string.h>

#include "check.h"
#include "guard.h"
#include "jiehkavon.h"
#include "sets.h"

enum { LONG_LIST = JIEHKAVON_MOST_LIST };

typedef struct attempt {
    const call *asked;
    outcome given;
} attempt;

static void try_it(void *with) {
    attempt *a = with;
    a->given = ask(a->asked);
}

static int same_words(slice a, slice b) {
    return a.length == 0 || memcmp(a.words, b.words, a.length * sizeof(uint32_t)) == 0;
}

static int zeros_from(slice s, size_t first) {
    for (size_t i = first; i < s.length; i++)
        if (s.words[i] != 0)
            return 0;
    return 1;
}

/* The same words in every slice, and zeros in what was lent for writing and holds nothing. */
static int same_slices(const call *a, const call *b, outcome o) {
    for (int kind = 0; kind < SLICES; kind++) {
        if (takes(a->entry, kind) && !same_words(a->slices[kind], b->slices[kind]))
            return 0;
        if (writes(a->entry, kind) && !zeros_from(a->slices[kind], meant(a, o, kind)))
            return 0;
    }
    return 1;
}

static void say(int good, const call *c, int end, const char *what) {
    const slice *s = c->slices;
    check(good, "%s: entry %d, end %d, lengths %zu %zu %zu %zu %zu %zu %zu %zu %zu %zu", what, c->entry, end, s[0].length, s[1].length,
          s[2].length, s[3].length, s[4].length, s[5].length, s[6].length, s[7].length, s[8].length, s[9].length);
}

/* Whether ordinary memory gives the same. */
static int same_elsewhere(const call *c, const call *moved, outcome given) {
    call plain = own(c, 1);
    outcome o = ask(&plain);
    int same = memcmp(&given, &o, sizeof o) == 0 && same_slices(moved, &plain, o);
    disown(&plain);
    return same;
}

/* What stood in the slices lent for writing makes no difference. */
static void check_in_blocks(const call *c) {
    call filled = own(c, 0);
    outcome o = ask(&filled);
    say(same_elsewhere(c, &filled, o), c, 0, "words that were there before a call changed it");
    disown(&filled);
}

/* The call against forbidden pages touches nothing but its slices, and does what it does in ordinary memory; in this
 * order, since a call that writes elsewhere spoils ordinary memory. Without grounds it is ordinary memory alone. */
static void check_on(const grounds *g, const call *c) {
    for (int end = 0; g != NULL && end < ENDS; end++) {
        call moved = stand(g, c, end);
        attempt a = {.asked = &moved};
        if (faults(try_it, &a))
            say(0, c, end, "touched a forbidden page");
        else if (!unharmed(g, &moved))
            say(0, c, end, "wrote around a slice");
        else
            say(same_elsewhere(c, &moved, a.given), c, end, "other words than in ordinary memory");
        release(g, c);
    }
    if (g == NULL)
        check_in_blocks(c);
}

/* A call over set S, or the build with a garden path, in the least room that it needs. */
static call least(int entry, uint32_t number) {
    call c = call_s(entry, number);
    if (entry == BUILD)
        return build_e();
    c.slices[FRAMES] = garbage(1);
    c.slices[LIST] = entry == VERIFY ? ten_passes_list : garbage(entry == MANY ? many_s_list.length : 3);
    c.slices[WORK] = garbage(3);
    c.slices[ANSWERS] = garbage(many_s_answers.length);
    c.slices[INDEX] = garbage(S_FULL_INDEX);
    return c;
}

/* A call of each kind that is not refused. */
static call accepted(int entry) {
    static const uint32_t numbers[ENTRIES] = {[BODY] = 9, [PARSE] = 10, [MANY] = 10};
    return least(entry, numbers[entry]);
}

/* A slice cut at every word, the others whole. */
static void check_cut(const grounds *g, const call *whole, int kind) {
    call cut = *whole;
    for (size_t length = 0; length < whole->slices[kind].length; length++) {
        cut.slices[kind].length = length;
        check_on(g, &cut);
    }
}

static void check_cuts(const grounds *g) {
    for (int i = 0; i < ENTRIES * SLICES; i++) {
        const int kind = i % SLICES;
        const call whole = accepted(i / SLICES);
        if (kind == 0)
            check_on(g, &whole);
        if (takes(whole.entry, kind))
            check_cut(g, &whole, kind);
    }
}

/* All ways to choose lengths, counted like the digits of a number; 0 after the last one. */
static int next(size_t *lengths, const size_t *most) {
    for (int kind = 0; kind < SLICES; kind++) {
        if (lengths[kind]++ < most[kind])
            return 1;
        lengths[kind] = 0;
    }
    return 0;
}

/* The set of one rule with these lengths. Edges go by half rows, for short, whole and left over ones, answers by two words and the index by
 * four, which is what it needs; the rest is a table of constants. */
static call cut_one(int entry, uint32_t number, const size_t *lengths) {
    static const size_t steps[SLICES] = {[EDGES] = JIEHKAVON_ROW_WIDTH / 2, [ANSWERS] = JIEHKAVON_ANSWER_WIDTH / 2, [INDEX] = 4};
    const slice from[SLICES] = {rules_one, conversions, nodes_one, edges_one, entry == MANY ? many_one : tokens_one, {0}, list_one};
    call c = {.entry = entry, .provable = PROVABLE, .logic = LOGIC, .number = number};
    for (int kind = 0; kind < SLICES; kind++) {
        c.slices[kind].words = writes(entry, kind) ? garbage(0).words : from[kind].words;
        c.slices[kind].length = lengths[kind] * (steps[kind] > 0 ? steps[kind] : 1);
    }
    return c;
}

/* Every combination of small lengths. */
static void check_combinations(const grounds *g, int entry, uint32_t number, const size_t *most) {
    size_t lengths[SLICES] = {0};
    do {
        const call c = cut_one(entry, number, lengths);
        check_on(g, &c);
    } while (next(lengths, most));
}

static void check_small(const grounds *g) {
    static const size_t most[ENTRIES][SLICES] = {
        [BODY] = {[RULES] = 5},
        [BUILD] = {[RULES] = 5, [COMMANDS] = 1, [NODES] = 3, [EDGES] = 5, [FRAMES] = 2},
        [PARSE] = {[RULES] = 5, [NODES] = 2, [EDGES] = 2, [TOKENS] = 2, [FRAMES] = 1, [LIST] = 2, [WORK] = 2},
        [VERIFY] = {[RULES] = 5, [TOKENS] = 2, [LIST] = 1, [WORK] = 2},
        [MANY] = {[RULES] = 5, [NODES] = 2, [EDGES] = 2, [TOKENS] = 3, [LIST] = 1, [WORK] = 1, [ANSWERS] = 2, [INDEX] = 4},
    };
    check_combinations(g, BODY, 1, most[BODY]);
    check_combinations(g, BUILD, 0, most[BUILD]);
    check_combinations(g, PARSE, 2, most[PARSE]);
    check_combinations(g, VERIFY, 0, most[VERIFY]);
    check_combinations(g, MANY, 2, most[MANY]);
}

/* splitmix64, from a fixed seed */
static uint32_t below(uint32_t bound) {
    static uint64_t state = 20260101;
    uint64_t z = state += UINT64_C(0x9e3779b97f4a7c15);
    z = (z ^ (z >> 30)) * UINT64_C(0xbf58476d1ce4e5b9);
    z = (z ^ (z >> 27)) * UINT64_C(0x94d049bb133111eb);
    return (uint32_t)((z ^ (z >> 31)) % bound);
}

/* In about half of the slices that are only read one word is replaced, mostly by a small number. */
static void change(call *c) {
    static const uint32_t odd[] = {0, 255, 256, 65535, 65536, 0x7fffffff, 0x80000000, UINT32_MAX};
    for (int kind = 0; kind < SLICES; kind++) {
        const slice s = c->slices[kind];
        if (takes(c->entry, kind) && !writes(c->entry, kind) && below(2) == 0)
            s.words[below((uint32_t)s.length)] = below(4) == 0 ? odd[below(LENGTH(odd))] : below(20);
    }
}

static void check_random(const grounds *g) {
    for (int turn = 0; turn < 500; turn++) {
        const call whole = accepted(turn % ENTRIES);
        call changed = own(&whole, 0);
        change(&changed);
        check_on(g, &changed);
        disown(&changed);
    }
}

/* The longest statement in the room that is always enough, and in the least; then one token more. Alone, and as a batch. */
static void check_long(const grounds *g) {
    const size_t rooms[][2] = {{LONG_LIST, LONGEST}, {LONGEST + 1, LONGEST}, {LONGEST, LONGEST}, {LONGEST + 1, LONGEST - 1}};
    for (size_t i = 0; i < 2 * LENGTH(rooms); i++) {
        const int entry = i % 2 == 0 ? PARSE : MANY;
        slice (*const made)(size_t) = entry == PARSE ? prefixes : counted_prefixes;
        call c = call_s(entry, JIEHKAVON_MOST_PASSES);
        c.slices[LIST] = c.slices[WORK] = garbage(rooms[i / 2][0]);
        c.slices[FRAMES] = garbage(rooms[i / 2][1]);
        c.slices[ANSWERS] = garbage(JIEHKAVON_ANSWER_WIDTH);
        c.slices[INDEX] = garbage(i < LENGTH(rooms) ? S_INDEX : S_FULL_INDEX);
        c.slices[TOKENS] = made(LONGEST);
        check_on(g, &c);
        c.slices[TOKENS] = made(LONGEST + 1);
        check_on(g, &c);
    }
}

/* An empty slice with this pointer does what it does with any other. */
static void check_pointer(const call *c, int kind, uint32_t *pointer) {
    call plain = own(c, 0), odd = own(c, 0);
    attempt a = {.asked = &odd};
    outcome o = ask(&plain);
    uint32_t *kept = odd.slices[kind].words;
    odd.slices[kind].words = pointer;
    int same = !faults(try_it, &a) && memcmp(&a.given, &o, sizeof o) == 0 && same_slices(&odd, &plain, o);
    say(same, c, kind, "an empty slice with an odd pointer");
    odd.slices[kind].words = kept;
    disown(&plain);
    disown(&odd);
}

/* Each slice empty in turn, the others whole; then all empty. */
static void check_empty(void) {
    const uintptr_t pointers[] = {0, 4, 4096, 0xdeadbeef0, UINTPTR_MAX - 3, UINTPTR_MAX / 2 - 2};
    for (size_t i = 0; i < ENTRIES * SLICES * LENGTH(pointers); i++) {
        uint32_t *const pointer = (uint32_t *)pointers[i % LENGTH(pointers)];
        const int kind = (int)(i / LENGTH(pointers) % SLICES);
        call c = accepted((int)(i / LENGTH(pointers) / SLICES));
        if (!takes(c.entry, kind))
            continue;
        c.slices[kind].length = 0;
        check_pointer(&c, kind, pointer);
        memset(c.slices, 0, sizeof c.slices);
        check_pointer(&c, kind, pointer);
    }
}

/* Calls with every slice against forbidden pages or, without grounds, in a block. */
static void check_short(const grounds *g) {
    test("each slice cut at every word");
    check_cuts(g);
    test("all combinations of small lengths");
    check_small(g);
    test("single words changed at random");
    check_random(g);
}

static void check_others(const grounds *g) {
    test("the longest statement, in enough room and in one word less");
    check_long(g);
    test("empty slices with any pointer");
    check_empty();
}

void check_in_pages(void) {
    grounds g;
    open_grounds(&g, 1);
    check_short(&g);
    close_grounds(&g);
    open_grounds(&g, 1 + LONG_LIST * sizeof(uint32_t) / 4096);
    check_others(&g);
    close_grounds(&g);
}

void check_in_memory(void) {
    check_short(NULL);
    check_others(NULL);
}

/* ---- the traps themselves */

static void read_word(void *with) {
    (void)*(volatile uint32_t *)with;
}

static void write_word(void *with) {
    *(volatile uint32_t *)with = 1;
}

/* Whether touching the word before or after a slice, or writing to one that is read, faults; and touching the slice does not. */
static void check_trap(const grounds *g, const call *c, int end, int kind) {
    call moved = stand(g, c, end);
    slice s = moved.slices[kind];
    uint32_t *outside = end == AT_START && s.length > 0 ? s.words - 1 : s.words + s.length;
    say(faults(read_word, outside) && faults(write_word, outside), c, end, "a forbidden page can be touched");
    if (s.length > 0) {
        say(!faults(read_word, s.words) && !faults(read_word, s.words + s.length - 1), c, end, "a slice can't be read");
        say(faults(write_word, s.words) != writes(c->entry, kind), c, end, "a slice can be written that should not, or the reverse");
    }
    check(unharmed(g, &moved), "the words around slice %d changed", kind);
    release(g, c);
}

void check_traps(void) {
    grounds g;
    test("the forbidden pages can't be touched");
    open_grounds(&g, 1);
    for (int i = 0; i < ENDS * SLICES; i++) {
        call c = accepted(i / ENDS == COMMANDS ? BUILD : MANY);
        check_trap(&g, &c, i % ENDS, i / ENDS);
        c.slices[i / ENDS].length = 0;
        check_trap(&g, &c, i % ENDS, i / ENDS);
    }
    close_grounds(&g);
}
