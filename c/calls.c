#include "calls.h"

#include <stdio.h>
#include <stdlib.h>
#include <string.h>

#include "jiehkavon.h"

#define BIT(kind) (1u << (kind))

static const unsigned taken[ENTRIES] = {
    [BODY] = BIT(RULES),
    [BUILD] = BIT(RULES) | BIT(COMMANDS) | BIT(NODES) | BIT(EDGES) | BIT(FRAMES),
    [PARSE] = BIT(RULES) | BIT(NODES) | BIT(EDGES) | BIT(TOKENS) | BIT(FRAMES) | BIT(LIST) | BIT(WORK),
    [VERIFY] = BIT(RULES) | BIT(TOKENS) | BIT(LIST) | BIT(WORK),
    [MANY] = BIT(RULES) | BIT(NODES) | BIT(EDGES) | BIT(TOKENS) | BIT(FRAMES) | BIT(LIST) | BIT(WORK) | BIT(ANSWERS) | BIT(INDEX),
};

static const unsigned written[ENTRIES] = {
    [BUILD] = BIT(NODES) | BIT(EDGES) | BIT(FRAMES),
    [PARSE] = BIT(FRAMES) | BIT(LIST) | BIT(WORK),
    [VERIFY] = BIT(WORK),
    [MANY] = BIT(FRAMES) | BIT(LIST) | BIT(WORK) | BIT(ANSWERS) | BIT(INDEX),
};

int takes(int entry, int kind) {
    return (taken[entry] & BIT(kind)) != 0;
}

int writes(int entry, int kind) {
    return (written[entry] & BIT(kind)) != 0;
}

static outcome of_answer(jiehkavon_answer a) {
    return (outcome){{a.number, a.place, a.length, a.passes}};
}

static outcome ask_body(const call *c, const slice *s) {
    jiehkavon_stretch r = jiehkavon_body(c->provable, c->logic, s[RULES].words, s[RULES].length, c->number);
    return (outcome){{r.start, r.length, 0, 0}};
}

static outcome ask_build(const call *c, const slice *s) {
    jiehkavon_built r = jiehkavon_build(
        c->provable, c->logic,
        s[RULES].words, s[RULES].length,
        s[COMMANDS].words, s[COMMANDS].length,
        s[NODES].words, s[NODES].length,
        s[EDGES].words, s[EDGES].length,
        s[FRAMES].words, s[FRAMES].length);
    return (outcome){{r.number, r.nodes, r.edges, 0}};
}

static outcome ask_parse(const call *c, const slice *s) {
    return of_answer(jiehkavon_parse(
        c->provable, c->logic,
        s[RULES].words, s[RULES].length,
        s[NODES].words, s[NODES].length,
        s[EDGES].words, s[EDGES].length,
        s[TOKENS].words, s[TOKENS].length,
        c->number,
        s[FRAMES].words, s[FRAMES].length,
        s[LIST].words, s[LIST].length,
        s[WORK].words, s[WORK].length));
}

static outcome ask_verify(const call *c, const slice *s) {
    return of_answer(jiehkavon_verify(
        c->provable, c->logic,
        s[RULES].words, s[RULES].length,
        s[TOKENS].words, s[TOKENS].length,
        s[LIST].words, s[LIST].length,
        s[WORK].words, s[WORK].length));
}

static outcome ask_many(const call *c, const slice *s) {
    jiehkavon_batch r = jiehkavon_parse_many(
        c->provable, c->logic,
        s[RULES].words, s[RULES].length,
        s[NODES].words, s[NODES].length,
        s[EDGES].words, s[EDGES].length,
        s[TOKENS].words, s[TOKENS].length,
        c->number,
        s[FRAMES].words, s[FRAMES].length,
        s[LIST].words, s[LIST].length,
        s[WORK].words, s[WORK].length,
        s[ANSWERS].words, s[ANSWERS].length,
        s[INDEX].words, s[INDEX].length);
    return (outcome){{r.number, r.place, r.statements, r.words}};
}

outcome ask(const call *c) {
    switch (c->entry) {
    case BODY:
        return ask_body(c, c->slices);
    case BUILD:
        return ask_build(c, c->slices);
    case PARSE:
        return ask_parse(c, c->slices);
    case VERIFY:
        return ask_verify(c, c->slices);
    default:
        return ask_many(c, c->slices);
    }
}

size_t meant(const call *c, outcome o, int kind) {
    if (c->entry == BUILD && kind == NODES)
        return o.words[1];
    if (c->entry == BUILD && kind == EDGES)
        return (size_t)JIEHKAVON_ROW_WIDTH * o.words[2];
    if (c->entry == MANY && kind == LIST)
        return o.words[3];
    if (c->entry == MANY && kind == ANSWERS)
        return JIEHKAVON_ANSWER_WIDTH * o.words[2];
    return c->entry == PARSE && kind == LIST ? o.words[2] : 0;
}

static uint32_t *block(size_t length) {
    uint32_t *words = malloc(length * sizeof(uint32_t));
    if (words == NULL && length > 0) {
        perror("malloc");
        exit(2);
    }
    return words;
}

call own(const call *c, int bare) {
    call mine = *c;
    for (int kind = 0; kind < SLICES; kind++) {
        slice *s = &mine.slices[kind];
        if (!takes(c->entry, kind))
            continue;
        s->words = block(s->length);
        if (s->length > 0 && !(bare && writes(c->entry, kind)))
            memcpy(s->words, c->slices[kind].words, s->length * sizeof(uint32_t));
    }
    return mine;
}

void disown(call *c) {
    for (int kind = 0; kind < SLICES; kind++)
        if (takes(c->entry, kind))
            free(c->slices[kind].words);
}
