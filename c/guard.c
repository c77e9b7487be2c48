#define _DEFAULT_SOURCE
#include "guard.h"

#include <setjmp.h>
#include <signal.h>
#include <stdio.h>
#include <stdlib.h>
#include <string.h>
#include <sys/mman.h>
#include <unistd.h>

/* Around a slice, in its own pages. */
#define AROUND 0xa5a5a5a5u

static size_t page(void) {
    return (size_t)sysconf(_SC_PAGESIZE);
}

static size_t words_in(const grounds *g) {
    return g->pages * page() / sizeof(uint32_t);
}

static void need(int good, const char *what) {
    if (!good) {
        perror(what);
        exit(2);
    }
}

void open_grounds(grounds *g, size_t pages) {
    g->pages = pages;
    for (int kind = 0; kind < SLICES; kind++) {
        char *all = mmap(NULL, (pages + 2) * page(), PROT_NONE, MAP_PRIVATE | MAP_ANONYMOUS, -1, 0);
        need(all != MAP_FAILED, "mmap");
        need(mprotect(all + page(), pages * page(), PROT_READ | PROT_WRITE) == 0, "mprotect");
        g->first[kind] = (uint32_t *)(void *)(all + page());
    }
}

void close_grounds(grounds *g) {
    for (int kind = 0; kind < SLICES; kind++)
        need(munmap((char *)g->first[kind] - page(), (g->pages + 2) * page()) == 0, "munmap");
}

/* An empty slice stands on a forbidden page whichever end is asked for. */
static uint32_t *place(const grounds *g, int kind, size_t length, int end) {
    if (end == AT_START && length > 0)
        return g->first[kind];
    return g->first[kind] + words_in(g) - length;
}

/* The slice of these words there, and other words around it. */
static slice put(const grounds *g, int kind, slice from, int end) {
    slice s = {place(g, kind, from.length, end), from.length};
    need(from.length <= words_in(g), "a slice that is longer than its grounds");
    for (size_t i = 0; i < words_in(g); i++)
        g->first[kind][i] = AROUND;
    if (from.length > 0)
        memcpy(s.words, from.words, from.length * sizeof(uint32_t));
    return s;
}

call stand(const grounds *g, const call *c, int end) {
    call moved = *c;
    for (int kind = 0; kind < SLICES; kind++) {
        if (!takes(c->entry, kind))
            continue;
        moved.slices[kind] = put(g, kind, c->slices[kind], end);
        if (!writes(c->entry, kind))
            need(mprotect(g->first[kind], g->pages * page(), PROT_READ) == 0, "mprotect");
    }
    return moved;
}

static int around_is_whole(const grounds *g, int kind, slice s) {
    for (uint32_t *at = g->first[kind]; at < g->first[kind] + words_in(g); at++)
        if ((at < s.words || at >= s.words + s.length) && *at != AROUND)
            return 0;
    return 1;
}

int unharmed(const grounds *g, const call *c) {
    for (int kind = 0; kind < SLICES; kind++)
        if (takes(c->entry, kind) && !around_is_whole(g, kind, c->slices[kind]))
            return 0;
    return 1;
}

void release(const grounds *g, const call *c) {
    for (int kind = 0; kind < SLICES; kind++)
        if (takes(c->entry, kind))
            need(mprotect(g->first[kind], g->pages * page(), PROT_READ | PROT_WRITE) == 0, "mprotect");
}

static sigjmp_buf back;
static volatile sig_atomic_t catching;

static void on_fault(int number) {
    if (catching)
        siglongjmp(back, 1);
    signal(number, SIG_DFL);
    raise(number);
}

void catch_faults(void) {
    struct sigaction action = {.sa_handler = on_fault};
    sigemptyset(&action.sa_mask);
    need(sigaction(SIGSEGV, &action, NULL) == 0, "sigaction");
    need(sigaction(SIGBUS, &action, NULL) == 0, "sigaction");
}

int faults(void (*act)(void *), void *with) {
    if (sigsetjmp(back, 1) != 0) {
        catching = 0;
        return 1;
    }
    catching = 1;
    act(with);
    catching = 0;
    return 0;
}
