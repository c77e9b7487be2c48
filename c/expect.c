#include "expect.h"

#include <string.h>

#include "check.h"

static int holds(slice s, slice front) {
    if (front.length > s.length || (front.length > 0 && memcmp(s.words, front.words, front.length * sizeof(uint32_t)) != 0))
        return 0;
    for (size_t i = front.length; i < s.length; i++)
        if (s.words[i] != 0)
            return 0;
    return 1;
}

void check_call(const call *c, const expected *e, const char *what) {
    call mine = own(c, 0);
    outcome o = ask(&mine);
    check(memcmp(&o, &e->given, sizeof o) == 0, "%s: gave %zu %zu %zu %zu", what, o.words[0], o.words[1], o.words[2], o.words[3]);
    for (int kind = 0; kind < SLICES; kind++)
        if (writes(c->entry, kind))
            check(holds(mine.slices[kind], e->front[kind]), "%s: words left in slice %d", what, kind);
    disown(&mine);
}
