// The pages of a listing: down the tree to the bookmark's row, and on from there to the next kit that answers. Siblings in a loop.
#include "plain.h"

typedef struct { const Node *t; uint16_t amount[PLACES], after[PLACES]; unsigned top; const uint16_t *row; size_t len; } Pager;
typedef struct { unsigned place, got; } Want; // the place that is wanted next, and how many of it have come; PLACES where all have

static unsigned next_within(const Pager *p, unsigned at, unsigned last, unsigned had) // the first node that answers, on this chain or below; or 0
{
    const Node *t = p->t;
    for (; at && t[at].label <= p->top; at = t[at].next) {
        unsigned label = t[at].label, times = label == last ? had + 1 : 1;
        if (p->amount[label] < times) continue;
        if (t[at].tag) return at;
        unsigned below = next_within(p, t[at].child, label, times);
        if (below) return below;
    }
    return 0;
}

static unsigned first_not_below(const Node *t, unsigned at, unsigned place)
{
    while (at && t[at].label < place) at = t[at].next;
    return at;
}

// The first that comes after the row as well. The chain's parent has the row's first d places.
static unsigned after_within(const Pager *p, unsigned at, unsigned last, unsigned had, size_t d)
{
    const Node *t = p->t;
    if (d == p->len) return next_within(p, at, last, had);
    unsigned place = p->row[d];
    at = first_not_below(t, at, place);
    if (at && t[at].label == place) {
        unsigned times = place == last ? had + 1 : 1;
        unsigned below = times <= p->amount[place] ? after_within(p, t[at].child, place, times, d + 1) : 0;
        if (below) return below;
        at = t[at].next;
    }
    return next_within(p, at, last, had);
}

static Want want_after(const Pager *p, unsigned label, Want w)
{
    if (label < w.place) return w;
    if (w.got + 1 < p->amount[w.place]) return (Want){w.place, w.got + 1};
    return (Want){p->after[w.place], 0};
}

static unsigned next_containing(const Pager *p, unsigned at, Want w)
{
    const Node *t = p->t;
    if (w.place == PLACES) { // all below answers, and each chain ends in a kit
        while (at && !t[at].tag) at = t[at].child;
        return at;
    }
    for (; at && t[at].label <= w.place; at = t[at].next) {
        Want then = want_after(p, t[at].label, w);
        if (then.place == PLACES && t[at].tag) return at;
        unsigned below = next_containing(p, t[at].child, then);
        if (below) return below;
    }
    return 0;
}

static unsigned after_containing(const Pager *p, unsigned at, Want w, size_t d)
{
    const Node *t = p->t;
    if (d == p->len) return next_containing(p, at, w);
    unsigned place = p->row[d];
    at = first_not_below(t, at, place);
    if (at && t[at].label == place) {
        if (w.place < place) return 0;
        unsigned below = after_containing(p, t[at].child, want_after(p, place, w), d + 1);
        if (below) return below;
        at = t[at].next;
    }
    return next_containing(p, at, w);
}

static void pager_start(Pager *p, const Table *t, bool containing, const uint16_t *list, size_t n, const Mark *mark)
{
    p->t = node_in(t);
    p->top = n ? list[n - 2] : 0;
    p->row = mark->places;
    p->len = mark->begun ? mark->len : 0;
    if (!containing) clear_amounts(p->amount, t);
    for (size_t i = 0; i < n; i += 2) {
        p->amount[list[i]] = list[i + 1];
        p->after[list[i]] = i + 2 < n ? list[i + 2] : PLACES;
    }
}

// The bookmark at a node: its row up the parents, and zeros behind.
static void move_on(const Node *t, unsigned at, Mark *mark)
{
    memset(mark->places, 0, sizeof mark->places);
    mark->begun = true;
    mark->len = t[at].depth;
    for (size_t d = mark->len; d; at = t[at].parent) mark->places[--d] = t[at].label;
}

unsigned plain_page(const Table *t, bool containing, const uint16_t *list, size_t n, Mark *mark)
{
    Pager p;
    pager_start(&p, t, containing, list, n, mark);
    unsigned first = p.t->child;
    unsigned at = containing ? after_containing(&p, first, (Want){n ? list[0] : PLACES, 0}, 0) : after_within(&p, first, 0, 0, 0);
    if (!at) return 0;
    move_on(p.t, at, mark);
    return p.t[at].tag;
}
