// The questions in plain C over the same kits: five other ways, and two walks down the same tree.
#include "plain.h"

void base_build(Base *b, const Table *t)
{
    memset(b, 0, sizeof *b);
    b->t = t;
    b->words = (t->kits + 63) / 64;
    if (t->parts > SHOP_PARTS) return; // only C_BEST and plain_almost have room for more
    int count[SHOP_PLACES + 1] = {0};
    for (int k = 0; k < t->kits; k++)
        for (int i = 0; i < t->kit[k].n; i += 2) {
            int p = t->kit[k].w[i], q = t->kit[k].w[i + 1];
            b->vec[k][p] = (uint8_t)q;
            if (b->most[p] < q) b->most[p] = q;
            for (int m = 1; m <= q; m++) b->has[p][m][k / 64] |= 1ull << (k % 64);
            count[p]++;
        }
    for (int p = 0; p < SHOP_PLACES; p++) b->from[p + 1] = b->from[p] + count[p];
    int at[SHOP_PLACES];
    memcpy(at, b->from, sizeof at);
    for (int k = 0; k < t->kits; k++)
        for (int i = 0; i < t->kit[k].n; i += 2) {
            int p = t->kit[k].w[i];
            b->post_kit[at[p]] = (uint16_t)k;
            b->post_quantity[at[p]++] = (uint8_t)t->kit[k].w[i + 1];
        }
}

static void quantities(const List *l, uint8_t *vec)
{
    memset(vec, 0, SHOP_PLACES);
    for (int i = 0; i < l->n; i += 2) vec[l->w[i]] = (uint8_t)l->w[i + 1];
}

// Takes a kit for an answer; where any is enough, it is the answer.
#define TAKE(kit) do { if (any) return b->t->tag[kit]; out[n++] = b->t->tag[kit]; } while (0)
#define INLINE static inline __attribute__((always_inline))

// ---- scan of rows: each kit's lines against the bin, or merged with the list
INLINE unsigned rows_within(Base *b, const List *l, uint16_t *out, bool any)
{
    uint8_t bin[SHOP_PLACES];
    unsigned n = 0;
    quantities(l, bin);
    for (int k = 0; k < b->t->kits; k++) {
        const List *kit = &b->t->kit[k];
        int i = 0;
        while (i < kit->n && kit->w[i + 1] <= bin[kit->w[i]]) i += 2;
        if (i == kit->n) TAKE(k);
    }
    return any ? 0 : n;
}

INLINE unsigned rows_containing(Base *b, const List *l, uint16_t *out, bool any)
{
    unsigned n = 0;
    for (int k = 0; k < b->t->kits; k++) {
        const List *kit = &b->t->kit[k];
        int i = 0, j = 0;
        while (j < l->n) {
            while (i < kit->n && kit->w[i] < l->w[j]) i += 2;
            if (i == kit->n || kit->w[i] != l->w[j] || kit->w[i + 1] < l->w[j + 1]) break;
            j += 2;
        }
        if (j == l->n) TAKE(k);
    }
    return any ? 0 : n;
}

// ---- scan of count vectors: 256 bytes for each kit, compared all at once
INLINE bool no_more(const uint8_t *a, const uint8_t *b)
{
    uint8_t more = 0;
    for (int i = 0; i < SHOP_PLACES; i++) more |= a[i] > b[i];
    return !more;
}

INLINE unsigned vectors(Base *b, const List *l, uint16_t *out, bool any, bool within)
{
    uint8_t vec[SHOP_PLACES];
    unsigned n = 0;
    quantities(l, vec);
    for (int k = 0; k < b->t->kits; k++)
        if (within ? no_more(b->vec[k], vec) : no_more(vec, b->vec[k])) TAKE(k);
    return any ? 0 : n;
}

// ---- inverted index: the rarest part's kits, tried in order; for a bin, each kit's lines counted
INLINE unsigned postings_containing(Base *b, const List *l, uint16_t *out, bool any)
{
    unsigned n = 0;
    int rare = 0;
    if (l->n == 0) {
        for (int k = 0; k < b->t->kits; k++) TAKE(k);
        return any ? 0 : n;
    }
    for (int i = 2; i < l->n; i += 2)
        if (b->from[l->w[i] + 1] - b->from[l->w[i]] < b->from[l->w[rare] + 1] - b->from[l->w[rare]]) rare = i;
    for (int at = b->from[l->w[rare]]; at < b->from[l->w[rare] + 1]; at++) {
        if (b->post_quantity[at] < l->w[rare + 1]) continue;
        int k = b->post_kit[at], i = 0;
        while (i < l->n && l->w[i + 1] <= b->vec[k][l->w[i]]) i += 2;
        if (i == l->n) TAKE(k);
    }
    return any ? 0 : n;
}

INLINE unsigned postings_within(Base *b, const List *l, uint16_t *out, bool any)
{
    unsigned n = 0;
    int first = MOST_KITS, last = -1;
    b->epoch++;
    for (int i = 0; i < l->n; i += 2)
        for (int at = b->from[l->w[i]]; at < b->from[l->w[i] + 1]; at++) {
            int k = b->post_kit[at];
            if (l->w[i + 1] < b->post_quantity[at]) continue;
            if (b->stamp[k] != b->epoch) { b->stamp[k] = b->epoch; b->seen[k] = 0; }
            if (++b->seen[k] == b->t->kit[k].n / 2) { if (k < first) first = k; if (last < k) last = k; }
        }
    if (any) return first == MOST_KITS ? 0 : b->t->tag[first];
    for (int k = first; k <= last; k++)
        if (b->stamp[k] == b->epoch && b->seen[k] == b->t->kit[k].n / 2) TAKE(k);
    return n;
}

// ---- bitmaps over the kits, one for each place and quantity
INLINE unsigned bits_taken(Base *b, uint64_t bits, int w, uint16_t *out, unsigned n)
{
    for (; bits; bits &= bits - 1) out[n++] = b->t->tag[w * 64 + __builtin_ctzll(bits)];
    return n;
}

INLINE uint64_t kits_of(const Base *b, int w)
{
    int left = b->t->kits - w * 64;
    return left < 64 ? (1ull << left) - 1 : ~0ull;
}

INLINE unsigned bits_containing(Base *b, const List *l, uint16_t *out, bool any)
{
    unsigned n = 0;
    for (int w = 0; w < b->words; w++) {
        uint64_t bits = kits_of(b, w);
        for (int i = 0; i < l->n && bits; i += 2) bits &= b->has[l->w[i]][l->w[i + 1]][w];
        if (any && bits) return b->t->tag[w * 64 + __builtin_ctzll(bits)];
        if (!any) n = bits_taken(b, bits, w, out, n);
    }
    return any ? 0 : n;
}

INLINE unsigned bits_within(Base *b, const List *l, uint16_t *out, bool any)
{
    uint8_t bin[SHOP_PLACES];
    const uint64_t *over[SHOP_PLACES];
    int overs = 0;
    unsigned n = 0;
    quantities(l, bin);
    for (int p = 1; p < SHOP_PLACES; p++) if (bin[p] < b->most[p]) over[overs++] = b->has[p][bin[p] + 1];
    for (int w = 0; w < b->words; w++) {
        uint64_t bits = kits_of(b, w);
        for (int i = 0; i < overs && bits; i++) bits &= ~over[i][w];
        if (any && bits) return b->t->tag[w * 64 + __builtin_ctzll(bits)];
        if (!any) n = bits_taken(b, bits, w, out, n);
    }
    return any ? 0 : n;
}

// ---- a walk down the same node table: calls itself on child and sibling, and counts first where all are listed
static void amounts(const List *l, uint16_t *by_place)
{
    memset(by_place, 0, SHOP_PLACES * sizeof *by_place);
    for (int i = 0; i < l->n; i += 2) by_place[l->w[i]] = l->w[i + 1];
}

static unsigned last_place(const uint16_t *a) { unsigned p = SHOP_PARTS; while (p && !a[p]) p--; return p; }
static unsigned next_wanted(const uint16_t *a, unsigned p) { while (p < SHOP_PLACES && !a[p]) p++; return p; }

static unsigned come(const uint16_t *bin, unsigned label, unsigned last, unsigned had)
{
    if (label == last) return had < bin[label] ? had + 1 : 0;
    return bin[label] != 0;
}

static unsigned first_within(const Node *t, const uint16_t *bin, unsigned top, unsigned at, unsigned last, unsigned had)
{
    if (!at || top < t[at].label) return 0;
    unsigned label = t[at].label, times = come(bin, label, last, had), next = label < top ? t[at].next : 0;
    if (!times) return first_within(t, bin, top, next, last, had);
    if (t[at].tag) return t[at].tag;
    unsigned below = first_within(t, bin, top, t[at].child, label, times);
    return below ? below : first_within(t, bin, top, next, last, had);
}

static unsigned list_within(
    const Node *t, const uint16_t *bin, uint16_t *out, unsigned room, unsigned n, unsigned top, unsigned at, unsigned last, unsigned had)
{
    if (!at || top < t[at].label) return n;
    unsigned label = t[at].label, times = come(bin, label, last, had), next = label < top ? t[at].next : 0;
    if (!times) return list_within(t, bin, out, room, n, top, next, last, had);
    if (t[at].tag) { if (n < room) out[n] = t[at].tag; n++; }
    n = list_within(t, bin, out, room, n, top, t[at].child, label, times);
    return list_within(t, bin, out, room, n, top, next, last, had);
}

static unsigned first_containing(const Node *t, const uint16_t *list, unsigned at, unsigned want, unsigned got)
{
    if (!at || want < t[at].label) return 0;
    unsigned label = t[at].label, w = want, g = got;
    if (label == want && ++g == list[want]) { w = next_wanted(list, want + 1); g = 0; }
    if (w == SHOP_PLACES && t[at].tag) return t[at].tag;
    unsigned below = first_containing(t, list, t[at].child, w, g);
    return below ? below : first_containing(t, list, label < want ? t[at].next : 0, want, got);
}

static unsigned list_containing(const Node *t, const uint16_t *list, uint16_t *out, unsigned room, unsigned n, unsigned at, unsigned want, unsigned got)
{
    if (!at || want < t[at].label) return n;
    unsigned label = t[at].label, w = want, g = got;
    if (label == want && ++g == list[want]) { w = next_wanted(list, want + 1); g = 0; }
    if (w == SHOP_PLACES && t[at].tag) { if (n < room) out[n] = t[at].tag; n++; }
    n = list_containing(t, list, out, room, n, t[at].child, w, g);
    return list_containing(t, list, out, room, n, label < want ? t[at].next : 0, want, got);
}

static unsigned walk_any_within(Base *b, const List *l, uint16_t *out)
{
    const Node *t = node_in(b->t);
    uint16_t a[SHOP_PLACES];
    (void)out;
    amounts(l, a);
    return first_within(t, a, last_place(a), t->child, 0, 0);
}

static unsigned walk_any_containing(Base *b, const List *l, uint16_t *out)
{
    const Node *t = node_in(b->t);
    uint16_t a[SHOP_PLACES];
    (void)out;
    amounts(l, a);
    return first_containing(t, a, t->child, next_wanted(a, 0), 0);
}

INLINE unsigned set_within(const Node *t, const uint16_t *a, uint16_t *out, unsigned room)
{
    return list_within(t, a, out, room, 0, last_place(a), t->child, 0, 0);
}

INLINE unsigned set_containing(const Node *t, const uint16_t *a, uint16_t *out, unsigned room)
{
    return list_containing(t, a, out, room, 0, t->child, next_wanted(a, 0), 0);
}

static unsigned walk_all_within(Base *b, const List *l, uint16_t *out)
{
    uint16_t a[SHOP_PLACES];
    amounts(l, a);
    if (MOST_KITS < set_within(node_in(b->t), a, out, 0)) return 0;
    return set_within(node_in(b->t), a, out, MOST_KITS);
}

static unsigned walk_all_containing(Base *b, const List *l, uint16_t *out)
{
    uint16_t a[SHOP_PLACES];
    amounts(l, a);
    if (MOST_KITS < set_containing(node_in(b->t), a, out, 0)) return 0;
    return set_containing(node_in(b->t), a, out, MOST_KITS);
}

// ---- the same tree, walked better: siblings in a loop, one walk where all are listed, the first and last place read off the list, the place wanted
// next looked up, and all that is below a full match taken without a test
typedef struct { const Node *t; uint16_t amount[PLACES], after[PLACES]; unsigned top, first; uint16_t *out; unsigned n; bool any; } Best;

INLINE void best_start(Best *w, const Table *t, const uint16_t *list, size_t n, uint16_t *out, bool any, bool containing)
{
    w->t = node_in(t);
    w->out = out;
    w->n = 0;
    w->any = any;
    w->top = n ? list[n - 2] : 0;
    w->first = n ? list[0] : PLACES;
    if (!containing) clear_amounts(w->amount, t);
    for (size_t i = 0; i < n; i += 2) {
        w->amount[list[i]] = list[i + 1];
        w->after[list[i]] = i + 2 < n ? list[i + 2] : PLACES;
    }
}

static bool best_take(Best *w, unsigned tag) // whether it is enough
{
    w->out[w->n++] = (uint16_t)tag;
    return w->any;
}

static bool best_within(Best *w, unsigned at, unsigned last, unsigned had)
{
    const Node *t = w->t;
    for (; at && t[at].label <= w->top; at = t[at].next) {
        unsigned label = t[at].label, times = label == last ? had + 1 : 1;
        if (w->amount[label] < times) continue;
        if (t[at].tag && best_take(w, t[at].tag)) return true;
        if (t[at].child && best_within(w, t[at].child, label, times)) return true;
    }
    return false;
}

static bool best_below(Best *w, unsigned at)
{
    const Node *t = w->t;
    for (; at; at = t[at].next) {
        if (t[at].tag && best_take(w, t[at].tag)) return true;
        if (t[at].child && best_below(w, t[at].child)) return true;
    }
    return false;
}

static bool best_containing(Best *w, unsigned at, unsigned want, unsigned got)
{
    const Node *t = w->t;
    for (; at && t[at].label <= want; at = t[at].next) {
        if (t[at].label < want) {
            if (t[at].child && best_containing(w, t[at].child, want, got)) return true;
        } else if (got + 1 < w->amount[want]) {
            return t[at].child && best_containing(w, t[at].child, want, got + 1);
        } else if (w->after[want] < PLACES) {
            return t[at].child && best_containing(w, t[at].child, w->after[want], 0);
        } else {
            if (t[at].tag && best_take(w, t[at].tag)) return true;
            return t[at].child && best_below(w, t[at].child);
        }
    }
    return false;
}

INLINE unsigned bests_within(Base *b, const List *l, uint16_t *out, bool any)
{
    Best w;
    best_start(&w, b->t, LENT(*l), out, any, false);
    best_within(&w, w.t->child, 0, 0);
    return any ? (w.n ? out[0] : 0) : w.n;
}

INLINE unsigned bests_containing(Base *b, const List *l, uint16_t *out, bool any)
{
    Best w;
    best_start(&w, b->t, LENT(*l), out, any, true);
    if (l->n == 0) best_below(&w, w.t->child);
    else best_containing(&w, w.t->child, w.first, 0);
    return any ? (w.n ? out[0] : 0) : w.n;
}

unsigned plain_all(const Table *t, bool containing, const uint16_t *list, size_t n, uint16_t *out)
{
    Best w;
    best_start(&w, t, list, n, out, false, containing);
    if (!containing) best_within(&w, w.t->child, 0, 0);
    else if (n == 0) best_below(&w, w.t->child);
    else best_containing(&w, w.t->child, w.first, 0);
    return w.n;
}

#define FOUR(name, within, containing) \
    static unsigned name##_any_within(Base *b, const List *l, uint16_t *out) { return within(b, l, out, true); } \
    static unsigned name##_any_containing(Base *b, const List *l, uint16_t *out) { return containing(b, l, out, true); } \
    static unsigned name##_all_within(Base *b, const List *l, uint16_t *out) { return within(b, l, out, false); } \
    static unsigned name##_all_containing(Base *b, const List *l, uint16_t *out) { return containing(b, l, out, false); }
#define vectors_within(b, l, out, any) vectors(b, l, out, any, true)
#define vectors_containing(b, l, out, any) vectors(b, l, out, any, false)
FOUR(best, bests_within, bests_containing)
FOUR(rows, rows_within, rows_containing)
FOUR(vecs, vectors_within, vectors_containing)
FOUR(posts, postings_within, postings_containing)
FOUR(bits, bits_within, bits_containing)

const Way plain_ways[PLAIN_WAYS] = {
    {"C walk", {walk_any_within, walk_any_containing, walk_all_within, walk_all_containing}},
    {"C best", {best_any_within, best_any_containing, best_all_within, best_all_containing}},
    {"rows", {rows_any_within, rows_any_containing, rows_all_within, rows_all_containing}},
    {"vectors", {vecs_any_within, vecs_any_containing, vecs_all_within, vecs_all_containing}},
    {"inverted", {posts_any_within, posts_any_containing, posts_all_within, posts_all_containing}},
    {"bitmaps", {bits_any_within, bits_any_containing, bits_all_within, bits_all_containing}},
};

// ---- the kits that lack at most d units of the bin: siblings in a loop, a branch left as soon as it lacks more
typedef struct { const Node *t; uint16_t amount[PLACES]; unsigned d, n; uint16_t *tags, *shorts; } Almost;

static void almost_from(Almost *w, unsigned at, unsigned last, unsigned left, unsigned lacks)
{
    const Node *t = w->t;
    for (; at; at = t[at].next) {
        unsigned label = t[at].label, has = label == last ? left : w->amount[label], lacking = lacks + !has;
        if (w->d < lacking) continue;
        if (t[at].tag) { w->tags[w->n] = t[at].tag; w->shorts[w->n++] = (uint16_t)lacking; }
        if (t[at].child) almost_from(w, t[at].child, label, has ? has - 1 : 0, lacking);
    }
}

unsigned plain_almost(const Table *table, const List *l, unsigned d, uint16_t *tags, uint16_t *shorts)
{
    Almost w;
    w.t = node_in(table), w.d = d, w.n = 0, w.tags = tags, w.shorts = shorts;
    clear_amounts(w.amount, table);
    for (int i = 0; i < l->n; i += 2) w.amount[l->w[i]] = l->w[i + 1];
    almost_from(&w, w.t->child, 0, 0, 0);
    return w.n;
}

// ---- nodes entered by the walk, and the fewest: those with an answer at or below them, up to the first where one is asked
static long seen_nodes, least_nodes;

static bool go_within(const Node *t, const uint16_t *bin, unsigned top, unsigned at, unsigned last, unsigned had, bool any)
{
    bool found = false;
    for (; at; at = t[at].label < top ? t[at].next : 0) {
        seen_nodes++;
        if (top < t[at].label) return found;
        unsigned times = come(bin, t[at].label, last, had);
        if (!times) continue;
        bool here = t[at].tag != 0;
        if (!(any && here)) here |= go_within(t, bin, top, t[at].child, t[at].label, times, any);
        if (here) { least_nodes++; found = true; if (any) return true; }
    }
    return found;
}

static bool go_containing(const Node *t, const uint16_t *list, unsigned at, unsigned want, unsigned got, bool any)
{
    bool found = false;
    for (; at; at = t[at].label < want ? t[at].next : 0) {
        seen_nodes++;
        if (want < t[at].label) return found;
        unsigned w = want, g = got;
        if (t[at].label == want && ++g == list[want]) { w = next_wanted(list, want + 1); g = 0; }
        bool here = w == SHOP_PLACES && t[at].tag;
        if (!(any && here)) here |= go_containing(t, list, t[at].child, w, g, any);
        if (here) { least_nodes++; found = true; if (any) return true; }
    }
    return found;
}

Walked walked(const Table *table, int ask, const List *l)
{
    const Node *t = node_in(table);
    uint16_t a[SHOP_PLACES];
    bool any = ask == ANY_WITHIN || ask == ANY_CONTAINING;
    amounts(l, a);
    seen_nodes = least_nodes = 1; // the root
    if (ask == ANY_WITHIN || ask == ALL_WITHIN) {
        go_within(t, a, last_place(a), t->child, 0, 0, any);
    } else {
        go_containing(t, a, t->child, next_wanted(a, 0), 0, any);
    }
    return (Walked){seen_nodes, least_nodes};
}
