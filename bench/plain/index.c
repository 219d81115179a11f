// Find, insert and delete: a hash map, and the same node table.
#include "plain.h"

// ---- a hash map with open addressing, the kit's lines as the key
enum { MAP = 16384, GONE = -2, NONE = -1 };
static List key[MAP];
static int entry[MAP]; // the tag, NONE or GONE
static uint8_t tags[65536];

static unsigned hash_of(const List *l)
{
    uint64_t h = (uint64_t)l->n;
    for (int i = 0; i < l->n; i += 2) {
        h = (h ^ (l->w[i] | (uint64_t)l->w[i + 1] << 16)) * 0x9E3779B97F4A7C15u;
        h ^= h >> 29;
    }
    return (unsigned)(h >> 20) % MAP;
}

static bool is_key(const List *a, const List *b) { return a->n == b->n && !memcmp(a->w, b->w, (size_t)a->n * 2); }

static int slot_of(const List *l)
{
    unsigned h = hash_of(l);
    for (; entry[h] != NONE; h = (h + 1) % MAP)
        if (entry[h] != GONE && is_key(&key[h], l)) return (int)h;
    return -1;
}

void map_clear(void)
{
    for (int i = 0; i < MAP; i++) entry[i] = NONE;
    memset(tags, 0, sizeof tags);
}

int map_insert(const List *l, uint16_t tag)
{
    if (slot_of(l) >= 0) return HELD;
    if (tags[tag]) return TAG_BORNE;
    unsigned h = hash_of(l);
    while (entry[h] >= 0) h = (h + 1) % MAP;
    key[h].n = l->n;
    memcpy(key[h].w, l->w, (size_t)l->n * 2);
    entry[h] = tag;
    tags[tag] = 1;
    return DONE;
}

int map_find(const List *l, size_t *value)
{
    int h = slot_of(l);
    if (h < 0) return NOT_HELD;
    *value = (size_t)entry[h];
    return DONE;
}

int map_delete(const List *l, size_t *value)
{
    int h = slot_of(l);
    if (h < 0) return NOT_HELD;
    *value = (size_t)entry[h];
    entry[h] = entry[(h + 1) % MAP] == NONE ? NONE : GONE;
    tags[*value] = 0;
    return DONE;
}

// ---- the same node table
typedef struct { uint16_t unit[MOST_UNITS]; int n; } Row;
typedef struct { int at, depth; } Reached; // the deepest node whose row begins the row

static Row row_of(const List *l)
{
    Row r;
    r.n = 0;
    for (int i = 0; i < l->n; i += 2)
        for (int k = 0; k < l->w[i + 1]; k++) r.unit[r.n++] = l->w[i];
    return r;
}

static Reached reached(const Node *t, const Row *r)
{
    int at = 0, d = 0;
    for (; d < r->n; d++) {
        int c = t[at].child;
        while (c && t[c].label < r->unit[d]) c = t[c].next;
        if (!c || t[c].label != r->unit[d]) break;
        at = c;
    }
    return (Reached){at, d};
}

int plain_find(const Node *t, const List *l, size_t *value)
{
    Row r = row_of(l);
    Reached end = reached(t, &r);
    if (end.depth < r.n || !t[end.at].tag) return NOT_HELD;
    *value = t[end.at].tag;
    return DONE;
}

// Links a free node below another, where its label belongs among the children.
static void link_below(Node *t, int parent, int label, int depth, int new)
{
    uint16_t *link = &t[parent].child;
    while (*link && t[*link].label < label) link = &t[*link].next;
    t[new] = (Node){(uint16_t)parent, 0, *link, (uint16_t)label, (uint16_t)depth, 0, 0};
    *link = (uint16_t)new;
}

// One kit more, or less, at a node and at all above it.
static void tally(Node *t, int at, int by)
{
    for (; at; at = t[at].parent) t[at].tally = (uint16_t)(t[at].tally + by);
    t->tally = (uint16_t)(t->tally + by);
}

static bool is_borne(const Node *t, int cap, uint16_t tag)
{
    for (int i = 0; i < cap; i++) if (t[i].tag == tag) return true;
    return false;
}

// Free nodes, counted until there are enough.
static int room_for(const Node *t, int cap, int needs)
{
    int has = 0;
    for (int i = 1; i < cap && has < needs; i++) has += !t[i].label;
    return has;
}

int plain_insert(Node *t, int cap, const List *l, uint16_t tag, size_t *value)
{
    Row r = row_of(l);
    Reached end = reached(t, &r);
    int needs = r.n - end.depth, next = 1;
    *value = 0;
    if (r.n == 0) return NO_UNITS;
    *value = needs ? 0 : t[end.at].tag;
    if (*value) return HELD;
    if (is_borne(t, cap, tag)) return TAG_BORNE;
    int has = room_for(t, cap, needs);
    *value = (size_t)(has < needs ? needs - has : needs);
    if (has < needs) return NO_ROOM;
    for (int d = end.depth; d < r.n; d++) {
        while (t[next].label) next++;
        link_below(t, end.at, r.unit[d], d + 1, next);
        end.at = next;
    }
    t[end.at].tag = tag;
    tally(t, end.at, 1);
    return DONE;
}

int plain_delete(Node *t, const List *l, size_t *value)
{
    Row r = row_of(l);
    Reached end = reached(t, &r);
    if (end.depth < r.n || !t[end.at].tag) return NOT_HELD;
    *value = t[end.at].tag;
    t[end.at].tag = 0;
    tally(t, end.at, -1);
    for (int at = end.at; at && !t[at].child && !t[at].tag;) {
        int parent = t[at].parent;
        uint16_t *link = &t[parent].child;
        while (*link != at) link = &t[*link].next;
        *link = t[at].next;
        t[at] = (Node){0, 0, 0, 0, 0, 0, 0};
        at = parent;
    }
    return DONE;
}

// ---- how many kits begin with the units of a list: the node's word, or a walk below it
size_t plain_count(const Node *t, const List *l)
{
    Row r = row_of(l);
    Reached end = reached(t, &r);
    return end.depth < r.n ? 0 : (size_t)(t[end.at].tally - (!r.n && t->tag));
}

static size_t tags_from(const Node *t, int at)
{
    size_t n = 0;
    for (; at; at = t[at].next) n += (t[at].tag != 0) + tags_from(t, t[at].child);
    return n;
}

size_t walk_count(const Node *t, const List *l)
{
    Row r = row_of(l);
    Reached end = reached(t, &r);
    return end.depth < r.n ? 0 : (r.n && t[end.at].tag) + tags_from(t, t[end.at].child);
}
