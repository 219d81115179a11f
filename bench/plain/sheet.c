// The sheet: written in one walk, judged and read in one pass. Up to 255 parts it is version 1 and a place takes one byte, else version 2 and two bytes.
#include "plain.h"

enum { LONGEST_NUMBER = 24, MOST_QUANTITY = 15, HEAD = 7, RECORD_HEAD = 3 };

// ---- writing
#define INLINE static inline __attribute__((always_inline))
INLINE uint8_t *put_two(uint8_t *out, unsigned x) { out[0] = (uint8_t)(x >> 8); out[1] = (uint8_t)x; return out + 2; }
INLINE unsigned place_in(const uint8_t *line, int w) { return w == 1 ? line[0] : (unsigned)line[0] << 8 | line[1]; }

INLINE void put_line(uint8_t *line, int w, unsigned place, unsigned quantity)
{
    if (w == 1) line[0] = (uint8_t)place;
    else put_two(line, place);
    line[w] = (uint8_t)quantity;
}

// The kits below the siblings from one on; their rows go on from these lines. `below` is the same with a width, 1 or 2.
typedef uint8_t *Below(const Node *t, unsigned at, uint8_t *lines, int n, uint8_t *out);
INLINE uint8_t *put_chain(const Node *t, unsigned at, uint8_t *lines, int n, uint8_t *out, int w, Below *below)
{
    for (; at; at = t[at].next) {
        bool again = n && place_in(lines + (n - 1) * (w + 1), w) == t[at].label;
        int m = again ? n : n + 1;
        uint8_t *line = lines + (m - 1) * (w + 1);
        unsigned was = place_in(line, w), had = line[w];
        put_line(line, w, t[at].label, again ? had + 1 : 1);
        if (t[at].tag) {
            out = put_two(out, t[at].tag);
            *out++ = (uint8_t)m;
            memcpy(out, lines, (size_t)(m * (w + 1)));
            out += m * (w + 1);
        }
        out = below(t, t[at].child, lines, m, out);
        put_line(line, w, was, had);
    }
    return out;
}

static uint8_t *put_narrow(const Node *t, unsigned at, uint8_t *lines, int n, uint8_t *out) { return put_chain(t, at, lines, n, out, 1, put_narrow); }
static uint8_t *put_wide(const Node *t, unsigned at, uint8_t *lines, int n, uint8_t *out) { return put_chain(t, at, lines, n, out, 2, put_wide); }

size_t plain_write(const Table *table, uint8_t *start)
{
    const Node *t = node_in(table);
    uint8_t lines[3 * (MOST_UNITS + 2)] = {0}, *out = start;
    bool narrow = table->parts <= SHOP_PARTS;
    memcpy(out, "KIT", 3);
    out = put_two(put_two(out + 3, narrow ? 1 : 2), (unsigned)table->parts);
    for (int k = 0; k < table->parts; k++) {
        const uint8_t *s = table->reg + k * SLOT;
        memcpy(out, s, 1u + s[0]);
        out += 1 + s[0];
    }
    out = put_two(out, t->tally - (t->tag != 0)); // an empty kit of an old table is left out
    return (size_t)((narrow ? put_narrow : put_wide)(t, t->child, lines, 0, out) - start);
}

// ---- reading: judges and fills in one go; a kit goes on from where it parts from the one before
typedef struct {
    const uint8_t *at, *end;
    unsigned parts;
    int width;               // of a place
    uint8_t seen[65536 / 8]; // tags
    uint16_t row[MOST_UNITS + MOST_QUANTITY + 1], prev[MOST_UNITS];
    int n, len;              // units of the row, and of the one before
    Node *t;
    int used, cap, kits;
    uint16_t path[MOST_UNITS + 1];
} Reader;

static bool read_numbers(Reader *r, uint8_t *reg, size_t slots)
{
    for (unsigned k = 0; k < r->parts; k++) {
        if (r->at == r->end || *r->at == 0 || *r->at > LONGEST_NUMBER || r->end - r->at < 1 + *r->at) return false;
        memcpy(reg + k * SLOT, r->at, 1u + *r->at);
        r->at += 1 + *r->at;
    }
    return plain_register(reg, slots * SLOT) && r->end - r->at >= 2;
}

// The row of the record at hand.
INLINE bool read_lines(Reader *r, int w)
{
    unsigned place = 0;
    r->n = 0;
    for (int i = 0; i < r->at[2]; i++) {
        const uint8_t *line = r->at + RECORD_HEAD + (w + 1) * i;
        unsigned p = place_in(line, w), q = line[w];
        if (p <= place || p > r->parts || q < 1 || q > MOST_QUANTITY || r->n + (int)q > MOST_UNITS) return false;
        for (int k = 0; k < MOST_QUANTITY + 1; k++) r->row[r->n + k] = (uint16_t)p; // as many as the most, in two stores
        r->n += (int)q;
        place = p;
    }
    return true;
}

static bool read_row(Reader *r) { return r->width == 1 ? read_lines(r, 1) : read_lines(r, 2); }

// Enters the row behind the one before it.
static bool append_row(Reader *r, bool first, unsigned tag)
{
    int same = 0;
    while (same < r->n && same < r->len && r->row[same] == r->prev[same]) same++;
    if (!first && (same == r->n || (same < r->len && r->row[same] < r->prev[same]))) return false;
    for (int d = same; d < r->n; d++) {
        if (r->used == r->cap) return false;
        Node *x = &r->t[r->used];
        x->parent = r->path[d];
        x->label = r->row[d];
        x->depth = (uint16_t)(d + 1);
        if (d == same && d < r->len) r->t[r->path[d + 1]].next = (uint16_t)r->used;
        else r->t[r->path[d]].child = (uint16_t)r->used;
        r->path[d + 1] = (uint16_t)r->used++;
    }
    if (r->n) { // an empty kit of an old sheet is dropped
        r->t[r->path[r->n]].tag = (uint16_t)tag;
        r->t[r->path[r->n]].tally = 1;
        r->kits++;
    }
    memcpy(r->prev, r->row, sizeof r->prev);
    r->len = r->n;
    return true;
}

static bool read_record(Reader *r, bool first)
{
    if (r->end - r->at < RECORD_HEAD || r->end - r->at < RECORD_HEAD + (r->width + 1) * r->at[2]) return false;
    unsigned tag = (unsigned)r->at[0] << 8 | r->at[1];
    if (!tag || r->seen[tag / 8] >> (tag % 8) & 1) return false;
    r->seen[tag / 8] |= (uint8_t)(1 << (tag % 8));
    if (!read_row(r) || !append_row(r, first, tag)) return false;
    r->at += RECORD_HEAD + (r->width + 1) * r->at[2];
    return true;
}

int plain_read(const uint8_t *s, size_t size, uint8_t *reg, size_t slots, Node *t, int cap)
{
    Reader r;
    if (size < HEAD || memcmp(s, "KIT\0", 4)) return -1;
    memset(&r, 0, sizeof r);
    r.at = s + HEAD;
    r.end = s + size;
    r.parts = (unsigned)s[5] << 8 | s[6];
    r.width = r.parts <= SHOP_PARTS ? 1 : 2;
    r.t = t;
    r.cap = cap;
    r.used = 1;
    if (r.parts > slots || s[4] != r.width) return -1;
    memset(reg, 0, slots * SLOT);
    memset(t, 0, (size_t)cap * sizeof *t);
    if (!read_numbers(&r, reg, slots)) return -1;
    int kits = r.at[0] << 8 | r.at[1];
    r.at += 2;
    for (int k = 0; k < kits; k++) if (!read_record(&r, k == 0)) return -1;
    for (int i = r.used - 1; i > 0; i--) t[t[i].parent].tally += t[i].tally; // each node stands behind its parent
    return r.at == r.end ? r.kits : -1;
}
