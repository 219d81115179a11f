// The checks of both tables: the register's numbers by pairs and by a hash, the node table in a few passes.
#include "plain.h"

enum { LONGEST_NUMBER = 24, MOST_QUANTITY = 15 };

// ---- the register
static bool good_byte(uint8_t c)
{
    return (c >= '0' && c <= '9') || (c >= 'A' && c <= 'Z') || (c >= 'a' && c <= 'z') || c == '-' || c == '.' || c == '/';
}

static int slots_used(const uint8_t *reg, int slots) // -1: not sound, repeats aside
{
    int m = 0;
    while (m < slots && reg[m * SLOT]) m++;
    for (int k = 0; k < m; k++) {
        const uint8_t *s = reg + k * SLOT;
        if (s[0] > LONGEST_NUMBER) return -1;
        for (int i = 1; i <= s[0]; i++) if (!good_byte(s[i])) return -1;
        for (int i = s[0] + 1; i < SLOT; i++) if (s[i]) return -1;
    }
    for (int i = m * SLOT; i < slots * SLOT; i++) if (reg[i]) return -1;
    return m;
}

bool pairs_register(const uint8_t *reg, size_t n)
{
    int m = slots_used(reg, (int)n / SLOT);
    for (int a = 0; a < m; a++)
        for (int b = a + 1; b < m; b++) {
            const uint8_t *x = reg + a * SLOT, *y = reg + b * SLOT;
            if (x[0] != y[0]) continue;
            int i = 1;
            while (i <= x[0] && x[i] == y[i]) i++;
            if (i > x[0]) return false;
        }
    return m >= 0;
}

bool plain_register(const uint8_t *reg, size_t n)
{
    uint16_t head[4096], before[PLACES];
    int m = slots_used(reg, (int)n / SLOT);
    unsigned mask = m < SHOP_PLACES ? 255 : 4095;
    memset(head, 0, (mask + 1) * sizeof *head);
    for (int k = 0; k < m; k++) {
        const uint8_t *x = reg + k * SLOT;
        unsigned h = 0;
        for (int i = 1; i <= x[0]; i++) h = h * 31 + x[i];
        h = (h ^ h >> 8) & mask;
        for (int e = head[h]; e; e = before[e]) if (!memcmp(reg + (e - 1) * SLOT, x, SLOT)) return false;
        before[k + 1] = head[h];
        head[h] = (uint16_t)(k + 1);
    }
    return m >= 0;
}

// ---- the node table
static bool root_ok(const Node *t) { return !t->parent && !t->next && !t->label && !t->depth; }

static bool spot_ok(const Node *t, int n, unsigned parts, int i)
{
    const Node *x = &t[i];
    if (x->child && (x->child >= n || !t[x->child].label || t[x->child].parent != i)) return false;
    if (i == 0) return true;
    if (!x->label) return !(x->parent | x->child | x->next | x->depth | x->tag | x->tally);
    if (x->parent >= n) return false;
    const Node *q = &t[x->parent];
    if (x->depth != q->depth + 1 || x->depth > MOST_UNITS || x->label > parts || x->label < q->label || (x->parent && !q->label)) return false;
    if (x->next && (x->next >= n || t[x->next].parent != x->parent || t[x->next].label <= x->label)) return false;
    return x->child || x->tag;
}

// Every node is named by a link, and no tag comes twice.
static bool named_once(const Node *t, int n)
{
    uint64_t seen[65536 / 64];
    uint8_t named[MOST_NODES];
    memset(seen, 0, sizeof seen);
    memset(named, 0, (size_t)n);
    for (int i = 0; i < n; i++) {
        unsigned tag = t[i].tag;
        named[t[i].child] = 1;
        named[t[i].next] = 1;
        if (tag && seen[tag / 64] >> (tag % 64) & 1) return false;
        seen[tag / 64] |= (uint64_t)(tag != 0) << (tag % 64);
    }
    for (int i = 1; i < n; i++) if (t[i].label && !named[i]) return false;
    return true;
}

// The climb for equal labels starts at the last of them and stops where the label falls.
static bool few_equal(const Node *t, int n)
{
    for (int i = 1; i < n; i++) {
        int k = 1;
        if (!t[i].label || t[t[i].child].label == t[i].label) continue;
        for (int at = t[i].parent; t[at].label == t[i].label; at = t[at].parent) if (++k > MOST_QUANTITY) return false;
    }
    return true;
}

// What each has to count: its own tag, and what is counted at its children.
static bool tallies_ok(const Node *t, int n)
{
    unsigned under[MOST_NODES];
    for (int i = 0; i < n; i++) under[i] = t[i].tag != 0;
    for (int i = 1; i < n; i++) if (t[i].label) under[t[i].parent] += t[i].tally;
    for (int i = 0; i < n; i++) if (t[i].tally != under[i]) return false;
    return true;
}

bool plain_nodes(const Node *t, int n, unsigned parts)
{
    if (!root_ok(t)) return false;
    for (int i = 0; i < n; i++) if (!spot_ok(t, n, parts, i)) return false;
    return named_once(t, n) && few_equal(t, n) && tallies_ok(t, n);
}
