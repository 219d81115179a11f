// A line of the desk: numbers are found by a hash beside the register, questions by the better walk down the tree.
#include "plain.h"

enum { NUMBERS = 512 };
static Base *base;
static Table *table;
static uint16_t place_at[NUMBERS]; // open addressing, 0 for none
static uint16_t listed[MOST_KITS];
static uint8_t sheet[1 << 16];

static unsigned number_hash(const char *s, int n)
{
    unsigned h = (unsigned)n;
    for (int i = 0; i < n; i++) h = (h ^ (uint8_t)s[i]) * 16777619u;
    return (h ^ h >> 15) % NUMBERS;
}

static int place_of(const char *s, int n) // 0: not registered
{
    for (unsigned h = number_hash(s, n); place_at[h]; h = (h + 1) % NUMBERS) {
        const uint8_t *slot = table->reg + (place_at[h] - 1) * SLOT;
        if (slot[0] == n && !memcmp(slot + 1, s, (size_t)n)) return place_at[h];
    }
    return 0;
}

void plain_desk_open(Base *b, Table *t)
{
    base = b;
    table = t;
    memset(place_at, 0, sizeof place_at);
    for (int k = 0; k < t->parts; k++) {
        const uint8_t *slot = t->reg + k * SLOT;
        unsigned h = number_hash((const char *)slot + 1, slot[0]);
        while (place_at[h]) h = (h + 1) % NUMBERS;
        place_at[h] = (uint16_t)(k + 1);
    }
}

// ---- the line taken apart
static const char *field_end(const char *at, const char *end) { while (at < end && *at != ' ') at++; return at; }

static unsigned amount(const char **at, const char *end)
{
    unsigned x = 0;
    for (; *at < end && **at != ' '; (*at)++) x = x * 10 + (unsigned)(**at - '0');
    return x;
}

// The list behind a position; false where a number is not registered or the list is not good.
static bool list_of(const char *at, const char *end, List *l)
{
    l->n = 0;
    while (at < end) {
        const char *stop = field_end(++at, end);
        int place = place_of(at, (int)(stop - at));
        at = stop + 1;
        unsigned quantity = amount(&at, end);
        if (!place || quantity < 1 || quantity > 15 || (l->n && place <= l->w[l->n - 2])) return false;
        l->w[l->n++] = (uint16_t)place;
        l->w[l->n++] = (uint16_t)quantity;
    }
    return true;
}

// ---- the reply
static uint8_t *put_number(uint8_t *out, size_t x)
{
    uint8_t digit[20];
    int n = 0;
    do digit[n++] = (uint8_t)('0' + x % 10); while (x /= 10);
    *out++ = ' ';
    while (n) *out++ = digit[--n];
    return out;
}

static uint8_t *put_answer(uint8_t *out, char letter, int number, size_t value)
{
    *out++ = (uint8_t)letter;
    return put_number(put_number(out, (size_t)number), value);
}

static uint8_t *put_listing(uint8_t *out, char letter, unsigned n)
{
    out = put_answer(out, letter, DONE, n);
    for (unsigned k = 0; k < n; k++) out = put_number(out, listed[k]);
    return out;
}

static uint8_t *put_sheet(uint8_t *out)
{
    size_t n = plain_write(table, sheet);
    out = put_answer(out, 'W', DONE, n);
    *out++ = ' ';
    for (size_t k = 0; k < n; k++) {
        *out++ = (uint8_t)"0123456789ABCDEF"[sheet[k] >> 4];
        *out++ = (uint8_t)"0123456789ABCDEF"[sheet[k] & 15];
    }
    return out;
}

// ---- what is asked of a list
static uint8_t *asked(uint8_t *out, char letter, unsigned tag, const List *l)
{
    const Way *best = &plain_ways[C_BEST];
    Node *t = node_of(table);
    size_t value = 0;
    int number = DONE;
    switch (letter) {
    case 'b': return put_listing(out, letter, best->ask[ALL_WITHIN](base, l, listed));
    case 's': return put_listing(out, letter, best->ask[ALL_CONTAINING](base, l, listed));
    case 'B': value = best->ask[ANY_WITHIN](base, l, listed); break;
    case 'S': value = best->ask[ANY_CONTAINING](base, l, listed); break;
    case 'F': number = plain_find(t, l, &value); break;
    case 'D': number = plain_delete(t, l, &value); break;
    case 'K': number = plain_insert(t, table->cap, l, (uint16_t)tag, &value); break;
    }
    return put_answer(out, letter, number, value);
}

size_t plain_line(const char *line, size_t n, uint8_t *reply)
{
    const char *at = line + 1, *end = line + n;
    uint8_t *out = reply;
    unsigned tag = 0;
    List l;
    if (*line == 'P') {
        int place = place_of(line + 2, (int)n - 2);
        out = put_answer(out, 'P', HELD, (size_t)place);
    } else if (*line == 'W') {
        out = put_sheet(out);
    } else {
        if (*line == 'K') { at++; tag = amount(&at, end); }
        if (strchr("FDKBbSs", *line) && list_of(at, end, &l)) out = asked(out, *line, tag, &l);
        else *out++ = '?';
    }
    *out++ = '\n';
    return (size_t)(out - reply);
}
