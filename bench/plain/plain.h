// What ours is held against: the same work in plain C on the same data. Nothing here checks the tables that it works on, the checks aside.
#ifndef PLAIN_H
#define PLAIN_H
#include "../tables.h"
#include <string.h>

// ---- the questions (asks.c)
typedef struct {
    const Table *t;
    int words;                                   // of a bitmap over the kits
    uint8_t vec[MOST_KITS][SHOP_PLACES];         // a kit's quantity at each place
    int from[SHOP_PLACES + 1];                   // postings of a place
    uint16_t post_kit[MOST_KITS * 16];
    uint8_t post_quantity[MOST_KITS * 16];
    int most[SHOP_PLACES];                       // the greatest quantity of a place in any kit
    uint64_t has[SHOP_PLACES][17][MOST_KITS / 64]; // kits with so many of a place, or more
    uint32_t stamp[MOST_KITS], epoch;
    uint8_t seen[MOST_KITS];
} Base;

void base_build(Base *b, const Table *t);

// any: the tag, or 0. all: how many, and their tags in out.
typedef unsigned Ask(Base *b, const List *l, uint16_t *out);
enum { ANY_WITHIN, ANY_CONTAINING, ALL_WITHIN, ALL_CONTAINING, ASKS };
typedef struct { const char *name; Ask *ask[ASKS]; } Way;
enum { C_WALK, C_BEST, ROWS, VECTORS, INVERTED, BITMAPS, PLAIN_WAYS };
extern const Way plain_ways[PLAIN_WAYS];

// The same of a list as it is lent, of more lines than a List has: how many, and their tags in out. By C_BEST.
unsigned plain_all(const Table *t, bool containing, const uint16_t *list, size_t n, uint16_t *out);

// Nothing of any place that the table's parts have.
static inline void clear_amounts(uint16_t *amount, const Table *t)
{
    memset(amount, 0, (t->parts < SHOP_PLACES ? SHOP_PLACES : PLACES) * sizeof *amount);
}

// Kits that lack at most d units of the bin: how many, their tags and what each lacks.
unsigned plain_almost(const Table *t, const List *bin, unsigned d, uint16_t *tags, uint16_t *shorts);

// nodes whose label is read, and the fewest that any walk down the same tree must enter
typedef struct { long entered, least; } Walked;
Walked walked(const Table *t, int ask, const List *l);

// ---- the pages of a listing (pages.c): the tag of the first kit after the bookmark's row, and the bookmark there; or 0, and the bookmark stays
unsigned plain_page(const Table *t, bool containing, const uint16_t *list, size_t n, Mark *mark);

// ---- find, insert, delete (index.c): a hash map from lists to tags with the tags that are borne, and the same node table, word for word.
// Number and value as ours.
void map_clear(void);
int map_find(const List *l, size_t *value);
int map_insert(const List *l, uint16_t tag);
int map_delete(const List *l, size_t *value);
int plain_find(const Node *t, const List *l, size_t *value);
int plain_insert(Node *t, int cap, const List *l, uint16_t tag, size_t *value);
int plain_delete(Node *t, const List *l, size_t *value);
size_t plain_count(const Node *t, const List *l); // the kits that begin with it: the node's word
size_t walk_count(const Node *t, const List *l);  // and counted below the node

// ---- the checks (checks.c)
bool pairs_register(const uint8_t *reg, size_t n); // each pair of numbers, byte by byte
bool plain_register(const uint8_t *reg, size_t n); // each number against those before it with the same hash
bool plain_nodes(const Node *t, int n, unsigned parts);

// ---- the sheet (sheet.c)
size_t plain_write(const Table *t, uint8_t *out);
int plain_read(const uint8_t *s, size_t n, uint8_t *reg, size_t slots, Node *t, int cap); // kits, or -1

// ---- a line of the desk (desk.c), with the numbers of the register found by a hash; only well-formed lines with good lists
void plain_desk_open(Base *b, Table *t);
size_t plain_line(const char *line, size_t n, uint8_t *reply); // bytes of the reply
#endif
