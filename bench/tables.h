// Tables filled with kits, and lists to ask with. Everything is drawn from one seeded generator.
#ifndef TABLES_H
#define TABLES_H
#include "calls.h"

enum { MOST_KITS = 4096, MOST_NODES = 4096, MOST_PARTS = 4000, PLACES = MOST_PARTS + 1, MOST_UNITS = 64, QUERIES = 64, SLOT = 32, WORDS = 7 };
// All tables but those of the sections parts and turns have at most so many parts, and the ways in C that keep something for each place have room for no more.
enum { SHOP_PARTS = 255, SHOP_PLACES = SHOP_PARTS + 1, MOST_LINES = 256 };
// The longest chain that is measured: nothing in the table leads into the middle of it.
enum { CHAINED = MOST_PARTS - 1 };

typedef struct { uint16_t parent, child, next, label, depth, tag, tally; } Node; // tally: the kits at or below it

typedef struct { uint16_t w[2 * MOST_LINES]; int n; } List; // n words: place, quantity, ..

typedef struct { bool begun; uint16_t places[MOST_UNITS]; size_t len; } Mark; // a bookmark

typedef struct {
    const char *name;
    uint8_t reg[MOST_PARTS * SLOT];
    int parts, slots; // slots: as many as are lent, 255 or all that there are parts
    uint16_t nodes[MOST_NODES * WORDS];
    int cap, used, kits;
    List kit[MOST_KITS]; // in listing order
    uint16_t tag[MOST_KITS];
    List within[QUERIES], containing[QUERIES];
    List fresh[QUERIES]; // good kits that are not held
    int fresh_kits;
} Table;

// a table, a register and a list as they are lent
#define NODES_OF(t) (t).nodes, (size_t)(t).cap * WORDS
#define REG_OF(t) (t).reg, (size_t)(t).slots * SLOT
#define LENT(l) (l).w, (size_t)(l).n
#define MARK_OF(m) &(m).begun, &(m).len, (m).places

uint64_t draw(void);              // 64 random bits
unsigned below(unsigned n);       // 0 .. n-1
uint16_t new_tag(void);           // one that no kit bears
int units(const List *l);         // how many it has
void table_start(Table *t, const char *name, int parts, int cap);
void family(Table *t, const char *name, int sigma, int copies, double density);                     // W1
void zipf(Table *t, const char *name, int cap, int parts, double s, int most_quantity, int bin);    // W4, W5
void worst(Table *t, const char *name);                                                             // W7
void bushy(Table *t, const char *name, int cap); // as many long chains of siblings as there can be
void one_chain(Table *t, const char *name, int kits); // so many kits of one unit, all siblings below the root
void lend_empty_kit(Table *t); // an empty kit at the root, as tables from before request 14 may have it
void long_numbers(Table *t);      // a register of long numbers that agree in all bytes but the last, or the last two
void with_room(Table *t, int cap); // the same kits in a table with more nodes
static inline Node *node_of(Table *t) { return (Node *)t->nodes; }
static inline const Node *node_in(const Table *t) { return (const Node *)t->nodes; }
#endif
