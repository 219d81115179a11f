// Times the kits that a bin almost fills, asked in several ways. tests/measure_almost makes the
// tables and the bins and builds this with the library from `rt lib`:
//   gcc -O2 -fno-tree-vectorize almost.c LIBRARY
// Usage: almost TABLES. Numbers in the file are of 32 bits; rows of words are a number, how many,
// and the words (16 bits). The file has the number of tables, then for each rows of words: its
// nodes, and of its kits in listing order the tags, how many lines each has, and the lines (place,
// quantity); then the number of its groups, and for each d, the number of bins, and for each bin
// three rows: its list, the tags and the shortfalls of the answer. First every way must answer
// every bin so. Then one line a group is written: on average over its bins the nodes entered, the
// nodes looked at, the lines that the scan reads, and the nanoseconds of each way, the least
// processor time of many rounds.
#define PROGRAM "almost"
#include "timing.h"
#include <stdbool.h>
#include <stddef.h>
#include <stdint.h>
#include <stdio.h>
#include <stdlib.h>
#include <string.h>

enum { MOST_NODES = 4096, PLACES = 256, MOST_SHORT = 64 };

typedef struct {
    uint32_t count;
    uint16_t *words;
} Words;

typedef struct {
    uint16_t parent, first_child, next_sibling, label, depth, tag, tagged;
} Node;

// The nodes, and of the kits in listing order the tags, how many lines each has, and the lines.
typedef struct {
    Words nodes, tags, lengths, lines;
} Table;

// A bin and its answer.
typedef struct {
    Words bin, tags, shorts;
} Question;

// Bins that are asked one behind the other with the same d.
typedef struct {
    const Table *table;
    uint16_t d;
    uint32_t count;
    Question *questions;
} Group;

// What an answer is written to.
typedef struct {
    uint16_t tags[MOST_NODES], shorts[MOST_NODES];
} Outputs;

static Outputs out;
static volatile size_t sink;

// Ours, from the library: a slice is a pointer and a length. The value is how many kits.
size_t all_almost(const uint16_t *nodes, size_t nodes_length, const uint16_t *bin,
                  size_t bin_length, uint16_t d, uint16_t *tags, size_t tags_length,
                  uint16_t *shorts, size_t shorts_length);

static size_t ours_with(const Table *table, const Question *question, uint16_t d, size_t room)
{
    return all_almost(table->nodes.words, table->nodes.count, question->bin.words,
                      question->bin.count, d, out.tags, room, out.shorts, room);
}

static size_t node_count(const Table *table) { return table->nodes.count / NODE_WORDS; }

// With room for as many kits as there are nodes: they are written in one walk.
static size_t ours(const Table *table, const Question *question, uint16_t d)
{
    return ours_with(table, question, d, node_count(table));
}

// With just the room that the answer takes: a first walk counts, a second one writes.
static size_t ours_exact(const Table *table, const Question *question, uint16_t d)
{
    return ours_with(table, question, d, question->tags.count);
}

// Asked for every kit, and those beyond d left out behind it.
static size_t ours_of_all(const Table *table, const Question *question, uint16_t d)
{
    size_t all = ours_with(table, question, MOST_SHORT, node_count(table)), n = 0;
    for (size_t at = 0; at < all; at++)
        if (out.shorts[at] <= d) {
            out.tags[n] = out.tags[at];
            out.shorts[n++] = out.shorts[at];
        }
    return n;
}

// The bin's quantity of each place.
static void put_quantities(const Words *bin, uint16_t *quantities)
{
    memset(quantities, 0, PLACES * sizeof *quantities);
    for (uint32_t at = 0; at < bin->count; at += 2)
        quantities[bin->words[at]] = bin->words[at + 1];
}

static size_t put(size_t n, size_t room, uint16_t tag, unsigned lacks)
{
    if (n < room) {
        out.tags[n] = tag;
        out.shorts[n] = (uint16_t)lacks;
    }
    return n + 1;
}

// What a walk keeps of the labels that it has passed: the last one, how many of it the bin has
// left, and the shortfall so far.
typedef struct {
    unsigned last, left, lacks;
} Passed;

typedef struct {
    const Node *nodes;
    uint16_t quantities[PLACES];
    unsigned d;
    size_t room;
} Walk;

static Walk walk_of(const Table *table, const Question *question, uint16_t d)
{
    Walk walk = {.nodes = (const Node *)table->nodes.words, .d = d, .room = node_count(table)};
    put_quantities(&question->bin, walk.quantities);
    return walk;
}

static Passed pass(const Walk *walk, Passed before, unsigned label)
{
    unsigned left = label == before.last ? before.left : walk->quantities[label];
    return (Passed){label, left - (left != 0), before.lacks + (left == 0)};
}

// The chain that starts at a link, and what is below it; a branch is left as soon as it lacks
// more than d.
static size_t walk_chain(const Walk *walk, size_t n, unsigned at, Passed before)
{
    for (; at; at = walk->nodes[at].next_sibling) {
        const Node *node = &walk->nodes[at];
        Passed then = pass(walk, before, node->label);
        if (walk->d < then.lacks)
            continue;
        if (node->tag)
            n = put(n, walk->room, node->tag, then.lacks);
        n = walk_chain(walk, n, node->first_child, then);
    }
    return n;
}

// The same walk over the same nodes, from below the root on: an empty kit is passed over.
static size_t walk_in_c(const Table *table, const Question *question, uint16_t d)
{
    Walk walk = walk_of(table, question, d);
    return walk_chain(&walk, 0, walk.nodes->first_child, (Passed){0, 0, 0});
}

// What a quantity is beyond another, never below zero; without a branch, which is faster here.
static unsigned beyond(unsigned quantity, unsigned have)
{
    int more = (int)quantity - (int)have;
    return (unsigned)(more & ~(more >> 31));
}

// Every kit's lines in listing order; a kit is left as soon as it lacks more than d. The lines
// read are counted only where that is asked for, which the compiler settles.
static inline __attribute__((always_inline)) size_t
scan_lines(const Table *table, const Question *question, uint16_t d, size_t *lines_read)
{
    uint16_t quantities[PLACES];
    put_quantities(&question->bin, quantities);
    const uint16_t *line = table->lines.words;
    size_t n = 0;
    for (uint32_t kit = 0; kit < table->tags.count; kit++) {
        const uint16_t *end = line + 2 * table->lengths.words[kit], *at = line;
        unsigned lacks = 0;
        for (; at < end && lacks <= d; at += 2)
            lacks += beyond(at[1], quantities[at[0]]);
        if (lines_read)
            *lines_read += (size_t)(at - line) / 2;
        if (lacks <= d)
            n = put(n, MOST_NODES, table->tags.words[kit], lacks);
        line = end;
    }
    return n;
}

static __attribute__((noinline)) size_t
scan(const Table *table, const Question *question, uint16_t d)
{
    return scan_lines(table, question, d, NULL);
}

typedef size_t Way(const Table *table, const Question *question, uint16_t d);
static Way *const ways[] = {ours, ours_exact, walk_in_c, scan, ours_of_all};
static const char *const names[] = {"ours", "ours, exact room", "C walk", "scan", "ours of all"};
enum { WAYS = sizeof ways / sizeof *ways };

// Nodes whose row lacks at most d, and nodes whose label is read; the root is among both.
typedef struct {
    size_t entered, looked_at;
} Counted;

static void count_chain(const Walk *walk, unsigned at, Passed before, Counted *counted)
{
    for (; at; at = walk->nodes[at].next_sibling) {
        Passed then = pass(walk, before, walk->nodes[at].label);
        counted->looked_at++;
        if (walk->d < then.lacks)
            continue;
        counted->entered++;
        count_chain(walk, walk->nodes[at].first_child, then, counted);
    }
}

static Words read_row(FILE *file)
{
    Words row;
    row.count = read_number(file);
    row.words = read_words(file, row.count);
    return row;
}

static void *room_for(size_t count, size_t size)
{
    void *room = calloc(count + 1, size);
    if (!room)
        fail("no memory");
    return room;
}

static Group read_group(FILE *file, const Table *table)
{
    Group group = {.table = table, .d = (uint16_t)read_number(file)};
    group.count = read_number(file);
    group.questions = room_for(group.count, sizeof *group.questions);
    for (uint32_t at = 0; at < group.count; at++) {
        Question *question = &group.questions[at];
        question->bin = read_row(file);
        question->tags = read_row(file);
        question->shorts = read_row(file);
    }
    return group;
}

// All groups of all tables, in their order.
static Group *read_groups(FILE *file, uint32_t *count)
{
    Group *groups = NULL;
    *count = 0;
    for (uint32_t tables = read_number(file); tables > 0; tables--) {
        Table *table = room_for(1, sizeof *table);
        table->nodes = read_row(file);
        table->tags = read_row(file);
        table->lengths = read_row(file);
        table->lines = read_row(file);
        uint32_t more = read_number(file);
        groups = realloc(groups, (*count + more) * sizeof *groups);
        if (!groups)
            fail("no memory");
        while (more-- > 0)
            groups[(*count)++] = read_group(file, table);
    }
    return groups;
}

static bool same(const Words *row, const uint16_t *words)
{
    return memcmp(row->words, words, row->count * sizeof *words) == 0;
}

// Whether a way gives the file's answer, every tag and every shortfall.
static bool right(int way, const Group *group, const Question *question)
{
    memset(&out, 0xff, sizeof out);
    size_t n = ways[way](group->table, question, group->d);
    return n == question->tags.count && same(&question->tags, out.tags)
        && same(&question->shorts, out.shorts);
}

// Whether every way gives every answer of a group; groups and bins count from 1.
static bool agree(const Group *group, uint32_t number)
{
    bool alike = true;
    for (uint32_t at = 0; at < group->count; at++)
        for (int way = 0; way < WAYS; way++)
            if (!right(way, group, &group->questions[at])) {
                fprintf(stderr, PROGRAM ": group %u, bin %u: %s answers something else\n", number,
                        at + 1, names[way]);
                alike = false;
            }
    return alike;
}

// A whole group, in one way.
static void once(int way, const void *item)
{
    const Group *group = item;
    for (uint32_t at = 0; at < group->count; at++)
        sink = ways[way](group->table, &group->questions[at], group->d);
}

static void write_line(const Timed *timed)
{
    const Group *group = timed->item;
    Counted counted = {0, 0};
    size_t lines_read = 0;
    for (uint32_t at = 0; at < group->count; at++) {
        Walk walk = walk_of(group->table, &group->questions[at], group->d);
        counted.entered++;
        counted.looked_at++;
        count_chain(&walk, walk.nodes->first_child, (Passed){0, 0, 0}, &counted);
        scan_lines(group->table, &group->questions[at], group->d, &lines_read);
    }
    double bins = group->count;
    printf("%.2f %.2f %.2f", (double)counted.entered / bins, (double)counted.looked_at / bins,
           (double)lines_read / bins);
    for (int way = 0; way < WAYS; way++)
        printf(" %.2f", timed->least[way] / bins);
    printf("\n");
}

int main(int argc, char **argv)
{
    FILE *file = argc == 2 ? fopen(argv[1], "rb") : NULL;
    if (!file)
        fail("one file of tables is wanted");
    uint32_t count;
    Group *groups = read_groups(file, &count);
    Timed *timed = room_for(count, sizeof *timed);
    bool alike = true;
    for (uint32_t at = 0; at < count; at++) {
        alike &= agree(&groups[at], at + 1);
        timed[at].item = &groups[at];
    }
    if (!alike)
        return 1;
    time_all(timed, count, WAYS, once);
    for (uint32_t at = 0; at < count; at++)
        write_line(&timed[at]);
    return 0;
}
