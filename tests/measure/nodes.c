// Times checks of node tables beside a plain pass that reads every word once. tests/measure_nodes
// makes the tables and builds this, with one library from `rt lib` for each check:
//   gcc -O2 -fno-tree-vectorize '-DCHECKS=CHECK(check_old) CHECK(check_here)' nodes.c LIBRARY..
// Usage: nodes TABLES. The file has the number of tables, then for each the number of parts, the
// number of nodes, 1 where it is sound or else 0 (all in 32 bits), and the words (16 bits). First
// every check must say of every table what stands in the file. Then one line a table is written:
// the nanoseconds of the plain pass and of each check, the least processor time of many rounds.
#define PROGRAM "nodes"
#include "timing.h"
#include <stdbool.h>
#include <stddef.h>
#include <stdint.h>
#include <stdio.h>
#include <stdlib.h>

// The build lists the checks: declared here, in a row below, and by name.
#define CHECK(name) bool name(const uint16_t *nodes, size_t words, uint16_t parts);
CHECKS
#undef CHECK

typedef bool Job(const uint16_t *nodes, size_t words, uint16_t parts);

static volatile unsigned sink;

// What the checks are measured against: every word once, one at a time.
static __attribute__((noinline)) bool
plain_pass(const uint16_t *nodes, size_t words, uint16_t parts)
{
    unsigned mixed = parts;
    for (size_t at = 0; at < words; at++)
        mixed ^= nodes[at];
    sink ^= mixed;
    return true;
}

// The plain pass, then the checks.
#define CHECK(name) name,
static Job *const jobs[] = {plain_pass, CHECKS};
#undef CHECK
#define CHECK(name) #name,
static const char *const names[] = {"plain_pass", CHECKS};
enum { JOBS = sizeof jobs / sizeof *jobs };

typedef struct {
    uint32_t parts, nodes, sound;
    uint16_t *words;
} Table;

static size_t words_of(const Table *table) { return (size_t)table->nodes * NODE_WORDS; }

static Table read_table(FILE *file)
{
    Table table;
    table.parts = read_number(file);
    table.nodes = read_number(file);
    table.sound = read_number(file);
    table.words = read_words(file, words_of(&table));
    return table;
}

static bool run(int job, const Table *table)
{
    return jobs[job](table->words, words_of(table), (uint16_t)table->parts);
}

// Whether each check says of the table what the file says; tables count from 1.
static bool agree(const Table *table, uint32_t number)
{
    bool alike = true;
    for (int job = 1; job < JOBS; job++)
        if (run(job, table) != (table->sound != 0)) {
            fprintf(stderr, "nodes: table %u: %s says %s\n", number, names[job],
                    table->sound ? "not sound" : "sound");
            alike = false;
        }
    return alike;
}

static void once(int job, const void *table) { sink = run(job, table); }

static void write_times(const Timed *table)
{
    for (int job = 0; job < JOBS; job++)
        printf("%.2f%c", table->least[job], job + 1 < JOBS ? ' ' : '\n');
}

static Table *read_tables(const char *name, uint32_t *count)
{
    FILE *file = fopen(name, "rb");
    if (!file)
        fail("the file of tables cannot be read");
    *count = read_number(file);
    Table *tables = malloc(*count * sizeof *tables);
    if (!tables)
        fail("no memory for the tables");
    for (uint32_t at = 0; at < *count; at++)
        tables[at] = read_table(file);
    fclose(file);
    return tables;
}

int main(int argc, char **argv)
{
    if (argc != 2)
        fail("one file of tables is wanted");
    uint32_t count;
    Table *tables = read_tables(argv[1], &count);
    bool alike = true;
    for (uint32_t at = 0; at < count; at++)
        alike &= agree(&tables[at], at + 1);
    if (!alike)
        return 1;
    Timed *timed = malloc(count * sizeof *timed);
    if (!timed)
        fail("no memory for the times");
    for (uint32_t at = 0; at < count; at++)
        timed[at].item = &tables[at];
    time_all(timed, count, JOBS, once);
    for (uint32_t at = 0; at < count; at++)
        write_times(&timed[at]);
    return 0;
}
