// Find, insert and delete.
#include "bench.h"
#include <stdio.h>
#include <string.h>

enum { ROUNDS = 200 };
static uint16_t saved[MOST_NODES * WORDS];
static uint16_t fresh_tag[QUERIES];
static double all[CALLS][TIERS][ROUNDS];
static const List *asked; // the list at hand
static uint16_t with_tag;

// ---- each call of each tier: its number, and a value
#define LISTED NODES_OF(t), LENT(*asked)
static int cat_found(size_t *v) { return cat_find(REG_OF(t), LISTED, v); }
static int in_found(size_t *v) { return in_find(LISTED, v); }
static int table_found(size_t *v) { return plain_find(node_of(&t), asked, v); }
static int map_found(size_t *v) { return map_find(asked, v); }
static int cat_inserted(size_t *v) { return cat_insert(REG_OF(t), LISTED, with_tag, v); }
static int in_inserted(size_t *v) { return in_insert(LISTED, with_tag, v); }
static int table_inserted(size_t *v) { return plain_insert(node_of(&t), t.cap, asked, with_tag, v); }
static int map_inserted(size_t *v) { (void)v; return map_insert(asked, with_tag); }
static int cat_deleted(size_t *v) { return cat_delete(REG_OF(t), LISTED, v); }
static int in_deleted(size_t *v) { return in_delete(LISTED, v); }
static int table_deleted(size_t *v) { return plain_delete(node_of(&t), asked, v); }
static int map_deleted(size_t *v) { return map_delete(asked, v); }

typedef int Call(size_t *value);
static Call *const finds[TIERS] = {cat_found, in_found, table_found, map_found};
static Call *const inserts[TIERS] = {cat_inserted, in_inserted, table_inserted, map_inserted};
static Call *const deletes[TIERS] = {cat_deleted, in_deleted, table_deleted, map_deleted};

// The time of a call on so many lists, each with its tag. They answer this number, save where two fresh kits are the same.
static double timed(Call *call, const List *l, int step, const uint16_t *tag, int count, int number)
{
    size_t value;
    int others = 0;
    double start = now();
    for (int k = 0; k < count; k++) {
        asked = &l[k * step];
        with_tag = tag[k * step];
        others += call(&value) != number;
    }
    double took = now() - start - clock_cost;
    if (others == count) differs("the number of a call");
    return took / count;
}

// For as many fresh kits as there are free nodes; the table is the same afterwards.
static int fresh_with_room(void)
{
    size_t value;
    int n = 0;
    memcpy(saved, t.nodes, sizeof saved);
    for (; n < t.fresh_kits; n++) {
        fresh_tag[n] = new_tag();
        if (in_insert(NODES_OF(t), LENT(t.fresh[n]), fresh_tag[n], &value) == NO_ROOM) break;
    }
    memcpy(t.nodes, saved, sizeof saved);
    return n;
}

// Every tier finds every kit by its tag, and none of the fresh ones.
static void same_found(int n)
{
    size_t value;
    for (int i = 0; i < TIERS; i++) {
        for (int k = 0; k < t.kits; k++) {
            asked = &t.kit[k];
            if (finds[i](&value) != DONE || value != t.tag[k]) differs("find");
        }
        for (int k = 0; k < n; k++) {
            asked = &t.fresh[k];
            if (finds[i](&value) != NOT_HELD) differs("find, not held");
        }
    }
}

static void one_round(int round, int n)
{
    static uint16_t entered[MOST_NODES * WORDS];
    int hits = t.kits < QUERIES ? t.kits : QUERIES, step = t.kits / hits;
    for (int i = 0; i < TIERS; i++) {
        all[CALL_FOUND][i][round] = timed(finds[i], t.kit, step, t.tag, hits, DONE);
        all[CALL_MISSED][i][round] = timed(finds[i], t.fresh, 1, fresh_tag, n, NOT_HELD);
        all[CALL_INSERT][i][round] = timed(inserts[i], t.fresh, 1, fresh_tag, n, DONE);
        if (i == TIER_PUBLIC) memcpy(entered, t.nodes, sizeof entered);
        if (i != TIER_HASH && memcmp(entered, t.nodes, sizeof entered)) differs("the table after insert");
        all[CALL_DELETE][i][round] = timed(deletes[i], t.fresh, 1, fresh_tag, n, DONE);
        if (memcmp(saved, t.nodes, sizeof saved)) differs("the table after delete");
    }
}

int call_times(double ns[CALLS][TIERS])
{
    int n = fresh_with_room();
    if (n == 0) return 0;
    map_clear();
    for (int k = 0; k < t.kits; k++) map_insert(&t.kit[k], t.tag[k]);
    same_found(n);
    for (int round = 0; round < ROUNDS; round++) one_round(round, n);
    for (int i = 0; i < CALLS * TIERS; i++) ns[i / TIERS][i % TIERS] = least(all[i / TIERS][i % TIERS], ROUNDS);
    return n;
}

void calls(void)
{
    static const char *call[CALLS] = {"find, held", "find, not", "insert", "delete"};
    double ns[CALLS][TIERS];
    int n = call_times(ns);
    if (n == 0) { printf("\n%s: no room for another kit\n", t.name); return; }
    printf("\n%s: %d parts, %d of %d nodes used, %d kits (%d inserted)\n", t.name, t.parts, t.used, t.cap, t.kits, n);
    printf("%-10s %10s %10s %10s %10s %13s %14s\n", "ns a call", "public", "inner", "C table", "hash map", "inner/C table", "inner/hash map");
    for (int i = 0; i < CALLS; i++) {
        printf("%-10s", call[i]);
        for (int tier = 0; tier < TIERS; tier++) printf(" %10.0f", ns[i][tier]);
        printf(" %13.1f %14.1f\n", ns[i][TIER_INNER] / ns[i][TIER_C_TABLE], ns[i][TIER_INNER] / ns[i][TIER_HASH]);
    }
}

void section_calls(void)
{
    family(&t, "W1 (6,4) at 25%", 6, 4, 0.25); calls();
    zipf(&t, "W4 Zipf 1", 3072, SHOP_PARTS, 1, 1, 60); with_room(&t, MOST_NODES); calls();
    zipf(&t, "W5", 3072, SHOP_PARTS, 1, 4, 200); with_room(&t, MOST_NODES); calls();
    bushy(&t, "long chains of siblings", 3072); with_room(&t, MOST_NODES); calls();
}
