// How many kits begin with the units of a list.
#include "bench.h"
#include <stdio.h>

static List begun[QUERIES];

// The first units of a list, so many of them.
static List front_of(const List *l, int wanted)
{
    List front = {.n = 0};
    for (int i = 0; i < l->n && wanted > 0; i += 2) {
        int quantity = l->w[i + 1] < wanted ? l->w[i + 1] : wanted;
        front.w[front.n++] = l->w[i];
        front.w[front.n++] = (uint16_t)quantity;
        wanted -= quantity;
    }
    return front;
}

static void draw_beginnings(int beginning)
{
    for (int q = 0; q < QUERIES; q++) {
        const List *kit = &t.kit[below((unsigned)t.kits)];
        int wanted[BEGINNINGS] = {0, 1, (units(kit) + 1) / 2};
        begun[q] = front_of(kit, wanted[beginning]);
    }
}

static size_t cat_counted(const List *l)
{
    size_t value;
    if (cat_count_beginning(REG_OF(t), NODES_OF(t), LENT(*l), &value)) differs("the number of a count");
    return value;
}

static size_t in_counted(const List *l) { return in_count(NODES_OF(t), LENT(*l)); }
static size_t word_counted(const List *l) { return plain_count(node_in(&t), l); }
static size_t walk_counted(const List *l) { return walk_count(node_in(&t), l); }

typedef size_t Count(const List *l);
static Count *const counts[COUNT_JOBS] = {cat_counted, in_counted, word_counted, walk_counted};

static void run_count(void *arg)
{
    Count *const *count = arg;
    for (int q = 0; q < QUERIES; q++) sink = (unsigned)(*count)(&begun[q]);
}

// All say the same of these lists; returns the sum.
static size_t agree(const List *l, int n)
{
    size_t sum = 0;
    for (int q = 0; q < n; q++) {
        size_t count = walk_counted(&l[q]);
        for (int j = 0; j < COUNT_JOBS; j++) if (counts[j](&l[q]) != count) differs("a count");
        sum += count;
    }
    return sum;
}

void counts_agree(void)
{
    for (int b = 0; b < BEGINNINGS; b++) { draw_beginnings(b); agree(begun, QUERIES); }
    agree(t.fresh, t.fresh_kits);
}

double count_times(int beginning, double *ns)
{
    Job job[COUNT_JOBS];
    draw_beginnings(beginning);
    agree(t.fresh, t.fresh_kits);
    for (int j = 0; j < COUNT_JOBS; j++) job[j] = (Job){run_count, (void *)&counts[j], QUERIES, 0};
    race(job, COUNT_JOBS);
    for (int j = 0; j < COUNT_JOBS; j++) ns[j] = job[j].time;
    return (double)agree(begun, QUERIES) / QUERIES;
}

static void counted(void)
{
    static const char *name[BEGINNINGS] = {"no unit", "one unit", "half a kit's"};
    printf("\n%s: %d parts, %d of %d nodes used, %d kits\n", t.name, t.parts, t.used, t.cap, t.kits);
    printf("%-12s %8s %10s %10s %10s %10s %12s %12s\n", "ns a count", "kits", "public", "inner", "C word", "C walk", "inner/C word", "inner/C walk");
    for (int b = 0; b < BEGINNINGS; b++) {
        double ns[COUNT_JOBS], kits = count_times(b, ns);
        printf("%-12s %8.1f", name[b], kits);
        for (int j = 0; j < COUNT_JOBS; j++) printf(" %10.0f", ns[j]);
        printf(" %12.1f %12.2f\n", ns[COUNT_INNER] / ns[COUNT_C_WORD], ns[COUNT_INNER] / ns[COUNT_C_WALK]);
    }
}

void section_counts(void)
{
    family(&t, "W1 (6,4) at 100%", 6, 4, 1); counted();
    zipf(&t, "W5", MOST_NODES, SHOP_PARTS, 1, 4, 200); counted();
    bushy(&t, "long chains of siblings", MOST_NODES); counted();
}
