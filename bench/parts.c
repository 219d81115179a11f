// The check of the register, every question and the sheet as parts grow, and on a small catalogue; bench/run sets what another repository takes beside it.
#include "bench.h"
#include <stdio.h>
#include <string.h>

enum { SMALL_PARTS = 8, SMALL_NODES = 16, LACKING = 2, OF_TEXT = 40, ROW_TEXT = 120 };
static const int parts_of[] = {16, 255, 1000, MOST_PARTS};
enum { SIZES = sizeof parts_of / sizeof *parts_of };

static uint16_t tags[3][MOST_KITS], shorts[3][MOST_KITS];

// A row of so many parts: the public call and the inner one, each beside C.
static void tiers(const char *what, const char *of, double public, double inner, double plain)
{
    char text[ROW_TEXT];
    snprintf(text, sizeof text, "%s: %s", what, of);
    row(text, (double[]){public, inner}, (double[]){plain, plain}, 2);
}

static void alone(const char *what, const char *of, double ours, double plain)
{
    char text[ROW_TEXT];
    snprintf(text, sizeof text, "%s: %s", what, of);
    row(text, &ours, &plain, 1);
}

// Whether ours takes a register of so many slots: a repository from before four thousand parts has 255.
static bool taken(int slots)
{
    static const uint8_t free_slots[MOST_PARTS * SLOT];
    size_t value;
    return cat_look_up(free_slots, (size_t)slots * SLOT, (const uint8_t *)"A", 1, &value) != WRONG_LENGTH;
}

// ---- the kits that a bin almost fills
static unsigned cat_almost(const List *l)
{
    size_t v;
    if (cat_all_almost(REG_OF(t), NODES_OF(t), LENT(*l), LACKING, tags[0], MOST_KITS, shorts[0], MOST_KITS, &v)) differs("the number of all almost");
    return (unsigned)v;
}

static unsigned in_almost(const List *l)
{
    size_t v;
    if (in_all_almost(NODES_OF(t), LENT(*l), LACKING, tags[1], MOST_KITS, shorts[1], MOST_KITS, &v)) differs("the number of all almost, inner");
    return (unsigned)v;
}

static unsigned c_almost(const List *l) { return plain_almost(&t, l, LACKING, tags[2], shorts[2]); }

typedef unsigned Almost(const List *l);
static Almost *const almosts[] = {cat_almost, in_almost, c_almost};

static void run_almost(void *arg)
{
    Almost *const *almost = arg;
    for (int q = 0; q < QUERIES; q++) sink = (*almost)(&t.within[q]);
}

void almost_agree(void)
{
    for (int q = 0; q < QUERIES; q++) {
        size_t n = cat_almost(&t.within[q]);
        for (int j = 1; j < 3; j++) {
            if (almosts[j](&t.within[q]) != n || memcmp(tags[0], tags[j], n * 2) || memcmp(shorts[0], shorts[j], n * 2)) differs("all almost");
        }
    }
}

static void almost_row(const char *of)
{
    Job job[3];
    almost_agree();
    for (int j = 0; j < 3; j++) job[j] = (Job){run_almost, (void *)&almosts[j], QUERIES, 0};
    race(job, 3);
    tiers("all that lack at most 2", of, job[0].time, job[1].time, job[2].time);
}

// ---- the rest
static void ask_rows(const char *of)
{
    static const char *question[ASKS] = {"any within", "any containing", "all within", "all containing"};
    static const int ways[] = {PUBLIC, INNER, OURS + C_BEST};
    double ns[3];
    for (int ask = 0; ask < ASKS; ask++) {
        ask_some(ask, ways, 3, ns);
        tiers(question[ask], of, ns[0], ns[1], ns[2]);
    }
    almost_row(of);
}

static void check_rows(const char *of)
{
    double ns[CHECK_JOBS];
    check_times(ns);
    alone("check of the register", of, ns[CHECK_REGISTER], ns[CHECK_HASH]);
    alone("check of both tables", of, ns[CHECK_TABLES], ns[CHECK_HASH] + ns[CHECK_C_NODES]);
}

static void count_row(const char *of)
{
    double ns[COUNT_JOBS];
    count_times(BEGIN_HALF, ns);
    tiers("count the kits that begin with half a kit's units", of, ns[COUNT_PUBLIC], ns[COUNT_INNER], ns[COUNT_C_WORD]);
}

static void sheet_rows(const char *of)
{
    double ns[SHEET_JOBS];
    sheet_times(ns);
    tiers("write a sheet", of, ns[WRITE_PUBLIC], ns[WRITE_INNER], ns[WRITE_C]);
    tiers("read a sheet, judge it", of, ns[READ_PUBLIC], ns[READ_JUDGE], ns[READ_C]);
}

static void call_rows(const char *of)
{
    static const char *call[CALLS] = {"find, held", "find, not held", "insert", "delete"};
    double ns[CALLS][TIERS];
    if (call_times(ns) == 0) differs("room for another kit");
    for (int i = 0; i < CALLS; i++) tiers(call[i], of, ns[i][TIER_PUBLIC], ns[i][TIER_INNER], ns[i][TIER_C_TABLE]);
}

// A shop with just as many slots as parts.
static void shop(int parts, int cap)
{
    zipf(&t, "a shop", cap, parts, 1, 4, 200);
    t.slots = parts;
}

static void one_size(int parts)
{
    char of[OF_TEXT];
    snprintf(of, sizeof of, "%d parts", parts);
    shop(parts, MOST_NODES);
    check_rows(of);
    ask_rows(of);
    count_row(of);
    sheet_rows(of);
    shop(parts, MOST_NODES * 3 / 4);
    with_room(&t, MOST_NODES);
    call_rows(of);
}

// Kits of one part each, of which some have room.
static void short_fresh(void)
{
    size_t value;
    t.fresh_kits = 0;
    for (int p = 1; p <= t.parts; p++) {
        List l = {.n = 2, .w = {(uint16_t)p, 2}};
        if (in_find(NODES_OF(t), LENT(l), &value) != DONE) t.fresh[t.fresh_kits++] = l;
    }
}

// ---- the least that a question with an array of quantities by place can take: its clearing
static void cleared(uint16_t *a, size_t places)
{
    memset(a, 0, places * sizeof *a);
    __asm__ volatile("" : : "r"(a) : "memory");
}

static void clear_shop(void *a) { uint16_t amount[SHOP_PLACES]; (void)a; cleared(amount, SHOP_PLACES); }
static void clear_all(void *a) { uint16_t amount[PLACES]; (void)a; cleared(amount, PLACES); }

static void clear_rows(void)
{
    Job job[] = {{clear_shop, 0, 1, 0}, {clear_all, 0, 1, 0}};
    race(job, 2);
    row("256 quantities cleared, in C", &job[0].time, &job[0].time, 1);
    row("4,001 quantities cleared, in C", &job[1].time, &job[1].time, 1);
}

static void small_catalogue(void)
{
    char of[OF_TEXT];
    snprintf(of, sizeof of, "%d parts, %d nodes", SMALL_PARTS, SMALL_NODES);
    shop(SMALL_PARTS, SMALL_NODES);
    check_rows(of);
    ask_rows(of);
    count_row(of);
    sheet_rows(of);
    shop(SMALL_PARTS, SMALL_NODES / 2);
    with_room(&t, SMALL_NODES);
    short_fresh();
    call_rows(of);
    clear_rows();
}

void section_parts(void)
{
    small_catalogue();
    for (int i = 0; i < SIZES; i++) if (taken(parts_of[i])) one_size(parts_of[i]);
}
