// The check of both tables, and of each.
#include "bench.h"
#include <stdio.h>

static void do_tables(void *a) { size_t v; (void)a; sink = chk_tables(REG_OF(t), NODES_OF(t), &v); }
static void do_register(void *a) { (void)a; sink = chk_register(REG_OF(t)); }
static void do_pairs(void *a) { (void)a; sink = pairs_register(REG_OF(t)); }
static void do_hash(void *a) { (void)a; sink = plain_register(REG_OF(t)); }
static void do_nodes(void *a) { (void)a; sink = chk_nodes(NODES_OF(t), (uint16_t)t.parts); }
static void do_c_nodes(void *a) { (void)a; sink = plain_nodes(node_of(&t), t.cap, (unsigned)t.parts); }

void check_times(double *ns)
{
    size_t value;
    if (chk_tables(REG_OF(t), NODES_OF(t), &value) || !chk_register(REG_OF(t)) || !chk_nodes(NODES_OF(t), (uint16_t)t.parts)) differs("the check");
    if (!pairs_register(REG_OF(t)) || !plain_register(REG_OF(t)) || !plain_nodes(node_of(&t), t.cap, (unsigned)t.parts)) differs("the check in C");
    Job job[CHECK_JOBS] = {
        {do_tables, 0, 1, 0}, {do_register, 0, 1, 0}, {do_pairs, 0, 1, 0}, {do_hash, 0, 1, 0}, {do_nodes, 0, 1, 0}, {do_c_nodes, 0, 1, 0}};
    race(job, CHECK_JOBS);
    for (int j = 0; j < CHECK_JOBS; j++) ns[j] = job[j].time;
}

void checks(void)
{
    double ns[CHECK_JOBS];
    check_times(ns);
    printf("%-26s %5d %5d %5d", t.name, t.parts, t.cap, t.used);
    for (int j = 0; j < CHECK_JOBS; j++) printf(" %8.2f", ns[j] / 1e3);
    printf(" %8.1f %8.1f\n", ns[CHECK_REGISTER] / ns[CHECK_HASH], ns[CHECK_NODES] / ns[CHECK_C_NODES]);
}

void checks_head(void)
{
    printf("\nchecks, microseconds      parts   cap  used   tables register  C pairs   C hash    nodes  C nodes reg/hash  nodes/C\n");
}

void section_checks(void)
{
    checks_head();
    family(&t, "W1 (6,4) at 100%", 6, 4, 1); checks();
    zipf(&t, "W4 even", MOST_NODES, SHOP_PARTS, 0, 1, 60); checks();
    zipf(&t, "W4 Zipf 1", MOST_NODES, SHOP_PARTS, 1, 1, 60); checks();
    zipf(&t, "W5", MOST_NODES, SHOP_PARTS, 1, 4, 200); checks();
    worst(&t, "W7"); checks();
    bushy(&t, "long chains of siblings", MOST_NODES); checks();
    bushy(&t, "  and long numbers alike", MOST_NODES); long_numbers(&t); checks();
    table_start(&t, "4,096 free nodes, 1 part", 1, MOST_NODES); checks();
    table_start(&t, "1 node, 1 part", 1, 1); checks();
}
