// The rows of docs/PERFORMANCE.md; bench/run makes its tables of them.
#include "bench.h"

enum { STEPS = 5 };
static const int nodes_of[STEPS] = {64, 256, 1024, 2048, 4096}, parts_of[STEPS] = {8, 32, 64, 128, 255};
typedef struct { double ours[STEPS], plain[STEPS]; } Grown;

static void shop(int cap) { zipf(&t, "a shop", cap, SHOP_PARTS, 1, 4, 200); }

static void line_row(const char *what, const LineTimes *l, int n)
{
    double ours[4], plain[4];
    for (int i = 0; i < n; i++) { ours[i] = l[i].ours; plain[i] = l[i].plain; }
    row(what, ours, plain, n);
}

static void line_rows(void)
{
    lines_open(SHOP_PARTS);
    const List *mid = &t.kit[t.kits / 2];
    LineTimes ends[] = {list_line('F', 0, mid), list_line('K', 65535, mid), list_line('D', 0, &t.fresh[1])};
    LineTimes bins[] = {list_line('B', 0, short_bin()), list_line('b', 0, short_bin())};
    LineTimes sheet[] = {other_line("W")};
    line_row("a line at the desk: F held · K held · D not held", ends, 3);
    line_row("a line at the desk: B · b, a bin of 24 parts", bins, 2);
    line_row("a line at the desk: W", sheet, 1);
}

static void check_rows(void)
{
    double ns[CHECK_JOBS];
    zipf(&t, "the desk", DESK_NODES, SHOP_PARTS, 1, 4, BIN_PARTS);
    check_times(ns);
    row("check of the register: 255 parts", &ns[CHECK_REGISTER], &ns[CHECK_HASH], 1);
    long_numbers(&t);
    check_times(ns);
    row("check of the register: 255 numbers of 24 bytes, 64 at a time alike in 23", &ns[CHECK_REGISTER], &ns[CHECK_HASH], 1);
}

static void read_row(const char *what)
{
    double ns[SHEET_JOBS];
    sheet_times(ns);
    row(what, &ns[READ_PUBLIC], &ns[READ_C], 1);
}

static void sheet_rows(void)
{
    double ns[SHEET_JOBS];
    family(&t, "W1 (6,4) at 100%", 6, 4, 1);
    sheet_times(ns);
    row("read a sheet: 4,096 kits of 6 parts", &ns[READ_PUBLIC], &ns[READ_C], 1);
    double write[2] = {ns[WRITE_INNER], ns[WRITE_C]};
    bushy(&t, "long chains", MOST_NODES);
    read_row("read a sheet: 4,095 kits in long chains of siblings");
    shop(MOST_NODES);
    read_row("read a sheet: a shop, 371 kits");
    row("write a sheet, inner: 4,096 kits of 6 parts", &write[0], &write[1], 1);
}

static void shop_with_room(int cap)
{
    shop(cap * 3 / 4);
    with_room(&t, cap);
}

static void insert_row(void)
{
    double ns[CALLS][TIERS];
    shop_with_room(MOST_NODES);
    call_times(ns);
    row("insert a kit, inner: 3,072 of 4,096 nodes used", &ns[CALL_INSERT][TIER_INNER], &ns[CALL_INSERT][TIER_C_TABLE], 1);
}

static void count_rows(void)
{
    double ns[COUNT_JOBS], ours[BEGINNINGS], word[BEGINNINGS], walk[BEGINNINGS];
    shop(MOST_NODES);
    for (int b = 0; b < BEGINNINGS; b++) {
        count_times(b, ns);
        ours[b] = ns[COUNT_INNER], word[b] = ns[COUNT_C_WORD], walk[b] = ns[COUNT_C_WALK];
    }
    row("count the kits that begin so, inner: a shop, no unit · one · half a kit's", ours, word, BEGINNINGS);
    row("count the kits that begin so, inner, beside a walk that counts: the same", ours, walk, BEGINNINGS);
}

static void ask_row(const char *what, int ask, int plain)
{
    double ns[OURS + PLAIN_WAYS];
    ask_times(ask, ns);
    row(what, &ns[INNER], &ns[OURS + plain], 1);
}

// The worst list for a family: its last part alone, so that no branch can be left.
static void last_part_wanted(void)
{
    List last = {.n = 2, .w = {(uint16_t)t.parts, 1}};
    for (int q = 0; q < QUERIES; q++) t.containing[q] = last;
}

static void ask_rows(void)
{
    family(&t, "W1 (12,2) at 100%", 12, 2, 1);
    ask_row("all containing, inner: every kit of 12 parts, 4,096", ALL_CONTAINING, C_BEST);
    last_part_wanted();
    ask_row("all containing, inner: the same, its last part alone wanted", ALL_CONTAINING, C_BEST);
    shop(MOST_NODES);
    ask_row("all within, inner: a shop, bins of 200 parts", ALL_WITHIN, C_BEST);
    ask_row("all containing, inner: a shop, lists of 1 to 3 parts", ALL_CONTAINING, C_BEST);
}

// A whole listing by pages, and at once.
static void turn_row(const char *what, bool containing)
{
    static const int jobs[] = {TURN_INNER, TURN_C, ONCE_INNER, ONCE_C};
    double ns[4];
    turn_times(containing, jobs, 4, ns);
    row(what, (double[]){ns[0], ns[2]}, (double[]){ns[1], ns[3]}, 2);
}

static void turn_rows(void)
{
    shop(MOST_NODES);
    turn_row("a listing by pages · at once, inner: a shop, within bins of 200 parts", false);
    turn_row("a listing by pages · at once, inner: a shop, containing lists of 1 to 3 parts", true);
    one_chain(&t, "one chain", CHAINED);
    turn_row("a listing by pages · at once, inner: 3,999 siblings, within a bin of every part", false);
    turn_row("a listing by pages · at once, inner: 3,999 siblings, containing nothing", true);
}

// ---- as nodes and parts grow
static void grown(const char *what, const Grown *g, int from) { row(what, g->ours + from, g->plain + from, STEPS - from); }

static void grown_checks(void)
{
    Grown parts, of_shop, chains;
    double ns[CHECK_JOBS];
    for (int i = 0; i < STEPS; i++) {
        zipf(&t, "a shop", 64, parts_of[i], 1, 4, 200);
        check_times(ns);
        parts.ours[i] = ns[CHECK_REGISTER], parts.plain[i] = ns[CHECK_HASH];
        shop(nodes_of[i]);
        check_times(ns);
        of_shop.ours[i] = ns[CHECK_NODES], of_shop.plain[i] = ns[CHECK_C_NODES];
        bushy(&t, "long chains", nodes_of[i]);
        check_times(ns);
        chains.ours[i] = ns[CHECK_NODES], chains.plain[i] = ns[CHECK_C_NODES];
    }
    grown("check of the register: 8 · 32 · 64 · 128 · 255 parts", &parts, 0);
    grown("check of the nodes: a shop, 64 · 256 · 1,024 · 2,048 · 4,096 nodes", &of_shop, 0);
    grown("check of the nodes: long chains of siblings, the same", &chains, 0);
}

static void grown_sheets(void)
{
    Grown read, write;
    double ns[SHEET_JOBS];
    for (int i = 0; i < STEPS; i++) {
        shop(nodes_of[i]);
        sheet_times(ns);
        read.ours[i] = ns[READ_PUBLIC], read.plain[i] = ns[READ_C];
        write.ours[i] = ns[WRITE_INNER], write.plain[i] = ns[WRITE_C];
    }
    grown("read a sheet: a shop, 64 · 256 · 1,024 · 2,048 · 4,096 nodes", &read, 0);
    grown("write a sheet, inner: the same", &write, 0);
}

static void grown_calls(void)
{
    Grown find, insert;
    double ns[CALLS][TIERS];
    for (int i = 1; i < STEPS; i++) {
        shop_with_room(nodes_of[i]);
        call_times(ns);
        find.ours[i] = ns[CALL_FOUND][TIER_INNER], find.plain[i] = ns[CALL_FOUND][TIER_C_TABLE];
        insert.ours[i] = ns[CALL_INSERT][TIER_INNER], insert.plain[i] = ns[CALL_INSERT][TIER_C_TABLE];
    }
    grown("find a kit, inner: a shop, 256 · 1,024 · 2,048 · 4,096 nodes", &find, 1);
    grown("insert a kit, inner: the same", &insert, 1);
}

static void grown_ask(const char *what, int ask)
{
    Grown g;
    double ns[OURS + PLAIN_WAYS];
    for (int i = 0; i < STEPS; i++) {
        shop(nodes_of[i]);
        ask_times(ask, ns);
        g.ours[i] = ns[INNER], g.plain[i] = ns[OURS + C_BEST];
    }
    grown(what, &g, 0);
}

// ---- where the document's table is the limit: C is an inverted index
static void inverted_rows(void)
{
    shop(MOST_NODES);
    ask_row("all containing, inner, beside an inverted index: a shop, lists of 1 to 3 parts", ALL_CONTAINING, INVERTED);
    zipf(&t, "W4 even", MOST_NODES, SHOP_PARTS, 0, 1, 60);
    ask_row("all containing, inner, beside an inverted index: parts drawn alike, one of each", ALL_CONTAINING, INVERTED);
}

void section_page(void)
{
    line_rows();
    check_rows();
    sheet_rows();
    insert_row();
    count_rows();
    ask_rows();
    turn_rows();
    grown_checks();
    grown_sheets();
    grown_calls();
    grown_ask("all within, inner: a shop, 64 · 256 · 1,024 · 2,048 · 4,096 nodes", ALL_WITHIN);
    grown_ask("all containing, inner: the same", ALL_CONTAINING);
    inverted_rows();
}
