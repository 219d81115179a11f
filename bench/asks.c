// The four questions.
#include "bench.h"
#include <stdio.h>
#include <string.h>

enum { WAYS = OURS + PLAIN_WAYS };
static uint16_t out[MOST_KITS], other[MOST_KITS];

// ---- ours, both tiers; no number but done
#define ASKED NODES_OF(*b->t), LENT(*l)
static unsigned done(int number, const size_t *value) { if (number) differs("the number of an answer"); return (unsigned)*value; }
static unsigned in_0(Base *b, const List *l, uint16_t *o) { (void)o; return in_any_within(ASKED); }
static unsigned in_1(Base *b, const List *l, uint16_t *o) { (void)o; return in_any_containing(ASKED); }
static unsigned in_2(Base *b, const List *l, uint16_t *o) { size_t v; return done(in_all_within(ASKED, o, MOST_KITS, &v), &v); }
static unsigned in_3(Base *b, const List *l, uint16_t *o) { size_t v; return done(in_all_containing(ASKED, o, MOST_KITS, &v), &v); }
static unsigned cat_0(Base *b, const List *l, uint16_t *o) { size_t v; (void)o; return done(cat_any_within(REG_OF(*b->t), ASKED, &v), &v); }
static unsigned cat_1(Base *b, const List *l, uint16_t *o) { size_t v; (void)o; return done(cat_any_containing(REG_OF(*b->t), ASKED, &v), &v); }
static unsigned cat_2(Base *b, const List *l, uint16_t *o) { size_t v; return done(cat_all_within(REG_OF(*b->t), ASKED, o, MOST_KITS, &v), &v); }
static unsigned cat_3(Base *b, const List *l, uint16_t *o) { size_t v; return done(cat_all_containing(REG_OF(*b->t), ASKED, o, MOST_KITS, &v), &v); }

static const Way ours[OURS] = {{"public", {cat_0, cat_1, cat_2, cat_3}}, {"inner", {in_0, in_1, in_2, in_3}}};
static const Way *way(int w) { return w < OURS ? &ours[w] : &plain_ways[w - OURS]; }
static const List *lists(int ask) { return ask == ANY_WITHIN || ask == ALL_WITHIN ? t.within : t.containing; }

// ---- all ways on the present table
typedef struct { const Way *way; int ask; } Asking;

static void run_ask(void *arg)
{
    const Asking *a = arg;
    const List *l = lists(a->ask);
    for (int q = 0; q < QUERIES; q++) sink = a->way->ask[a->ask](&base, &l[q], out);
}

// All these answer as the first of them.
static void agree(const Asking *a, int n)
{
    const List *l = lists(a->ask);
    for (int q = 0; q < QUERIES; q++) {
        unsigned found = a->way->ask[a->ask](&base, &l[q], out);
        for (int w = 1; w < n; w++) {
            if (a[w].way->ask[a->ask](&base, &l[q], other) != found) differs(a[w].way->name);
            if (a->ask >= ALL_WITHIN && memcmp(out, other, found * sizeof *out)) differs(a[w].way->name);
        }
    }
}

void asks_agree(void)
{
    Asking a[WAYS];
    base_build(&base, &t);
    for (int ask = 0; ask < ASKS; ask++) {
        for (int w = 0; w < WAYS; w++) a[w] = (Asking){way(w), ask};
        agree(a, WAYS);
    }
}

void ask_some(int ask, const int *ways, int n, double *ns)
{
    Asking a[WAYS];
    Job job[WAYS];
    base_build(&base, &t);
    for (int w = 0; w < n; w++) {
        a[w] = (Asking){way(ways[w]), ask};
        job[w] = (Job){run_ask, &a[w], QUERIES, 0};
    }
    agree(a, n);
    race(job, n);
    for (int w = 0; w < n; w++) ns[w] = job[w].time;
}

void ask_times(int ask, double *ns)
{
    int every[WAYS];
    for (int w = 0; w < WAYS; w++) every[w] = w;
    ask_some(ask, every, WAYS, ns);
}

static void one_question(int ask)
{
    static const char *question[] = {"any within", "any containing", "all within", "all containing"};
    double ns[WAYS], answers = 0, entered = 0, fewest = 0;
    ask_times(ask, ns);
    for (int q = 0; q < QUERIES; q++) {
        Walked w = walked(&t, ask, &lists(ask)[q]);
        unsigned r = way(INNER)->ask[ask](&base, &lists(ask)[q], out);
        answers += (ask < ALL_WITHIN ? r != 0 : r) / (double)QUERIES;
        entered += (double)w.entered / QUERIES;
        fewest += (double)w.least / QUERIES;
    }
    printf("%-15s %7.1f %7.1f %7.1f", question[ask], answers, entered, fewest);
    for (int w = 0; w < WAYS; w++) printf(" %9.0f", ns[w]);
    printf("\n%-15s %7s %7s %7s %9.0f %9s", "  inner is x of", "", "", "", ns[PUBLIC] / ns[INNER], "");
    for (int w = OURS; w < WAYS; w++) printf(" %9.2f", ns[INNER] / ns[w]);
    printf("\n");
}

void asks(void)
{
    printf("\n%s: %d parts, %d of %d nodes used, %d kits\n", t.name, t.parts, t.used, t.cap, t.kits);
    printf("%-15s %7s %7s %7s", "ns a question", "answers", "entered", "least");
    for (int w = 0; w < WAYS; w++) printf(" %9s", way(w)->name);
    printf("\n");
    for (int ask = 0; ask < ASKS; ask++) one_question(ask);
}

void section_asks(void)
{
    family(&t, "W1 (6,4) at 1.5%", 6, 4, 0.015); asks();
    family(&t, "W1 (6,4) at 25%", 6, 4, 0.25); asks();
    family(&t, "W1 (6,4) at 100%", 6, 4, 1); asks();
    family(&t, "W1 (12,2) at 25%", 12, 2, 0.25); asks();
    family(&t, "W1 (12,2) at 100%", 12, 2, 1); asks();
    zipf(&t, "W4 even, bins of 60", MOST_NODES, SHOP_PARTS, 0, 1, 60); asks();
    zipf(&t, "W4 Zipf 0.5, bins of 60", MOST_NODES, SHOP_PARTS, 0.5, 1, 60); asks();
    zipf(&t, "W4 Zipf 1, bins of 60", MOST_NODES, SHOP_PARTS, 1, 1, 60); asks();
    zipf(&t, "W5 Zipf 1, quantities to 4, bins of 200", MOST_NODES, SHOP_PARTS, 1, 4, 200); asks();
    worst(&t, "W7 each kit fails on its last label"); asks();
    bushy(&t, "long chains of siblings", MOST_NODES); asks();
}
