// A whole listing by pages, beside the same listing at once.
#include "bench.h"
#include <stdio.h>
#include <string.h>

typedef struct { const uint16_t *w; size_t n; } Asked; // a list as it is lent

static Asked asked[QUERIES];
static int listings;
static bool containing;
static uint16_t every[2 * MOST_PARTS]; // one of each part
static uint16_t out[MOST_KITS], other[MOST_KITS];

// ---- a page: its tag, or 0; no number but done
#define LISTED NODES_OF(t), a->w, a->n
static unsigned done(int number, const size_t *value) { if (number) differs("the number of a page or listing"); return (unsigned)*value; }

static unsigned cat_page(const Asked *a, Mark *m)
{
    size_t v;
    if (containing) return done(cat_page_containing(REG_OF(t), LISTED, MARK_OF(*m), &v), &v);
    return done(cat_page_within(REG_OF(t), LISTED, MARK_OF(*m), &v), &v);
}

static unsigned in_page(const Asked *a, Mark *m)
{
    size_t v;
    if (containing) return done(in_page_containing(LISTED, MARK_OF(*m), &v), &v);
    return done(in_page_within(LISTED, MARK_OF(*m), &v), &v);
}

static unsigned c_page(const Asked *a, Mark *m) { return plain_page(&t, containing, a->w, a->n, m); }

typedef unsigned Turn(const Asked *a, Mark *m);
static Turn *const turn[] = {cat_page, in_page, c_page};
enum { TURNS = sizeof turn / sizeof *turn };

// ---- a whole listing: how many, and their tags
static unsigned paged(Turn *page, const Asked *a, uint16_t *tags)
{
    Mark m = {.begun = false};
    unsigned n = 0;
    for (unsigned tag = page(a, &m); tag; tag = page(a, &m)) tags[n++] = (uint16_t)tag;
    return n;
}

static unsigned cat_turned(const Asked *a, uint16_t *tags) { return paged(cat_page, a, tags); }
static unsigned in_turned(const Asked *a, uint16_t *tags) { return paged(in_page, a, tags); }
static unsigned c_turned(const Asked *a, uint16_t *tags) { return paged(c_page, a, tags); }

static unsigned cat_once(const Asked *a, uint16_t *tags)
{
    size_t v;
    if (containing) return done(cat_all_containing(REG_OF(t), LISTED, tags, MOST_KITS, &v), &v);
    return done(cat_all_within(REG_OF(t), LISTED, tags, MOST_KITS, &v), &v);
}

static unsigned in_once(const Asked *a, uint16_t *tags)
{
    size_t v;
    if (containing) return done(in_all_containing(LISTED, tags, MOST_KITS, &v), &v);
    return done(in_all_within(LISTED, tags, MOST_KITS, &v), &v);
}

static unsigned c_once(const Asked *a, uint16_t *tags) { return plain_all(&t, containing, a->w, a->n, tags); }

typedef unsigned Listing(const Asked *a, uint16_t *tags);
static Listing *const listing[TURN_JOBS] = {cat_turned, in_turned, c_turned, cat_once, in_once, c_once};

static void run_listing(void *arg)
{
    Listing *const *list = arg;
    for (int q = 0; q < listings; q++) sink = (*list)(&asked[q], out);
}

// ---- what is asked of the present table: the lists of a shop, or all kits where it is one chain
static void ask_lists(bool of_containing)
{
    const List *l = of_containing ? t.containing : t.within;
    containing = of_containing;
    listings = QUERIES;
    for (int q = 0; q < QUERIES; q++) asked[q] = (Asked){LENT(l[q])};
}

static void ask_all(bool of_containing)
{
    containing = of_containing;
    listings = 1;
    for (int p = 1; p <= t.parts; p++) { every[2 * p - 2] = (uint16_t)p; every[2 * p - 1] = 1; }
    asked[0] = (Asked){every, containing ? 0 : 2 * (size_t)t.parts};
}

static void ask_of(bool of_containing)
{
    if (t.parts > SHOP_PARTS) ask_all(of_containing);
    else ask_lists(of_containing);
}

// ---- all of them agree: every page's tag and every number of the bookmark, and the tags of the whole
static bool same_mark(const Mark *m, const Mark *o) { return m->begun == o->begun && m->len == o->len && !memcmp(m->places, o->places, sizeof m->places); }

// One page of each from this bookmark: its tag. The bookmark is moved on.
static unsigned same_page(const Asked *a, Mark *m)
{
    Mark moved[TURNS];
    unsigned tag[TURNS];
    for (int j = 0; j < TURNS; j++) { moved[j] = *m; tag[j] = turn[j](a, &moved[j]); }
    for (int j = 1; j < TURNS; j++) if (tag[j] != tag[0] || !same_mark(&moved[j], &moved[0])) differs("a page");
    *m = moved[0];
    return tag[0];
}

// Not begun, with anything in its row.
static Mark junk(void)
{
    Mark m = {.begun = false, .len = below(100)};
    for (int i = 0; i < MOST_UNITS; i++) m.places[i] = (uint16_t)below(65536);
    return m;
}

// Begun at the first units of a list, so many of them; junk behind.
static Mark begun_at(const List *l, int wanted)
{
    Mark m = junk();
    m.begun = true;
    m.len = 0;
    for (int i = 0; i < l->n; i += 2)
        for (int k = 0; k < l->w[i + 1] && (int)m.len < wanted; k++) m.places[m.len++] = l->w[i];
    return m;
}

static double same_listing(const Asked *a)
{
    unsigned n = listing[ONCE_C](a, out), pages = 0;
    Mark m = junk();
    for (int j = 0; j < TURN_JOBS; j++)
        if (listing[j](a, other) != n || memcmp(out, other, n * sizeof *out)) differs("a listing by pages or at once");
    while (same_page(a, &m)) pages++;
    if (pages != n) differs("the number of pages");
    for (int tries = 0; tries < 4; tries++) {
        const List *l = tries % 2 && t.fresh_kits ? &t.fresh[below((unsigned)t.fresh_kits)] : &t.kit[below((unsigned)t.kits)];
        m = begun_at(l, (int)below((unsigned)units(l) + 1));
        same_page(a, &m);
    }
    return n;
}

static double agree(void)
{
    double pages = 0;
    for (int q = 0; q < listings; q++) pages += same_listing(&asked[q]) / listings;
    return pages;
}

void turns_agree(void)
{
    for (int of = 0; of < 2; of++) { ask_of(of); agree(); }
}

double turn_times(bool of_containing, const int *jobs, int n, double *ns)
{
    Job job[TURN_JOBS];
    ask_of(of_containing);
    double pages = agree();
    for (int j = 0; j < n; j++) job[j] = (Job){run_listing, (void *)&listing[jobs[j]], listings, 0};
    race(job, n);
    for (int j = 0; j < n; j++) ns[j] = job[j].time;
    return pages;
}

static void turned(void)
{
    static const char *question[] = {"within", "containing"};
    static const int jobs[TURN_JOBS] = {TURN_PUBLIC, TURN_INNER, TURN_C, ONCE_PUBLIC, ONCE_INNER, ONCE_C};
    double ns[TURN_JOBS];
    printf("\n%s: %d parts, %d of %d nodes used, %d kits\n", t.name, t.parts, t.used, t.cap, t.kits);
    printf("%-18s %7s | by pages %8s %10s %10s %7s | at once %8s %10s %10s %7s | %13s\n", "us a listing", "pages", "public", "inner", "C", "inner/C", "public",
        "inner", "C", "inner/C", "inner, ns/page");
    for (int of = 0; of < 2; of++) {
        double pages = turn_times(of, jobs, TURN_JOBS, ns), us[TURN_JOBS];
        for (int j = 0; j < TURN_JOBS; j++) us[j] = ns[j] / 1e3;
        printf("%-18s %7.1f | %17.2f %10.2f %10.2f %7.2f | %16.2f %10.2f %10.2f %7.2f | %13.0f\n", question[of], pages, us[TURN_PUBLIC], us[TURN_INNER],
            us[TURN_C], us[TURN_INNER] / us[TURN_C], us[ONCE_PUBLIC], us[ONCE_INNER], us[ONCE_C], us[ONCE_INNER] / us[ONCE_C],
            ns[TURN_INNER] / (pages + 1));
    }
}

void section_turns(void)
{
    zipf(&t, "a shop", MOST_NODES, SHOP_PARTS, 1, 4, 200); turned();
    bushy(&t, "long chains of siblings", MOST_NODES); turned();
    one_chain(&t, "one chain of siblings", CHAINED); turned();
}
