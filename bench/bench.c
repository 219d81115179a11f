// Times ours beside plain C in one run, in turn, many rounds. Usage: bench [SECTION..]
#include "bench.h"
#include <stdio.h>
#include <stdlib.h>
#include <string.h>
#include <time.h>

enum { ROUNDS = 50, MOST_JOBS = 16 };
#define ROUND_NANOSECONDS 150e3
#define LONG_NANOSECONDS 1e6

Table t;
Base base;
volatile unsigned sink;
double clock_cost;

static double read_clock(clockid_t clock)
{
    struct timespec s;
    clock_gettime(clock, &s);
    return (double)s.tv_sec * 1e9 + (double)s.tv_nsec;
}

double now(void) { return read_clock(CLOCK_MONOTONIC); }

void differs(const char *what)
{
    fprintf(stderr, "bench: %s differs in %s\n", what, t.name);
    exit(1);
}

static double took(const Job *job, long times, clockid_t clock)
{
    double start = read_clock(clock);
    for (long again = 0; again < times; again++) job->run(job->arg);
    return (read_clock(clock) - start) / (double)times;
}

static int later(const void *a, const void *b)
{
    double x = *(const double *)a, y = *(const double *)b;
    return (x > y) - (x < y);
}

double least(double *times, int n)
{
    qsort(times, (size_t)n, sizeof *times, later);
    return times[0];
}

// A short job goes by the wall clock, whose least is never too short. A long one is interrupted wherever others run, and goes by the processor time that a
// tenth of its rounds stays below: on a virtual machine that clock itself runs short now and then.
void race(Job *job, int n)
{
    static double all[MOST_JOBS][ROUNDS];
    long times[MOST_JOBS];
    bool is_long[MOST_JOBS];
    if (n > MOST_JOBS) abort();
    for (int j = 0; j < n; j++) {
        for (times[j] = 1; took(&job[j], times[j], CLOCK_THREAD_CPUTIME_ID) * (double)times[j] < ROUND_NANOSECONDS;) times[j] *= 2;
        is_long[j] = took(&job[j], 1, CLOCK_THREAD_CPUTIME_ID) > LONG_NANOSECONDS;
    }
    for (int round = 0; round < ROUNDS; round++)
        for (int j = 0; j < n; j++) all[j][round] = took(&job[j], times[j], is_long[j] ? CLOCK_THREAD_CPUTIME_ID : CLOCK_MONOTONIC) / job[j].per;
    for (int j = 0; j < n; j++) {
        double first = least(all[j], ROUNDS);
        job[j].time = is_long[j] ? all[j][ROUNDS / 10] : first;
    }
}

void row(const char *what, const double *ours, const double *plain, int n)
{
    printf("%s|", what);
    for (int i = 0; i < n; i++) printf(" %.3f", ours[i]);
    printf("|");
    for (int i = 0; i < n; i++) printf(" %.3f", plain[i]);
    printf("\n");
}

// As nodes and parts grow.
void section_growth(void)
{
    static const int cap[] = {64, 256, 1024, 2048, 4096}, parts[] = {8, 32, 64, 128, 255};
    enum { STEPS = 5 };
    checks_head();
    for (int i = 0; i < STEPS; i++) { zipf(&t, "W5, nodes grow", cap[i], SHOP_PARTS, 1, 4, 200); checks(); }
    for (int i = 0; i < STEPS; i++) { bushy(&t, "long chains, nodes grow", cap[i]); checks(); }
    for (int i = 0; i < STEPS; i++) { zipf(&t, "W5, parts grow", 64, parts[i], 1, 4, 200); checks(); }
    for (int i = 0; i < STEPS; i++) { zipf(&t, "W5, nodes grow", cap[i], SHOP_PARTS, 1, 4, 200); asks(); }
    for (int i = 1; i < STEPS; i++) { zipf(&t, "W5, nodes grow", cap[i] * 3 / 4, SHOP_PARTS, 1, 4, 200); with_room(&t, cap[i]); calls(); }
}

static const struct { const char *name; void (*run)(void); } section[] = {
    {"page", section_page}, {"asks", section_asks}, {"calls", section_calls}, {"checks", section_checks},
    {"counts", section_counts}, {"turns", section_turns}, {"growth", section_growth}, {"sheet", section_sheet}, {"lines", section_lines},
    {"parts", section_parts}};
enum { SECTIONS = sizeof section / sizeof *section };

// An empty kit is no kit: in a table from before request 14 all pass over the one at the root.
static void old_agree(void)
{
    zipf(&t, "a shop with an empty kit", 1024, SHOP_PARTS, 1, 4, 200);
    t.within[0].n = t.containing[0].n = 0;
    lend_empty_kit(&t);
    asks_agree();
    almost_agree();
    counts_agree();
    turns_agree();
    sheets_agree();
}

int main(int argc, char **argv)
{
    old_agree();
    static double reading[1000];
    for (int i = 0; i < 1000; i++) { double start = now(); reading[i] = now() - start; }
    clock_cost = least(reading, 1000);
    for (int s = 0; s < SECTIONS; s++) {
        bool wanted = argc == 1;
        for (int a = 1; a < argc; a++) wanted |= !strcmp(argv[a], section[s].name);
        if (wanted) { section[s].run(); fflush(stdout); }
    }
    return 0;
}
