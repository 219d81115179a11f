// What the measuring programs share: numbers read from a file, the words of a node, and the least
// processor time of jobs that are done in turn. PROGRAM, defined before this is included, is the program's name.
#ifndef TIMING_H
#define TIMING_H
#include <stdint.h>
#include <stdio.h>
#include <stdlib.h>
#include <time.h>

// The words of a node.
enum { NODE_WORDS = 7 };
enum { SWEEPS = 12, ROUNDS = 16, MOST_JOBS = 32 };
#define ROUND_NANOSECONDS 200e3

// Something that jobs are done on; how often each is done in one round, and its least time once.
typedef struct {
    const void *item;
    long times[MOST_JOBS];
    double least[MOST_JOBS];
} Timed;

// Does the job of this number once.
typedef void Doing(int job, const void *item);

static void fail(const char *what)
{
    fprintf(stderr, "%s: %s\n", PROGRAM, what);
    exit(1);
}

static uint32_t read_number(FILE *file)
{
    uint32_t number;
    if (fread(&number, sizeof number, 1, file) != 1)
        fail("the file is too short");
    return number;
}

// So many 16-bit words.
static uint16_t *read_words(FILE *file, size_t count)
{
    uint16_t *words = malloc(count * sizeof *words + 1);
    if (!words)
        fail("no memory for words");
    if (fread(words, sizeof *words, count, file) != count)
        fail("the file is too short");
    return words;
}

// The processor time of this thread, so that what else the machine runs counts for less.
static double now(void)
{
    struct timespec time;
    clock_gettime(CLOCK_THREAD_CPUTIME_ID, &time);
    return (double)time.tv_sec * 1e9 + (double)time.tv_nsec;
}

static double took(Doing *once, int job, const void *item, long times)
{
    double start = now();
    for (long again = 0; again < times; again++)
        once(job, item);
    return now() - start;
}

// Chooses how often, so that a round is long beside the clock, and takes a first time.
static void choose_times(Timed *timed, int jobs, Doing *once)
{
    for (int job = 0; job < jobs; job++) {
        long times = 1;
        while (took(once, job, timed->item, times) < ROUND_NANOSECONDS)
            times *= 2;
        timed->times[job] = times;
        timed->least[job] = took(once, job, timed->item, times) / (double)times;
    }
}

// All jobs on one item in turn.
static void time_round(Timed *timed, int jobs, Doing *once)
{
    for (int job = 0; job < jobs; job++) {
        long times = timed->times[job];
        double one = took(once, job, timed->item, times) / (double)times;
        if (one < timed->least[job])
            timed->least[job] = one;
    }
}

// All items again and again, some rounds each, so that a busy moment falls on few rounds of each.
static void time_all(Timed *timed, uint32_t count, int jobs, Doing *once)
{
    if (jobs > MOST_JOBS)
        fail("too many jobs");
    for (uint32_t at = 0; at < count; at++)
        choose_times(&timed[at], jobs, once);
    for (int sweep = 0; sweep < SWEEPS; sweep++)
        for (uint32_t at = 0; at < count; at++)
            for (int round = 0; round < ROUNDS; round++)
                time_round(&timed[at], jobs, once);
}
#endif
