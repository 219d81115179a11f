// What the sections share: the table that is measured, and jobs that are timed in turn.
#ifndef BENCH_H
#define BENCH_H
#include "plain/plain.h"

extern Table t;
extern Base base;
extern volatile unsigned sink; // what a job computes goes here, so that it is computed

// Something that is done again and again; `per` things are done at once. `time` is what one took, in nanoseconds.
typedef struct { void (*run)(void *); void *arg; int per; double time; } Job;
void race(Job *job, int n);
double least(double *times, int n); // sorts them
double now(void);          // nanoseconds
extern double clock_cost;  // what reading it takes
_Noreturn void differs(const char *what);
void row(const char *what, const double *ours, const double *plain, int n); // prints what, then the nanoseconds of ours and of C, for bench/run

// asks.c: both tiers of ours, then plain_ways
enum { PUBLIC, INNER, OURS };
void ask_times(int ask, double *ns);   // of all OURS + PLAIN_WAYS, on the present table
void ask_some(int ask, const int *ways, int n, double *ns); // of these
void asks_agree(void);                 // all ways of all questions on the present table
// turns.c: a listing by pages and at once
enum { TURN_PUBLIC, TURN_INNER, TURN_C, ONCE_PUBLIC, ONCE_INNER, ONCE_C, TURN_JOBS };
double turn_times(bool containing, const int *jobs, int n, double *ns); // of these; the pages of a listing, on average
void turns_agree(void);
// index.c
enum { CALL_FOUND, CALL_MISSED, CALL_INSERT, CALL_DELETE, CALLS };
enum { TIER_PUBLIC, TIER_INNER, TIER_C_TABLE, TIER_HASH, TIERS };
int call_times(double ns[CALLS][TIERS]); // kits inserted, 0 where there is no room
// checks.c
enum { CHECK_TABLES, CHECK_REGISTER, CHECK_PAIRS, CHECK_HASH, CHECK_NODES, CHECK_C_NODES, CHECK_JOBS };
void check_times(double *ns);
// counts.c
enum { BEGIN_NONE, BEGIN_ONE, BEGIN_HALF, BEGINNINGS }; // the units that kits are to begin with: none, a kit's first, the first half of a kit's
enum { COUNT_PUBLIC, COUNT_INNER, COUNT_C_WORD, COUNT_C_WALK, COUNT_JOBS };
double count_times(int beginning, double *ns);          // the kits that begin so, on average
void counts_agree(void);
// sheets.c
enum { WRITE_PUBLIC, WRITE_INNER, WRITE_C, READ_PUBLIC, READ_JUDGE, READ_C, SHEET_JOBS };
size_t sheet_times(double *ns);        // the sheet's bytes
void sheets_agree(void);               // the table's own sheet, and one with an empty kit
// lines.c
enum { DESK_NODES = 2048, BIN_PARTS = 24 };
typedef struct { size_t bytes, reply; double ours, check, plain; } LineTimes;
void lines_open(int parts);            // a shop at the desk
LineTimes list_line(char letter, unsigned tag, const List *l);
const List *short_bin(void);           // the first bin that has room on a line
LineTimes other_line(const char *line);

// parts.c
void almost_agree(void);

void section_asks(void);
void section_calls(void);
void section_checks(void);
void section_counts(void);
void section_turns(void);
void section_growth(void);
void section_sheet(void);
void section_lines(void);
void section_page(void);
void section_parts(void);
void asks(void); // one table of a section
void calls(void);
void checks_head(void);
void checks(void);
#endif
