// A line of the desk, without its input and output.
#include "bench.h"
#include <stdio.h>
#include <string.h>

enum { DESK_LINE = 512, DESK_SHEET = 8192, DESK_REPLY = 16640 };
static char line[2 * DESK_LINE];
static size_t line_bytes;
static uint8_t sheet[DESK_SHEET], reply[DESK_REPLY], reply_in_c[DESK_REPLY];
static uint16_t places[DESK_NODES], saved[MOST_NODES * WORDS];

static void number_to(char *to, int place)
{
    const uint8_t *s = t.reg + (place - 1) * SLOT;
    sprintf(to + strlen(to), " %.*s", s[0], (const char *)s + 1);
}

static bool make_line(char letter, unsigned tag, const List *l) // false where it is too long for the desk
{
    sprintf(line, "%c", letter);
    if (tag) sprintf(line + 1, " %u", tag);
    for (int i = 0; i < l->n && strlen(line) < DESK_LINE + 100; i += 2) {
        number_to(line, l->w[i]);
        sprintf(line + strlen(line), " %d", l->w[i + 1]);
    }
    line_bytes = strlen(line);
    return line_bytes <= DESK_LINE;
}

static size_t do_line(void)
{
    return desk_line((uint8_t *)line, line_bytes, REG_OF(t), NODES_OF(t), places, DESK_NODES, sheet, sizeof sheet, reply, sizeof reply);
}

static void do_ours(void *a) { (void)a; sink = (unsigned)do_line(); }
static void do_check(void *a) { size_t v; (void)a; sink = chk_tables(REG_OF(t), NODES_OF(t), &v); }
static void do_plain(void *a) { (void)a; sink = (unsigned)plain_line(line, line_bytes, reply_in_c); }

// The line at hand, which must leave the table as it was.
static LineTimes times(void)
{
    Job job[] = {{do_ours, 0, 1, 0}, {do_check, 0, 1, 0}, {do_plain, 0, 1, 0}};
    memcpy(saved, t.nodes, sizeof saved);
    size_t n = do_line(), in_c = plain_line(line, line_bytes, reply_in_c);
    if (memcmp(saved, t.nodes, sizeof saved)) differs("a line that should change nothing");
    if (n != in_c || memcmp(reply, reply_in_c, n)) differs(line);
    race(job, 3);
    return (LineTimes){line_bytes, n, job[0].time, job[1].time, job[2].time};
}

void lines_open(int parts)
{
    zipf(&t, "the desk", DESK_NODES, parts, 1, 4, BIN_PARTS);
    base_build(&base, &t);
    plain_desk_open(&base, &t);
}

LineTimes other_line(const char *text)
{
    line_bytes = strlen(strcpy(line, text));
    return times();
}

LineTimes list_line(char letter, unsigned tag, const List *l)
{
    if (!make_line(letter, tag, l)) differs("a line's length");
    return times();
}

const List *short_bin(void)
{
    int q = 0;
    while (q < QUERIES - 1 && !make_line('B', 0, &t.within[q])) q++;
    return &t.within[q];
}

static void show(const char *what, LineTimes l)
{
    printf("%-22s %6zu %6zu %9.2f %9.2f %9.2f %9.1f\n", what, l.bytes, l.reply, l.ours / 1e3, l.check / 1e3, l.plain / 1e3, l.ours / l.plain);
}

static void lines(void)
{
    static const List every = {.n = 0};
    char held_number[SLOT] = "P";
    const List *mid = &t.kit[t.kits / 2], *last = &t.kit[t.kits - 1], one = {.n = 2, .w = {t.kit[0].w[0], 1}};
    printf("\na line of the desk: %d parts, %d of %d nodes used, %d kits\n", t.parts, t.used, t.cap, t.kits);
    printf("%-22s %6s %6s %9s %9s %9s %9s\n", "microseconds", "bytes", "reply", "line", "a check", "C", "line/C");
    show("? (not a line)", other_line("?"));
    number_to(held_number, t.parts);
    show("P, held", other_line(held_number));
    show("F, held", list_line('F', 0, mid));
    show("K, held", list_line('K', 65535, mid));
    show("K, no room", list_line('K', 65535, &t.fresh[0]));
    show("D, not held", list_line('D', 0, &t.fresh[1]));
    show("B, the last kit", list_line('B', 0, last));
    show("B, 24 parts", list_line('B', 0, short_bin()));
    show("b, 24 parts", list_line('b', 0, short_bin()));
    show("S, the last kit", list_line('S', 0, last));
    show("S, one part", list_line('S', 0, &one));
    show("s, one part", list_line('s', 0, &one));
    show("s, every kit", list_line('s', 0, &every));
    show("W", other_line("W"));
}

void section_lines(void)
{
    lines_open(32); lines();
    lines_open(SHOP_PARTS); lines();
}
