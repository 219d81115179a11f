// The sheet: written, judged and read.
#include "bench.h"
#include <stdio.h>
#include <string.h>

static uint8_t sheet[1 << 20], sheet2[1 << 20], reg2[MOST_PARTS * SLOT];
static uint16_t saved[MOST_NODES * WORDS], nodes2[MOST_NODES * WORDS];
static size_t bytes;

#define READ_INTO reg2, (size_t)t.slots * SLOT, nodes2, (size_t)t.cap * WORDS, sheet, bytes
static void do_cat_write(void *a) { size_t v; (void)a; sink = cat_write_sheet(REG_OF(t), NODES_OF(t), sheet2, sizeof sheet2, &v); }
static void do_in_write(void *a) { size_t v; (void)a; sink = in_write_sheet(REG_OF(t), NODES_OF(t), sheet2, sizeof sheet2, &v); }
static void do_plain_write(void *a) { (void)a; sink = (unsigned)plain_write(&t, sheet2); }
static void do_cat_read(void *a) { size_t v; (void)a; sink = cat_read_sheet(READ_INTO, &v); }
static void do_judge(void *a) { (void)a; sink = (unsigned)in_judge(sheet, bytes); }
static void do_plain_read(void *a) { (void)a; sink = (unsigned)plain_read(sheet, bytes, reg2, (size_t)t.slots, (Node *)nodes2, t.cap); }

// Tables read off the sheet at hand agree in every byte.
static void same_read(void)
{
    size_t v;
    if (in_judge(sheet, bytes) != (size_t)t.used) differs("judge");
    if (cat_read_sheet(READ_INTO, &v) || (int)v != t.kits || memcmp(reg2, t.reg, sizeof reg2)) differs("read");
    memcpy(saved, nodes2, sizeof saved);
    if (plain_read(sheet, bytes, reg2, (size_t)t.slots, (Node *)nodes2, t.cap) != t.kits) differs("read in C");
    if (memcmp(saved, nodes2, sizeof saved) || memcmp(reg2, t.reg, sizeof reg2)) differs("the tables read in C");
}

// So do the sheets of the present table.
static void same_sheets(void)
{
    size_t v;
    if (cat_write_sheet(REG_OF(t), NODES_OF(t), sheet, sizeof sheet, &bytes)) differs("write");
    if (in_write_sheet(REG_OF(t), NODES_OF(t), sheet2, sizeof sheet2, &v) || v != bytes || memcmp(sheet, sheet2, bytes)) differs("the inner sheet");
    if (plain_write(&t, sheet2) != bytes || memcmp(sheet, sheet2, bytes)) differs("the sheet in C");
    same_read();
}

// The sheet at hand with an empty kit before the others, as a writer from before request 14 set it down.
static void make_old(void)
{
    size_t at = 7;
    for (int k = 0; k < t.parts; k++) at += 1u + sheet[at];
    unsigned kits = (unsigned)t.kits + 1, tag = new_tag();
    uint8_t record[] = {(uint8_t)(kits >> 8), (uint8_t)kits, (uint8_t)(tag >> 8), (uint8_t)tag, 0};
    memmove(sheet + at + sizeof record, sheet + at + 2, bytes - at - 2);
    memcpy(sheet + at, record, sizeof record);
    bytes += sizeof record - 2;
}

void sheets_agree(void)
{
    same_sheets();
    make_old();
    same_read();
}

size_t sheet_times(double *ns)
{
    same_sheets();
    Job job[SHEET_JOBS] = {
        {do_cat_write, 0, 1, 0}, {do_in_write, 0, 1, 0}, {do_plain_write, 0, 1, 0}, {do_cat_read, 0, 1, 0}, {do_judge, 0, 1, 0}, {do_plain_read, 0, 1, 0}};
    race(job, SHEET_JOBS);
    for (int j = 0; j < SHEET_JOBS; j++) ns[j] = job[j].time;
    return bytes;
}

static void sheets(void)
{
    double ns[SHEET_JOBS];
    size_t n = sheet_times(ns);
    printf("%-22s %5d %5d %5d %6zu", t.name, t.parts, t.used, t.kits, n);
    for (int j = 0; j < SHEET_JOBS; j++) printf(" %9.1f", ns[j] / 1e3);
    printf(" %7.1f %6.1f\n", ns[WRITE_INNER] / ns[WRITE_C], ns[READ_PUBLIC] / ns[READ_C]);
}

void section_sheet(void)
{
    static const int cap[] = {64, 256, 1024, 2048, 4096};
    printf("\nsheet, microseconds    parts  used  kits  bytes    public     inner   C write      read     judge    C read inner/C read/C\n");
    for (int i = 0; i < 5; i++) { zipf(&t, "W5", cap[i], SHOP_PARTS, 1, 4, 200); sheets(); }
    family(&t, "W1 (6,4) at 100%", 6, 4, 1); sheets();
    bushy(&t, "long chains", MOST_NODES); sheets();
}
