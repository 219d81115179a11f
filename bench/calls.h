// The functions of the crate that bench/run makes of lib.rt.in, as C sees them: a slice is a pointer and a length. Where a size_t * comes last, the answer's
// number is returned and its value set down.
#ifndef CALLS_H
#define CALLS_H
#include <stdbool.h>
#include <stddef.h>
#include <stdint.h>

#define REG const uint8_t *, size_t
#define REG_MUT uint8_t *, size_t
#define NODES const uint16_t *, size_t
#define NODES_MUT uint16_t *, size_t
#define LIST const uint16_t *, size_t
#define OUT uint16_t *, size_t
#define MARK bool *begun, size_t *len, uint16_t *places
#define BYTES const uint8_t *, size_t
#define BYTES_MUT uint8_t *, size_t

// numbers of answers
enum { DONE = 0, WRONG_LENGTH = 1, HELD = 9, TAG_BORNE = 10, NOT_HELD = 11, NO_ROOM = 12, NO_UNITS = 19 };

// public: every call checks what it is lent
uint8_t cat_empty(REG_MUT, NODES_MUT, size_t *);
uint8_t cat_register(REG_MUT, BYTES, size_t *);
uint8_t cat_look_up(REG, BYTES, size_t *);
uint8_t cat_insert(REG, NODES_MUT, LIST, uint16_t tag, size_t *);
uint8_t cat_find(REG, NODES, LIST, size_t *);
uint8_t cat_delete(REG, NODES_MUT, LIST, size_t *);
uint8_t cat_count_beginning(REG, NODES, LIST, size_t *);
uint8_t cat_any_within(REG, NODES, LIST, size_t *);
uint8_t cat_any_containing(REG, NODES, LIST, size_t *);
uint8_t cat_all_within(REG, NODES, LIST, OUT, size_t *);
uint8_t cat_all_containing(REG, NODES, LIST, OUT, size_t *);
uint8_t cat_all_almost(REG, NODES, LIST, uint16_t d, OUT, OUT, size_t *);
uint8_t cat_page_within(REG, NODES, LIST, MARK, size_t *);
uint8_t cat_page_containing(REG, NODES, LIST, MARK, size_t *);
uint8_t cat_write_sheet(REG, NODES, BYTES_MUT, size_t *);
uint8_t cat_read_sheet(REG_MUT, NODES_MUT, BYTES, size_t *);
// the checks
uint8_t chk_tables(REG, NODES, size_t *);
bool chk_register(REG);
bool chk_nodes(NODES, uint16_t parts);
// inner, below the checks: tables that are sound, lists that are good
uint8_t in_insert(NODES_MUT, LIST, uint16_t tag, size_t *);
uint8_t in_find(NODES, LIST, size_t *);
uint8_t in_delete(NODES_MUT, LIST, size_t *);
size_t in_count(NODES, LIST);
uint16_t in_any_within(NODES, LIST);
uint16_t in_any_containing(NODES, LIST);
uint8_t in_all_within(NODES, LIST, OUT, size_t *);
uint8_t in_all_containing(NODES, LIST, OUT, size_t *);
uint8_t in_all_almost(NODES, LIST, uint16_t d, OUT, OUT, size_t *);
uint8_t in_page_within(NODES, LIST, MARK, size_t *);
uint8_t in_page_containing(NODES, LIST, MARK, size_t *);
uint8_t in_write_sheet(REG, NODES, BYTES_MUT, size_t *);
size_t in_judge(BYTES);
size_t desk_line(BYTES line, REG_MUT, NODES_MUT, OUT, BYTES_MUT sheet, BYTES_MUT reply);
#endif
