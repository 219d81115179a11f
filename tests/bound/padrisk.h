// The public calls as C sees them: crates/face_c, built by `rt lib` there. A slice is a pointer that is not null and then how
// many elements it has; what is lent to one call must not overlap unless both are const. The answer's number is returned, 0 for
// done, and its value stands in *value, 0 where documents 01 and 02 state none.
#ifndef PADRISK_H
#define PADRISK_H
#include <stddef.h>
#include <stdint.h>

uint8_t padrisk_empty(uint8_t *reg, size_t reg_bytes, uint16_t *nodes, size_t node_words, uint32_t *value);

uint8_t padrisk_register_number(uint8_t *reg, size_t reg_bytes, const uint8_t *num, size_t num_bytes, uint32_t *value);
uint8_t padrisk_look_up(const uint8_t *reg, size_t reg_bytes, const uint8_t *num, size_t num_bytes, uint32_t *value);

// The number at a place: reg[*start] and so many bytes as are returned; where it is refused, none. Why, the second call says.
size_t padrisk_show(const uint8_t *reg, size_t reg_bytes, uint16_t place, size_t *start);
uint8_t padrisk_show_answer(const uint8_t *reg, size_t reg_bytes, uint16_t place, uint32_t *value);

// The maker's table, which has as many slots as the register, zeroed whole; and the maker's number of a place set, and cleared.
uint8_t padrisk_zero_makers(const uint8_t *reg, size_t reg_bytes, uint8_t *makers, size_t makers_bytes, uint32_t *value);
uint8_t padrisk_set_maker(const uint8_t *reg, size_t reg_bytes, uint8_t *makers, size_t makers_bytes, uint16_t place,
                          const uint8_t *num, size_t num_bytes, uint32_t *value);
uint8_t padrisk_clear_maker(const uint8_t *reg, size_t reg_bytes, uint8_t *makers, size_t makers_bytes, uint16_t place,
                            uint32_t *value);

// The label of a place, the maker's number if set and otherwise ours: so many bytes as are returned, from makers[*start] on where
// *theirs is 1, and from reg[*start] on where it is 0; where it is refused, none. Why, the second call says.
size_t padrisk_label(const uint8_t *reg, size_t reg_bytes, const uint8_t *makers, size_t makers_bytes, uint16_t place,
                     uint8_t *theirs, size_t *start);
uint8_t padrisk_label_answer(const uint8_t *reg, size_t reg_bytes, const uint8_t *makers, size_t makers_bytes, uint16_t place,
                             uint32_t *value);

uint8_t padrisk_insert(const uint8_t *reg, size_t reg_bytes, uint16_t *nodes, size_t node_words, const uint16_t *list,
                       size_t list_words, uint16_t tag, uint32_t *value);
uint8_t padrisk_find(const uint8_t *reg, size_t reg_bytes, const uint16_t *nodes, size_t node_words, const uint16_t *list,
                     size_t list_words, uint32_t *value);
uint8_t padrisk_delete(const uint8_t *reg, size_t reg_bytes, uint16_t *nodes, size_t node_words, const uint16_t *list,
                       size_t list_words, uint32_t *value);

// How many kits begin with the units of a list: of the empty one, all that have a unit.
uint8_t padrisk_count_beginning(const uint8_t *reg, size_t reg_bytes, const uint16_t *nodes, size_t node_words,
                                const uint16_t *list, size_t list_words, uint32_t *value);

uint8_t padrisk_any_within(const uint8_t *reg, size_t reg_bytes, const uint16_t *nodes, size_t node_words, const uint16_t *bin,
                           size_t bin_words, uint32_t *value);
uint8_t padrisk_any_containing(const uint8_t *reg, size_t reg_bytes, const uint16_t *nodes, size_t node_words,
                               const uint16_t *list, size_t list_words, uint32_t *value);
uint8_t padrisk_all_within(const uint8_t *reg, size_t reg_bytes, const uint16_t *nodes, size_t node_words, const uint16_t *bin,
                           size_t bin_words, uint16_t *out, size_t out_words, uint32_t *value);
uint8_t padrisk_all_containing(const uint8_t *reg, size_t reg_bytes, const uint16_t *nodes, size_t node_words,
                               const uint16_t *list, size_t list_words, uint16_t *out, size_t out_words, uint32_t *value);
uint8_t padrisk_all_almost(const uint8_t *reg, size_t reg_bytes, const uint16_t *nodes, size_t node_words, const uint16_t *bin,
                           size_t bin_words, uint16_t d, uint16_t *tags, size_t tag_words, uint16_t *shorts, size_t short_words,
                           uint32_t *value);

// The next page of a listing: the tag of the first kit after the bookmark's row, or 0 where none is left. The bookmark is lent in
// parts and moved on in place: *begun is 0 before the first page (any other number is begun, and stays), *len how many of the 64
// places are the row of the last kit shown. Where nothing is shown, and where the call is refused, all three stay as they are.
enum { PADRISK_PLACES = 64 };
uint8_t padrisk_turn_within(const uint8_t *reg, size_t reg_bytes, const uint16_t *nodes, size_t node_words, const uint16_t *bin,
                            size_t bin_words, uint8_t *begun, size_t *len, uint16_t *places, uint32_t *value);
uint8_t padrisk_turn_containing(const uint8_t *reg, size_t reg_bytes, const uint16_t *nodes, size_t node_words,
                                const uint16_t *list, size_t list_words, uint8_t *begun, size_t *len, uint16_t *places,
                                uint32_t *value);

// The card of a held list: its bytes at the start of the output. And a card read into the nodes: the nodes newly taken.
uint8_t padrisk_write_card(const uint8_t *reg, size_t reg_bytes, const uint16_t *nodes, size_t node_words, const uint16_t *list,
                           size_t list_words, uint8_t *out, size_t out_bytes, uint32_t *value);
uint8_t padrisk_read_card(const uint8_t *reg, size_t reg_bytes, uint16_t *nodes, size_t node_words, const uint8_t *card,
                          size_t card_bytes, uint32_t *value);

uint8_t padrisk_write_sheet(const uint8_t *reg, size_t reg_bytes, const uint16_t *nodes, size_t node_words, uint8_t *out,
                            size_t out_bytes, uint32_t *value);
uint8_t padrisk_read_sheet(uint8_t *reg, size_t reg_bytes, uint16_t *nodes, size_t node_words, const uint8_t *sheet,
                           size_t sheet_bytes, uint32_t *value);

// Reads what is left of a torn sheet: the kits kept. The kits announced stand in *announced, and in *third the offset of the first
// fault or else the sheet's length. Refused, *value and *announced are 0, and the refusal's value stands in *third.
uint8_t padrisk_salvage(uint8_t *reg, size_t reg_bytes, uint16_t *nodes, size_t node_words, const uint8_t *sheet,
                        size_t sheet_bytes, uint32_t *announced, uint32_t *third, uint32_t *value);
#endif
