// Document 01's example with request 2's last K reply, played through the face as C calls it, line by line; then the calls that
// the desk has no letter for. Every answer must be the printed one, and the sheet its 34 bytes. Status 1, and a line for each
// difference.
#include "padrisk.h"
#include <stdbool.h>
#include <stdio.h>
#include <string.h>

enum { NODE_WORDS = 7, REG = 4 * 32, NODES = 8 * NODE_WORDS, OUT = 4, SHEET = 34 };

static const uint8_t PRINTED[SHEET] = {
    0x4B, 0x49, 0x54, 0x00, 0x01, 0x00, 0x03, 0x05, 0x30, 0x30, 0x37, 0x34, 0x31, 0x03, 0x37, 0x34, 0x31,
    0x04, 0x34, 0x30, 0x31, 0x36, 0x00, 0x02, 0x00, 0x09, 0x01, 0x01, 0x01, 0x00, 0x05, 0x01, 0x02, 0x01};

// No answer has this number.
static const uint32_t NONSENSE = 0xDEADBEEF;

static uint8_t reg[REG];
static uint16_t nodes[NODES];
static uint32_t value;
static int differences;

static void expect(bool holds, const char *what) {
    if (!holds) {
        printf("face: %s\n", what);
        differences++;
    }
}

// The answer of the line just called: its number, and its value, which stood at nonsense before.
static void answered(uint8_t number, uint8_t wanted, uint32_t wanted_value, const char *line) {
    if (number != wanted || value != wanted_value) {
        printf("face: %s answered %u %lu, not %u %lu\n", line, number, (unsigned long)value, wanted, (unsigned long)wanted_value);
        differences++;
    }
    value = NONSENSE;
}

static void registers(const char *num, uint8_t number, uint32_t wanted) {
    answered(padrisk_register_number(reg, REG, (const uint8_t *)num, strlen(num), &value), number, wanted, num);
}

static void inserts(uint16_t tag, const uint16_t *list, size_t words, uint8_t number, uint32_t wanted) {
    answered(padrisk_insert(reg, REG, nodes, NODES, list, words, tag, &value), number, wanted, "K");
}

static bool zeros(void) {
    for (size_t at = 0; at < REG; at++)
        if (reg[at] != 0) return false;
    for (size_t at = 0; at < NODES; at++)
        if (nodes[at] != 0) return false;
    return true;
}

static void empties(void) {
    answered(padrisk_empty(reg, REG, nodes, NODES, &value), 0, 0, "empty");
    expect(zeros(), "emptied tables are not all zeros");
}

static void writes_as(const uint8_t *sheet, uint32_t bytes) {
    uint8_t out[SHEET + 1];
    memset(out, 0xA5, sizeof out);
    answered(padrisk_write_sheet(reg, REG, nodes, NODES, out, sizeof out, &value), 0, bytes, "W");
    expect(memcmp(out, sheet, bytes) == 0, "the sheet is another than the one wanted");
    expect(out[bytes] == 0xA5, "what lies behind the sheet is another");
    answered(padrisk_write_sheet(reg, REG, nodes, NODES, out, bytes - 1, &value), 12, bytes, "W one byte short");
}

static void writes(void) {
    writes_as(PRINTED, SHEET);
}

typedef struct {
    uint8_t begun;
    size_t len;
    uint16_t places[PADRISK_PLACES];
} Bookmark;

static Bookmark mark;

// A bookmark with this in every place.
static void marked(uint8_t begun, size_t len, uint16_t place) {
    mark.begun = begun, mark.len = len;
    for (size_t at = 0; at < PADRISK_PLACES; at++) mark.places[at] = place;
}

// The bookmark is begun at this row, with zeros behind it.
static void stands_at(uint8_t begun, const uint16_t *row, size_t len, const char *what) {
    bool same = mark.begun == begun && mark.len == len;
    for (size_t at = 0; at < PADRISK_PLACES; at++) same = same && mark.places[at] == (at < len ? row[at] : 0);
    expect(same, what);
}

// The bookmark is still the one of `marked`.
static void stays(uint8_t begun, size_t len, uint16_t place, const char *what) {
    bool same = mark.begun == begun && mark.len == len;
    for (size_t at = 0; at < PADRISK_PLACES; at++) same = same && mark.places[at] == place;
    expect(same, what);
}

static void turns_within(const uint16_t *bin, size_t words, uint8_t number, uint32_t wanted) {
    answered(padrisk_turn_within(reg, REG, nodes, NODES, bin, words, &mark.begun, &mark.len, mark.places, &value), number, wanted, "turn within");
}

static void turns_containing(const uint16_t *list, size_t words, uint8_t number, uint32_t wanted) {
    answered(padrisk_turn_containing(reg, REG, nodes, NODES, list, words, &mark.begun, &mark.len, mark.places, &value), number, wanted,
             "turn containing");
}

// Pages of the kits 9, 7 and 5, whose rows are (1), (1, 1, 3) and (2): to the end, once more, and from bookmarks of any kind.
static void turns(void) {
    static const uint16_t bin[] = {1, 1, 2, 4}, one[] = {1, 1}, first[] = {1}, longer[] = {1, 1, 3}, second[] = {2};
    marked(0, 99, 65535);
    turns_containing(one, 0, 0, 9), stands_at(1, first, 1, "the first page is not behind a bookmark not begun");
    turns_containing(one, 0, 0, 7), stands_at(1, longer, 3, "the second page stands elsewhere");
    turns_containing(one, 0, 0, 5), stands_at(1, second, 1, "a shorter row leaves more than zeros behind it");
    turns_containing(one, 0, 0, 0), stands_at(1, second, 1, "the bookmark does not stay at the end");
    marked(0, 99, 65535);
    turns_within(bin, 4, 0, 9), turns_within(bin, 4, 0, 5), stands_at(1, second, 1, "the last page within the bin stands elsewhere");
    turns_within(bin, 4, 0, 0), stands_at(1, second, 1, "the bookmark does not stay at the end of the bin's kits");
    marked(2, 1, 1), turns_containing(one, 2, 0, 7), stands_at(2, longer, 3, "a number other than 0 does not stay");
    marked(0, 7, 3), turns_within(one, 0, 0, 0), stays(0, 7, 3, "a bookmark not begun does not stay where nothing answers");
    marked(1, 0, 9), turns_containing(one, 2, 0, 9), stands_at(1, first, 1, "a begun bookmark of length 0 is not before all kits");
    marked(1, 15, 1), turns_containing(one, 2, 0, 7), stands_at(1, longer, 3, "15 equal places are not taken");
}

// A bookmark at fault: 15, behind a list at fault; every part of it stays.
static void turns_refused(void) {
    static const uint16_t one[] = {1, 1};
    marked(1, 16, 1), turns_containing(one, 0, 15, 0), stays(1, 16, 1, "16 equal places: the bookmark is another");
    marked(255, 65, 1), turns_within(one, 2, 15, 0), stays(255, 65, 1, "longer than 64: the bookmark is another");
    marked(1, 1, 4), turns_containing(one, 0, 15, 0), stays(1, 1, 4, "a place beyond the parts: the bookmark is another");
    marked(1, 1, 0), turns_within(one, 2, 15, 0), stays(1, 1, 0, "a place 0: the bookmark is another");
    marked(1, (size_t)-1, 1), turns_within(one, 1, 4, 1), stays(1, (size_t)-1, 1, "a list at fault: the bookmark is another");
    marked(1, ((size_t)1 << 32) + 1, 1), turns_containing(one, 2, 15, 0);
    stays(1, ((size_t)1 << 32) + 1, 1, "a length above 32 bits: the bookmark is another");
    marked(1, 2, 2), mark.places[1] = 1;
    turns_containing(one, 0, 15, 0);
    expect(mark.begun == 1 && mark.len == 2 && mark.places[0] == 2 && mark.places[1] == 1, "a fall: the bookmark is another");
}

// A card is read, and the nodes stay where it is refused.
static void reads_card(const uint8_t *card, size_t bytes, uint8_t number, uint32_t wanted, const char *line) {
    uint16_t nodes_then[NODES];
    memcpy(nodes_then, nodes, sizeof nodes);
    answered(padrisk_read_card(reg, REG, nodes, NODES, card, bytes, &value), number, wanted, line);
    expect(number == 0 || memcmp(nodes_then, nodes, sizeof nodes) == 0, "a refused card wrote");
}

// Request 5: the card of 741 and 4016, whose numbers stand the other way round than their places; written, struck out, read, and
// refused in each way. The kits are afterwards what they were.
static void cards(void) {
    enum { TAG_AT = 5, COUNT_AT = 7, HEAD = 8, SECOND_AT = 14, CARD = 19 };
    static const uint16_t both[] = {2, 1, 3, 1}, other[] = {1, 1, 2, 1}, falls[] = {3, 1, 2, 1};
    static const uint8_t wanted[CARD] = {0x4B, 0x49, 0x43, 0x00, 0x01, 0x00, 0x0B, 0x02, 0x04, 0x34,
                                         0x30, 0x31, 0x36, 0x01, 0x03, 0x37, 0x34, 0x31, 0x01};
    uint8_t card[CARD], out[CARD + 1];
    memset(out, 0xA5, sizeof out), memcpy(card, wanted, CARD);
    inserts(11, both, 4, 0, 1);
    answered(padrisk_write_card(reg, REG, nodes, NODES, both, 4, out, CARD - 1, &value), 12, CARD, "card one byte short");
    expect(out[0] == 0xA5, "a refused card was written");
    answered(padrisk_write_card(reg, REG, nodes, NODES, both, 4, out, sizeof out, &value), 0, CARD, "card");
    expect(memcmp(out, wanted, CARD) == 0 && out[CARD] == 0xA5, "the card is another than the one wanted");
    answered(padrisk_write_card(reg, REG, nodes, NODES, other, 4, out, sizeof out, &value), 11, 0, "card of a list not held");
    answered(padrisk_write_card(reg, REG, nodes, NODES, falls, 4, out, sizeof out, &value), 4, 2, "card of a list that falls");
    reads_card(wanted, CARD, 9, 11, "read a card of a kit held");
    answered(padrisk_delete(reg, REG, nodes, NODES, both, 4, &value), 0, 11, "D of the card's kit");
    reads_card(wanted, CARD - 1, 13, SECOND_AT, "read a torn card");
    card[SECOND_AT + 1] = 'Q', reads_card(card, CARD, 11, 2, "read a card with an unregistered number");
    memcpy(card, wanted, CARD), card[TAG_AT + 1] = 9, reads_card(card, CARD, 10, 0, "read a card with a tag that is borne");
    card[COUNT_AT] = 0, reads_card(card, HEAD, 19, 0, "read the card of the empty kit");
    reads_card(wanted, CARD, 0, 1, "read a card");
    answered(padrisk_delete(reg, REG, nodes, NODES, both, 4, &value), 0, 11, "D of the kit read");
}

// The lines of the example up to the first W.
static void printed_lines(void) {
    static const uint16_t two_and_one[] = {1, 2, 3, 1}, one[] = {1, 1}, second[] = {2, 1}, third[] = {3, 1}, falls[] = {3, 2, 3, 1};
    static const uint16_t bin[] = {1, 1, 2, 4};
    uint16_t tags[OUT] = {61, 62, 63, 64}, shorts[OUT] = {71, 72, 73, 74};
    registers("00741", 0, 1), registers("741", 0, 2), registers("00741", 9, 1), registers("4016", 0, 3);
    inserts(7, two_and_one, 4, 0, 3), inserts(9, one, 2, 0, 0), inserts(5, second, 2, 0, 1);
    inserts(6, one, 2, 9, 9), inserts(7, third, 2, 10, 0);
    answered(padrisk_all_within(reg, REG, nodes, NODES, bin, 4, tags, OUT, &value), 0, 2, "b");
    expect(tags[0] == 9 && tags[1] == 5 && tags[2] == 63 && tags[3] == 64, "the kits within the bin are others");
    answered(padrisk_any_containing(reg, REG, nodes, NODES, third, 2, &value), 0, 7, "S");
    answered(padrisk_any_within(reg, REG, nodes, NODES, third, 2, &value), 0, 0, "B");
    answered(padrisk_all_containing(reg, REG, nodes, NODES, one, 2, tags, 1, &value), 12, 2, "s without room");
    expect(tags[0] == 9 && tags[1] == 5, "a refused listing wrote");
    answered(padrisk_all_almost(reg, REG, nodes, NODES, bin, 4, 2, tags, OUT, shorts, OUT, &value), 0, 3, "almost");
    expect(tags[0] == 9 && tags[1] == 7 && tags[2] == 5 && tags[3] == 64, "the kits almost filled are others");
    expect(shorts[0] == 0 && shorts[1] == 2 && shorts[2] == 0 && shorts[3] == 74, "their shortfalls are others");
    answered(padrisk_count_beginning(reg, REG, nodes, NODES, one, 2, &value), 0, 2, "count");
    answered(padrisk_count_beginning(reg, REG, nodes, NODES, one, 0, &value), 0, 3, "count of all");
    answered(padrisk_count_beginning(reg, REG, nodes, NODES, third, 2, &value), 0, 0, "count of none");
    turns(), turns_refused(), cards();
    answered(padrisk_find(reg, REG, nodes, NODES, two_and_one, 4, &value), 0, 7, "F");
    answered(padrisk_delete(reg, REG, nodes, NODES, two_and_one, 4, &value), 0, 7, "D");
    answered(padrisk_find(reg, REG, nodes, NODES, two_and_one, 4, &value), 11, 0, "F behind D");
    inserts(8, falls, 4, 4, 2);
}

static void shows(void) {
    size_t start = 1;
    answered(padrisk_look_up(reg, REG, (const uint8_t *)"4016", 4, &value), 0, 3, "look up");
    expect(padrisk_show(reg, REG, 1, &start) == 5 && start == 1 && memcmp(reg + start, "00741", 5) == 0, "place 1 shows another");
    expect(padrisk_show(reg, REG, 3, &start) == 4 && start == 65 && memcmp(reg + start, "4016", 4) == 0, "place 3 shows another");
    expect(padrisk_show(reg, REG, 4, &start) == 0 && start == 0, "place 4 shows something");
    answered(padrisk_show_answer(reg, REG, 4, &value), 11, 0, "show place 4");
}

static uint8_t makers[REG];

// The label of a place is these bytes of the maker's table or of the register, from this byte on.
static void labelled(uint16_t place, uint8_t wanted_theirs, size_t wanted_start, const char *wanted, const char *what) {
    uint8_t theirs = 9;
    size_t start = REG;
    size_t bytes = padrisk_label(reg, REG, makers, REG, place, &theirs, &start);
    bool same = theirs == wanted_theirs && start == wanted_start && bytes == strlen(wanted);
    expect(same && memcmp((theirs ? makers : reg) + start, wanted, bytes) == 0, what);
}

static void label_answered(uint16_t place, size_t makers_bytes, uint8_t number, const char *line) {
    answered(padrisk_label_answer(reg, REG, makers, makers_bytes, place, &value), number, 0, line);
}

// A place's number is set, and all bytes stay where it is refused.
static void sets(uint16_t place, const char *num, uint8_t number, const char *line) {
    uint8_t makers_then[REG];
    memcpy(makers_then, makers, REG);
    answered(padrisk_set_maker(reg, REG, makers, REG, place, (const uint8_t *)num, strlen(num), &value), number, 0, line);
    expect(number == 0 || memcmp(makers_then, makers, REG) == 0, "a refused setting wrote");
}

static void clears(uint16_t place, uint8_t number, const char *line) {
    answered(padrisk_clear_maker(reg, REG, makers, REG, place, &value), number, 0, line);
}

// Request 8: the labels of 00741, 741 and 4016, from a maker's table that is not sound until it is zeroed.
static void labels(void) {
    enum { SLOT = 32 };
    static const uint8_t zero_slots[REG] = {0}, short_slot[SLOT] = {2, 'X', '.'};
    memset(makers, 0xFF, REG);
    label_answered(1, REG, 2, "label beside a table that is not sound"), labelled(1, 0, 0, "", "an unsound table shows something");
    answered(padrisk_zero_makers(reg, REG, makers, REG - SLOT, &value), 1, 0, "zero a table with a slot less");
    expect(makers[0] == 0xFF, "a refused zeroing wrote");
    answered(padrisk_zero_makers(reg, REG, makers, REG, &value), 0, 0, "zero");
    expect(memcmp(makers, zero_slots, REG) == 0, "the zeroed table is not all zeros");
    label_answered(2, REG, 0, "label"), labelled(2, 0, SLOT + 1, "741", "place 2 shows another, with no maker's number set");
    sets(2, "SN74LS00N", 0, "set"), labelled(2, 1, SLOT + 1, "SN74LS00N", "the maker's number is not shown");
    labelled(1, 0, 1, "00741", "place 1 shows another, with a maker's number at 2");
    sets(2, "X.", 0, "set again"), labelled(2, 1, SLOT + 1, "X.", "the maker's number is not the second one");
    expect(memcmp(makers + SLOT, short_slot, SLOT) == 0, "bytes of the longer number are left");
    sets(4, "", 11, "set beyond the parts"), sets(0, "X", 11, "set at place 0"), sets(3, "", 3, "set no number");
    label_answered(4, REG, 11, "label beyond the parts"), labelled(4, 0, 0, "", "a place beyond the parts shows something");
    label_answered(4, REG - SLOT, 1, "label beside a table with a slot less");
    clears(4, 11, "clear beyond the parts"), clears(2, 0, "clear"), clears(2, 0, "clear what is clear");
    labelled(2, 0, SLOT + 1, "741", "place 2 shows another, with its maker's number cleared");
    expect(memcmp(makers, zero_slots, REG) == 0, "the table with all cleared is not all zeros");
}

// Tables that no call can have left.
static void spoils(void) {
    memset(reg, 0xFF, REG), memset(nodes, 0xFF, NODES * sizeof *nodes);
}

static uint32_t announced, third;

// What a salvage just called reported behind its answer: each stood at nonsense before.
static void reported(uint32_t wanted_announced, uint32_t wanted_third, const char *line) {
    if (announced != wanted_announced || third != wanted_third) {
        printf("face: %s reported %lu announced and then %lu, not %lu and %lu\n", line, (unsigned long)announced, (unsigned long)third,
               (unsigned long)wanted_announced, (unsigned long)wanted_third);
        differences++;
    }
    announced = third = NONSENSE;
}

static void salvages(const uint8_t *sheet, size_t bytes, uint32_t kept, uint32_t wanted_third, const char *line) {
    answered(padrisk_salvage(reg, REG, nodes, NODES, sheet, bytes, &announced, &third, &value), 0, kept, line);
    reported(2, wanted_third, line);
}

// Of the printed sheet: 0 and 0, and the refusal's value third.
static void salvage_refused(size_t reg_bytes, size_t node_words, size_t bytes, uint8_t number, uint32_t wanted_third, const char *line) {
    uint8_t reg_then[REG];
    uint16_t nodes_then[NODES];
    memcpy(reg_then, reg, sizeof reg), memcpy(nodes_then, nodes, sizeof nodes);
    answered(padrisk_salvage(reg, reg_bytes, nodes, node_words, PRINTED, bytes, &announced, &third, &value), number, 0, line);
    reported(0, wanted_third, line);
    expect(memcmp(reg_then, reg, sizeof reg) == 0 && memcmp(nodes_then, nodes, sizeof nodes) == 0, "a refused salvage wrote");
}

// Request 12: the printed sheet whole, torn and refused, into tables that need not be sound.
static void rescues(void) {
    enum { COUNT_AT = 22, FIRST_AT = 24, SECOND_AT = 29 };
    uint8_t longer[SHEET + 1] = {0}, first[SECOND_AT], none[FIRST_AT];
    memcpy(longer, PRINTED, SHEET), memcpy(first, PRINTED, SECOND_AT), memcpy(none, PRINTED, FIRST_AT);
    first[COUNT_AT + 1] = 1, none[COUNT_AT + 1] = 0;
    spoils(), salvages(PRINTED, SHEET, 2, SHEET, "salvage of a whole sheet"), writes();
    spoils(), salvages(longer, SHEET + 1, 2, SHEET, "salvage with a byte behind the end"), writes();
    spoils(), salvages(PRINTED, FIRST_AT, 0, FIRST_AT, "salvage cut behind the kit count"), writes_as(none, FIRST_AT);
    spoils(), salvages(PRINTED, SHEET - 1, 1, SECOND_AT, "salvage cut in the last record"), writes_as(first, SECOND_AT);
    salvage_refused(REG - 1, NODES, SHEET, 1, 0, "salvage into a register of a wrong length");
    salvage_refused(REG, NODES - 1, FIRST_AT - 1, 1, 0, "salvage into nodes of a wrong length");
    salvage_refused(REG, NODES, FIRST_AT - 1, 13, COUNT_AT, "salvage cut in the kit count");
    salvage_refused(REG / 2, NODE_WORDS, FIRST_AT - 1, 13, COUNT_AT, "salvage cut in the kit count, without room");
    salvage_refused(REG / 2, NODES, FIRST_AT, 12, 3, "salvage with two slots");
    salvage_refused(REG, 2 * NODE_WORDS, SHEET, 12, 3, "salvage with two nodes");
    writes_as(first, SECOND_AT);
}

int main(void) {
    spoils();
    empties();
    printed_lines(), writes(), shows(), labels();
    empties();
    answered(padrisk_read_sheet(reg, REG, nodes, NODES, PRINTED, SHEET, &value), 0, 2, "read");
    writes();
    answered(padrisk_read_sheet(reg, REG, nodes, NODES, PRINTED, SHEET - 1, &value), 13, 29, "read a torn sheet");
    writes();
    rescues();
    printf("face: %d differences\n", differences);
    return differences != 0;
}
