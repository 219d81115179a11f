"""Requests on tables that have an empty kit, a tag at the root, and on sheets that have one.

Such tables are from before request 14: no call makes one, and every call may be lent one.
"""

from itertools import product

from second import calls, index, nodes, sheet
from second.kits import lines_of, words_of
from second.lent import Request
from second.nodes import ROOT
from second.register import filled
from second.sheet import BYTE_PLACES

from .index_requests import (
    ALL_LETTERS, LIST_LETTERS, QUESTION_LETTERS, TABLE_LETTERS, lent_beside, pairs_of_tables)
from .register_requests import shortest_numbers
from .sheet_requests import OLD_BYTES, THREE, old_sheet, reading
from .tables import parts_register, table

EMPTY_TAG = 7
EMPTY = (), EMPTY_TAG
FOUR_KITS = [((1,), 4), ((1, 2), 9), ((2, 2), 5), ((3,), 65535)]
# The nodes that the four take with the root.
FULL = 6

# Tables beside three parts by name. The last two have no empty kit any more, or never had one.
TABLES = {
    "an empty kit alone, no node but the root": table(1, EMPTY),
    "an empty kit alone": table(4, EMPTY),
    "an empty kit entered first": table(FULL + 2, EMPTY, *FOUR_KITS),
    "an empty kit entered last": table(FULL + 2, *FOUR_KITS[::-1], EMPTY),
    "an empty kit and no free node": table(FULL, *FOUR_KITS, EMPTY),
    "an empty kit of tag 65,535": table(FULL, ((), 65535), *FOUR_KITS[:-1]),
    "an empty kit above one of 15 units": table(17, ((3,) * 15, 4), EMPTY),
    "an empty kit struck out": index.deleted(table(FULL + 2, *FOUR_KITS, EMPTY), ()),
    "no empty kit": table(FULL + 2, *FOUR_KITS),
}

# Lists of kits that are held, of others and of bins; and some that are at fault.
LISTS = [[], [1, 1], [1, 1, 2, 1], [2, 1], [2, 2], [3, 1], [3, 15], [1, 15, 2, 15, 3, 15]]
FAULTY_LISTS = [[1], [0, 1], [4, 1], [1, 0], [1, 16], [2, 1, 1, 1]]

# Tags to insert with: none, the empty kit's, another kit's, a new one, and the last.
TAGS = [0, EMPTY_TAG, 4, 8, 65535]

# The most that a kit may lack, and a new tag; other calls do not use argument A.
ARGUMENTS = {"a": (0, 1, 15, 65), "k": (8,)}

# Kits on an old sheet of three parts.
OLD_KITS = [{(): 7}, {(): 7, (1,): 9}, {(): 65535, (1,): 9, (2,): 5},
            {(): 1, (1, 1, 3): 2, (2,): 256, (2, 2): 3}]


def limits():
    """Tables with an empty kit for every call, 19 in its order, and old sheets."""
    yield from insertions()
    yield from lists_given()
    yield from outputs()
    yield from counted_without()
    yield from emptied_or_read()
    yield from tables_before_19()
    yield from written_rooms()
    yield from old_sheets()


def insertions():
    """Every tag with lists of no line, of one or more, and at fault, into each table."""
    for words, tag, listed in product(TABLES.values(), TAGS, LISTS[:6] + FAULTY_LISTS):
        yield Request("k", tag, R=parts_register(3), N=words, L=listed,
                      note="an empty kit, insert %s" % listed)
    # A tag that was the empty kit's is free once that is struck out.
    freed = TABLES["an empty kit struck out"]
    for listed in ([], [2, 1], [3, 2]):
        yield Request("k", EMPTY_TAG, R=parts_register(3), N=freed, L=listed,
                      note="insert %s with an empty kit's tag" % listed)


def lists_given():
    """Every list found, struck out and asked for in each table; d from nothing to all."""
    for words, listed, letter in product(TABLES.values(), LISTS + FAULTY_LISTS, LIST_LETTERS):
        for a in ARGUMENTS.get(letter, (0,)):
            yield Request(letter, a, R=parts_register(3), N=words, L=listed,
                          **lent_beside(letter), note="an empty kit, list %s" % listed)


def outputs():
    """Listings into an output exactly full, one short, empty, and with room behind."""
    for words, room, listed, letter in product(TABLES.values(), range(6), LISTS, "WCa"):
        yield Request(letter, 2, R=parts_register(3), N=words, L=listed,
                      **lent_beside(letter, room), note="an empty kit, into %d places" % room)


def counted_without():
    """The root's word without its own tag, which it must include, and with it twice."""
    for change, letter in product((-1, 1), TABLE_LETTERS):
        row = nodes.nodes_of(TABLES["an empty kit entered first"])
        row[ROOT] = row[ROOT]._replace(tagged=row[ROOT].tagged + change)
        yield Request(letter, 8, R=parts_register(3), N=nodes.words_of(row), **lent_beside(letter),
                      O=bytes(60), note="the root's word changed by %d" % change)


def emptied_or_read():
    """Tables with an empty kit emptied, and sheets with and without one read into them."""
    for note, words in TABLES.items():
        yield Request("e", R=parts_register(3), N=words, note="emptied, " + note)
        for kits in ({}, {(1,): 9}, {(): 7}, {(): 3, (1,): 7}):
            yield Request("r", R=parts_register(3), N=words, I=old_sheet(THREE, kits),
                          note="kits %s read over others" % kits)


def tables_before_19():
    """1 and 2 for each table before 19, and for every other call on the empty list."""
    for register, words, note in pairs_of_tables():
        for letter in ALL_LETTERS:
            yield Request(letter, 8, R=register, N=words, **lent_beside(letter), O=bytes(60),
                          note="the empty list, " + note)


def written_rooms():
    """Sheets of each table into an output exactly full, one short, empty, and with room behind."""
    register = filled(THREE, 4)
    for note, words in TABLES.items():
        size = len(sheet.written(THREE, nodes.held_kits(words)))
        for room in (0, size - 1, size, size + 1, size + 3, size + 30):
            yield Request("s", R=register, N=words, O=OLD_BYTES[:room],
                          note="write a sheet, " + note)


def old_sheets():
    """Old sheets read with nodes just enough and one too few, cut short, and with more behind.

    The tables that are read are asked for the empty kit, whose tag is free, and written again.
    """
    for kits in OLD_KITS:
        data, note = old_sheet(THREE, kits), "an old sheet of %s" % kits
        needed = sheet.nodes_needed(kits.items())
        for node_count in sorted({1, max(1, needed - 1), needed, needed + 2}):
            yield reading(data, 3, node_count, note)
        yield reading(data, 2, needed, note + ", a slot too few")
        for length in range(len(data)):
            yield reading(data[:length], 3, needed, note + ", cut short")
        yield reading(data + b"\0", 3, needed, note + ", more behind")
        came = calls.answer(reading(data, 3, needed + 2)).blocks
        lent = {"R": came["R"], "N": came["N"], "note": note + " was read"}
        for letter, listed in product("fd", ([], *map(list_of, kits))):
            yield Request(letter, L=listed, **lent)
        for letter in QUESTION_LETTERS:
            yield Request(letter, **lent_beside(letter), **lent)
        for listed in ([], [3, 2]):
            yield Request("k", kits[()], L=listed, **lent)
        for room in (len(data) - 4, len(data) - 3, len(data)):
            yield Request("s", O=OLD_BYTES[:room], **lent)


def list_of(row):
    """The list whose units are this row."""
    return words_of(lines_of(row))


def sweeps():
    """All kits of up to two units of two parts, with an empty one and without, and every list of
    up to three of each, for every question and every small d."""
    rows = [(1,), (1, 1), (1, 2), (2,), (2, 2)]
    every = [((), 90), *((row, 20 - at) for at, row in enumerate(rows))]
    for kept in (every, every[1:], every[:1], []):
        words = table(7, *kept)
        for amounts in product(range(4), repeat=2):
            listed = words_of(line for line in zip((1, 2), amounts) if line[1] > 0)
            for letter in QUESTION_LETTERS:
                for d in range(4) if letter == "a" else (0,):
                    yield Request(letter, d, R=parts_register(2), N=words, L=listed,
                                  **lent_beside(letter, 7),
                                  note="%d kits, list %s" % (len(kept), listed))


def large():
    """Sheets of both versions around 255 parts with an empty kit, read, and their tables written.

    The record of an empty kit has three bytes in both.
    """
    for parts in (BYTE_PLACES, BYTE_PLACES + 1):
        numbers = shortest_numbers(parts)
        for kits in ({(): 5}, {(): 5, (1,): 9, (parts,): 6}, {(): 258, (255,): 513}):
            data, needed = old_sheet(numbers, kits), sheet.nodes_needed(kits.items())
            asked = reading(data, parts, needed, "%d parts and an empty kit" % parts)
            yield asked
            if needed > 1:
                yield reading(data, parts, needed - 1, "%d parts, a node too few" % parts)
            came = calls.answer(asked).blocks
            for room in (len(data) - 4, len(data) - 3, len(data)):
                yield Request("s", R=came["R"], N=came["N"], O=bytes(room),
                              note="%d parts written without an empty kit" % parts)
        twice = old_sheet(numbers, {(): 5, (parts,): 5})
        yield reading(twice, parts, 2, "an empty kit's tag twice, %d parts" % parts)
