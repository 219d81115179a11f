"""Requests for how many kits begin with a list: every limit, small lists, and ones by chance."""

from itertools import product

from second import index, nodes
from second.kits import MOST_UNITS, beginnings, lines_of, lines_of_words, units, words_of
from second.lent import Request
from second.sheet import BYTE_PLACES

from .index_requests import LONGEST_LIST, TOO_LONG_LIST, pairs_of_tables, some_list
from .short_cases import COUNT_CASES
from .tables import (
    LARGE_KINDS, Stock, example_words, large_table, parts_register, some_tables, table)

# Branches, shared beginnings, the empty kit, and beginnings that are no kits; tags in no order.
TEN_KITS = [((), 90), ((1,), 3), ((1, 1, 2), 65535), ((1, 1, 2, 3), 1), ((1, 1, 3), 40),
            ((2, 2), 8), ((2, 2, 2, 2), 256), ((2, 4), 2), ((4,), 7), ((4, 4, 4), 5)]
PARTS = 4

LONGEST_ROW = units(lines_of_words(LONGEST_LIST))
ABOVE_64 = [TOO_LONG_LIST, [1, 15, 2, 15, 3, 15, 4, 15, 5, 15]]

# Lists that are at fault, by 4, 5 and 6, and ones of more than 64 units.
FAULTY_LISTS = [[1], [0, 1], [2, 1, 1, 1], [1, 1, 1, 1], [6, 1], [1, 0], [1, 16], [1, 1, 2, 1, 3],
                TOO_LONG_LIST + [6], TOO_LONG_LIST + [6, 1], TOO_LONG_LIST[:-1] + [16],
                TOO_LONG_LIST + [5, 1]]


def counting(row, words, note, parts=PARTS):
    """A request for this row as a beginning."""
    return Request("#", R=parts_register(parts), N=words, L=words_of(lines_of(row)), note=note)


def limits():
    """Counts of 0, of 1, of some and of all kits; lists of 64 and of 65 units; 1 to 6 in order."""
    yield from worked_cases()
    yield from around_beginnings(TEN_KITS)
    yield from after_deletions()
    yield from sixty_four_units()
    yield from in_order()


def worked_cases():
    """The cases worked out by hand."""
    for held, row, _ in COUNT_CASES:
        words = table(9, *((kit, 30 - at) for at, kit in enumerate(held)))
        yield counting(row, words, "%s held, beginning with %s" % (held, row))


def around(rows, parts):
    """The beginnings of these rows, nothing too, and each with one unit more of every part."""
    begun = beginnings(rows) | {()}
    longer = {row + (place,) for row in begun for place in range(max((1, *row)), parts + 1)}
    return sorted(begun | longer)


def around_beginnings(kits):
    """Every beginning of a kit, with one unit more too; nodes in the order of kits and reversed."""
    for order in (kits, kits[::-1]):
        words = table(20, *order)
        for row in around(dict(kits), PARTS):
            yield counting(row, words, "row %s" % (row,))


def after_deletions():
    """Beginnings of a kit that was struck out or entered again, and of one beside freed nodes."""
    words = table(20, *TEN_KITS)
    for struck, tag in TEN_KITS:
        less = index.deleted(words, struck)
        for row in sorted(beginnings([struck]) | {()}):
            yield counting(row, less, "row %s after %s was struck out" % (row, struck))
            yield counting(row, index.inserted(less, struck, tag),
                           "row %s after %s was entered again" % (row, struck))
    for row in around(nodes.held_kits(example_words()), 3):
        yield counting(row, example_words(), "row %s beside freed nodes" % (row,), parts=3)


def sixty_four_units():
    """A kit of 64 units, one less, and none: lists of 63, 64, 65 and more units, and of others."""
    tables = [table(66), table(66, (LONGEST_ROW, 7)), table(66, (LONGEST_ROW[:-1], 8)),
              table(66, (LONGEST_ROW, 7), (LONGEST_ROW[:-1], 8), ((), 9))]
    lists = [[], [1, 1], [1, 15], [1, 14], [2, 1], LONGEST_LIST, LONGEST_LIST[:-1] + [3],
             LONGEST_LIST[:-3] + [14, 5, 4], *ABOVE_64]
    for words, listed in product(tables, lists):
        yield Request("#", R=parts_register(5), N=words, L=listed,
                      note="%d units" % sum(listed[1::2]))


def in_order():
    """1 register, 1 nodes, 2 register, 2 nodes, and behind them a list at fault."""
    for register, words, note in pairs_of_tables():
        for listed in ([], [1, 1], [1], [0, 1], [3, 1], [1, 16]):
            yield Request("#", R=register, N=words, L=listed, note=note)
    for listed in FAULTY_LISTS:
        yield Request("#", R=parts_register(5), N=table(5, ((1,), 4), ((), 9)), L=listed,
                      note="list %s" % listed)
    for parts, listed in product((0, 1), ([], [1, 1], [1, 2], [2, 1])):
        yield Request("#", R=parts_register(parts, 1), N=table(1, ((), 65535)), L=listed,
                      note="%d parts and the empty kit, list %s" % (parts, listed))


def sweeps():
    """Every small list beside all small kits and beside half of them; every length of a path."""
    places = range(1, 4)
    rows = sorted({tuple(sorted(row))
                   for count in range(4) for row in product(places, repeat=count)})
    for kept in (rows, rows[::2], rows[1::2]):
        words = table(len(rows) + 1, *((row, 200 - at) for at, row in enumerate(kept)))
        for amounts in product(range(4), repeat=3):
            row = units(zip(places, amounts))
            yield counting(row, words, "%d small kits, row %s" % (len(kept), row), parts=3)
    for step in (1, 3):
        words = table(66, *((LONGEST_ROW[:length], 100 + length)
                            for length in range(0, MOST_UNITS + 1, step)))
        for length in range(MOST_UNITS + 1):
            yield counting(LONGEST_ROW[:length], words, "%d units of a path" % length, parts=5)


def large():
    """Tables of 4,096 nodes: all kits, all with one beginning, one kit, and none."""
    full = parts_register(BYTE_PLACES, BYTE_PLACES)
    for kind in LARGE_KINDS:
        words = large_table(kind)
        rows = sorted(nodes.held_kits(words))
        asked = {row[:length] for row in (rows[0], rows[1], rows[len(rows) // 2], rows[-1])
                 for length in (0, 1, 2, len(row) // 2, len(row))}
        asked |= {row + (BYTE_PLACES,) for row in asked if row.count(BYTE_PLACES) < 15}
        for row in sorted(asked):
            yield Request("#", R=full, N=words, L=words_of(lines_of(row)),
                          note="4096 nodes, %s, beginning with %d units" % (kind, len(row)))


def some_beginning(chance, kits, parts):
    """A list: mostly a beginning of a held kit, sometimes with a unit more; or any list."""
    rows = sorted(kits)
    if not rows or chance.one_in(3):
        return some_list(chance, kits, parts)
    row = chance.pick(rows)
    row = row[:chance.below(len(row) + 1)]
    if parts and chance.one_in(4):
        row += (chance.between(max((1, *row)), parts),)
    return words_of(lines_of(row))


class Maker:
    """Makes requests by chance on catalogues that it keeps."""

    def __init__(self, chance):
        self.chance = chance
        self.stock = Stock(chance)

    def by_chance(self, letter):
        """A request for this call."""
        register, words, kits, parts = some_tables(self.chance, self.stock)
        return Request(letter, R=register, N=words, L=some_beginning(self.chance, kits, parts))
