"""Requests that turn the pages of a listing: every limit of a bookmark, and ones by chance.

A letter says whether the kits within a bin or those containing a list are shown; block K is the
bookmark.
"""

from itertools import product

from second import calls, index, nodes
from second.kits import MOST_QUANTITY, MOST_UNITS, lines_of, words_of
from second.lent import Request
from second.register import MOST_SLOTS
from second.sheet import BYTE_PLACES

from .bookmarks import (
    FAULTY_ROWS, GOOD_ROWS, JUNK, LONGEST_ROW, NOTHING, PAGE_LETTERS, TOO_LONG, begun, begun_at,
    faulty_bookmarks, not_begun, some_bookmark)
from .count_requests import FAULTY_LISTS, PARTS, TEN_KITS, around
from .index_requests import pairs_of_tables, some_list
from .many_parts import AROUND_BYTE, AROUND_MOST, edge_rows, sibling_words
from .short_cases import PAGE_CASES, WITHIN
from .tables import (
    LARGE_KINDS, Stock, example_words, large_table, parts_register, some_tables, table)

# Lists beside the ten kits: nothing and everything, and ones that some of the kits answer.
LISTS = [[], [1, 15, 2, 15, 3, 15, 4, 15], [1, 1], [1, 2, 2, 2, 3, 1], [2, 2, 4, 3], [3, 1], [4, 2]]

# Tables with an empty kit: alone, before others and behind them.
EMPTY_KIT_TABLES = [table(1, ((), 7)), table(6, ((), 7), ((1, 2), 9), ((3,), 5)),
                    table(6, ((3,), 5), ((1,), 65535), ((), 7))]

# The row of a page that kits come and go around.
TURNED_AT = (2, 2)


def turning(letter, listed, bookmark, note, words=None, parts=PARTS, slots=None):
    """A request on these tables, or on the ten kits."""
    return Request(letter, R=parts_register(parts, slots), N=table(20, *TEN_KITS)
                   if words is None else words, L=listed, K=bookmark, note=note)


def pages_of(letter, listed, bookmark, note, **tables):
    """Requests that page to the end of a listing, and once more."""
    ends = 0
    while ends < 2:
        asked = turning(letter, listed, bookmark, note, **tables)
        yield asked
        came = calls.answer(asked)
        bookmark = came.blocks["K"]
        ends += came.value == 0


def limits():
    """Listings paged through, bookmarks at every row, junk, and every limit of 15."""
    yield from worked_cases()
    yield from paged_through()
    yield from rows_around()
    yield from changed_between()
    yield from junk()
    yield from longest_rows()
    yield from beside_empty_kit()
    yield from at_fault()
    yield from in_order()


def worked_cases():
    """The cases worked out by hand; tags fall while the rows rise."""
    for held, question, row, begun_row, _ in PAGE_CASES:
        words = table(9, *((kit, 30 - at) for at, kit in enumerate(held)))
        yield turning("g" if question == WITHIN else "G", words_of(lines_of(row)),
                      not_begun() if begun_row is None else begun_at(begun_row),
                      "%s held, %s %s, page behind %s" % (held, question, row, begun_row),
                      words=words, parts=5)


def paged_through():
    """Listings from their first page to the end and once more, nodes in two orders."""
    for letter, listed, order in product(PAGE_LETTERS, LISTS, (TEN_KITS, TEN_KITS[::-1])):
        yield from pages_of(letter, listed, not_begun(), "paged through by %s" % listed,
                            words=table(20, *order))
    for letter, listed in product(PAGE_LETTERS, ([], [1, 2, 2, 1, 3, 2])):
        yield from pages_of(letter, listed, not_begun(0, NOTHING), "paged beside freed nodes",
                            words=example_words(), parts=3)


def rows_around():
    """Bookmarks begun at kits, at their beginnings, and at all of these with a unit more."""
    for row, letter, listed in product(around(dict(TEN_KITS), PARTS), PAGE_LETTERS, LISTS[:3]):
        yield turning(letter, listed, begun_at(row), "begun at %s" % (row,))


def changes(row):
    """The ten kits with one struck out or entered before this row, at it or behind it."""
    words, new_tag = table(20, *TEN_KITS), 77
    yield words, "nothing changed"
    for kit, _ in TEN_KITS:
        yield index.deleted(words, kit), "%s struck out" % (kit,)
    for kit in around(dict(TEN_KITS), PARTS):
        if kit and kit not in dict(TEN_KITS):
            yield index.inserted(words, kit, new_tag), "%s entered" % (kit,)
    less = index.deleted(words, row)
    yield index.inserted(less, row, new_tag), "%s struck out and entered again" % (row,)


def changed_between():
    """A page turned where kits were struck out or entered since the one before it."""
    for words, note in changes(TURNED_AT):
        for letter, listed in (("g", LISTS[1]), ("G", LISTS[0])):
            yield turning(letter, listed, begun_at(TURNED_AT), note, words=words)


def junk():
    """Junk in a bookmark not begun and behind a row: where a kit is shown, and where none is."""
    lists = {"g": [LISTS[1], [3, 15]], "G": [[], [3, 2]]}
    for letter in PAGE_LETTERS:
        for listed in lists[letter]:
            for length in (0, 1, 3, 64, 65, 66, 256, 65535):
                for places in (NOTHING, JUNK, begun_at((4, 4, 4))[2:]):
                    yield turning(letter, listed, not_begun(length, places), "junk not begun")
            for row in ((), (1,), (1, 1, 2, 3), (2, 3), (4,), (4, 4, 4), (4, 4, 4, 4)):
                for behind in (JUNK, [4] * MOST_UNITS, [65535] * MOST_UNITS, [1] * MOST_UNITS):
                    yield turning(letter, listed, begun_at(row, behind), "junk behind a row")


def longest_rows():
    """Kits of 63 and 64 units shown, and bookmarks begun at rows as long; 15 equal places."""
    words = table(82, (LONGEST_ROW, 7), (LONGEST_ROW[:-1], 8), ((2,) * 15, 9), ((5,), 10))
    lists = {"g": [1, 15, 2, 15, 3, 15, 4, 15, 5, 15], "G": []}
    for letter in PAGE_LETTERS:
        yield from pages_of(letter, lists[letter], not_begun(), "64 units", words=words, parts=5)
        for row in GOOD_ROWS:
            yield turning(letter, lists[letter], begun_at(row, JUNK), "%d places" % len(row),
                          words=words, parts=5)


def beside_empty_kit():
    """An empty kit: alone, and beside others; not begun, and begun at the empty row."""
    for words, letter, listed in product(EMPTY_KIT_TABLES, PAGE_LETTERS,
                                         ([], [1, 1], [1, 1, 2, 1, 3, 1], [2, 15])):
        for bookmark in (not_begun(), not_begun(0, NOTHING), begun_at(()), begun_at((), JUNK),
                         begun_at((1,)), begun_at((3,))):
            yield turning(letter, listed, bookmark, "an empty kit", words=words, parts=3)


def at_fault():
    """Bookmarks at fault in one thing and in two, and good ones; more slots than parts."""
    words = table(9, ((1,), 4), ((1, 5), 9), ((5,), 65535))
    for bookmark, note in faulty_bookmarks():
        for letter, listed in (("g", [1, 15, 5, 15]), ("G", [])):
            yield turning(letter, listed, bookmark, note, words=words, parts=5, slots=8)
    # What is wrong stands behind the length, or in its last place.
    for what, rows in FAULTY_ROWS.items():
        for row in rows[:3]:
            for length, letter in product(range(len(row) + 1), PAGE_LETTERS):
                yield turning(letter, [], begun(length, row), "%s, length %d" % (what, length),
                              words=words, parts=5, slots=8)
    for row, letter in product(GOOD_ROWS, PAGE_LETTERS):
        yield turning(letter, [], begun_at(row), "a good row of %d places" % len(row),
                      words=words, parts=5)
    # Beside no parts a row has no place at all.
    for row, letter, slots in product(((), (1,), (0,)), PAGE_LETTERS, (1, 2)):
        yield turning(letter, [], begun_at(row), "no parts, begun at %s" % (row,),
                      words=table(2), parts=0, slots=slots)


def in_order():
    """1 and 2 for each table, then a list at fault, then 15; the bookmark is at fault or good."""
    bookmarks = [begun(65, LONGEST_ROW), begun_at((2, 1)), begun_at(()), not_begun()]
    for register, words, note in pairs_of_tables():
        for letter, listed, bookmark in product(PAGE_LETTERS, ([], [1], [3, 1]), bookmarks):
            yield Request(letter, R=register, N=words, L=listed, K=bookmark, note=note)
    for listed, letter, bookmark in product(FAULTY_LISTS, PAGE_LETTERS, bookmarks):
        yield turning(letter, listed, bookmark, "list %s and any bookmark" % listed, parts=5)


def sweeps():
    """Every small row beside every small list, every change, every length, every place."""
    yield from small_rows()
    yield from every_change()
    yield from every_length()
    yield from every_place()


def small_rows():
    """Bookmarks at all rows of up to three units of three parts, beside all of them and half."""
    places = range(1, 4)
    rows = sorted({tuple(sorted(row))
                   for count in range(4) for row in product(places, repeat=count)})
    lists = [words_of(line for line in zip(places, amounts) if line[1] > 0)
             for amounts in product(range(3), repeat=3)]
    for kept in (rows, rows[1::2]):
        words = table(len(rows) + 1, *((row, 200 - at) for at, row in enumerate(kept)))
        for row, listed, letter in product(rows, lists, PAGE_LETTERS):
            yield turning(letter, listed, begun_at(row), "%d small kits, begun at %s" % (
                len(kept), row), words=words, parts=3)


def every_change():
    """A kit struck out or entered behind each page of a listing."""
    for row in [kit for kit, _ in TEN_KITS if kit]:
        for words, note in changes(row):
            for letter, listed in (("g", LISTS[1]), ("G", LISTS[0])):
                yield turning(letter, listed, begun_at(row), note, words=words)


def every_length():
    """Each length of a bookmark whose 64 places are good, and of some that are not."""
    words = table(80, *((LONGEST_ROW[:length], 100 + length) for length in range(1, 65, 7)))
    for length, letter in product([*range(72), *TOO_LONG], PAGE_LETTERS):
        for places in (LONGEST_ROW, NOTHING, (1,) * MOST_UNITS, (5,) * MOST_UNITS):
            yield turning(letter, [1, 15, 2, 15, 3, 15, 4, 15, 5, 15] if letter == "g" else [],
                          begun(length, places), "length %d" % length, words=words, parts=5)


def every_place():
    """Each place of a row of 64, and of a short one, set to many values; equal places counted."""
    words = table(66, (LONGEST_ROW, 7), ((5,), 9))
    letters = {at: PAGE_LETTERS[at % 2] for at in range(MOST_UNITS)}
    for at, row in [*((at, LONGEST_ROW) for at in letters), *((at, (2, 2, 4)) for at in range(3))]:
        for place in (0, 1, 2, 3, 4, 5, 6, 256, 65535):
            changed = row[:at] + (place,) + row[at + 1:]
            yield turning(letters[at], [], begun_at(changed), "place %d" % at, words=words, parts=5)
    for times, place, letter in product(range(12, 20), (1, 3, 5), PAGE_LETTERS):
        for before, behind in (((), ()), ((1,), ()), ((), (5,)), ((1, 2), (4, 5))):
            row = tuple(sorted((*before, *(place,) * times, *behind)))
            yield turning(letter, [], begun_at(row), "%d equal places" % times, words=words,
                          parts=5)


def large():
    """Pages of tables of 4,096 nodes, and places around 255 and 4,000."""
    yield from large_tables()
    yield from far_places()
    yield from all_siblings()


def large_tables():
    """Each kind of 4,096 nodes: the first pages, some between, the last, and behind it."""
    full = parts_register(BYTE_PLACES, BYTE_PLACES)
    every = [word for place in range(1, BYTE_PLACES + 1) for word in (place, MOST_QUANTITY)]
    lists = {"g": [every, [1, 15, 2, 3, 40, 2, 255, 15]], "G": [[], [16, 1, 100, 1]]}
    for kind, letter in product(LARGE_KINDS, PAGE_LETTERS):
        words = large_table(kind)
        rows = sorted(row for row in nodes.held_kits(words) if row)
        middle = rows[len(rows) // 2]
        near = [rows[0], rows[1], middle[:-1], middle, rows[-2], rows[-1], (BYTE_PLACES,) * 15]
        for listed, bookmark in product(lists[letter], [not_begun(), *map(begun_at, near)]):
            yield Request(letter, R=full, N=words, L=listed, K=bookmark,
                          note="a page of 4096 nodes, " + kind)


def far_places():
    """Bookmarks of places around 255 and 4,000, and of the place just behind the parts."""
    for parts in AROUND_BYTE + AROUND_MOST:
        rows, lent = edge_rows(parts), parts_register(parts, parts)
        words = table(40, *((row, 7000 - at) for at, row in enumerate(rows)))
        every = [word for place in range(1, parts + 1) for word in (place, 2)]
        beyond = [(parts + 1,), (1, parts + 1), (parts, 65535), (parts + 256,)]
        others = [(parts, parts - 1), (254, 1), (parts - 1, parts), (parts,) * 15, (parts,) * 16]
        for row in rows + beyond + others:
            yield Request("G", R=lent, N=words, K=begun_at(row),
                          note="begun at %s beside %d parts" % (row, parts))
        for row in rows[::3] + beyond[:1]:
            yield Request("g", R=lent, N=words, L=every, K=begun_at(row),
                          note="begun at %s beside %d parts" % (row, parts))


def all_siblings():
    """4,000 siblings in a table with no free node: pages at both ends and in the middle."""
    full, words = parts_register(MOST_SLOTS, MOST_SLOTS), sibling_words()
    every = [word for place in range(1, MOST_SLOTS + 1) for word in (place, MOST_QUANTITY)]
    for row in ((), (1,), (1, MOST_SLOTS), (96,), (2000,), (MOST_SLOTS - 1,), (MOST_SLOTS,)):
        for letter, listed in (("g", every), ("G", []), ("G", [MOST_SLOTS, 1])):
            yield Request(letter, R=full, N=words, L=listed, K=begun_at(row),
                          note="4,000 siblings, a page")


class Maker:
    """Makes requests by chance on catalogues that it keeps."""

    def __init__(self, chance):
        self.chance = chance
        self.stock = Stock(chance)

    def by_chance(self, letter):
        """A request for this call."""
        register, words, kits, parts = some_tables(self.chance, self.stock)
        return Request(letter, R=register, N=words, L=some_list(self.chance, kits, parts),
                       K=some_bookmark(self.chance, kits, parts))
