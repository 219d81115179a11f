"""Bookmarks to turn a page from: not begun, begun at a row, with junk, at fault, by chance."""

from second.kits import MOST_QUANTITY, MOST_UNITS, units
from second.paging import BEGUN, NOT_BEGUN

from .broken_tables import RAW_PATHS
from .tables import some_row

# The calls that turn a page: within a bin, and containing a list; and those that list all of it.
PAGE_LETTERS = "gG"
LISTING = {"g": "W", "G": "C"}

# What may stand behind a row: nothing, or numbers that fall, are beyond all parts, or are 0.
NOTHING = [0] * MOST_UNITS
JUNK = [65535, 0, 4001, 3, 3, 256, 1, 0] * (MOST_UNITS // 8)

LONGEST_ROW = RAW_PATHS["path of 64"]


def not_begun(length=65535, places=JUNK):
    """A bookmark not begun; its length and its row are ignored."""
    return [NOT_BEGUN, length, *places]


def begun(length, places, behind=NOTHING):
    """A bookmark begun, of this length and with these places; the others are as those behind."""
    return [BEGUN, length, *places, *behind[len(places):]]


def begun_at(row, behind=NOTHING):
    """A bookmark begun at this row."""
    return begun(len(row), row, behind)


# Rows beside five parts with one thing wrong alone, by what it is.
FAULTY_ROWS = {
    "falls": [(2, 1), (1, 2, 1), (1, 3, 2, 4), (3, 3, 2), (5, 4, 5),
              units([(1, 15), (2, 15), (3, 15), (4, 14), (5, 4)]) + (4,)],
    "a place 0": [(0,), (0, 1), (0, 0, 2, 2), (0,) * 15, (0,) + LONGEST_ROW[1:]],
    "a place beyond the parts": [(6,), (1, 6), (5, 6, 6), (7,), (255,), (256,), (257,), (2, 261),
                                 (32769,), (65535,), LONGEST_ROW[:-1] + (6,)],
    "more than 15 equal places": [(1,) * 16, (5,) * 16, (1,) + (3,) * 16 + (4,), (2,) * 17,
                                  units([(1, 15), (2, 15), (3, 15), (4, 16)]),
                                  units([(1, 15), (2, 15), (3, 15), (5, 16)]), (4,) * MOST_UNITS],
}
# Lengths above 64 of a row that is good else, some of which a byte or a sign would fold.
TOO_LONG = [65, 66, 127, 128, 255, 256, 257, 259, 320, 32768, 32769, 65472, 65535]
# Rows with two things wrong at once: each beside each.
TWICE_FAULTY_ROWS = [
    (1, 0), (2, 0, 3), (6, 1), (1, 65535, 2), (0, 6), (0, 0, 65535), (0,) * 16, (0,) * 16 + (5,),
    (2,) * 16 + (1,), (1,) * 15 + (2,) + (1,), (6,) * 16, (3,) + (65535,) * 17]
GOOD_ROWS = [(), (1,), (5,), (1, 5), (1, 2, 3, 4, 5), (1,) * 14, (1,) * 15, (5,) * 15,
             (1,) + (3,) * 15 + (4,), LONGEST_ROW[:-1], LONGEST_ROW]


def faulty_bookmarks():
    """Bookmarks at fault beside five parts, each with a note: one thing alone, and two at once."""
    for length in TOO_LONG:
        yield begun(length, LONGEST_ROW), "length %d" % length
        yield begun(length, (1, 2, 2)), "length %d, and places 0" % length
    for what, rows in FAULTY_ROWS.items():
        for row in rows:
            yield begun_at(row), what
            yield begun(MOST_UNITS + 1, row, LONGEST_ROW), "length 65, and " + what
    for row in TWICE_FAULTY_ROWS:
        yield begun_at(row), "two things wrong"


# Numbers that are no bookmark: too few, or a first one that is neither 0 nor 1.
NO_BOOKMARKS = [[], [0], [1, 0], not_begun()[:-1], begun_at(())[:-1],
                *([number, *begun_at(())[1:]] for number in (2, 3, 256, 257, 65535))]


def some_good_row(chance, kits, parts):
    """A row that a bookmark may be begun at: a held kit's, one near it, or a beginning of it."""
    rows = sorted(kits)
    row = chance.pick(rows) if rows and chance.below(4) < 3 else some_row(chance, rows, parts)
    if chance.one_in(4):
        row = row[:chance.below(len(row) + 1)]
    return row[:MOST_UNITS]


def damaged_bookmark(chance, row, words, parts):
    """A bookmark begun at this row with its length or its places changed, mostly at fault then."""
    words, way = list(words), chance.below(8)
    if way == 0:
        length = chance.pick((MOST_UNITS + 1, MOST_UNITS + 1, 256 + len(row), 65535, 65535))
        return begun(length, LONGEST_ROW if max(LONGEST_ROW) <= parts else row)
    if way == 1:
        words[1] = chance.below(MOST_UNITS + 4)
    elif way == 2:
        times = MOST_QUANTITY + chance.pick((0, 1, 1, 2))
        return begun_at((chance.between(1, max(1, parts)),) * times)
    elif way == 3 and row:
        return begun_at(row[:MOST_UNITS - 1] + (chance.between(1, row[-1]),))
    elif way == 4 and len(row) > 1:
        one, other = 2 + chance.below(len(row)), 2 + chance.below(len(row))
        words[one], words[other] = words[other], words[one]
    else:
        words[1] = max(1, len(row))
        for _ in range(chance.pick((1, 1, 1, 2))):
            words[2 + chance.below(words[1])] = chance.pick((
                0, 0, 1, parts, parts + 1, parts + 1, parts + 256, 65535))
    return words


def some_bookmark(chance, kits, parts):
    """A bookmark beside these kits: not begun, begun at a row near theirs, sometimes at fault."""
    row = some_good_row(chance, kits, parts)
    if chance.one_in(4):
        return not_begun(*chance.pick((
            (0, NOTHING), (65535, JUNK), (len(row), begun_at(row)[2:]),
            (chance.below(70), chance.some_words(MOST_UNITS)))))
    behind = chance.pick((NOTHING, NOTHING, JUNK, begun_at(some_good_row(chance, kits, parts))[2:]))
    words = begun_at(row, behind)
    return damaged_bookmark(chance, row, words, parts) if chance.one_in(4) else words
