"""The pages of request 4: the bookmark, when it is at fault, and what a step shows.

A bookmark "is lent to the call and moved on in place": 66 numbers, which are 1 where paging has
begun and else 0, the length of the row, and 64 places.
"""

from collections import namedtuple

from .kits import MOST_QUANTITY, MOST_UNITS, quantities

# "It holds whether paging has begun and the unit row of the last kit shown."
Bookmark = namedtuple("Bookmark", "begun length places")
NOT_BEGUN, BEGUN = 0, 1


def is_bookmark(words):
    """Whether these numbers are a bookmark at all, good or at fault."""
    return len(words) == 2 + MOST_UNITS and words[0] in (NOT_BEGUN, BEGUN)


def bookmark_of(words):
    """The bookmark of 66 numbers; what fewer, more or another first one mean is not laid down."""
    if not is_bookmark(words):
        raise ValueError("no bookmark: %s" % words)
    begun, length, *places = words
    return Bookmark(begun == BEGUN, length, tuple(places))


def words_at(row):
    """The bookmark's numbers after a step that shows a kit of this row.

    "the places behind the row's length are 0"
    """
    return [BEGUN, len(row), *row, *[0] * (MOST_UNITS - len(row))]


def row_of(bookmark):
    """The row: as many places as its length tells. What lies behind them is no part of it."""
    return bookmark.places[:bookmark.length]


def falls(row):
    """Whether a row "falls somewhere"."""
    return any(place < before for before, place in zip(row, row[1:]))


def faults_of(bookmark, parts):
    """What can be wrong with a begun bookmark beside so many parts, with whether it is."""
    row = row_of(bookmark)
    return {
        "longer than 64": bookmark.length > MOST_UNITS,
        "falls": falls(row),
        "a place 0": 0 in row,
        "a place beyond the parts": any(place > parts for place in row),
        "more than 15 equal places": any(
            times > MOST_QUANTITY for times in quantities(row).values()),
    }


def at_fault(bookmark, parts):
    """Whether a bookmark is at fault; one "not begun has its row ignored", the length too."""
    return bookmark.begun and any(faults_of(bookmark, parts).values())


def shown(answering, bookmark):
    """The kit that a step shows, with its tag; None where none is left.

    Of the kits that answer, in listing order, it is the first that "comes after that row".
    """
    left = [(row, tag) for row, tag in answering
            if not bookmark.begun or row > row_of(bookmark)]
    return left[0] if left else None
