"""The KIC card of request 5, "a sibling of the sheet": one kit with the numbers of its parts.

It is written from a tag and lines of numbers, and read item by item. Places are not on it.
"""

from .kits import LEAST_QUANTITY, MOST_QUANTITY, MOST_UNITS, lines_of
from .register import good_number
from .sheet import ONE_BYTE, TWO_BYTES, Items, read_end, read_mark, two_bytes

# "mark KIC, version 1 in two bytes"
MARK = b"KIC"
VERSION = 1


def numbered(numbers, row):
    """The lines of a row beside these part numbers, in order of place: number and quantity."""
    return [(numbers[place - 1], quantity) for place, quantity in lines_of(row)]


def in_card_order(lines):
    """The lines "in rising byte order of their numbers, a shorter one before any longer one that it
    begins", which is how python compares bytes."""
    return sorted(lines)


def written(tag, lines):
    """The card of a kit: "tag in two, line count in one, then per line the length byte, the part
    number, and the quantity byte"."""
    items = [MARK, two_bytes(VERSION), two_bytes(tag), bytes([len(lines)])]
    for number, quantity in in_card_order(lines):
        items.append(line(number, quantity))
    return b"".join(items)


def line(number, quantity):
    """One line of a card."""
    return bytes([len(number)]) + number + bytes([quantity])


def read(data):
    """The tag and the lines of a card, in card order, or the first fault.

    Items are "mark, version, tag, line count, each line, the end".
    """
    items = Items(data)
    read_mark(items, MARK)
    items.begin()
    if items.take_number(TWO_BYTES) != VERSION:
        raise items.fault()
    items.begin()
    tag = items.take_number(TWO_BYTES)
    if tag == 0:
        raise items.fault()
    items.begin()
    lines = read_lines(items, items.take_number(ONE_BYTE))
    read_end(items)
    return tag, lines


def read_lines(items, count):
    """So many lines, each above the one before it.

    "units past 64 are charged to the line that passes it", and so are more than 64 lines: each has
    a unit at least.
    """
    lines, passed = [], 0
    for _ in range(count):
        items.begin()
        number, quantity = read_line(items)
        passed += quantity
        # A number that stands twice is not above the one before it either.
        rising = not lines or number > lines[-1][0]
        if not rising or passed > MOST_UNITS:
            raise items.fault()
        lines.append((number, quantity))
    return lines


def read_line(items):
    """One line: a good number and a good quantity, or the fault."""
    number = items.take(items.take_number(ONE_BYTE))
    quantity = items.take_number(ONE_BYTE)
    if not good_number(number) or not LEAST_QUANTITY <= quantity <= MOST_QUANTITY:
        raise items.fault()
    return number, quantity
