"""The KIT sheet of document 01 and requests 10, 12 and 14.

It is written from numbers and kits, read item by item, and rescued up to its first fault.
"""

from collections import namedtuple

from .kits import (
    LEAST_QUANTITY, MOST_QUANTITY, MOST_UNITS, beginnings, lines_of, listing_order, units,
    with_units)
from .register import MOST_SLOTS, good_number

MARK = b"KIT"
ONE_BYTE = 1
TWO_BYTES = 2

# "The writer still uses version 1 up to 255 parts and version 2 beyond, where a place takes two
# bytes"; line count and quantity take one in both.
Version = namedtuple("Version", "number fewest_parts most_parts place_bytes")
BYTE_PLACES = 255
FIRST_VERSION = Version(1, 0, BYTE_PLACES, ONE_BYTE)
SECOND_VERSION = Version(2, BYTE_PLACES + 1, MOST_SLOTS, TWO_BYTES)
VERSIONS = (FIRST_VERSION, SECOND_VERSION)

# What is rescued of a sheet: its part numbers, the kits kept (rows with tags, in sheet order), the
# kits announced, and "the offset of the first fault or else the sheet's length".
Rescued = namedtuple("Rescued", "numbers kits announced offset")


class SheetFault(Exception):
    """A faulty item; its offset is where the item starts."""

    def __init__(self, offset):
        super().__init__(offset)
        self.offset = offset


def two_bytes(number):
    """A two-byte number, "the high byte first"."""
    return number.to_bytes(TWO_BYTES, "big")


def version_for(parts):
    """The version that a sheet of so many parts has."""
    return next(version for version in VERSIONS if has_parts(version, parts))


def has_parts(version, parts):
    """Whether a sheet of this version may have so many parts."""
    return version.fewest_parts <= parts <= version.most_parts


def written(numbers, held):
    """The sheet of these part numbers and held kits; an empty kit the writer "leaves .. out"."""
    listed = with_units(held)
    version = version_for(len(numbers))
    items = [MARK, two_bytes(version.number), two_bytes(len(numbers))]
    for number in numbers:
        items.append(bytes([len(number)]) + number)
    items.append(two_bytes(len(listed)))
    for row, tag in listing_order(listed):
        items.append(record(version, tag, lines_of(row)))
    return b"".join(items)


def record(version, tag, lines):
    """A kit record: "a two-byte tag, a one-byte line count, then per line a place .. and a
    quantity byte"."""
    return two_bytes(tag) + bytes([len(lines)]) + b"".join(
        place.to_bytes(version.place_bytes, "big") + bytes([quantity]) for place, quantity in lines)


class Items:
    """The bytes of a sheet or a card, taken item by item."""

    def __init__(self, data):
        self.data = data
        self.start = 0
        self.at = 0

    def begin(self):
        """The next item starts here."""
        self.start = self.at

    def fault(self):
        """The fault of the item that was begun last."""
        return SheetFault(self.start)

    def take(self, count):
        """The next bytes of this item; "an item is at fault when cut short"."""
        if self.at + count > len(self.data):
            raise self.fault()
        taken = self.data[self.at:self.at + count]
        self.at += count
        return taken

    def take_number(self, count):
        """A number in so many bytes, the high byte first."""
        return int.from_bytes(self.take(count), "big")


def read(data):
    """The part numbers and the kits (rows with tags, in sheet order), or the first fault.

    An empty kit on an old sheet is a record like any other, and when all are good it is dropped.
    """
    items = Items(data)
    version, numbers, count = read_front(items)
    kits = list(records_read(items, version, len(numbers), count))
    read_end(items)
    return numbers, without_empty(kits)


def salvaged(data):
    """What is rescued of a sheet, or the first fault where that is before the kit records.

    "The salvage call needs a faultless mark, version, part list and kit count. It keeps the longest
    faultless run of kit records from the first on, never more than the kit count". "Reading and
    salvage accept an old sheet that has" an empty kit, and do not count it among the kits "kept".
    """
    items = Items(data)
    version, numbers, announced = read_front(items)
    kept, offset = [], len(data)
    try:
        for kit in records_read(items, version, len(numbers), announced):
            kept.append(kit)
        read_end(items)
    except SheetFault as fault:
        offset = fault.offset
    return Rescued(numbers, without_empty(kept), announced, offset)


def without_empty(kits):
    """The kits with at least one unit: an empty one is dropped."""
    return [(row, tag) for row, tag in kits if row]


def read_front(items):
    """All that stands before the kit records: the version, the part numbers and the kit count."""
    read_mark(items, MARK)
    version = read_version(items)
    numbers = read_numbers(items, version)
    items.begin()
    return version, numbers, items.take_number(TWO_BYTES)


def read_mark(items, mark):
    """The mark, with which a sheet and a card begin."""
    items.begin()
    if items.take(len(mark)) != mark:
        raise items.fault()


def read_end(items):
    """The end, which "is at fault when bytes remain"."""
    items.begin()
    if items.at != len(items.data):
        raise items.fault()


def read_version(items):
    """The version; any other number is at fault."""
    items.begin()
    number = items.take_number(TWO_BYTES)
    for version in VERSIONS:
        if version.number == number:
            return version
    raise items.fault()


def read_numbers(items, version):
    """The part count and the part numbers.

    "a version 2 sheet with 255 parts or fewer is at fault at its part count"; so is one with more
    parts than its version has.
    """
    items.begin()
    parts = items.take_number(TWO_BYTES)
    if not has_parts(version, parts):
        raise items.fault()
    numbers, met = [], set()
    for _ in range(parts):
        items.begin()
        number = items.take(items.take_number(ONE_BYTE))
        # "against a rule above, repeated (number or tag)"
        if not good_number(number) or number in met:
            raise items.fault()
        numbers.append(number)
        met.add(number)
    return numbers


def records_read(items, version, parts, count):
    """So many kit records, one after the other up to the first fault: rows with tags.

    That of an empty kit is among them.
    """
    before, tags = None, set()
    for _ in range(count):
        items.begin()
        row, tag = read_record(items, version, parts)
        if tag in tags:
            raise items.fault()
        # "for a kit, not after the one before it in listing order"
        if before is not None and not row > before:
            raise items.fault()
        tags.add(tag)
        before = row
        yield row, tag


def read_record(items, version, parts):
    """One kit record: its row and tag, or the fault when a rule for lists or kits is broken."""
    tag = items.take_number(TWO_BYTES)
    if tag == 0:
        raise items.fault()
    lines = []
    for _ in range(items.take_number(ONE_BYTE)):
        place = items.take_number(version.place_bytes)
        quantity = items.take_number(ONE_BYTE)
        rising = not lines or place > lines[-1][0]
        if not (1 <= place <= parts and rising and LEAST_QUANTITY <= quantity <= MOST_QUANTITY):
            raise items.fault()
        lines.append((place, quantity))
    row = units(lines)
    if len(row) > MOST_UNITS:
        raise items.fault()
    return row, tag


def nodes_needed(kits):
    """The nodes for these kits "counting the root": 1 plus their different beginnings."""
    return 1 + len(beginnings(row for row, _ in kits))
