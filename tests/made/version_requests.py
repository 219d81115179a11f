"""Requests that try both versions of the sheet, and version 2 as document 01's limits were tried.

A sheet that is at fault gets 13 however few slots there are. So most are read into one slot, and
one that is faultless gets 12 there with its part count.
"""

from itertools import accumulate, product

from run.frame import ROOM
from second import calls, nodes, sheet
from second.lent import Request
from second.register import LONGEST_NUMBER, MOST_SLOTS, filled, numbers_of
from second.sheet import BYTE_PLACES, SECOND_VERSION

from .many_parts import (
    AROUND_BYTE, AROUND_MOST, edge_rows, families, sibling_words, with_one_twice)
from .register_requests import many_numbers, shortest_numbers
from .sheet_requests import SHEET_BYTES, THREE, reading, record, sheet_of
from .tables import parts_register, table

# The fewest parts of version 2, and the shortest numbers for them.
FEWEST = SECOND_VERSION.fewest_parts
FEWEST_NUMBERS = shortest_numbers(FEWEST)
# As many numbers of 24 bytes as a sheet has that the probe has room for, with a kit.
MOST_IN_OUTPUT = (ROOM["O"] - 20) // (1 + LONGEST_NUMBER)
# Parts enough for places whose two bytes are each other's: 258 and 513.
SWAPPED = 514


def wide(tag, *lines):
    """A kit record of version 2."""
    return record(tag, *lines, version=SECOND_VERSION)


def wide_sheet(records, parts=FEWEST, **given):
    """A sheet of version 2 of the shortest numbers."""
    return sheet_of(shortest_numbers(parts), records, **{"version": 2, **given})


# The smallest sheet that shows all of version 2, and where its first number, the first of two
# bytes and the kit count stand.
SMALLEST = wide_sheet([wide(5), wide(9, (1, 1), (256, 2)), wide(8, (255, 1), (256, 15)),
                       wide(65535, (256, 3))])
NUMBERS_AT = len(sheet.MARK) + 2 * sheet.TWO_BYTES
TWO_BYTES_AT = NUMBERS_AT + 2 * sum(len(number) == 1 for number in FEWEST_NUMBERS)
KIT_COUNT_AT = len(wide_sheet([])) - sheet.TWO_BYTES
# The bytes that are altered: the head, some numbers of one byte and of two, all behind the last.
TRIED_BYTES = [*range(NUMBERS_AT + 5), *range(TWO_BYTES_AT - 4, TWO_BYTES_AT + 7),
               *range(KIT_COUNT_AT - 6, len(SMALLEST))]


def limits():
    """Both versions read and written, and each fault of version 2."""
    yield from versions_and_counts()
    yield from both_at_255()
    yield from record_limits()


def sweeps():
    """The smallest sheet of version 2 cut at every byte, and many of its bytes altered."""
    yield from torn_sheets()
    yield from altered_sheets()


def large():
    """Sheets around 255 and 4,000 parts, written, read and written again; numbers alike."""
    yield from around_limits()
    yield from long_numbers()
    yield from round_trips()
    yield from many_kits()
    yield from alike_on_sheets()


def versions_and_counts():
    """Versions that there are not; part counts that a version has not, with and without numbers."""
    for version in (0, 1, 2, 3, 255, 256, 257, 258, 512, 513, 65535):
        for numbers in (THREE, FEWEST_NUMBERS):
            yield reading(sheet_of(numbers, [], version=version), 1, 1,
                          "version %d with %d parts" % (version, len(numbers)))
    for version, parts in product((1, 2), (0, 1, 254, 255, 256, 257, 3999, 4000, 4001, 65535)):
        note = "version %d, part count %d" % (version, parts)
        yield reading(sheet_of(THREE, [], version=version, parts=parts), 4, 1, note)
        yield reading(sheet_of([], [], version=version, parts=parts)[:NUMBERS_AT], 1, 1,
                      note + " and nothing behind")
        yield reading(sheet_of([], [], version=3, parts=parts), 1, 1, note + ", or rather 3")
    for parts in (254, 255, 256, 257):
        for version in (1, 2):
            yield reading(wide_sheet([], parts, version=version), 1, 1,
                          "version %d with all of %d parts" % (version, parts))


def both_at_255():
    """A sheet of 255 parts and one of 256, read and written with just enough room."""
    for parts in (BYTE_PLACES, FEWEST):
        rows = {row: 300 + at for at, row in enumerate(edge_rows(parts)[1:])}
        numbers = shortest_numbers(parts)
        data = sheet.written(numbers, rows)
        yield reading(data, parts, sheet.nodes_needed(rows.items()), "%d parts read" % parts)
        yield Request("s", R=filled(numbers, parts), N=table(20, *rows.items()),
                      O=b"\x5a" * (len(data) + 3), note="%d parts written" % parts)


RECORDS = {
    "places around 255": [wide(1, (254, 1)), wide(2, (255, 1)), wide(3, (256, 1))],
    "place 0": [wide(1, (0, 1))],
    "place 256, low byte 0": [wide(1, (256, 1))],
    "place 255, high byte 0": [wide(1, (255, 1))],
    "place 257 beside 256 parts": [wide(1, (257, 1))],
    "place 512": [wide(1, (512, 1))],
    "place 65,280": [wide(1, (65280, 1))],
    "place 65,535": [wide(1, (65535, 1))],
    "256 behind 1": [wide(1, (1, 1), (256, 1))],
    "1 behind 256": [wide(1, (256, 1), (1, 1))],
    "256 behind 255": [wide(1, (255, 1), (256, 1))],
    "255 behind 256": [wide(1, (256, 1), (255, 1))],
    "256 twice": [wide(1, (256, 1), (256, 1))],
    "the kit of 256 behind that of 1": [wide(1, (1, 1)), wide(2, (256, 1))],
    "the kit of 1 behind that of 256": [wide(1, (256, 1)), wide(2, (1, 1))],
    "the kit of 256 behind that of 255": [wide(1, (255, 1)), wide(2, (256, 1))],
    "the kit of 255 behind that of 256": [wide(1, (256, 1)), wide(2, (255, 1))],
    "a kit of 256 twice": [wide(1, (256, 1)), wide(2, (256, 1))],
    "a tag twice": [wide(258, (255, 1)), wide(258, (256, 1))],
    "a tag and its bytes swapped": [wide(258, (255, 1)), wide(513, (256, 1))],
    "tag 0": [wide(0, (256, 1))],
    "tag 256": [wide(256, (256, 1))],
    "the empty kit first": [wide(5), wide(6, (256, 1))],
    "the empty kit second": [wide(6, (256, 1)), wide(5)],
    "quantity 0": [wide(1, (256, 0))],
    "quantity 15": [wide(1, (256, 15))],
    "quantity 16": [wide(1, (256, 16))],
    "quantity 255": [wide(1, (256, 255))],
    "64 units": [wide(1, (1, 15), (2, 15), (254, 15), (255, 15), (256, 4))],
    "65 units": [wide(1, (1, 15), (2, 15), (254, 15), (255, 15), (256, 5))],
    "a second record at fault": [wide(1, (1, 1)), wide(2, (256, 16))],
    "a record of version 1": [record(1, (1, 1))],
    "two records of version 1": [record(1, (1, 1)), record(2, (2, 1))],
    "a quantity of two bytes": [sheet.two_bytes(1) + b"\1\1\0\0\1"],
    "a line count of two bytes": [sheet.two_bytes(1) + b"\0\1\1\0\1"],
    "a line count one too high": [wide(1, (256, 1))[:2] + b"\2\1\0\1"],
    "a line count one too low": [sheet.two_bytes(1) + b"\1\0\1\1\1\0\1"],
    "line count 255": [wide(1, *((place, 1) for place in range(1, 256)))],
    "64 lines": [wide(1, *((place, 1) for place in range(193, 257)))],
    "65 lines": [wide(1, *((place, 1) for place in range(192, 257)))],
}


def record_limits():
    """Kit records of version 2 beside 256 parts, good and at fault; more behind the last."""
    for note, records in RECORDS.items():
        yield reading(wide_sheet(records), 1, 1, "version 2, " + note)
    yield reading(wide_sheet([])[:-1], 1, 1, "version 2, kit count cut short")
    for end in (b"\0", b"\n", SMALLEST):
        yield reading(SMALLEST + end, 1, 1, "version 2, bytes behind the end")
    for kits in (3, 5, 256, 65535):
        yield reading(SMALLEST[:KIT_COUNT_AT] + sheet.two_bytes(kits)
                      + SMALLEST[KIT_COUNT_AT + sheet.TWO_BYTES:], 1, 1,
                      "version 2, kit count %d of 4" % kits)
    *others, _ = FEWEST_NUMBERS
    for last in (b"0", b"", b"_", b"00", b"A" * 24, b"A" * 25):
        yield reading(sheet_of([*others, last], [wide(1, (256, 1))], version=2), 1, 1,
                      "version 2, number 256 is %r" % last)
    for one, other in ((258, 513), (513, 258), (2, 512), (512, 2)):
        yield reading(wide_sheet([wide(1, (one, 1)), wide(2, (other, 1))], SWAPPED), 1, 1,
                      "kits of %d and %d" % (one, other))
        yield reading(wide_sheet([wide(1, (one, 1), (other, 1))], SWAPPED), 1, 1,
                      "places %d and %d" % (one, other))
    for records in ([record(1, (255, 1))], [record(1, (1, 1), (255, 1))], [wide(1, (1, 1))],
                    [wide(1, (255, 1))]):
        yield reading(wide_sheet(records, BYTE_PLACES, version=1), 1, 1, "version 1 beside 255")


def torn_sheets():
    """The smallest sheet of version 2 cut at every byte."""
    for length in range(len(SMALLEST) + 1):
        yield reading(SMALLEST[:length], 1, 1, "version 2 cut to %d bytes" % length)


def altered_sheets():
    """Bytes of the smallest sheet of version 2 set to several values, left out or doubled."""
    for at in TRIED_BYTES:
        byte, note = SMALLEST[at], "byte %d of version 2" % at
        for value in sorted({*SHEET_BYTES, (byte + 1) % 256, (byte - 1) % 256} - {byte}):
            yield reading(SMALLEST[:at] + bytes([value]) + SMALLEST[at + 1:], 1, 1, note + " set")
        yield reading(SMALLEST[:at] + SMALLEST[at + 1:], 1, 1, note + " left out")
        yield reading(SMALLEST[:at] + SMALLEST[at:at + 1] + SMALLEST[at:], 1, 1, note + " doubled")


def around_limits():
    """Part counts at each limit, written into just enough room and less, and read into slots and
    nodes just enough and one too few."""
    for parts in AROUND_BYTE + AROUND_MOST:
        numbers, rows = shortest_numbers(parts), {
            row: 900 - at for at, row in enumerate(edge_rows(parts))}
        register, words = filled(numbers, parts), table(40, *rows.items())
        data, needed = sheet.written(numbers, rows), sheet.nodes_needed(rows.items())
        for room in (0, len(data) - 1, len(data), len(data) + 1):
            yield Request("s", R=register, N=words, O=b"\x5a" * room,
                          note="write %d parts into %d bytes" % (parts, room))
        for slots, node_count in ((parts, needed), (parts - 1, needed), (parts, needed - 1),
                                  (min(MOST_SLOTS, parts + 1), needed + 1), (1, 1)):
            yield reading(data, slots, node_count, "read %d parts into %d slots, %d nodes" % (
                parts, slots, node_count))
        yield reading(data[:-1], parts, needed, "%d parts, cut short" % parts)
    for numbers in (many_numbers(MOST_SLOTS + 1), shortest_numbers(MOST_SLOTS + 1)):
        yield reading(sheet_of(numbers, [], version=2), MOST_SLOTS, 1, "all of 4,001 parts")
        yield reading(sheet_of(numbers[1:], [], version=1), MOST_SLOTS, 1, "4,000 in version 1")
    # A short sheet of version 1 leaves nothing of what 4,000 slots held.
    yield reading(sheet_of(THREE, [record(9, (3, 1))]), MOST_SLOTS, 3, "three parts in 4,000 slots")


def long_numbers():
    """Sheets that need more bytes than 16 bits count: 4,000 numbers of 24 bytes."""
    for parts in (MOST_IN_OUTPUT, *AROUND_MOST):
        numbers = [b"%d" % at + b"-" * (LONGEST_NUMBER - 4) for at in range(1000, 1000 + parts)]
        register, words = filled(numbers, parts), table(3, ((256, parts), 9))
        size = len(sheet.written(numbers, nodes.held_kits(words)))
        for room in sorted({0, min(size - 1, ROOM["O"]), min(size, ROOM["O"])}):
            yield Request("s", R=register, N=words, O=b"\x5a" * room,
                          note="%d numbers of 24 bytes" % parts)


def round_trips():
    """Sheets read, and the very tables written again: the same sheet; and one part registered,
    which turns a sheet of version 1 into one of version 2."""
    for parts in (254, 255, 256, 257, 3999, 4000):
        rows = {row: 40 + at for at, row in enumerate(edge_rows(parts))}
        data = sheet.written(shortest_numbers(parts), rows)
        slots = min(MOST_SLOTS, parts + 1)
        asked = reading(data, slots, 30, "%d parts read" % parts)
        yield asked
        came = calls.answer(asked).blocks
        yield Request("s", R=came["R"], N=came["N"], O=bytes(len(data)),
                      note="%d parts written again" % parts)
        more = Request("p", R=came["R"], I=b"NEW", note="one more than %d parts" % parts)
        yield more
        yield Request("s", R=calls.answer(more).blocks["R"], N=came["N"],
                      O=bytes(len(data) + 100), note="one more than %d parts written" % parts)


def many_kits():
    """All of 4,000 siblings read with just enough nodes and one too few; 65,535 kits announced."""
    words = sibling_words()
    full = parts_register(MOST_SLOTS, MOST_SLOTS)
    data = sheet.written(numbers_of(full), nodes.held_kits(words))
    for slots, node_count in ((MOST_SLOTS, 4096), (MOST_SLOTS - 1, 4096), (MOST_SLOTS, 4095)):
        yield reading(data, slots, node_count, "4,000 siblings, %d nodes" % node_count)
    yield reading(data[:-1], 1, 1, "4,000 siblings, cut short")
    kit_count = len(sheet.written(numbers_of(full), {})) - sheet.TWO_BYTES
    yield reading(data[:kit_count] + b"\xff\xff" + data[kit_count + sheet.TWO_BYTES:], 1, 1,
                  "4,000 siblings, 65,535 kits announced")


def fitting_numbers(row):
    """As many of these numbers as a sheet has that the probe has room for."""
    room = ROOM["I"] - len(sheet_of([], []))
    ends = accumulate(1 + len(number) for number in row)
    return [number for number, end in zip(row, ends) if end <= room]


def alike_on_sheets():
    """Sheets of numbers that a quick comparison would take for each other; one stands twice."""
    for what, numbers in families().items():
        kept = fitting_numbers(numbers)
        for row in (kept, *with_one_twice(kept)):
            yield reading(sheet_of(row, [], version=2), 1, 1, "numbers on a sheet, " + what)
    same = families()["bytes in every order"]
    yield reading(sheet_of(same, [], version=2), MOST_SLOTS, 1, "4,000 numbers read")
