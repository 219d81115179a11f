"""Requests that try the sheet: written into outputs of any room, read whole, torn and altered."""

import functools
from itertools import product

from run.frame import ROOM
from second import calls, index, nodes, sheet
from second.kits import lines_of, listing_order
from second.lent import Request
from second.nodes import MOST_NODES, NODE_WORDS
from second.refusals import NO_ROOM
from second.register import LONGEST_NUMBER, SLOT_BYTES, filled, numbers_of
from second.sheet import BYTE_PLACES

from .register_requests import (
    AT_END, BESIDE_LETTERS, CASE_PAIRS, EDGE_BYTES, many_numbers, many_spellings, punctuated,
    shortest_numbers, torn_labels, with_byte)
from .tables import (
    LARGE_KINDS, Stock, damaged_table, large_table, parts_register, some_far_kits, some_tables,
    table)

# The sheet that document 01 prints for its desk example.
PRINTED_SHEET = bytes.fromhex(
    "4B495400010003053030373431033734310434303136000200090101010005010201")

# What an output holds before the sheet is written.
OLD_BYTES = bytes(range(1, 251))

# A sheet of more bytes is altered less often among its numbers.
LONG_SHEET = 400

# Values that a byte of a sheet is set to.
SHEET_BYTES = sorted(set(EDGE_BYTES) | {2, 3, 4, 5, 15, 16, 24, 25, 63, 64})


def numbers(*texts):
    """Part numbers, each with its length byte, as a sheet has them."""
    return b"".join(bytes([len(text)]) + text for text in texts)


def record(tag, *lines, version=sheet.FIRST_VERSION):
    """A kit record on a sheet of this version."""
    return sheet.record(version, tag, lines)


def sheet_of(part_numbers, records, parts=None, kits=None, mark=b"KIT", version=1, end=b""):
    """A sheet put together from its items; a count not given is the right one."""
    return b"".join([
        mark, sheet.two_bytes(version),
        sheet.two_bytes(len(part_numbers) if parts is None else parts), numbers(*part_numbers),
        sheet.two_bytes(len(records) if kits is None else kits), *records, end])


def old_sheet(part_numbers, kits):
    """The sheet of these kits as it was before request 14: with the record of an empty kit."""
    version = sheet.version_for(len(part_numbers))
    return sheet_of(part_numbers, records_of(version, kits), version=version.number)


def records_of(version, kits):
    """The records of all these kits on a sheet of this version, that of an empty one too."""
    return [record(tag, *lines_of(row), version=version) for row, tag in listing_order(kits)]


THREE = [b"00741", b"741", b"4016"]
FIVE = [b"1", b"2", b"3", b"4", b"5"]
SMALL_SHEETS = [PRINTED_SHEET, sheet_of([b"A", b"B"], [record(3), record(258, (1, 2), (2, 1))])]
THREE_KITS = [record(9, (1, 1)), record(8, (1, 2), (3, 1)), record(7, (2, 3))]


def limits():
    """Every limit of the sheet, its items, its faults and the room that it needs."""
    yield from written_rooms()
    yield from torn_sheets()
    yield from item_faults()
    yield from number_faults()
    yield from brought_in()
    yield from record_faults()
    yield from many_lines(64, 64)
    yield from many_lines(65, 64, 65)
    yield from room_for_reading()
    yield from old_contents()


def reading(data, slots=4, node_count=12, note=""):
    """A request that reads these bytes into tables full of other things."""
    return Request("r", R=b"\x07" * SLOT_BYTES * slots, N=[7] * NODE_WORDS * node_count, I=data,
                   note=note)


def written_rooms():
    """Sheets into an output exactly full, one short, empty, and with room behind."""
    catalogues = [
        ("empty", filled([], 1), [0] * NODE_WORDS),
        ("an empty kit alone", filled([], 2), table(1, ((), 65535))),
        ("an empty kit and others", filled(THREE, 4), table(5, ((2,), 5), ((1,), 9), ((), 7))),
        ("parts alone", filled(THREE, 4), [0] * 2 * NODE_WORDS),
        ("two spellings", filled([b"74ls00", b"74LS00"], 2), table(3, ((2,), 5), ((1,), 9))),
        ("printed", filled(THREE, 4), table(5, ((2,), 5), ((1,), 9))),
        ("long numbers", filled([b"A" * LONGEST_NUMBER, b"B"], 2), table(2, ((2,), 256))),
        ("longest kit", filled(FIVE, 5), table(65, ((1,) * 15 + (2,) * 15 + (3,) * 15 + (4,) * 15
                                                    + (5,) * 4, 513))),
        ("64 lines", parts_register(64), table(66, (tuple(range(1, 65)), 3), ((64,), 2))),
        ("freed nodes", filled(THREE, 3), index.deleted(
            table(9, ((3,), 1), ((1, 2, 3), 2), ((2,), 3), ((1,), 4)), (1, 2, 3))),
    ]
    for note, register, words in catalogues:
        size = len(sheet.written(numbers_of(register), nodes.held_kits(words)))
        for room in (0, 1, size - 1, size, size + 1, size + 30):
            yield Request("s", R=register, N=words, O=(OLD_BYTES * 2)[:room],
                          note="write a sheet (%s) into %d bytes" % (note, room))


def torn_sheets():
    """Sheets cut at every byte, and with bytes behind the end."""
    for data in (PRINTED_SHEET, sheet_of(THREE, THREE_KITS), sheet_of([], [])):
        for length in range(len(data) + 1):
            yield reading(data[:length], note="a sheet cut to %d bytes" % length)
        for end in (b"\0", b"\n", b"K", data):
            yield reading(data + end, note="bytes behind the end")


def item_faults():
    """Marks, versions, counts and part numbers, good and at fault."""
    for mark in (b"KIT", b"kit", b"KIC", b"KI", b"KITT", b"TIK", b"\0\0\0"):
        yield reading(sheet_of(THREE, [], mark=mark), note="mark %s" % mark)
    for version in (0, 1, 2, 3, 255, 256, 257, 65535):
        yield reading(sheet_of(THREE, [], version=version), note="version %d" % version)
    for parts in (0, 1, 2, 3, 4, 255, 256, 257, 65535):
        yield reading(sheet_of(THREE, [], parts=parts), note="part count %d of 3" % parts)
    for kits in (0, 1, 2, 3, 4, 255, 256, 4096, 65535):
        yield reading(sheet_of(THREE, THREE_KITS, kits=kits), note="kit count %d of 3" % kits)
    rows = [
        [b""], [b"A", b""], [b"A" * 23], [b"A" * 24], [b"A" * 25], [b"A" * 255], [b"A", b"A"],
        [b"A", b"B", b"A"], [b"00741", b"0741", b"741"], [b"74", b"741", b"7410"], [b"_"],
        [b"A B"], [b"A", b"B\0"], [b"-./"], [b"A:"], [b"A", b"\xc3\x9f"], [b"A", b"B", b"B", b"_"],
        [b"A", b"_", b"A"], [b"A\n"], [b"a"], [b"A", b"a", b"A"], [b"A", b"a", b"B", b"_"],
    ]
    for row in rows:
        yield reading(sheet_of(row, []), note="numbers %s" % row)
        yield reading(sheet_of(row, [record(1, (1, 1))]), note="numbers %s and a kit" % row)
    # A length byte that runs past the end, over what would be the kit count.
    yield reading(sheet_of([], [], parts=1)[:-2] + b"\x05741", note="number cut short")
    yield reading(sheet_of([], [], parts=1)[:-2] + b"\x03741", note="kit count cut short")
    yield reading(sheet_of([], [], parts=1)[:-2] + b"\x03741\0", note="kit count cut short")
    yield reading(sheet_of([], [], parts=1)[:-2] + b"\x19" + b"7" * 23, note="25 and cut short")


def number_faults():
    """Numbers with a byte beside the letters; numbers that differ in case only, and one twice."""
    for value in BESIDE_LETTERS:
        for number in with_byte(bytes([value])):
            yield reading(sheet_of([b"AZ", b"az", number], [ONE_KIT]),
                          note="byte %02X beside the letters" % value)
    for one, other in CASE_PAIRS:
        for row in ([one, other], [other, one], [one, other, one]):
            yield reading(sheet_of(row, [record(9, (1, 1)), record(5, (2, 1))]),
                          note="numbers %s and two kits" % row)


def brought_in():
    """Sheets that bring in numbers with punctuation at an end, and calls on the very tables then.

    They are found, shown and written again; registered they are refused, where another is not.
    """
    for form, slots in product(AT_END, (3, 4)):
        row = punctuated([form])
        data = sheet_of(row, [record(9, (1, 1)), record(5, (3, 2))])
        asked = reading(data, slots, note="a sheet of %s" % row)
        yield asked
        yield reading(sheet_of(row + row[2:], []), slots + 1, note="%s, the last twice" % row)
        came = calls.answer(asked)
        lent = {"R": came.blocks["R"], "N": came.blocks["N"], "note": "%s brought in" % row}
        for letter, (place, number) in product("pln", enumerate([*row, b"NEW"], start=1)):
            yield Request(letter, place, I=number, **lent)
        for room in (len(data) - 1, len(data), len(data) + 1):
            yield Request("s", O=OLD_BYTES[:room], **lent)


ONE_KIT = record(1, (1, 1))
RECORD_FAULTS = {
    "the empty kit alone": [record(5)],
    "the empty kit first": [record(5), ONE_KIT],
    "the empty kit before two": [record(5), ONE_KIT, record(2, (2, 1))],
    "the empty kit second": [ONE_KIT, record(5)],
    "the empty kit third": [ONE_KIT, record(2, (2, 1)), record(5)],
    "the empty kit twice": [record(5), record(6)],
    "the empty kit twice before another": [record(5), record(6), ONE_KIT],
    "the empty kit and its tag twice": [record(5), record(5)],
    "the empty kit's tag at once again": [record(5), record(5, (1, 1))],
    "the empty kit's tag again later": [record(5), ONE_KIT, record(5, (2, 1))],
    "the empty kit with tag 0": [record(0), ONE_KIT],
    "the empty kit with tag 65535": [record(65535), ONE_KIT],
    "the empty kit before a record at fault": [record(5), record(1, (1, 16))],
    "the empty kit before a kit twice": [record(5), ONE_KIT, record(2, (1, 1))],
    "tag 0": [record(0, (1, 1))],
    "tag 65535": [record(65535, (1, 1))],
    "a repeated tag": [ONE_KIT, record(1, (1, 2))],
    "a repeated tag apart": [ONE_KIT, record(2, (1, 2)), record(1, (1, 3))],
    "a repeated kit": [ONE_KIT, record(2, (1, 1))],
    "a repeated kit and tag": [ONE_KIT, ONE_KIT],
    "falling order": [record(2, (2, 1)), ONE_KIT],
    "a beginning behind": [record(2, (1, 2)), ONE_KIT],
    "a beginning before": [ONE_KIT, record(2, (1, 2)), record(3, (1, 2), (2, 1))],
    "(1,1,2) before (1,2)": [record(2, (1, 2), (2, 1)), record(3, (1, 1), (2, 1))],
    "(1,2) before (1,1,2)": [record(3, (1, 1), (2, 1)), record(2, (1, 2), (2, 1))],
    "(1,1) before (1,2)": [record(3, (1, 2)), record(2, (1, 1), (2, 1))],
    "(1,2) before (1,1)": [record(2, (1, 1), (2, 1)), record(3, (1, 2))],
    "(1,3) before (2)": [record(2, (1, 1), (3, 1)), record(3, (2, 1))],
    "(1,1,3) before (1,1)": [record(2, (1, 2), (3, 1)), record(3, (1, 2))],
    "place 0": [record(1, (0, 1))],
    "the last place": [record(1, (5, 1))],
    "beyond the last place": [record(1, (6, 1))],
    "place 255": [record(1, (255, 1))],
    "places equal": [record(1, (2, 1), (2, 1))],
    "places falling": [record(1, (2, 1), (1, 1))],
    "quantity 0": [record(1, (1, 0))],
    "quantity 15": [record(1, (1, 15))],
    "quantity 16": [record(1, (1, 16))],
    "quantity 255": [record(1, (1, 255))],
    "64 units": [record(1, (1, 15), (2, 15), (3, 15), (4, 15), (5, 4))],
    "65 units": [record(1, (1, 15), (2, 15), (3, 15), (4, 15), (5, 5))],
    "75 units": [record(1, (1, 15), (2, 15), (3, 15), (4, 15), (5, 15))],
    "a second record at fault": [ONE_KIT, record(2, (1, 16))],
    "a third record at fault": [ONE_KIT, record(2, (2, 1)), record(3, (2, 1), (6, 1))],
    "a line count one too high": [sheet.two_bytes(1) + b"\x02\x01\x01"],
    "a line count one too low": [sheet.two_bytes(1) + b"\x01\x01\x01\x02\x01"],
    "line count 255": [sheet.two_bytes(1) + b"\xff" + bytes([1, 1]) * 255],
}


def record_faults():
    """Kit records good and at fault, and their order in the sheet."""
    for note, records in RECORD_FAULTS.items():
        node_count = 65 if note == "64 units" else 16
        yield reading(sheet_of(FIVE, records), 5, node_count, note)
        yield reading(sheet_of(FIVE, records, end=b"\0"), 5, node_count, note + ", more behind")
        yield reading(sheet_of(FIVE, records, kits=len(records) + 1), 5, node_count,
                      note + ", one record missing")
    yield reading(sheet_of([], [record(1, (1, 1))]), note="a kit line without parts")
    yield reading(sheet_of([], [record(1)]), note="the empty kit without parts")


def many_lines(parts, *line_counts):
    """Records of so many lines of one unit each beside so many parts, whole and cut short."""
    for lines in line_counts:
        data = sheet_of(many_numbers(parts), [
            record(9, *((place, 1) for place in range(1, lines + 1)))])
        note = "%d lines beside %d parts" % (lines, parts)
        yield reading(data, parts, 65, note)
        yield reading(data[:-1], parts, 65, note + ", the last one cut short")


def room_for_reading():
    """Slots and nodes exactly enough and one too few; 1 before 13 before 12."""
    data = sheet_of(THREE, THREE_KITS)
    faulty = data + b"\0"
    for slots in (1, 2, 3, 4):
        for node_count in (1, 2, 6, 7, 8):
            yield reading(data, slots, node_count, "%d slots, %d nodes" % (slots, node_count))
            yield reading(faulty, slots, node_count, "faulty, %d slots, %d nodes" % (
                slots, node_count))
    for slots, node_count in ((1, 1), (1, 2), (2, 1)):
        yield reading(sheet_of([], []), slots, node_count, "the empty sheet")
        yield reading(sheet_of([b"A"], [record(1)]), slots, node_count, "the empty kit")
        yield reading(sheet_of([b"A"], [record(1, (1, 1))]), slots, node_count, "one node")
    for register_length, table_length in ((0, NODE_WORDS), (31, NODE_WORDS), (32, 0),
                                          (32, NODE_WORDS + 1), (33, NODE_WORDS + 1),
                                          (32, NODE_WORDS - 1)):
        for sheet_bytes in (data, faulty, b""):
            yield Request("r", R=bytes(register_length), N=[0] * table_length, I=sheet_bytes,
                          note="%d register bytes, %d words" % (register_length, table_length))
    longest = BYTE_PLACES * SLOT_BYTES
    for length in (longest, longest + 1, longest + SLOT_BYTES):
        yield Request("r", R=bytes(length), N=[0] * 7 * NODE_WORDS, I=data,
                      note="%d register bytes" % length)


def old_contents():
    """Tables of any contents are replaced; the same sheet fills them alike."""
    data = sheet_of(THREE, THREE_KITS)
    for register in (bytes(128), b"\xff" * 128, filled(THREE, 4), filled(FIVE[:4], 4)):
        for word in (0, 1, 65535):
            yield Request("r", R=register, N=[word] * NODE_WORDS * 9, I=data, note="old contents")


def sweeps():
    """Every byte of a sheet set to several values, left out, or doubled; of small ones, to all."""
    yield from altered_sheet()
    yield from every_value(6)


def altered_sheet():
    """Every byte of a sheet set to several values, left out, doubled, and the last one."""
    data = sheet_of([b"00741", b"741", b"4016", b"A" * 24], [
        record(3), record(9, (1, 1)), record(8, (1, 2), (3, 1)), record(256, (1, 2), (4, 2)),
        record(7, (2, 3)), record(65535, (3, 1))])
    for at, byte in enumerate(data):
        for value in sorted(set(SHEET_BYTES) | {(byte + 1) % 256, (byte - 1) % 256} - {byte}):
            yield reading(data[:at] + bytes([value]) + data[at + 1:],
                          note="byte %d set to %d" % (at, value))
        yield reading(data[:at] + data[at + 1:], note="byte %d left out" % at)
        yield reading(data[:at] + data[at:at + 1] + data[at:], note="byte %d doubled" % at)
        yield reading(data[:at], note="cut to %d bytes" % at)


def every_value(node_count):
    """Every byte of small sheets set to every value, and read into so many nodes."""
    for small in SMALL_SHEETS:
        for at in range(len(small)):
            for value in range(256):
                yield reading(small[:at] + bytes([value]) + small[at + 1:], 3, node_count,
                              note="byte %d of %d set to each value" % (at, len(small)))


@functools.lru_cache(maxsize=None)
def long_sheet(kind):
    """A faultless sheet near the largest that the probe has room for, of one of several kinds."""
    parts = many_numbers(BYTE_PLACES)
    records = []
    size = len(sheet_of(parts, []))
    for row in long_rows(kind):
        made = record(len(records) + 1, *lines_of(row))
        if size + len(made) > ROOM["I"] or len(records) == 65535:
            break
        records.append(made)
        size += len(made)
    return sheet_of(parts, records)


def long_rows(kind):
    """Rows in listing order: many short ones, or long ones that share little."""
    if kind == "singles":
        for place in range(1, BYTE_PLACES + 1):
            for quantity in range(1, 16):
                yield (place,) * quantity
    elif kind == "pairs":
        for first in range(1, BYTE_PLACES + 1):
            for second in range(first, BYTE_PLACES + 1):
                yield (first, second)
    else:
        for first in range(1, 201):
            for second in range(first + 1, 201):
                yield ((first,) * 15 + (second,) * 15 + (second + 1,) * 15 + (second + 2,) * 15
                       + (second + 3,) * 4)


def large():
    """Full tables written and read back, and sheets that need more nodes than 16 bits count."""
    full = parts_register(BYTE_PLACES, BYTE_PLACES)
    for kind in LARGE_KINDS:
        words = large_table(kind)
        held = nodes.held_kits(words)
        written = sheet.written(numbers_of(full), held)
        size = len(written)
        for room in {0, min(size - 1, ROOM["O"]), min(size, ROOM["O"]), ROOM["O"]}:
            yield Request("s", R=full, N=words, O=b"\x5a" * room, note="write 4096 nodes, " + kind)
        if size <= ROOM["I"]:
            for slots, node_count in ((255, 4096), (254, 4096), (255, 4095), (255, 4094)):
                yield reading(written, slots, node_count, "read 4096 nodes, " + kind)
            yield reading(written[:-1], 255, 4096, "read 4096 nodes, torn")
        old = old_sheet(numbers_of(full), {(): 65534, **held})
        for node_count in (4096, 4095) if len(old) <= ROOM["I"] else ():
            yield reading(old, 255, node_count, "read 4096 nodes and an empty kit, " + kind)
    for kind in ("singles", "pairs", "long"):
        data = long_sheet(kind)
        for slots, node_count in ((255, 4096), (254, 4096), (255, 3826), (255, 3825)):
            yield reading(data, slots, node_count, "a long sheet, " + kind)
        yield reading(data[:-1], 255, 4096, "a long sheet, torn, " + kind)
    yield from many_lines(BYTE_PLACES, 64, 65, 255)
    for parts in (BYTE_PLACES - 1, BYTE_PLACES, BYTE_PLACES + 1):
        for slots in (BYTE_PLACES - 1, BYTE_PLACES):
            yield reading(sheet_of(many_numbers(parts), [record(1, (254, 1))]), slots, 2,
                          "%d parts into %d slots" % (parts, slots))
    *spellings, another = many_spellings(BYTE_PLACES + 1)
    for row in (spellings, [*spellings[1:], another], [*spellings[1:], spellings[1]]):
        yield reading(sheet_of(row, [record(1, (254, 1))]), BYTE_PLACES, 2, "255 spellings")
    yield reading(sheet_of(torn_labels(BYTE_PLACES), [record(1, (254, 1))]), BYTE_PLACES, 2,
                  "255 torn labels")
    for length in (MOST_NODES * NODE_WORDS + 1, (MOST_NODES + 1) * NODE_WORDS):
        yield Request("r", R=bytes(32), N=[0] * length, I=sheet_of([], []),
                      note="%d words" % length)
    yield reading(b"\xff" * ROOM["I"], note="bytes of any kind")
    yield reading(b"KIT\0\1\0\0\0\0" + bytes(ROOM["I"] - 9), note="much behind the end")


def bytes_needed(register, words):
    """The bytes of a sheet, as a call without output tells them by 12; some for damaged tables."""
    came = calls.answer(Request("s", R=register, N=words))
    return came.value if came.number == NO_ROOM else len(PRINTED_SHEET)


class Maker:
    """Makes requests by chance from catalogues that it keeps."""

    def __init__(self, chance):
        self.chance = chance
        self.stock = Stock(chance)

    def by_chance(self, letter):
        """A request for this call."""
        return self.writing() if letter == "s" else self.reading()

    def writing(self):
        """A sheet to write, mostly with about the room that it needs."""
        chance = self.chance
        register, words, _, _ = some_tables(chance, self.stock)
        size = bytes_needed(register, words)
        room = chance.pick((0, size - 1, size, size, size + 1, size + 9, chance.below(size + 20)))
        old = chance.some_bytes(chance.between(100, 200)) * (1 + room // 100)
        return Request("s", R=register, N=words, O=old[:min(room, ROOM["O"])])

    def reading(self):
        """A sheet to read, whole or altered, into tables of about the room that it needs."""
        chance = self.chance
        part_numbers, kits = self.contents()
        data = old_sheet(part_numbers, kits)
        for _ in range(chance.pick((0, 0, 1, 1, 2))):
            data = self.altered(data, part_numbers, kits)
        register, words = self.tables_around(
            len(part_numbers), sheet.nodes_needed(kits.items()))
        return Request("r", R=register, N=words, I=data)

    def tables_around(self, parts, needed):
        """Tables of anything with about so many slots and nodes, now and then of wrong length."""
        chance = self.chance
        slots = max(1, parts + chance.pick((-1, 0, 0, 0, 1, 2)))
        node_count = max(1, needed + chance.pick((-2, -1, 0, 0, 0, 1, 5)))
        old_register = chance.pick((bytes(slots * SLOT_BYTES), b"\x31" * slots * SLOT_BYTES))
        old_words = [chance.pick((0, 1, 65535))] * (node_count * NODE_WORDS)
        if chance.one_in(12):
            old_register = old_register[:chance.below(len(old_register))]
        if chance.one_in(12):
            old_words = damaged_table(chance, old_words, parts)
        return old_register, old_words

    def contents(self):
        """The part numbers and the kits of a sheet; now and then enough of them for version 2."""
        chance = self.chance
        if chance.one_in(16):
            parts = chance.pick((254, 255, 256, 256, 257, 300))
            return shortest_numbers(parts), some_far_kits(chance, parts)
        register, _, kits = self.stock.catalogue()
        return numbers_of(register), kits

    def byte_of(self, data):
        """Where a byte is changed: in a long sheet mostly in its head or in its last records."""
        at = self.chance.below(len(data))
        if len(data) <= LONG_SHEET:
            return at
        return self.chance.pick((at, at % 12, len(data) - 1 - at % 60, len(data) - 1 - at % 60))

    def altered(self, data, part_numbers, kits):
        """The sheet with something changed: a byte, its length, its order, its counts."""
        chance = self.chance
        way = chance.below(8)
        if not data or way == 0:
            return data + chance.some_bytes(chance.between(1, 4))
        if way == 1:
            return data[:chance.below(len(data))]
        at = self.byte_of(data)
        if way in (2, 3):
            value = chance.pick((chance.pick(SHEET_BYTES), (data[at] + 1) % 256,
                                 (data[at] - 1) % 256))
            return data[:at] + bytes([value]) + data[at + 1:]
        if way == 4:
            return data[:at] + data[at + chance.between(1, 3):]
        version = sheet.version_for(len(part_numbers))
        records = records_of(version, kits)
        part_numbers = list(part_numbers)
        if way == 5 and len(records) > 1:
            one, other = chance.below(len(records)), chance.below(len(records))
            records[one], records[other] = records[other], records[one]
        elif way == 6 and len(records) > 1:
            one, other = chance.below(len(records)), chance.below(len(records))
            records[one] = chance.pick((records[other], records[other][:2] + records[one][2:]))
        elif part_numbers:
            part_numbers[chance.below(len(part_numbers))] = chance.pick(part_numbers)
        return sheet_of(part_numbers, records, version=version.number)
