"""Requests that rescue torn sheets, request 12: every sheet that is read is rescued too.

What reading does not try comes beside them: faults between good records, kit counts that are not
those of the records, and tables with room for the kits kept alone.
"""

from itertools import product

from second import calls, sheet
from second.kits import lines_of, listing_order
from second.lent import Request
from second.nodes import MOST_NODES, NODE_WORDS, held_kits
from second.register import MOST_SLOTS, SLOT_BYTES, filled, numbers_of
from second.sheet import BYTE_PLACES, TWO_BYTES

from . import empty_requests, sheet_requests, version_requests
from .empty_ways import empty_at
from .many_parts import AROUND_BYTE, AROUND_MOST, edge_rows, sibling_words
from .register_requests import punctuated, shortest_numbers
from .salvage_ways import front_of
from .sheet_requests import (
    FIVE, OLD_BYTES, ONE_KIT, PRINTED_SHEET, RECORD_FAULTS, SHEET_BYTES, SMALL_SHEETS, THREE,
    THREE_KITS, long_sheet, old_sheet, reading, record, sheet_of)
from .tables import parts_register, table
from .version_requests import (
    FEWEST, KIT_COUNT_AT, RECORDS, SMALLEST, TRIED_BYTES, wide, wide_sheet)

# A sheet whose kits share beginnings, so that each takes other nodes: 1, 2, 2, 1 and 3 of them.
FIVE_KITS = [record(9, (1, 1)), record(8, (1, 3)), record(300, (1, 1), (3, 2)), record(7, (2, 1)),
             record(65535, (2, 1), (3, 3))]
FIVE_KITS_SHEET = sheet_of(THREE, FIVE_KITS)
# The same behind the record of an empty kit.
OLD_FIVE_SHEET = sheet_of(THREE, [record(256), *FIVE_KITS])

# Kit counts that are tried beside so many records, which one byte or a sign would fold.
OTHER_COUNTS = [255, 256, 257, 4096, 32768, 65535]

# Nodes for whatever a small sheet with one byte set holds.
ENOUGH_NODES = 40

# Tables that hold something before: a sound catalogue, one with an empty kit, and damaged ones.
SOUND_REGISTER = filled([b"A", b"a", b"74LS00", b"B"], 5)
SOUND_WORDS = table(9, ((1,), 4), ((1, 2), 9), ((3, 3), 5))
TABLES_BEFORE = {
    "a sound catalogue": (SOUND_REGISTER, SOUND_WORDS),
    "an empty kit": (SOUND_REGISTER, table(9, ((), 7), ((1, 2), 9))),
    "zeros": (bytes(5 * SLOT_BYTES), [0] * 9 * NODE_WORDS),
    "a number twice": (filled([b"A", b"A", b"B"], 5), SOUND_WORDS),
    "a gap in the register": (bytes(SLOT_BYTES) + filled([b"A", b"B", b"C"], 4), SOUND_WORDS),
    "a label beyond the parts": (filled([b"A"], 5), SOUND_WORDS),
    "words of any kind": (SOUND_REGISTER, [65535] * 9 * NODE_WORDS),
    "bytes of any kind": (b"\xff" * 5 * SLOT_BYTES, [7] * 9 * NODE_WORDS),
}


def rescuing(data, slots=4, node_count=12, note=""):
    """A request that rescues these bytes into tables full of other things."""
    return in_place_of(reading(data, slots, node_count, note))


def in_place_of(read):
    """The same bytes rescued into the same tables, in place of read."""
    return Request("S", note=read.note + ", rescued", **read.blocks)


def every_one_read(requests):
    """Of these requests those that read a sheet, as rescues."""
    return (in_place_of(request) for request in requests if request.letter == "r")


def announcing(data, kits):
    """The sheet with so many kits announced, whatever records stand behind."""
    at = front_of(data).start
    return data[:at - TWO_BYTES] + sheet.two_bytes(kits) + data[at:]


def with_just(data, records, end):
    """The sheet that ends here and announces so many records: the faultless one with just those
    kits, where they are the ones before the first fault."""
    return announcing(data[:end], records)


def rescued_sheet(data, kept, offset):
    """The faultless sheet of the kits that a rescue reports, and of an empty kit that it dropped.

    "It keeps the longest faultless run of kit records from the first on", up to the offset.
    """
    start = front_of(data).start
    return with_just(data, kept + (offset > start and empty_at(data, start)), offset)


def nodes_kept(data):
    """The nodes for the kits kept, the root among them; 1 where the sheet's front is at fault."""
    try:
        return sheet.nodes_needed(sheet.salvaged(data).kits)
    except sheet.SheetFault:
        return 1


def limits():
    """All that reading tries; cuts, counts and faults between good records; room for the kept."""
    yield from every_one_read(sheet_requests.limits())
    yield from every_one_read(empty_requests.limits())
    yield from torn_anywhere()
    yield from counts_announced()
    yield from faults_between()
    yield from room_for_kept()
    yield from held_before()
    yield from wrong_lengths()
    yield from wide_limits()
    yield from asked_afterwards()


def torn_anywhere():
    """Sheets cut at every byte, those of old kits too, and with bytes of any kind behind."""
    for data in (*SMALL_SHEETS, FIVE_KITS_SHEET, OLD_FIVE_SHEET):
        for length in range(len(data) + 1):
            yield rescuing(data[:length], note="torn off anywhere")
        for end in (b"\0", b"\0\1", record(9, (1, 1)), record(77, (3, 15)), b"K", data):
            yield rescuing(data + end, note="bytes behind the end")


def counts_announced():
    """More kits announced than records stand there, and fewer; the records whole and cut."""
    for data, records in ((FIVE_KITS_SHEET, 5), (OLD_FIVE_SHEET, 6), (PRINTED_SHEET, 2),
                          (sheet_of(THREE, []), 0), (sheet_of([], [record(1)]), 1)):
        for kits in (*range(records + 4), *OTHER_COUNTS):
            note = "%d kits announced" % kits
            yield rescuing(announcing(data, kits), note=note)
            if records:
                yield rescuing(announcing(data[:-1], kits), note=note + ", the last one cut short")
            yield rescuing(announcing(data, kits) + b"\0\1\1", note=note + ", more behind")
            yield rescuing(announcing(data, kits), 3, nodes_kept(announcing(data, kits)), note)


def faults_between():
    """Each record that is at fault alone, behind good ones, before them and between."""
    good = [record(500, (1, 1)), record(501, (1, 1), (4, 15))]
    later = [record(502, (4, 1)), record(503, (5, 15))]
    for note, faulty in RECORD_FAULTS.items():
        for before, behind in (([], later), (good, []), (good, later), (good[:1], later)):
            yield rescuing(sheet_of(FIVE, [*before, *faulty, *behind]), 5, 75,
                           "among good records, " + note)
    for bad in (record(0, (4, 1)), record(500, (4, 1)), record(504, (4, 16))):
        for records in ([*good, bad, bad, *later], [bad, *good, bad, *later], [*good, *later, bad]):
            yield rescuing(sheet_of(FIVE, records), 5, 40, "records at fault among good ones")


def room_for_kept():
    """Slots and nodes just enough and one too few for what is kept of each cut of a sheet.

    "then 12 for the kept part": slots for all parts, though no kit needs them, or else nodes.
    """
    for data in (FIVE_KITS_SHEET, OLD_FIVE_SHEET):
        start = front_of(data).start
        for length in range(start, len(data) + 1):
            torn = data[:length]
            needed = nodes_kept(torn)
            for slots, node_count in product((2, 3, 4), {1, max(1, needed - 1), needed}):
                yield rescuing(torn, slots, node_count, "%d slots and a node more or less" % slots)
        yield rescuing(data[:start - 1], 1, 1, "a kit count cut short before a slot too few")
        yield rescuing(data[:start - TWO_BYTES], 1, 1, "no kit count before a slot too few")
    faulty = [record(0, (3, 3))]
    for node_count in range(1, 12):
        for records in (FIVE_KITS, FIVE_KITS + faulty, FIVE_KITS[:3] + faulty + FIVE_KITS[3:]):
            yield rescuing(sheet_of(THREE, records), 3, node_count, "into %d nodes" % node_count)
        yield rescuing(FIVE_KITS_SHEET + b"\0", 3, node_count, "more behind, %d nodes" % node_count)


def held_before():
    """Tables of any contents are replaced, and left as they are by 13 and by 12."""
    for note, (register, words) in TABLES_BEFORE.items():
        for data in (FIVE_KITS_SHEET[:-1], FIVE_KITS_SHEET, FIVE_KITS_SHEET + b"\0",
                     sheet_of(THREE, THREE_KITS)[:-4], sheet_of([], []), OLD_FIVE_SHEET[:-9],
                     PRINTED_SHEET[:23], PRINTED_SHEET[:22], b"", sheet_of([b"A", b"A"], []),
                     sheet_of([*FIVE, b"6"], [])[:-1], sheet_of([*FIVE, b"6"], [ONE_KIT]),
                     sheet_of(FIVE, [record(3, (1, 15)), record(4, (1, 16))])):
            yield Request("S", R=register, N=words, I=data, note="rescued over " + note)


def wrong_lengths():
    """1 for each table, whatever the sheet is."""
    sheets = [FIVE_KITS_SHEET, FIVE_KITS_SHEET[:-1], FIVE_KITS_SHEET + b"\0", PRINTED_SHEET[:23],
              b""]
    words = (0, 1, NODE_WORDS - 1, NODE_WORDS, NODE_WORDS + 1, 5 * NODE_WORDS)
    for register_length, table_length, data in product((0, 31, 32, 33, 64, 96), words, sheets):
        yield Request("S", R=bytes(register_length), N=[0] * table_length, I=data,
                      note="%d register bytes, rescued" % register_length)


def wide_limits():
    """Version 2 whole, cut and with more behind; with 255 parts it is at fault."""
    for data in (SMALLEST, SMALLEST + b"\0", *(SMALLEST[:-less] for less in (1, 2, 3, 7)),
                 *(SMALLEST[:KIT_COUNT_AT + more] for more in (-1, 0, 1, TWO_BYTES))):
        yield rescuing(data, FEWEST, nodes_kept(data), "version 2 of %d bytes" % len(data))
    yield rescuing(SMALLEST, FEWEST - 1, 12, "version 2, a slot too few")
    yield rescuing(wide_sheet([], BYTE_PLACES), BYTE_PLACES, 1, "version 2 with 255 parts")


def asked_afterwards():
    """Calls on the very tables that a rescue leaves: found, shown, entered, counted and written.

    "fills the tables as reading would from a sheet with just those kits"
    """
    row = [*punctuated([b"CD4016_"])[:2], b"4016"]
    for data in (FIVE_KITS_SHEET[:-1], OLD_FIVE_SHEET[:-20],
                 sheet_of(row, [record(9, (1, 1)), record(5, (3, 2)), record(4, (3, 0))])):
        asked = rescuing(data, 4, 12, "a sheet of %d bytes" % len(data))
        yield asked
        came = calls.answer(asked).blocks
        lent = {"R": came["R"], "N": came["N"], "note": asked.note + ", then"}
        for place, number in enumerate([*THREE, *row, b"NEW"], start=1):
            yield from (Request(letter, place, I=number, **lent) for letter in "pln")
        for letter, listed in product("fd#wc", ([], [1, 1], [1, 3], [2, 1, 3, 3], [3, 2])):
            yield Request(letter, L=listed, **lent)
        for tag, listed in product((9, 65535, 300), ([2, 1, 3, 3], [1, 1], [2, 2])):
            yield Request("k", tag, L=listed, **lent)
        size = calls.answer(Request("s", **lent)).value
        yield from (Request("s", O=OLD_BYTES[:room], **lent) for room in (size - 1, size, size + 9))


def sweeps():
    """Every byte of small sheets set to every value; every two small records; every cut by every
    room; and version 2 cut at every byte and altered."""
    yield from every_one_read(sheet_requests.altered_sheet())
    yield from every_one_read(sheet_requests.every_value(ENOUGH_NODES))
    yield from every_room()
    yield from every_two_records()
    yield from wide_torn()
    yield from wide_altered()


def every_room():
    """Each cut of a sheet into every count of nodes up to enough for all of it."""
    for data in (FIVE_KITS_SHEET, OLD_FIVE_SHEET):
        most = nodes_kept(data)
        for length, node_count in product(range(front_of(data).start, len(data) + 1),
                                          range(1, most + 2)):
            yield rescuing(data[:length], 3, node_count, "cut and into %d nodes" % node_count)


def every_two_records():
    """Two records of one line, of every tag, place and quantity around the limits, beside two
    parts; a third one, which is good, behind them."""
    records = [record(tag, (place, quantity)) for tag, place, quantity in product(
        (0, 1, 2), (0, 1, 2, 3), (0, 1, 2, 15, 16))]
    last = record(9, (2, 15))
    for one, other in product([record(1), *records], repeat=2):
        yield rescuing(sheet_of(FIVE[:2], [one, other, last]), 2, 33, "two small records")


def wide_torn():
    """The smallest sheet of version 2 cut at every byte."""
    for length in range(len(SMALLEST) + 1):
        data = SMALLEST[:length]
        slots = FEWEST if length > KIT_COUNT_AT else 1
        yield rescuing(data, slots, nodes_kept(data), "version 2 torn off")


def wide_altered():
    """Bytes of the smallest sheet of version 2 set to several values, left out or doubled.

    Where the front is at fault 13 comes before 12, so that one slot is enough to see it.
    """
    for at in TRIED_BYTES:
        byte, note = SMALLEST[at], "byte %d of version 2" % at
        slots, node_count = (FEWEST, 64) if at >= KIT_COUNT_AT else (1, 1)
        for value in sorted({*SHEET_BYTES, (byte + 1) % 256, (byte - 1) % 256} - {byte}):
            yield rescuing(SMALLEST[:at] + bytes([value]) + SMALLEST[at + 1:], slots, node_count,
                           note + " set")
        yield rescuing(SMALLEST[:at] + SMALLEST[at + 1:], slots, node_count, note + " left out")
        yield rescuing(SMALLEST[:at] + SMALLEST[at:at + 1] + SMALLEST[at:], slots, node_count,
                       note + " doubled")
    for note, records in RECORDS.items():
        yield rescuing(wide_sheet([wide(900, (1, 1)), *records, wide(901, (256, 15))]), FEWEST, 80,
                       "version 2 between good records, " + note)


def large():
    """All that reading tries; long sheets torn; many parts, and all of 4,000."""
    for maker in (sheet_requests, version_requests, empty_requests):
        yield from every_one_read(maker.large())
    yield from long_torn()
    yield from many_parts_torn()
    yield from siblings_torn()


def long_torn():
    """Sheets near the largest: torn in the middle and near the end, nodes just enough or less."""
    for kind in ("singles", "pairs", "long"):
        data = long_sheet(kind)
        for length in (len(data) - 1, len(data) - 8, len(data) // 2, len(data) // 8):
            needed = nodes_kept(data[:length])
            for node_count in sorted({min(MOST_NODES, count) for count in (needed, needed - 1)}):
                yield rescuing(data[:length], BYTE_PLACES, node_count, "a long sheet, " + kind)
        yield rescuing(announcing(data, 65535), BYTE_PLACES, MOST_NODES, "65,535 of " + kind)


def many_parts_torn():
    """Part counts at each limit: all slots needed for a part of the kits, and one too few."""
    for parts in AROUND_BYTE + AROUND_MOST:
        rows = {row: 900 - at for at, row in enumerate(edge_rows(parts))}
        data = old_sheet(shortest_numbers(parts), rows)
        for length in (len(data), len(data) - 1, len(data) - 12, len(data) - 30):
            needed = nodes_kept(data[:length])
            for slots, node_count in ((parts, needed), (parts, needed - 1), (parts - 1, needed)):
                yield rescuing(data[:length], slots, node_count, "%d parts, %d bytes" % (
                    parts, length))
        yield rescuing(data[:front_of(data).start - 1], 1, 1, "%d parts, kit count cut" % parts)


def siblings_torn():
    """4,000 siblings torn in the middle of the chain, and announced as 65,535."""
    full = parts_register(MOST_SLOTS, MOST_SLOTS)
    data = sheet.written(numbers_of(full), held_kits(sibling_words()))
    for length in (len(data) - 1, len(data) - 6000):
        needed = nodes_kept(data[:length])
        for node_count in (needed, needed - 1):
            yield rescuing(data[:length], MOST_SLOTS, node_count, "4,000 siblings torn")
    yield rescuing(announcing(data, 65535), MOST_SLOTS, MOST_NODES, "4,000 siblings, 65,535")


class Maker(sheet_requests.Maker):
    """Makes requests by chance from catalogues that it keeps: sheets torn more often than not."""

    def by_chance(self, letter):
        """A sheet to rescue, into tables of about the room that what is kept of it needs."""
        chance = self.chance
        part_numbers, kits = self.contents()
        data = old_sheet(part_numbers, kits)
        for _ in range(chance.pick((0, 1, 1, 1, 2))):
            way = chance.pick((self.torn, self.torn, self.altered, self.with_record_changed))
            data = way(data, part_numbers, kits)
        if chance.one_in(6):
            register, words, _ = self.stock.catalogue()
        else:
            register, words = self.tables_around(len(part_numbers), nodes_kept(data))
        return Request(letter, R=register, N=words, I=data)

    def torn(self, data, _, kits):
        """The sheet cut, mostly behind its kit count, or with other kits announced."""
        chance, start = self.chance, front_of(data).start
        if not start or chance.one_in(6):
            return data[:max(0, chance.pick((start - 2, start - 1, chance.below(len(data) + 1))))]
        if chance.one_in(3):
            return announcing(data, chance.pick((0, 1, len(kits) + 1, 65535,
                                                 chance.below(len(kits) + 2))))
        return data[:chance.between(start, len(data))]

    def with_record_changed(self, data, part_numbers, kits):
        """The sheet with one thing of one record set to what is at fault, or nearly."""
        chance, version = self.chance, sheet.version_for(len(part_numbers))
        records = [[tag, lines_of(row)] for row, tag in listing_order(kits)]
        one = chance.pick(records) if records else None
        if not one or not one[1]:
            return data
        at = chance.below(len(one[1]))
        place, quantity = one[1][at]
        way = chance.below(6)
        if way == 0:
            one[0] = chance.pick((0, 0, records[0][0]))
        elif way == 1:
            one[1] = chance.pick(([], one[1][::-1], one[1][::-1], chance.pick(records)[1]))
        elif way == 2:
            other = chance.pick((0, 0, one[1][at - 1][0], place + 1, len(part_numbers) + 1))
            one[1][at] = other % 256 ** version.place_bytes, quantity
        else:
            one[1][at] = place, chance.pick((0, 15, 16, 255))
        return sheet_of(part_numbers, [record(tag, *lines, version=version)
                                       for tag, lines in records], version=version.number)
