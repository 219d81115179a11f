"""The ways that a call can go where parts are many: request 10's limits, on both sides of each.

Like those of made.ways: each function takes a request and its right answer.
"""

from second import nodes, register, sheet
from second.kits import lines_of_words
from second.refusals import (
    ALREADY_HELD, BAD_ORDER, BAD_QUANTITY, BEYOND_PARTS, DONE, NO_ROOM, NOT_HELD, NOT_SOUND,
    SHEET_AT_FAULT, WRONG_LENGTH)
from second.register import MOST_SLOTS, SLOT_BYTES
from second.sheet import BYTE_PLACES

from .many_parts import AROUND_BYTE, AROUND_MOST, EDGE_PLACES, hash_of
from .version_requests import SMALLEST

# Slots and parts, and the place behind the last of so many parts.
COUNTS = AROUND_BYTE + AROUND_MOST
BEHIND = [BYTE_PLACES + 1, BYTE_PLACES + 2, MOST_SLOTS, MOST_SLOTS + 1]

# Where the version and the part count of a sheet stand.
VERSION_AT = len(sheet.MARK)
PART_COUNT_AT = VERSION_AT + sheet.TWO_BYTES

# The smallest sheet of version 2 must be cut at every byte.
WIDE_CUT = "the smallest sheet of version 2 cut short"
WIDE_FAULT = "%s at fault in version 2"

# What requests by chance come to, too.
BY_CHANCE_TOO = {"version 1 written", "version 1 read", "version 2 read", WIDE_FAULT % "number",
                 WIDE_FAULT % "record"}


def slots_lent(asked, came):
    """Registers of right length, and those of one slot or one byte too many."""
    size, wrong = len(asked.blocks["R"]), came.number == WRONG_LENGTH
    return {
        **{"%d slots" % slots: not wrong and size == slots * SLOT_BYTES for slots in COUNTS},
        "4,001 slots": wrong and size == (MOST_SLOTS + 1) * SLOT_BYTES,
        "128,001 bytes": wrong and size == MOST_SLOTS * SLOT_BYTES + 1,
    }


def numbers_in(data, at, step=None):
    """The numbers behind their length bytes, a step or their own length apart."""
    while at < len(data):
        end = at + 1 + data[at]
        yield data[at + 1:end]
        at = at + step if step else end


def of_one_hash(numbers):
    """Whether all of these have the hash of the first."""
    first = hash_of(next(numbers, b""))
    return all(hash_of(number) == first for number in numbers)


def hashes_lent(asked, came):
    """4,000 numbers of one hash, and one of them twice."""
    data = asked.blocks["R"]
    alike = (len(data) == MOST_SLOTS * SLOT_BYTES
             and of_one_hash(numbers_in(data, 0, SLOT_BYTES)))
    return {"4,000 numbers of one hash": alike and came.number != NOT_SOUND,
            "a number of one hash twice": alike and came.number == NOT_SOUND}


def hashes_read(asked, came):
    """Thousands of numbers of one hash on a sheet of version 2 without kits; one of them twice."""
    data = asked.blocks["I"][:-sheet.TWO_BYTES]
    alike = (data[VERSION_AT:PART_COUNT_AT] == sheet.two_bytes(2)
             and len(data) > MOST_SLOTS
             and of_one_hash(numbers_in(data, PART_COUNT_AT + sheet.TWO_BYTES)))
    return {"numbers of one hash on a sheet": alike and came.number == NO_ROOM,
            "a number of one hash twice on a sheet": alike and came.number == SHEET_AT_FAULT}


def sound_parts(asked, came):
    """How many parts stand in the register where it is sound."""
    if came.number in (WRONG_LENGTH, NOT_SOUND):
        return 0
    return len(register.numbers_of(asked.blocks["R"]))


def parts_lent(asked, came):
    """Sound registers of so many parts."""
    parts = sound_parts(asked, came)
    return {"%d parts" % count: parts == count for count in COUNTS}


def places_told(_, came):
    """The places that a number was registered or found at."""
    told = came.value if came.number in (DONE, ALREADY_HELD) else 0
    return {"place %d told" % place: told == place for place in EDGE_PLACES}


def places_shown(asked, came):
    """The places whose number was shown, and those just behind the last part."""
    parts = sound_parts(asked, came)
    return {
        **{"place %d shown" % place: came.done() and asked.a == place for place in EDGE_PLACES},
        **{"place %d not shown" % place: came.number == NOT_HELD and asked.a == place == parts + 1
           for place in BEHIND},
    }


def last_of_all(asked, came):
    """The last of 4,000 slots taken."""
    return {"the last of 4,000 slots": came.done() and came.value == MOST_SLOTS}


def places_listed(asked, came):
    """Places on a list that was answered with some kit or node, and those beyond the parts."""
    words, line = asked.blocks["L"], came.value
    even = len(words) % 2 == 0
    answered = {place for place, _ in lines_of_words(words)} if came.done() and line else set()
    beyond = words[2 * line - 2] if came.number == BEYOND_PARTS else 0
    parts = sound_parts(asked, came) if beyond else 0
    return {
        **{"place %d answered" % place: place in answered for place in EDGE_PLACES},
        **{"place %d beyond the parts" % place: beyond == place == parts + 1 for place in BEHIND},
        "4 on line 4,000": came.number == BAD_ORDER and even and line == MOST_SLOTS,
        "6 on line 4,000": came.number == BAD_QUANTITY and line == MOST_SLOTS,
        "5 on line 4,001": beyond and line == MOST_SLOTS + 1,
        "an odd list that lacks line 4,001": came.number == BAD_ORDER and not even
                                             and line == MOST_SLOTS + 1,
    }


def version_of(data):
    """The version that stands on a sheet, and its part count, as far as they are there."""
    return [int.from_bytes(data[at:at + sheet.TWO_BYTES], "big")
            for at in (VERSION_AT, PART_COUNT_AT)]


def versions_written(_, came):
    """Sheets of each version."""
    version, _ = version_of(came.blocks["O"] if came.done() else b"")
    return {"version 1 written": version == 1, "version 2 written": version == 2}


def sizes_written(asked, came):
    """Sheets of so many parts; too little room for version 2, and more than 16 bits count."""
    _, parts = version_of(came.blocks["O"] if came.done() else b"")
    no_room = came.number == NO_ROOM
    return {
        **{"%d parts written" % count: parts == count for count in COUNTS},
        "version 2 with one byte too few": no_room and came.value == len(asked.blocks["O"]) + 1
                                           and sound_parts(asked, came) > BYTE_PLACES,
        "more than 65,536 bytes needed": no_room and came.value > 65536,
    }


def item_at_fault(data, offset):
    """What kind of item behind the part count is at fault at this offset of a sheet."""
    items = sheet.Items(data)
    items.at = VERSION_AT
    try:
        version = sheet.read_version(items)
        numbers = sheet.read_numbers(items, version)
    except sheet.SheetFault:
        return "number" if offset > PART_COUNT_AT else ""
    if offset == items.at:
        return "kit count"
    count = items.take_number(sheet.TWO_BYTES)
    try:
        list(sheet.records_read(items, version, len(numbers), count))
    except sheet.SheetFault:
        return "record"
    return "end"


def versions_read(asked, came):
    """Sheets of each version; versions and part counts at fault, and the items of version 2."""
    data, at_fault = asked.blocks["I"], came.number == SHEET_AT_FAULT
    version, parts = version_of(data)
    counted = (version, parts) if at_fault and came.value == PART_COUNT_AT else None
    fault = item_at_fault(data, came.value) if at_fault and version == 2 else ""
    labels = [node.label for node in nodes.nodes_of(came.blocks["N"])] if came.done() else []
    return {
        "version 1 read": came.done() and version == 1,
        "version 2 read": came.done() and version == 2,
        **{"version %d at fault" % other: at_fault and came.value == VERSION_AT
           and version == other for other in (0, 3, 513)},
        "version 1 at fault by 256 parts": counted == (1, BYTE_PLACES + 1),
        "version 2 at fault by 255 parts": counted == (2, BYTE_PLACES),
        "version 2 at fault by 4,001 parts": counted == (2, MOST_SLOTS + 1),
        **{WIDE_FAULT % item: fault == item for item in ("number", "kit count", "record", "end")},
        "a place with low byte 0": version == 2 and BYTE_PLACES + 1 in labels,
        "a place with high byte 0": version == 2 and BYTE_PLACES in labels,
    }


def sizes_read(asked, came):
    """Sheets of so many parts; slots and nodes too few for version 2; the smallest cut short."""
    data, no_room = asked.blocks["I"], came.number == NO_ROOM
    version, parts = version_of(data)
    node_count = len(asked.blocks["N"]) // nodes.NODE_WORDS
    return {
        **{"%d parts read" % count: came.done() and parts == count for count in COUNTS},
        "256 slots needed": no_room and came.value == parts == BYTE_PLACES + 1,
        "4,000 slots needed": no_room and came.value == parts == MOST_SLOTS,
        "one node too few for version 2": no_room and version == 2
                                          and came.value == node_count + 1 < parts,
        WIDE_CUT: came.number == SHEET_AT_FAULT and SMALLEST.startswith(data),
    }
