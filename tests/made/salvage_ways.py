"""The ways that a call can go which rescues a torn sheet: request 12.

Like those of made.ways: each function takes a request and its right answer, of which the value is
the kits kept, the second number the kits announced, and the third the offset or a refusal's value.
"""

from collections import namedtuple

from second import nodes, register, sheet
from second.kits import LEAST_QUANTITY, MOST_QUANTITY, MOST_UNITS, units
from second.nodes import NODE_WORDS
from second.refusals import DONE, NO_ROOM, SHEET_AT_FAULT, WRONG_LENGTH
from second.register import SLOT_BYTES
from second.sheet import BYTE_PLACES, FIRST_VERSION

from .many_ways import COUNTS, PART_COUNT_AT, VERSION_AT, item_at_fault, version_of
from .sheet_requests import PRINTED_SHEET
from .version_requests import SMALLEST

# The printed sheet and the smallest one of version 2 must be cut at every byte, and every byte of
# the printed one must be set to every value.
TORN_OFF = "the printed sheet torn"
WIDE_TORN_OFF = "the smallest sheet of version 2 torn"
BYTE_SET = "the printed sheet with one byte set"

# The bytes of a record before its lines: tag and line count.
HEAD_BYTES = sheet.TWO_BYTES + sheet.ONE_BYTE
LARGEST_COUNT = 65535

# The front of a sheet that is faultless up to its kit count: where the records start, its version,
# its parts and the kits announced. A record as it stands, and where it ends. The run of records up
# to the first fault, with the front.
Front = namedtuple("Front", "start version parts announced")
Record = namedtuple("Record", "tag lines end")
Kept = namedtuple("Kept", "front records")
NO_FRONT = Front(0, FIRST_VERSION, 0, 0)


def front_of(data):
    """The front of a sheet; that of nothing where it is at fault."""
    items = sheet.Items(data)
    try:
        version, numbers, announced = sheet.read_front(items)
    except sheet.SheetFault:
        return NO_FRONT
    return Front(items.at, version, len(numbers), announced)


def record_at(data, at, version):
    """The record that stands here, whatever its values are; None where it is cut short."""
    behind, line_bytes = at + HEAD_BYTES, version.place_bytes + sheet.ONE_BYTE
    if behind > len(data):
        return None
    end = behind + data[behind - 1] * line_bytes
    if end > len(data):
        return None
    starts = range(behind, end, line_bytes)
    lines = [(int.from_bytes(data[start:start + version.place_bytes], "big"),
              data[start + version.place_bytes]) for start in starts]
    return Record(int.from_bytes(data[at:at + sheet.TWO_BYTES], "big"), lines, end)


def records_kept(asked, came):
    """The front and the records of an accepted call up to the offset that it tells."""
    data = asked.blocks["I"]
    front = front_of(data) if came.done() else NO_FRONT
    records, at = [], front.start
    while front.start and at < came.third:
        records.append(record_at(data, at, front.version))
        at = records[-1].end
    return Kept(front, records)


def begins_empty(run):
    """Whether an empty kit is the first of these records."""
    return bool(run.records) and not run.records[0].lines


def all_kept(came, run):
    """Whether every record that is announced is faultless."""
    return came.done() and run.front.start and len(run.records) == came.second


def too_few(came, run):
    """Whether a record that is announced is at fault."""
    return came.done() and len(run.records) < came.second


def reported(asked, came):
    """How the three numbers stand to each other and to the sheet's length."""
    run, size = records_kept(asked, came), len(asked.blocks["I"])
    records, offset, announced = len(run.records), came.third, came.second
    every, fewer = all_kept(came, run), too_few(came, run)
    return {
        "a faultless sheet of kits": every and offset == size and announced > 0,
        "a faultless sheet without kits": every and offset == size and announced == 0,
        "bytes behind the last record": every and offset < size and announced > 0,
        "bytes behind a kit count of 0": every and offset < size and announced == 0,
        "no record kept": fewer and records == 0,
        "one record kept of several": fewer and records == 1 < announced,
        "several records kept": fewer and records > 1,
        "all records kept but the last": fewer and records == announced - 1 > 0,
        "an end where a record should begin": fewer and offset == size and records > 0,
        "an end behind the kit count": fewer and offset == size and records == 0,
        "65,535 kits announced": fewer and announced == LARGEST_COUNT,
    }


def where_it_ends(asked, came):
    """Where in a record a sheet ends."""
    data, run = asked.blocks["I"], records_kept(asked, came)
    version, left = run.front.version, len(data) - came.third
    cut = too_few(came, run) and record_at(data, came.third, version) is None
    in_lines = cut and left > HEAD_BYTES
    in_line = (left - HEAD_BYTES) % (version.place_bytes + sheet.ONE_BYTE)
    return {
        "an end inside a tag": cut and left == 1,
        "an end behind a tag": cut and left == sheet.TWO_BYTES,
        "an end behind a line count": cut and left == HEAD_BYTES,
        "an end between two lines": in_lines and in_line == 0,
        "an end behind a place": in_lines and in_line == version.place_bytes,
    }


def wrong_in(record, parts, before):
    """What can be wrong with a whole record beside so many parts and behind these records, with
    whether it is."""
    places = [place for place, _ in record.lines]
    amounts = [quantity for _, quantity in record.lines]
    row, last = units(record.lines), units(before[-1].lines) if before else None
    return {
        "tag 0": record.tag == 0,
        "a tag twice": record.tag in [one.tag for one in before],
        "a place 0": 0 in places,
        "a place beyond the parts": max(places, default=0) > parts,
        "a place twice": any(place == one for one, place in zip(places, places[1:])),
        "a place that falls": any(place < one for one, place in zip(places, places[1:])),
        "a quantity 0": min(amounts, default=LEAST_QUANTITY) < LEAST_QUANTITY,
        "a quantity above 15": max(amounts, default=0) > MOST_QUANTITY,
        "more than 64 units": len(row) > MOST_UNITS,
        "the kit before it again": row == last,
        "a kit before the one before it": last is not None and row < last and bool(row),
        "an empty kit behind another": last is not None and row < last and not row,
    }


NOTHING_WRONG = wrong_in(Record(1, [], 0), 0, [])
RECORD_ALONE = "a record with %s alone"


def record_at_fault(asked, came):
    """What is wrong with the first record that is not kept, where it is whole and one thing is.

    Good records behind it are not kept.
    """
    data, run = asked.blocks["I"], records_kept(asked, came)
    record = record_at(data, came.third, run.front.version) if too_few(came, run) else None
    wrong = wrong_in(record, run.front.parts, run.records) if record else NOTHING_WRONG
    faults = [what for what, really in wrong.items() if really]
    next_one = record_at(data, record.end, run.front.version) if record else None
    good = next_one and not any(wrong_in(next_one, run.front.parts, run.records).values())
    return {
        **{RECORD_ALONE % what: faults == [what] for what in wrong},
        "a record with two things wrong": len(faults) > 1,
        "a good record behind the first fault": good and next_one.lines,
    }


def front_at_fault(asked, came):
    """13: the item before the records that is at fault, whole or cut short."""
    data, at = asked.blocks["I"], came.third
    refused = came.number == SHEET_AT_FAULT
    item = item_at_fault(data, at) if refused and at > PART_COUNT_AT else ""
    number = item == "number"
    there = number and at < len(data) and at + sheet.ONE_BYTE + data[at] <= len(data)
    return {
        "13 at the mark": refused and at == 0,
        "13 at the version": refused and at == VERSION_AT,
        "13 at the part count": refused and at == PART_COUNT_AT,
        "13 at a number": there,
        "13 at a number cut short": number and not there,
        "13 where the kit count is not there": item == "kit count" and at == len(data),
        "13 where the kit count has one byte": item == "kit count" and at == len(data) - 1,
    }


def at_fault_somewhere(data):
    """Whether a sheet is at fault."""
    try:
        sheet.read(data)
    except sheet.SheetFault:
        return True
    return False


def room_given(asked, came):
    """Slots for all parts and nodes for the kits kept: just enough, one too few, and in order."""
    data, slots = asked.blocks["I"], len(asked.blocks["R"]) // SLOT_BYTES
    node_count = len(asked.blocks["N"]) // NODE_WORDS
    judged = came.number in (DONE, NO_ROOM) and data
    rescued = sheet.salvaged(data) if judged else sheet.Rescued([], [], 0, 0)
    parts, needed = len(rescued.numbers), sheet.nodes_needed(rescued.kits)
    no_room, fewer = came.number == NO_ROOM, judged and at_fault_somewhere(data)
    for_nodes = no_room and parts <= slots
    return {
        "slots just enough": came.done() and slots == parts > 0,
        "nodes just enough": came.done() and node_count == needed > 1,
        "nodes just enough for the kept kits alone": came.done() and fewer
                                                     and came.value < came.second
                                                     and node_count == needed > 1,
        "one slot too few": no_room and came.third == parts == slots + 1,
        "one node too few": for_nodes and came.third == needed == node_count + 1,
        "one node too few for the kept kits alone": for_nodes and fewer
                                                    and needed == node_count + 1,
        "slots told where nodes are too few as well": no_room and parts > slots
                                                      and needed > node_count,
        "slots too few for all parts, and no kit is kept": no_room and fewer and not rescued.kits,
    }


def order_of_refusals(asked, came):
    """1 for each table, before 13 and 12; 13 before 12."""
    lent, data = asked.blocks, asked.blocks["I"]
    wrong, at_fault = came.number == WRONG_LENGTH, came.number == SHEET_AT_FAULT
    first = wrong and not register.right_length(lent["R"])
    front = front_of(data) if wrong else NO_FRONT
    return {
        "a register of wrong length": first,
        "nodes of wrong length": wrong and not first,
        "a wrong length before a fault": wrong and not front.start,
        "a wrong length before a slot too few": wrong and not first
                                                and front.parts > len(lent["R"]) // SLOT_BYTES,
        "a fault before a slot too few": at_fault and came.third > PART_COUNT_AT
                                         and version_of(data)[1] > len(lent["R"]) // SLOT_BYTES,
    }


def empty_kit_kept(asked, came):
    """An empty kit, which is announced and not kept: before others or alone, before a fault."""
    run, size = records_kept(asked, came), len(asked.blocks["I"])
    empty, kept, whole = begins_empty(run), came.value > 0, came.third == size
    every, fewer = all_kept(came, run) and empty, too_few(came, run) and empty
    return {
        "an empty kit of a faultless sheet": every and whole and kept,
        "an empty kit alone": every and whole and not kept,
        "an empty kit, and bytes behind the last record": every and not whole,
        "an empty kit and others before a fault": fewer and kept,
        "an empty kit before a fault": fewer and not kept,
        "an empty kit, and nodes just enough": empty and kept and sheet.nodes_needed(
            sheet.salvaged(asked.blocks["I"]).kits) == len(asked.blocks["N"]) // NODE_WORDS,
    }


def tables_before(asked, came):
    """What the tables held: sound or not it is replaced, and a refusal leaves it."""
    lent, done = asked.blocks, came.done() and bool(asked.blocks["I"])
    right = came.number != WRONG_LENGTH and lent["R"] and lent["N"]
    parts_sound = right and register.sound(lent["R"])
    sound = parts_sound and any(lent["N"]) and nodes.sound(
        lent["N"], len(register.numbers_of(lent["R"])))
    return {
        "a sound catalogue replaced": done and sound,
        "a register that is not sound replaced": done and not parts_sound,
        "nodes that are not sound replaced": done and parts_sound and any(lent["N"]) and not sound,
        "a sound catalogue left by 13": came.number == SHEET_AT_FAULT and sound,
        "a sound catalogue left by 12": came.number == NO_ROOM and sound,
    }


def ends_kept(asked, came):
    """A number with punctuation at an end is kept: 16 comes "on registration only"."""
    numbers = register.numbers_of(came.blocks["R"]) if came.done() else []
    return {"punctuation at an end kept": any(map(register.punctuation_at_end, numbers))}


def is_torn_off(data, whole, came):
    """Whether this is a beginning of the whole sheet, and what it is at fault for is told."""
    return (came.number in (DONE, SHEET_AT_FAULT) and len(data) < len(whole)
            and whole.startswith(data))


def printed_torn(asked, came):
    """The printed sheet cut short."""
    return {TORN_OFF: is_torn_off(asked.blocks["I"], PRINTED_SHEET, came)}


def printed_altered(asked, came):
    """The printed sheet with one byte set."""
    return {BYTE_SET: came.number in (DONE, SHEET_AT_FAULT)
                      and byte_set(asked.blocks["I"], PRINTED_SHEET) is not None}


def byte_set(data, whole):
    """The one byte in which this differs from the whole sheet or card, and its value; or None."""
    if len(data) != len(whole):
        return None
    others = [(at, byte) for at, byte in enumerate(data) if byte != whole[at]]
    return others[0] if len(others) == 1 else None


def versions_kept(asked, came):
    """Version 2 whole, in part, and with bytes behind; places around 255; its front at fault."""
    data, run = asked.blocks["I"], records_kept(asked, came)
    second = version_of(data)[0] == 2
    every, fewer = second and all_kept(came, run), second and too_few(came, run)
    places = {place for record in run.records for place, _ in record.lines} if second else set()
    refused = second and came.number == SHEET_AT_FAULT
    item = item_at_fault(data, came.third) if refused and came.third > PART_COUNT_AT else ""
    left = len(data) - came.third
    return {
        "version 2 kept whole": every and came.third == len(data),
        "version 2 with bytes behind": every and came.third < len(data),
        "version 2 kept in part": fewer and came.value > 0,
        "version 2 without a record kept": fewer and not run.records,
        "version 2 ends inside a place": fewer and record_at(
            data, came.third, run.front.version) is None and left % 3 == 1 and left > HEAD_BYTES,
        "place 255 kept in version 2": BYTE_PLACES in places,
        "place 256 kept in version 2": BYTE_PLACES + 1 in places,
        "version 2 at fault at a number": item == "number",
        "version 2 at fault at its kit count": item == "kit count",
    }


def sizes_kept(asked, came):
    """Sheets of so many parts rescued, and refused for a slot or a node too few."""
    data, no_room = asked.blocks["I"], came.number == NO_ROOM
    version, parts = version_of(data)
    node_count = len(asked.blocks["N"]) // NODE_WORDS
    return {
        **{"%d parts kept" % count: came.done() and parts == count for count in COUNTS},
        "256 slots needed for what is kept": no_room and came.third == parts == BYTE_PLACES + 1,
        "one node too few for version 2 in part": no_room and version == 2
                                                  and came.third == node_count + 1 < parts
                                                  and at_fault_somewhere(data),
        "thousands of kits kept of a torn sheet": came.done() and 1000 < came.value < came.second,
        WIDE_TORN_OFF: is_torn_off(data, SMALLEST, came),
    }


# The ways of a rescue, and those that requests by chance hardly ever go.
SALVAGE_WAYS = [reported, where_it_ends, record_at_fault, front_at_fault, room_given,
                order_of_refusals, empty_kit_kept, tables_before, ends_kept]
RARE_RESCUES = {TORN_OFF, BYTE_SET, WIDE_TORN_OFF, RECORD_ALONE % "more than 64 units",
                RECORD_ALONE % "a place twice", RECORD_ALONE % "the kit before it again",
                "version 2 at fault at its kit count", "version 2 ends inside a place",
                "version 2 with bytes behind", "version 2 without a record kept",
                "a wrong length before a slot too few"}
