"""Catalogues that are brought on by rescues: a torn sheet, then calls, then the sheet again.

What a rescue keeps is told here by lengths alone: the record of a kit starts where the sheet of the
kits before it would end. "Demand 3 takes what is kept as read": the sheet written afterwards is the
faultless one with just those kits, and with the lost kits entered again it is the whole one.
"""

from run.door import Different
from second.kits import listing_order
from second.refusals import DONE, NO_ROOM, SHEET_AT_FAULT
from second.sheet import BYTE_PLACES

from .carried import Contents, empty_catalogue, expect_report
from .reached import (
    RESCUED_AGAIN, RESCUED_LAST_NODE, RESCUED_LEFT, RESCUED_NOTHING, RESCUED_OLD, RESCUED_TIGHT,
    RESCUED_VERSIONS, RESCUED_WHOLE, RESCUED_WRITTEN)
from .register_requests import shortest_numbers
from .salvage_requests import announcing
from .sheet_requests import THREE, old_sheet
from .sheet_sequences import read_again, written_sheet

# The kits of the sheets that are torn, with the most parts of version 1, the fewest of version 2
# and three parts. Listing order is not that of their tags.
SMALL_KITS = {(1,): 9, (1, 1, 1): 8, (1, 3, 3): 300, (2,): 7, (2, 3, 3, 3): 65535}
EDGE_KITS = {(1,): 65535, (1, 255): 3, (254,): 256, (255, 255): 2}
WIDE_KITS = {**EDGE_KITS, (255, 256): 255, (256,): 1}
TORN = [Contents(THREE, SMALL_KITS), Contents(THREE), Contents((), ()),
        Contents(shortest_numbers(BYTE_PLACES), EDGE_KITS),
        Contents(shortest_numbers(BYTE_PLACES + 1), WIDE_KITS)]

# The tag of an empty kit that old sheets have, and the bytes of its record.
OLD_TAG, OLD_RECORD = 513, 3

# What may stand behind the last record: a zero, and what looks like one more kit.
MORE = [b"\0", b"\0\5\1\1\1"]


def first_kits(contents, count):
    """The same parts and the first so many kits in listing order."""
    return Contents(contents.numbers, listing_order(contents.kits)[:count])


def ends_of(contents):
    """Where the front of a sheet and each of its records end, by the sheets of the first kits."""
    return [len(first_kits(contents, count).sheet()) for count in range(len(contents.kits) + 1)]


def kept_in(contents, length):
    """What a rescue keeps of the first so many bytes: how many kits, and the offset."""
    ends = [end for end in ends_of(contents) if end <= length]
    return len(ends) - 1, ends[-1]


def rescue_beginning(catalogue, contents, length):
    """Rescues the first so many bytes of a sheet, and writes what is then held.

    Gives the contents that were kept.
    """
    data, announced = contents.sheet()[:length], len(contents.kits)
    kept, offset = kept_in(contents, length)
    came = catalogue.call("S", I=data)
    expect_report(came, (DONE, kept, announced, offset), "%d bytes of %r" % (length, contents))
    held = first_kits(contents, kept)
    catalogue.check_contents()
    check_sheet(catalogue, held)
    catalogue.came_to(RESCUED_WHOLE, offset == length and kept == announced > 0)
    catalogue.came_to(RESCUED_NOTHING, kept == 0 < announced)
    catalogue.came_to(RESCUED_WRITTEN, 0 < kept < announced)
    return held


def check_sheet(catalogue, held):
    """The sheet written now is the faultless one of these parts and kits."""
    written = written_sheet(catalogue)
    if written != held.sheet():
        raise Different(["the sheet of what a rescue kept, and what the document lays down:",
                         "  " + written.hex(" "), "  " + held.sheet().hex(" ")])


def enter_lost(catalogue, contents, held):
    """The kits that were lost entered again, the last ones first; then the sheet is whole."""
    for row, tag in reversed(listing_order(contents.kits)[len(held.kits):]):
        came = catalogue.call_on("k", row, tag)
        if not came.done():
            raise Different(["the lost kit %s is refused by %d" % (row, came.number)])
    check_sheet(catalogue, contents)
    catalogue.came_to(RESCUED_AGAIN, len(held.kits) < len(contents.kits))


def torn_anywhere(door):
    """Sheets of both versions torn at every byte behind the kit count, into one catalogue each.

    Then the lost kits are entered again. Where the kit count is torn, all stays.
    """
    for contents in TORN:
        ends, version = ends_of(contents), 1 if len(contents.numbers) <= BYTE_PLACES else 2
        catalogue = empty_catalogue(door, max(1, len(contents.numbers)), contents.nodes_needed())
        for length in range(ends[0], ends[-1] + 1):
            held = rescue_beginning(catalogue, contents, length)
            catalogue.came_to(RESCUED_VERSIONS[version], 0 < len(held.kits) < len(contents.kits))
            if length == ends[len(held.kits)]:
                read_again(door, held, written_sheet(catalogue))
            enter_lost(catalogue, contents, held)
        for length in (ends[0] - 1, ends[0] - 2):
            came = catalogue.call("S", I=contents.sheet()[:length])
            expect_report(came, (SHEET_AT_FAULT, 0, 0, ends[0] - 2), "a kit count cut short")
            check_sheet(catalogue, contents)
            catalogue.came_to(RESCUED_LEFT)


def counts_announced(door):
    """Fewer kits announced than stand there, and more; and bytes behind the last record."""
    contents = TORN[0]
    data, ends = contents.sheet(), ends_of(contents)
    kits = len(contents.kits)
    catalogue = empty_catalogue(door, 4, contents.nodes_needed())
    for announced in (*range(kits + 3), 255, 256, 65535):
        kept = min(announced, kits)
        came = catalogue.call("S", I=announcing(data, announced))
        expect_report(came, (DONE, kept, announced, ends[kept]), "%d kits announced" % announced)
        check_sheet(catalogue, first_kits(contents, kept))
    for more in MORE:
        came = catalogue.call("S", I=data + more)
        expect_report(came, (DONE, kits, kits, ends[-1]), "%d bytes behind" % len(more))
        check_sheet(catalogue, contents)


def old_sheets(door):
    """Old sheets torn: the empty kit is announced and not kept, and its record is in the offset."""
    contents = TORN[0]
    data = old_sheet(contents.numbers, {**contents.kits, (): OLD_TAG})
    announced, ends = len(contents.kits) + 1, ends_of(contents)
    catalogue = empty_catalogue(door, 3, contents.nodes_needed())
    for length in range(ends[0], len(data) + 1):
        behind = length - OLD_RECORD
        kept, offset = (0, ends[0]) if behind < ends[0] else kept_in(contents, behind)
        offset += OLD_RECORD if behind >= ends[0] else 0
        came = catalogue.call("S", I=data[:length])
        expect_report(came, (DONE, kept, announced, offset), "%d bytes of an old sheet" % length)
        check_sheet(catalogue, first_kits(contents, kept))
        catalogue.came_to(RESCUED_OLD, kept > 0)
    expect_report(came, (DONE, announced - 1, announced, len(data)), "an old sheet, whole")
    # The tag of the kit that was dropped is free.
    catalogue.call_on("d", (2,))
    if not catalogue.call_on("k", (2,), OLD_TAG).done():
        raise Different(["the tag of a dropped kit is not free"])


def just_enough(door):
    """Slots for all parts and nodes for the kits kept: just enough, and one too few.

    Where they are just enough, none is left for a kit that was lost.
    """
    for contents in (TORN[0], TORN[-1]):
        ends, parts = ends_of(contents), len(contents.numbers)
        for count in range(len(contents.kits)):
            held = first_kits(contents, count)
            needed, data = held.nodes_needed(), contents.sheet()[:ends[count + 1] - 1]
            catalogue = empty_catalogue(door, parts, needed)
            rescue_beginning(catalogue, contents, len(data))
            catalogue.came_to(RESCUED_LAST_NODE, needed > 1)
            row, tag = listing_order(contents.kits)[count]
            if catalogue.call_on("k", row, tag).number != NO_ROOM:
                raise Different(["a kit of %s has room where none is left" % (row,)])
            refused_for(door, (parts - 1, needed), data, parts)
            if needed > 1:
                refused_for(door, (parts, needed - 1), data, needed)


def refused_for(door, size, data, needed):
    """A rescue refused by 12: all stays, and the third number is what is needed."""
    catalogue = empty_catalogue(door, *size)
    catalogue.call("p", I=b"A")
    came = catalogue.call("S", I=data)
    expect_report(came, (NO_ROOM, 0, 0, needed), "into %d slots and %d nodes" % size)
    check_sheet(catalogue, Contents([b"A"]))
    catalogue.came_to(RESCUED_TIGHT)
