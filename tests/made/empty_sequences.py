"""Catalogues whose tables or sheets are from before request 14 and have an empty kit."""

from run.door import Different
from second import sheet
from second.refusals import (
    ALREADY_HELD, DONE, EMPTY_KIT, NOT_HELD, SHEET_AT_FAULT, TAG_TAKEN, TAG_ZERO)

from .carried import Contents, empty_catalogue, expect
from .index_sequences import with_parts
from .reached import EMPTY_STRUCK, OLD_SHEETS_READ, OLD_SHEETS_WRITTEN, OLD_TABLES_WRITTEN
from .sheet_requests import FIVE, THREE, old_sheet, record, sheet_of
from .sheet_sequences import compare_sheets, read_again, written_sheet

# Calls on a table of six nodes beside three parts that has an empty kit with tag 7 and no other:
# letter, row, tag, then number and value.
OLD_CALLS = [
    ("f", (), 0, DONE, 7), ("#", (), 0, DONE, 0), ("w", (1,), 0, DONE, 0), ("c", (), 0, DONE, 0),
    ("W", (), 0, DONE, 0), ("C", (), 0, DONE, 0), ("a", (), 64, DONE, 0),
    ("k", (), 8, EMPTY_KIT, 0), ("k", (), 7, EMPTY_KIT, 0), ("k", (), 0, TAG_ZERO, 0),
    ("k", (1,), 7, TAG_TAKEN, 0), ("k", (1,), 4, DONE, 1), ("k", (), 4, EMPTY_KIT, 0),
    ("k", (1,), 7, ALREADY_HELD, 4), ("k", (1, 2), 9, DONE, 1), ("k", (3,), 5, DONE, 1),
    ("f", (), 0, DONE, 7), ("#", (), 0, DONE, 3), ("#", (1,), 0, DONE, 2), ("w", (), 0, DONE, 0),
    ("w", (1,), 0, DONE, 4), ("c", (), 0, DONE, 4), ("c", (3,), 0, DONE, 5),
    ("d", (2,), 0, NOT_HELD, 0), ("d", (1,), 0, DONE, 4), ("f", (), 0, DONE, 7),
    ("#", (), 0, DONE, 2),
]
# What is then held but the empty kit, and the calls that strike it out.
OLD_OTHERS = {(1, 2): 9, (3,): 5}
STRIKING_CALLS = [
    ("d", (), 0, DONE, 7), ("d", (), 0, NOT_HELD, 0), ("f", (), 0, NOT_HELD, 0),
    ("#", (), 0, DONE, 2), ("k", (), 7, EMPTY_KIT, 0), ("k", (2,), 7, DONE, 1),
    ("k", (), 7, EMPTY_KIT, 0), ("k", (), 8, EMPTY_KIT, 0), ("f", (2,), 0, DONE, 7),
]

# Kits of old sheets of three parts.
OLD_KITS = [{(): 7}, {(): 7, (1,): 9, (2,): 5}, {(): 65535, (1, 2, 3): 1, (3, 3): 2}]


def make_calls(catalogue, calls):
    """Makes these calls, each with its answer; listings have no place at all."""
    for letter, row, a, number, value in calls:
        expect(catalogue.call_on(letter, row, a), number, value, "%s %s" % (letter, row))


def old_tables(door):
    """An empty kit that is lent stays until it is struck out, and no other comes in its place."""
    catalogue = empty_catalogue(door, 3, 6)
    with_parts(catalogue, 3)
    catalogue.lend_empty_kit(7)
    make_calls(catalogue, OLD_CALLS)
    catalogue.check_contents()
    listed = Contents(catalogue.contents.numbers, OLD_OTHERS)
    data = written_sheet(catalogue)
    compare_sheets(catalogue.contents.listed(), listed, data, listed.sheet())
    read_again(door, listed, data)
    catalogue.came_to(OLD_TABLES_WRITTEN)
    make_calls(catalogue, STRIKING_CALLS[:1])
    catalogue.came_to(EMPTY_STRUCK)
    # Struck out, it leaves the sheet as it was.
    compare_sheets(catalogue.contents, listed, written_sheet(catalogue), data)
    make_calls(catalogue, STRIKING_CALLS[1:])
    for row in ((2,), *OLD_OTHERS):
        catalogue.call_on("d", row)
    if any(catalogue.theirs["N"]):
        raise Different(["all struck out leaves a word that is not 0"])
    # Emptied, and with a sheet read into it, a table has no empty kit any more.
    for letter, lent in (("e", {}), ("r", {"I": listed.sheet()})):
        catalogue.lend_empty_kit(11)
        expect(catalogue.call(letter, **lent), DONE, 2 if letter == "r" else 0, letter)
        make_calls(catalogue, [("f", (), 0, NOT_HELD, 0), ("k", (), 11, EMPTY_KIT, 0)])
        catalogue.check_contents()


def without_first_record(data, numbers):
    """The sheet of these numbers without its first record, an empty kit's, and one kit less."""
    at = len(sheet_of(numbers, [])) - sheet.TWO_BYTES
    kits = int.from_bytes(data[at:at + sheet.TWO_BYTES], "big")
    return data[:at] + sheet.two_bytes(kits - 1) + data[at + sheet.TWO_BYTES + len(record(1)):]


def old_sheets(door):
    """Old sheets read: the empty kit is dropped, its tag is free, and the sheet is another one."""
    for kits in OLD_KITS:
        others = {row: tag for row, tag in kits.items() if row}
        data, contents = old_sheet(THREE, kits), Contents(THREE, others)
        catalogue = empty_catalogue(door, 3, contents.nodes_needed() + 1)
        expect(catalogue.call("r", I=data), DONE, len(others), "an old sheet of %s" % kits)
        catalogue.came_to(OLD_SHEETS_READ)
        catalogue.check_contents()
        again = written_sheet(catalogue)
        if again != without_first_record(data, THREE):
            raise Different(["an old sheet is read and written otherwise:",
                             "  " + data.hex(" "), "  " + again.hex(" ")])
        compare_sheets(catalogue.contents, contents, again, contents.sheet())
        read_again(door, contents, again)
        catalogue.came_to(OLD_SHEETS_WRITTEN)
        free_tag = kits[()]
        taken = Contents(THREE, {**others, (3,): free_tag}).nodes_needed() - contents.nodes_needed()
        make_calls(catalogue, [
            ("f", (), 0, NOT_HELD, 0), ("d", (), 0, NOT_HELD, 0), ("k", (), free_tag, EMPTY_KIT, 0),
            ("#", (), 0, DONE, len(others)), ("k", (3,), free_tag, DONE, taken),
            ("k", (), free_tag, EMPTY_KIT, 0), ("#", (), 0, DONE, len(others) + 1)])
    faulty_old_sheets(door)


def faulty_old_sheets(door):
    """An empty kit that is not first, stands twice or has a tag twice: at fault where it does."""
    catalogue = empty_catalogue(door, 5, 4)
    expect(catalogue.call("r", I=old_sheet(FIVE, {(): 3, (1,): 4})), DONE, 1, "a good old sheet")
    start, empty, one = len(sheet_of(FIVE, [])), record(5), record(6, (1, 1))
    for records, offset in (
            ([one, empty], start + len(one)), ([empty, record(6)], start + len(empty)),
            ([empty, record(5, (1, 1))], start + len(empty)),
            ([empty, one, record(5, (2, 1))], start + len(empty + one)), ([record(0)], start)):
        expect(catalogue.call("r", I=sheet_of(FIVE, records)), SHEET_AT_FAULT, offset,
               "records %s" % records)
    make_calls(catalogue, [("f", (1,), 0, DONE, 4), ("k", (2,), 3, DONE, 1)])
    catalogue.check_contents()
