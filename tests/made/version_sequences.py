"""Catalogues that grow past 255 parts, and to 4,000: their sheets change the version and mean the
same, whatever calls brought them on."""

from run.door import Different
from second.kits import MOST_QUANTITY
from second.refusals import ALREADY_HELD, DONE, NO_ROOM, NOT_HELD
from second.register import MOST_SLOTS
from second.sheet import BYTE_PLACES, MARK, TWO_BYTES

from .carried import Contents, empty_catalogue, expect
from .reached import ALL_SLOTS_TAKEN, VERSIONS_WRITTEN
from .register_requests import many_numbers
from .sheet_sequences import compare_sheets, read_again, written_sheet


def sheet_of_version(catalogue, version):
    """The sheet, which must be of this version, read into another catalogue and written again."""
    data = written_sheet(catalogue)
    said = int.from_bytes(data[len(MARK):][:TWO_BYTES], "big")
    if said != version:
        raise Different(["version %d of %d parts" % (said, len(catalogue.contents.numbers))])
    catalogue.came_to(VERSIONS_WRITTEN[version])
    read_again(catalogue.door, catalogue.contents, data)
    return data


def both_versions(door):
    """Parts 255, 256 and 257 registered behind a sheet of 254, each with a kit of its own."""
    numbers = many_numbers(BYTE_PLACES + 2)
    first = Contents(numbers[:BYTE_PLACES - 1], {(BYTE_PLACES - 1,): 5})
    one = empty_catalogue(door, BYTE_PLACES + 2, 12)
    expect(one.call("r", I=first.sheet()), DONE, 1, "a sheet of 254 parts")
    for place, taken in ((255, 2), (256, 1), (257, 1)):
        expect(one.call_on("k", (1, place), 300 + place), 5, 2, "place %d too early" % place)
        expect(one.call("p", I=numbers[place - 1]), DONE, place, "part %d" % place)
        expect(one.call_on("k", (1, place), 300 + place), DONE, taken, "a kit of part %d" % place)
        data = sheet_of_version(one, 1 if place <= BYTE_PLACES else 2)
    expect(one.call("p", I=b"NEW"), NO_ROOM, 1, "a 258th part")
    expect(one.call("p", I=numbers[-1]), ALREADY_HELD, 257, "part 257 again")
    one.check_contents()
    compare_with_another(door, one, data)
    # Kits that are struck out leave the version: it hangs on the parts alone.
    for place in (256, 257, 255):
        expect(one.call_on("d", (1, place)), DONE, 300 + place, "the kit of part %d" % place)
    sheet_of_version(one, 2)
    expect(one.call("r", I=first.sheet()), DONE, 1, "254 parts in place of 257")
    sheet_of_version(one, 1)
    one.check_contents()


def compare_with_another(door, one, data):
    """Another catalogue, brought to the same contents by other calls, has the same sheet."""
    numbers, kits = one.contents.numbers, one.contents.kits
    other = empty_catalogue(door, 300, 20)
    begun = Contents(numbers[:-1], {(256,): 9, (1, 256): 556})
    expect(other.call("r", I=begun.sheet()), DONE, 2, "a sheet of 256 parts")
    expect(other.call("p", I=numbers[-1]), DONE, 257, "part 257")
    for row, tag in sorted(kits.items(), reverse=True):
        other.call_on("k", row, tag)
    compare_sheets(one.contents, other.contents, data, sheet_of_version(other, 2))
    expect(other.call_on("d", (256,)), DONE, 9, "the kit of part 256 alone")
    compare_sheets(one.contents, other.contents, data, sheet_of_version(other, 2))


def four_thousand_parts(door):
    """The last of 4,000 slots taken, and kits of the last places entered, found and struck out."""
    numbers = many_numbers(MOST_SLOTS)
    catalogue = empty_catalogue(door, MOST_SLOTS, 20)
    begun = Contents(numbers[:-1], {(255, 256, 3999): 5})
    last, many = (256, 4000), (4000,) * MOST_QUANTITY
    expect(catalogue.call("r", I=begun.sheet()), DONE, 1, "a sheet of 3,999 parts")
    expect(catalogue.call_on("k", last, 7), 5, 2, "place 4,000 too early")
    expect(catalogue.call("p", I=numbers[-1]), DONE, MOST_SLOTS, "part 4,000")
    expect(catalogue.call("p", I=b"NEW"), NO_ROOM, 1, "a part too many")
    expect(catalogue.call("l", I=numbers[-1]), DONE, MOST_SLOTS, "part 4,000 looked up")
    expect(catalogue.call_on("k", last, 7), DONE, 2, "a kit of part 4,000")
    expect(catalogue.call_on("k", many, 65535), NO_ROOM, 1, "one node too few")
    expect(catalogue.call_on("k", many[:-1], 65535), DONE, 14, "the last free node")
    expect(catalogue.call_on("k", (4001,), 8), 5, 1, "place 4,001")
    sheet_of_version(catalogue, 2)
    expect(catalogue.call_on("d", last), DONE, 7, "a kit of part 4,000 struck out")
    expect(catalogue.call_on("f", last), NOT_HELD, 0, "and looked for")
    catalogue.check_contents()
    catalogue.came_to(ALL_SLOTS_TAKEN)
