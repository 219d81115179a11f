"""The ways that a call can go: the limits of documents 01 and 02, one function for each family.

Each takes a request and its right answer, and gives the ways by name with whether this was one.
"""

from second import index, nodes, questions, register, sheet
from second.calls import MOST_SHORT
from second.kits import (
    LEAST_QUANTITY, MOST_QUANTITY, MOST_UNITS, beginnings, first_fault, lines_of_words, units,
    with_units)
from second.lent import Answer, Request
from second.nodes import FREE, MOST_NODES, NODE_WORDS, NONE, ROOT
from second.refusals import (
    BAD_NUMBER, BAD_ORDER, BAD_QUANTITY, DONE, LIST, NO_ROOM, NOT_HELD, NOT_SOUND,
    PUNCTUATION_AT_END, SHEET_AT_FAULT, TAG_ZERO, TOO_FAR_SHORT, TOO_MANY_UNITS, WRONG_LENGTH)
from second.register import LONGEST_NUMBER, PUNCTUATION, SLOT_BYTES

from .card_ways import CARD_WAYS, RARE_CARDS, card_altered, card_cut, card_written
from .counts import by_parents, counted
from .empty_ways import (
    TWICE, dropped, empty_found, empty_refused, exact_room, left_out, passed_over, replaced)
from .label_ways import (
    CLEARING_WAYS, LABEL_WAYS, RARE_LABELS, SETTING_WAYS, ZEROING_WAYS, label_shown, many_beside,
    place_beside, table_zeroed)
from .many_ways import (
    BY_CHANCE_TOO, PART_COUNT_AT, hashes_lent, hashes_read, last_of_all, parts_lent, places_listed,
    places_shown, places_told, sizes_read, sizes_written, slots_lent, versions_read,
    versions_written)
from .page_ways import PAGE_WAYS, RARE_PAGES, passed_by_pages
from .register_requests import BESIDE_LETTERS
from .salvage_ways import (
    RARE_RESCUES, SALVAGE_WAYS, printed_altered, printed_torn, sizes_kept, versions_kept)
from .sheet_requests import PRINTED_SHEET

# The printed sheet must be cut at every byte.
CUT_SHORT = "the printed sheet cut short"

# Good and bad numbers around the letters, given to a call or on a sheet.
SMALL_LETTER = "a number with a small letter"
BESIDE = "a number with byte %02X"
IN_CASE_ONLY = "two parts that differ in case only"

# Numbers with one of the three bytes at one end alone, and a register that holds any such number.
FIRST_ALONE, LAST_ALONE = "byte %02X first alone", "byte %02X last alone"
TORN_PART = "a part with punctuation at an end"


def has_torn_part(register_bytes):
    """Whether a register holds a number with punctuation at an end."""
    return any(map(register.punctuation_at_end, register.numbers_of(register_bytes)))


def tables_lent(asked, came):
    """Which of the two tables was refused, whether both were good, and a part among them."""
    register_bytes = asked.blocks["R"]
    wrong, unsound = came.number == WRONG_LENGTH, came.number == NOT_SOUND
    return {
        "a register of wrong length": wrong and not register.right_length(register_bytes),
        "nodes of wrong length": wrong and register.right_length(register_bytes),
        "a register that is not sound": unsound and not register.sound(register_bytes),
        "nodes that are not sound": unsound and register.sound(register_bytes),
        "sound tables": not wrong and not unsound,
        TORN_PART: not wrong and not unsound and has_torn_part(register_bytes),
    }


def wrong_counts(asked, came):
    """Where and how counts are wrong in a table that is refused for nothing else."""
    given, right = [], []
    if came.number == NOT_SOUND and register.sound(asked.blocks["R"]):
        given = nodes.nodes_of(asked.blocks["N"])
        right = counted(given, by_parents)
        if not nodes.sound(nodes.words_of(right), len(register.numbers_of(asked.blocks["R"]))):
            given, right = [], []
    wrong = [at for at, node in enumerate(right) if node != given[at]]
    alone = wrong[0] if len(wrong) == 1 else None
    free = [at for at in wrong if at != ROOT and right[at] == FREE]
    leaves = [at for at in wrong if at not in free and right[at].first_child == NONE]
    return {
        "a wrong count at the root alone": alone == ROOT,
        "a wrong count at a leaf alone": alone in leaves and alone != ROOT,
        "a wrong count in the middle alone": alone and alone not in leaves + free,
        "a count at a free node alone": alone in free,
        "a count too high": any(given[at].tagged > right[at].tagged for at in wrong),
        "a count too low": any(given[at].tagged < right[at].tagged for at in wrong),
        "a count of 65,535": any(given[at].tagged == 65535 for at in wrong),
        "a count whose low byte is right": any(
            (given[at].tagged - right[at].tagged) % 256 == 0 for at in wrong),
        "wrong counts below a right root": len(wrong) > 1 and ROOT not in wrong and not free,
        "a wrong leaf, and its parent by as much": any(
            given[at].tagged - right[at].tagged == given[right[at].parent].tagged
            - right[right[at].parent].tagged for at in leaves if at != ROOT),
    }


def largest_lent(asked, came):
    """Sound tables as large as they may be."""
    return {"4,096 sound nodes": came.number not in (WRONG_LENGTH, NOT_SOUND)
                                 and len(asked.blocks["N"]) == MOST_NODES * NODE_WORDS}


def emptied(asked, came):
    """Tables that were filled, and those that were to their last slot and their last node."""
    register_bytes, words = asked.blocks["R"], asked.blocks["N"]
    filled = came.done() and any(register_bytes) and any(words)
    return {
        "filled tables emptied": filled,
        "full tables emptied": filled and any(register_bytes[-SLOT_BYTES:])
                               and not index.free_count(words),
    }


def number_given(asked, came):
    """Part numbers of 24 and 25 bytes."""
    length, bad = len(asked.blocks["I"]), came.number == BAD_NUMBER
    return {
        "a number of 24 bytes": came.done() and length == LONGEST_NUMBER,
        "a number of 25 bytes": bad and length == LONGEST_NUMBER + 1,
    }


def has_small_letter(number):
    """Whether a small letter is in a number."""
    return number != number.upper()


def beside_letters(number):
    """Each byte beside the letters, with whether it alone puts this number against the rule."""
    return {BESIDE % byte: byte in number and register.good_number(
        number.replace(bytes([byte]), b"A")) for byte in BESIDE_LETTERS}


def other_spellings(number, numbers):
    """Those of the numbers that differ from this one in case only."""
    return [other for other in numbers if other != number and other.lower() == number.lower()]


def letters_given(asked, came):
    """Numbers with small letters, with a byte beside the letters, and parts of two spellings."""
    number = asked.blocks["I"]
    return {
        SMALL_LETTER: came.done() and has_small_letter(number),
        IN_CASE_ONLY: came.done() and other_spellings(
            number, register.numbers_of(came.blocks["R"])),
        **beside_letters(number if came.number == BAD_NUMBER else b""),
    }


def looked_up(asked, came):
    """A number that is not held, while another spelling is; one with punctuation at an end."""
    number = asked.blocks["I"]
    return {
        "another spelling alone is held": came.number == NOT_HELD and other_spellings(
            number, register.numbers_of(asked.blocks["R"])),
        "punctuation at an end found": came.done() and register.punctuation_at_end(number),
    }


def registered(_, came):
    """The last free slot."""
    return {"the last free slot": came.done() and any(came.blocks["R"][-SLOT_BYTES:])}


def ends_refused(asked, came):
    """Each of the three bytes at one end alone; where 16 comes before 9 and 12; and inside."""
    number, register_bytes = asked.blocks["I"], asked.blocks["R"]
    refused = came.number == PUNCTUATION_AT_END
    held = refused and register.place_of(register_bytes, number)
    return {
        **{FIRST_ALONE % byte: refused and number[0] == byte and number[-1] not in PUNCTUATION
           for byte in PUNCTUATION},
        **{LAST_ALONE % byte: refused and number[-1] == byte and number[0] not in PUNCTUATION
           for byte in PUNCTUATION},
        "one byte of punctuation": refused and len(number) == 1,
        "punctuation at an end of 24 bytes": refused and len(number) == LONGEST_NUMBER,
        "punctuation at an end of a held number": held,
        "punctuation at an end and no free slot": refused and not held
                                                  and any(register_bytes[-SLOT_BYTES:]),
        "punctuation inside alone": came.done() and any(byte in PUNCTUATION for byte in number),
    }


def place_given(asked, came):
    """Places that no part has, and one whose number has punctuation at an end."""
    return {
        "place 0": came.number == NOT_HELD and asked.a == 0,
        "a place behind the last": came.number == NOT_HELD and asked.a > 0,
        "punctuation at an end shown": register.punctuation_at_end(came.blocks["O"]),
    }


def list_given(asked, came):
    """Quantities 0, 1, 15 and 16; a list of odd length."""
    words = asked.blocks["L"]
    given, bad = set(words[1::2]), came.number == BAD_QUANTITY
    good = came.number not in LIST | {WRONG_LENGTH, NOT_SOUND, TAG_ZERO}
    return {
        "a quantity 0": bad and 0 in given,
        "a quantity 1": good and 1 in given,
        "a quantity 15": good and MOST_QUANTITY in given,
        "a quantity 16": bad and MOST_QUANTITY + 1 in given,
        "an odd length": came.number == BAD_ORDER and len(words) % 2 == 1,
    }


def line_at_fault(asked, came):
    """The line that is said to be at fault, in long lists too; odd lists; two faults at once.

    Two lines are at fault where those behind the one that is said are a list at fault themselves.
    """
    words, line, at_fault = asked.blocks["L"], came.value, came.number in LIST
    odd, even = at_fault and len(words) % 2 == 1, at_fault and len(words) % 2 == 0
    parts = len(register.numbers_of(asked.blocks["R"])) if at_fault else 0
    return {
        "line 1 at fault": even and line == 1,
        "line 2 at fault": even and line == 2,
        "line 40 at fault": even and line == 40,
        "line 127 at fault": even and line == 127,
        "line 256 of 4,000 at fault": even and line == 256 and len(words) == 2 * 4000,
        "two lines at fault, and the first is said": even and first_fault(
            words[2 * line:], parts),
        "two faults on one line": even and came.number != BAD_QUANTITY and not (
            LEAST_QUANTITY <= words[2 * line - 1] <= MOST_QUANTITY),
        "an odd list of 1 number": odd and len(words) == 1,
        "an odd list of 3 numbers": odd and len(words) == 3,
        "an odd list of 8,191 numbers": odd and len(words) == 8191,
        "an odd list with a line at fault before": odd and first_fault(words[:-1], parts),
    }


def entered(asked, came):
    """64 and 65 units, the last free node and one too few."""
    units = sum(asked.blocks["L"][1::2])
    return {
        "a kit of 64 units": came.done() and units == MOST_UNITS,
        "a kit of 65 units": came.number == TOO_MANY_UNITS and units == MOST_UNITS + 1,
        "the last free node": came.done() and came.value > 0 and not index.free_count(
            came.blocks["N"]),
        "one node too few": came.number == NO_ROOM and came.value == 1,
    }


def struck_out(asked, came):
    """Whether nodes became free."""
    freed = came.done() and index.free_count(came.blocks["N"]) - index.free_count(
        asked.blocks["N"])
    return {
        "nodes freed": came.done() and freed > 0,
        "no node freed": came.done() and freed == 0,
    }


def first_found(_, came):
    """Whether a kit answers the question."""
    return {
        "a kit that answers": came.done() and came.value > 0,
        "no kit that answers": came.done() and came.value == 0,
    }


def output_into(name):
    """The ways of an answer that is set down in one output."""
    def ways(asked, came):
        """How the output's room stands to what is needed."""
        room, needed = len(asked.blocks[name]), came.value
        return {
            "an output exactly full": came.done() and needed == room > 0,
            "an output one short": came.number == NO_ROOM and needed == room + 1,
            "an output with room behind": came.done() and room > needed > 0,
        }
    return ways


def almost_filled(asked, came):
    """The ways of a question for the kits that a bin almost fills."""
    d, first, second = asked.a, len(asked.blocks["P"]), len(asked.blocks["Q"])
    done, needed = came.done(), came.value
    no_room, too_far = came.number == NO_ROOM, came.number == TOO_FAR_SHORT
    shortfalls = came.blocks["Q"][:needed] if done else []
    return {
        "an empty answer into empty outputs": done and needed == first == second == 0,
        "several kits": done and needed > 1,
        "a shortfall of 0": 0 in shortfalls,
        "a shortfall of 1": 1 in shortfalls,
        "a shortfall of 2 to 63": any(1 < lacking < MOST_SHORT for lacking in shortfalls),
        "a shortfall of 64": MOST_SHORT in shortfalls,
        "both outputs exactly full": done and needed and first == second == needed,
        "both outputs longer": done and needed and min(first, second) > needed,
        "the first output alone too short": no_room and first < needed <= second,
        "the second output alone too short": no_room and second < needed <= first,
        "both outputs too short": no_room and max(first, second) < needed,
        "the first one short, the second full": no_room and first + 1 == second == needed,
        "the second one short, the first full": no_room and second + 1 == first == needed,
        "d 64 done": done and d == MOST_SHORT,
        "d 65 refused": too_far and d == MOST_SHORT + 1,
        "d 65,535 refused": too_far and d == 65535,
        "d refused before an output is looked at": too_far and first == second == 0,
        "a wrong length before d": came.number == WRONG_LENGTH and d > MOST_SHORT,
        "a table that is not sound before d": came.number == NOT_SOUND and d > MOST_SHORT,
        "a list at fault before d": came.number in LIST and d > MOST_SHORT,
    }


def kits_counted(asked, came):
    """How many kits begin with the list, and how it stands to them."""
    words, done = asked.blocks["N"], came.done()
    held = with_units(nodes.held_kits(words)) if done and words else {}
    row = units(lines_of_words(asked.blocks["L"])) if done else ()
    none, some = done and came.value == 0, done and came.value > 0
    return {
        "nothing held": none and not held,
        "no kit counted": none and held,
        "one kit counted": some and came.value == 1,
        "several kits counted": some and 1 < came.value < len(held),
        "all kits counted": some and row and came.value == len(held) > 1,
        "all kits counted by the empty list": some and not row and came.value == len(held) > 1,
        "64 units counted": some and len(row) == MOST_UNITS,
        "64 units that no kit has": none and held and len(row) == MOST_UNITS,
        "65 units": none and held and len(row) == MOST_UNITS + 1,
        "a beginning that is no kit": some and row not in held,
        "a kit that begins others": some and row in held and came.value > 1,
        "a kit that begins no other": some and row in held and came.value == 1,
        "a list past a leaf": none and any(
            kit in held and questions.beginning_with(held, kit) == 1
            for kit in beginnings([row[:-1][:MOST_UNITS]])),
        "a list beside a path": none and held and len(row) > 1 and questions.beginning_with(
            held, row[:-1]) > 1,
    }


def sheet_read(asked, came):
    """Slots and nodes just enough and one too few; the printed sheet cut short, or with more."""
    slots = len(asked.blocks["R"]) // SLOT_BYTES
    node_count = len(asked.blocks["N"]) // NODE_WORDS
    no_room, at_fault = came.number == NO_ROOM, came.number == SHEET_AT_FAULT
    return {
        "the last free slot": came.done() and any(came.blocks["R"][-SLOT_BYTES:]),
        "the last free node": came.done() and came.value > 0 and not index.free_count(
            came.blocks["N"]),
        "one slot too few": no_room and came.value == slots + 1,
        "one node too few": no_room and came.value == node_count + 1,
        "bytes behind the end": at_fault and asked.blocks["I"][:came.value] == PRINTED_SHEET,
        CUT_SHORT: at_fault and PRINTED_SHEET.startswith(asked.blocks["I"]),
    }


def number_at_fault(data, offset):
    """The number at which this sheet is at fault, or nothing where the fault is another item."""
    items = sheet.Items(data)
    items.at = len(sheet.MARK)
    try:
        sheet.read_numbers(items, sheet.read_version(items))
    except sheet.SheetFault as fault:
        return data[offset + 1:items.at] if fault.offset == offset > PART_COUNT_AT else b""
    return b""


def numbers_read(asked, came):
    """Small letters, bytes beside them, two spellings and punctuation at an end on a sheet."""
    numbers = register.numbers_of(came.blocks["R"]) if came.done() else []
    return {
        TORN_PART: came.done() and has_torn_part(came.blocks["R"]),
        SMALL_LETTER: any(map(has_small_letter, numbers)),
        IN_CASE_ONLY: len({number.lower() for number in numbers}) < len(numbers),
        **beside_letters(number_at_fault(asked.blocks["I"], came.value)
                         if came.number == SHEET_AT_FAULT else b""),
    }


def names_of(row):
    """The names of these ways, as a request of nothing tells them."""
    nothing = Request("e")
    done = Answer(DONE, 0, nothing.blocks)
    return {what for ways in row for what in ways(nothing, done)}


# The limits of documents 01 and 02, as ways of each call.
BOTH_TABLES = [tables_lent, wrong_counts]
AND_LIST = [*BOTH_TABLES, list_given]
# An empty kit would answer w, W, a and g by every list, and c, C, G and # by the empty list alone.
OVER, OVER_BY_EMPTY = passed_over(True), passed_over(False)
PAGE_OVER, PAGE_OVER_BY_EMPTY = passed_by_pages(True), passed_by_pages(False)
NO_PLACE = exact_room("P")
LIMITS = {
    "e": [emptied, replaced], "p": [number_given, letters_given, registered, ends_refused],
    "l": [number_given, letters_given, looked_up], "n": [place_given],
    "k": [*AND_LIST, entered, empty_refused], "f": [*AND_LIST, empty_found],
    "d": [*AND_LIST, struck_out, empty_found],
    "w": [*AND_LIST, first_found, OVER], "c": [*AND_LIST, first_found, OVER_BY_EMPTY],
    "W": [*AND_LIST, output_into("P"), OVER, NO_PLACE],
    "C": [*AND_LIST, output_into("P"), OVER_BY_EMPTY, NO_PLACE],
    "a": [*AND_LIST, almost_filled, OVER, NO_PLACE], "g": [*AND_LIST, *PAGE_WAYS, PAGE_OVER],
    "G": [*AND_LIST, *PAGE_WAYS, PAGE_OVER_BY_EMPTY], "#": [*AND_LIST, kits_counted, OVER_BY_EMPTY],
    "s": [*BOTH_TABLES, output_into("O"), versions_written, left_out],
    "r": [sheet_read, numbers_read, versions_read, replaced, dropped],
    "S": [*SALVAGE_WAYS, printed_torn, versions_kept],
    "x": [*AND_LIST, output_into("O"), empty_found, card_written],
    "X": [*BOTH_TABLES, *CARD_WAYS, card_cut],
    "z": ZEROING_WAYS, "m": SETTING_WAYS, "u": CLEARING_WAYS, "v": LABEL_WAYS,
}
# Those that take large requests too, for each of the calls that have the way beside them.
LARGE = {
    tables_lent: [largest_lent, slots_lent, parts_lent], list_given: [line_at_fault, places_listed],
    emptied: [slots_lent], registered: [slots_lent, parts_lent, places_told, last_of_all],
    looked_up: [slots_lent, parts_lent, places_told, hashes_lent],
    place_given: [slots_lent, parts_lent, places_shown],
    versions_written: [sizes_written], versions_read: [slots_lent, sizes_read, hashes_read],
    printed_torn: [printed_altered], versions_kept: [slots_lent, sizes_kept],
    card_cut: [card_altered], table_zeroed: [slots_lent],
    place_beside: [slots_lent, parts_lent, places_shown], label_shown: [many_beside],
}
ALL_WAYS = {letter: ways + [large for way in ways for large in LARGE.get(way, [])]
            for letter, ways in LIMITS.items()}
# Of these the stored run has all: with more of them it would be another one.
STORED_WAYS = {
    "e": [emptied, replaced], "k": [empty_refused], "f": [empty_found], "d": [empty_found],
    "w": [OVER], "c": [OVER_BY_EMPTY], "W": [OVER, NO_PLACE], "C": [OVER_BY_EMPTY, NO_PLACE],
    "a": [almost_filled, OVER, NO_PLACE], "g": [*PAGE_WAYS, PAGE_OVER],
    "G": [*PAGE_WAYS, PAGE_OVER_BY_EMPTY], "#": [wrong_counts, kits_counted, OVER_BY_EMPTY],
    "s": [versions_written, left_out], "r": [versions_read, replaced, dropped],
    "S": SALVAGE_WAYS, "x": [card_written], "X": CARD_WAYS,
}
# Ways that requests by chance hardly ever go: registers are small there.
OF_MANY_PARTS = [last_of_all, slots_lent, parts_lent, places_told, places_shown, places_listed,
                 hashes_lent, versions_written, sizes_written, versions_read, sizes_read,
                 hashes_read, sizes_kept, many_beside]
# Ways that requests by chance hardly ever go.
LEFT_TO_LIMITS = {
    "a kit of 64 units", "a kit of 65 units", "a shortfall of 64", "bytes behind the end",
    "d 64 done", "d 65,535 refused", "line 40 at fault", "line 127 at fault",
    "line 256 of 4,000 at fault", "two lines at fault, and the first is said",
    "an odd list of 8,191 numbers", "an odd list with a line at fault before",
    "64 units counted", "64 units that no kit has", "65 units", *RARE_PAGES, *RARE_RESCUES,
    *RARE_CARDS, *RARE_LABELS,
    *names_of(OF_MANY_PARTS) - BY_CHANCE_TOO, TWICE,
}
