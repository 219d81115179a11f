"""The ways that a call can go which writes or reads a card: request 5.

Like those of made.ways: each function takes a request and its right answer.
"""

from collections import namedtuple

from second import card, index, register, sheet
from second.kits import LEAST_QUANTITY, MOST_QUANTITY, MOST_UNITS
from second.refusals import (
    ALREADY_HELD, EMPTY_KIT, NO_ROOM, NOT_HELD, NOT_SOUND, SHEET_AT_FAULT, TAG_TAKEN, WRONG_LENGTH)
from second.register import LONGEST_NUMBER, SHORTEST_NUMBER

from .card_requests import EXAMPLE_CARD
from .empty_ways import others_held, root_tag
from .salvage_ways import byte_set

# The example's card must be cut at every byte, and every byte of it must be set to every value.
CARD_CUT = "the example's card cut short"
CARD_BYTE_SET = "the example's card with one byte set"

# Where the items of a card start, and its first line.
VERSION_AT = len(card.MARK)
TAG_AT = VERSION_AT + sheet.TWO_BYTES
COUNT_AT = TAG_AT + sheet.TWO_BYTES
LINES_AT = COUNT_AT + sheet.ONE_BYTE

# The bytes of a line beside its number: length and quantity.
BESIDE_NUMBER = 2 * sheet.ONE_BYTE

# A line as it stands, and where it ends; and a card that is faultless: its tag, its lines and the
# places of their numbers, 0 for one that is not registered.
Line = namedtuple("Line", "number quantity end")
Said = namedtuple("Said", "tag lines places")
NOTHING_SAID = Said(0, [], [])


def at_fault(came):
    """The offset of a card's fault; None where another answer came."""
    return came.value if came.number == SHEET_AT_FAULT else None


def is_faulty(data):
    """Whether a card is at fault."""
    try:
        card.read(data)
    except sheet.SheetFault:
        return True
    return False


def line_at(data, at):
    """The line that stands here, whatever its values are; None where it is cut short."""
    end = at + BESIDE_NUMBER + data[at] if at < len(data) else len(data) + 1
    if end > len(data):
        return None
    return Line(data[at + 1:end - 1], data[end - 1], end)


def lines_up_to(data, offset):
    """The lines of a card from its first one up to this offset."""
    lines, at = [], LINES_AT
    while at < offset:
        lines.append(line_at(data, at))
        at = lines[-1].end
    return lines


def line_wanted(data, offset):
    """Whether this offset is where a line starts or should; else it is the end of the card."""
    return offset >= LINES_AT and len(lines_up_to(data, offset)) < data[COUNT_AT]


def front_at_fault(asked, came):
    """13 at the mark, the version, the tag and the line count, whole or cut short."""
    data, at = asked.blocks["I"], at_fault(came)
    left = len(data) - (at or 0)
    items = {"mark": (0, len(card.MARK)), "version": (VERSION_AT, sheet.TWO_BYTES),
             "tag": (TAG_AT, sheet.TWO_BYTES)}
    whole = {"13 at the %s of a card" % what: at == start and left >= size
             for what, (start, size) in items.items()}
    cut = {"13 at the %s of a card, cut short" % what: at == start and 0 < left < size
           for what, (start, size) in items.items()}
    gone = {"13 where the %s of a card is not there" % what: at == start and left == 0
            for what, (start, _) in items.items()}
    return {**whole, **cut, **gone,
            "13 where the line count of a card is not there": at == COUNT_AT,
            "13 at a card's version 2": at == VERSION_AT and data[at:at + 2] == b"\0\2",
            "13 at a card's version 256": at == VERSION_AT and data[at:at + 2] == b"\1\0"}


def line_cut(asked, came):
    """Where in a line a card ends; and the end at fault."""
    data, at = asked.blocks["I"], at_fault(came)
    behind = at is not None and at >= LINES_AT
    wanted = behind and line_wanted(data, at)
    cut, left = wanted and line_at(data, at) is None, len(data) - (at or 0)
    number = data[at] if cut and left else 0
    return {
        "a card ends where its first line should begin": cut and left == 0 and at == LINES_AT,
        "a card ends where a later line should begin": cut and left == 0 and at > LINES_AT,
        "a card ends behind a length byte": cut and left == 1 and number,
        "a card ends inside a number": cut and 1 < left <= number,
        "a card ends before a quantity": cut and left == number + 1 > 1,
        "bytes behind the last line": behind and not wanted and at > LINES_AT,
        "bytes behind a line count of 0": behind and not wanted and at == LINES_AT,
        "one byte behind a card": behind and not wanted and left == 1,
    }


def wrong_in(line, before):
    """What can be wrong with a whole line behind these ones, with whether it is."""
    number, last = line.number, before[-1].number if before else b""
    units = line.quantity + sum(one.quantity for one in before)
    good_size = SHORTEST_NUMBER <= len(number) <= LONGEST_NUMBER
    return {
        "a number of no byte": len(number) < SHORTEST_NUMBER,
        "a number above 24 bytes": len(number) > LONGEST_NUMBER,
        "a byte against the rule": good_size and not register.good_number(number),
        "the number before it again": before and number == last,
        "a number that begins the one before": number and number != last and last.startswith(
            number),
        "a number below the one before": number and number < last and not last.startswith(number),
        "a quantity 0": line.quantity < LEAST_QUANTITY,
        "a quantity above 15": line.quantity > MOST_QUANTITY,
        "units past 64": line.quantity <= MOST_QUANTITY and units > MOST_UNITS,
    }


NOTHING_WRONG = wrong_in(Line(b"A", 1, 0), [])
LINE_ALONE = "a line with %s alone"


def line_at_fault(asked, came):
    """What is wrong with the line at fault, where it is whole and one thing is; and which it is."""
    data, at = asked.blocks["I"], at_fault(came)
    wanted = at is not None and line_wanted(data, at)
    line, before = (line_at(data, at), lines_up_to(data, at)) if wanted else (None, [])
    wrong = wrong_in(line, before) if line else NOTHING_WRONG
    faults = [what for what, really in wrong.items() if really]
    units, too_many = sum(one.quantity for one in before), faults == ["units past 64"]
    return {
        **{LINE_ALONE % what: faults == [what] for what in wrong},
        "a line with two things wrong": len(faults) > 1,
        "the first line at fault": line and not before,
        "a line between others at fault": line and before and len(before) + 1 < data[COUNT_AT],
        "the last of several lines at fault": line and before
                                              and len(before) + 1 == data[COUNT_AT],
        "the line behind 64 units at fault": too_many and units == MOST_UNITS,
        "the unit that passes 64 in a line": too_many and units < MOST_UNITS,
        "line 65 of one unit each at fault": too_many and len(before) == MOST_UNITS,
    }


def said(asked, came):
    """What a faultless card beside sound tables says."""
    if came.number in (WRONG_LENGTH, NOT_SOUND, SHEET_AT_FAULT) or not asked.blocks["I"]:
        return NOTHING_SAID
    tag, lines = card.read(asked.blocks["I"])
    numbers = register.numbers_of(asked.blocks["R"])
    return Said(tag, lines, [numbers.index(number) + 1 if number in numbers else 0
                             for number, _ in lines])


def no_node_free(asked):
    """Whether no node of the table is free."""
    return asked.blocks["N"] and not index.free_count(asked.blocks["N"])


def not_registered(asked, came):
    """11: the line that is told, numbers near registered ones, and what would come behind it."""
    refused = came.number == NOT_HELD
    card_said = said(asked, came) if refused else NOTHING_SAID
    strange = [at for at, place in enumerate(card_said.places, start=1) if not place]
    held = register.numbers_of(asked.blocks["R"]) if refused else []
    number, lines = card_said.lines[came.value - 1][0] if refused else b"", len(card_said.lines)
    return {
        "11 on the only line": refused and lines == 1,
        "11 on the first of several lines": refused and came.value == 1 < lines,
        "11 on a line between others": refused and 1 < came.value < lines,
        "11 on the last of several lines": refused and came.value == lines > 1,
        "11 on the first of several that are not registered": 1 < len(strange) < lines,
        "11 where no number is registered": len(strange) == lines > 1,
        "11 where no part is registered": refused and not held,
        "11 while another spelling is registered": refused and number.lower() in [
            other.lower() for other in held],
        "11 while other zeros are registered": refused and number.lstrip(b"0") in [
            other.lstrip(b"0") for other in held],
        "11 for the beginning of a registered number": refused and any(
            other.startswith(number) for other in held),
        "11 for more than a registered number": refused and any(map(number.startswith, held)),
        "11 where the tag is taken": refused and card_said.tag in others_held(asked, came).values(),
        "11 where no node is free": refused and no_node_free(asked),
    }


def order_of_refusals(asked, came):
    """1 and 2 before 13; 13 before 11, 19, 10 and 12."""
    data, at = asked.blocks["I"], at_fault(came)
    behind, wrong, unsound = at is not None and at >= LINES_AT, WRONG_LENGTH, NOT_SOUND
    held = register.numbers_of(asked.blocks["R"]) if behind else []
    faulty = came.number in (wrong, unsound) and is_faulty(data)
    tag = int.from_bytes(data[TAG_AT:COUNT_AT], "big")
    return {
        "1 before 13": came.number == wrong and faulty,
        "2 before 13": came.number == unsound and faulty,
        "13 before 11": behind and any(
            line.number not in held for line in lines_up_to(data, at)),
        "13 before 19": behind and data[COUNT_AT] == 0,
        "13 before 10": behind and tag in others_held(asked, came).values(),
        "13 where no node is free": behind and no_node_free(asked),
    }


def read_into(asked, came):
    """The nodes that are taken or lacking, and 9 and 10 in their order."""
    held, taken = came.number == ALREADY_HELD, came.number == TAG_TAKEN
    card_said = said(asked, came) if held or taken else NOTHING_SAID
    others = others_held(asked, came) if held or taken else {}
    tag, units = card_said.tag, sum(quantity for _, quantity in card_said.lines)
    free = index.free_count(asked.blocks["N"]) if taken else 0
    return {
        "a card that takes no node": came.done() and came.value == 0,
        "a card that takes the last free node": came.done() and came.value > 0
                                                and not index.free_count(came.blocks["N"]),
        "a card that lacks one node": came.number == NO_ROOM and came.value == 1,
        "a card that lacks several nodes": came.number == NO_ROOM and came.value > 1,
        "a held kit's own card": held and tag == came.value,
        "a held kit's card with a new tag": held and tag not in others.values(),
        "a held kit's card with another kit's tag": held and tag in others.values()
                                                    and tag != came.value,
        "a held kit's card where no node is free": held and no_node_free(asked),
        "a card with another kit's tag": taken and tag in others.values(),
        "a card with an empty kit's tag": taken and tag == root_tag(asked, came),
        "a card with a taken tag and units past the free nodes": taken and units > free,
    }


def empty_card(asked, came):
    """19 where no empty kit is held and where one is; with a taken tag, and where no node is
    free."""
    refused, held = came.number == EMPTY_KIT, root_tag(asked, came)
    tag = said(asked, came).tag if refused else 0
    return {
        "an empty card": refused and not held,
        "an empty card where an empty kit is held": refused and held and tag != held,
        "a held empty kit's own card": refused and tag == held,
        "an empty card with another kit's tag": refused and tag in others_held(
            asked, came).values(),
        "an empty card where no node is free": refused and no_node_free(asked),
    }


def lines_on(lines, places):
    """What stands on a good card: how many lines and units, how numbers and places stand."""
    numbers = [number for number, _ in lines]
    amounts, several = [quantity for _, quantity in lines], len(lines) > 1
    rising, falling = sorted(places), sorted(places, reverse=True)
    return {
        "a card of one line": len(lines) == 1,
        "a card of 64 lines": len(lines) == MOST_UNITS,
        "a card of 64 units": sum(amounts) == MOST_UNITS and len(lines) < MOST_UNITS,
        "a card with a quantity 15": MOST_QUANTITY in amounts,
        "a card with a number of 24 bytes": any(
            len(number) == LONGEST_NUMBER for number in numbers),
        "a card whose places rise": several and places == rising,
        "a card whose places fall": several and places == falling,
        "a card whose places do neither": several and places not in (rising, falling),
        "a card with a number that begins the next": any(
            other.startswith(number) for number, other in zip(numbers, numbers[1:])),
        "a card with two spellings": len({number.lower() for number in numbers}) < len(numbers),
        "a card with two numbers apart in zeros alone": len(
            {number.lstrip(b"0") for number in numbers}) < len(numbers),
        "a card with punctuation at an end": any(map(register.punctuation_at_end, numbers)),
    }


def card_entered(asked, came):
    """What stands on a card that is read."""
    card_said = said(asked, came) if came.done() else NOTHING_SAID
    return {**lines_on(card_said.lines, card_said.places),
            "a card of tag 65,535": card_said.tag == 65535,
            "a card of tag 256": card_said.tag == 256}


def card_written(asked, came):
    """What stands on a card that is written; that of an empty kit, and no room for it."""
    data = came.blocks["O"][:came.value] if came.done() else b""
    tag, lines = card.read(data) if data else (0, [])
    numbers = register.numbers_of(asked.blocks["R"]) if data else []
    empty = not asked.blocks["L"]
    return {**lines_on(lines, [numbers.index(number) + 1 for number, _ in lines]),
            "a card of tag 65,535": tag == 65535,
            "a card of tag 256": tag == 256,
            "an empty kit's card written": data and not lines,
            "no room for an empty kit's card": came.number == NO_ROOM and empty,
            "a card of a kit beside an empty one": data and lines and root_tag(asked, came)}


def card_cut(asked, came):
    """The example's card cut short."""
    data = asked.blocks["I"]
    return {CARD_CUT: at_fault(came) is not None and len(data) < len(EXAMPLE_CARD)
                      and EXAMPLE_CARD.startswith(data)}


def card_altered(asked, came):
    """The example's card with one byte set."""
    return {CARD_BYTE_SET: came.number not in (WRONG_LENGTH, NOT_SOUND)
                           and byte_set(asked.blocks["I"], EXAMPLE_CARD) is not None}


# The ways of reading a card.
CARD_WAYS = [front_at_fault, line_cut, line_at_fault, not_registered, order_of_refusals, read_into,
             empty_card, card_entered]
# Those that requests by chance hardly ever go.
RARE_CARDS = {CARD_CUT, CARD_BYTE_SET, "13 at a card's version 2", "13 at a card's version 256",
              "a card of tag 256", "a card of 64 lines", "a card of 64 units",
              "a card with a number that begins the next",
              "a card with two numbers apart in zeros alone", "the line behind 64 units at fault",
              "the unit that passes 64 in a line", "line 65 of one unit each at fault",
              LINE_ALONE % "units past 64", LINE_ALONE % "a number that begins the one before"}
