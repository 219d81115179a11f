"""The ways that a call can go where an empty kit is inserted, held or on a sheet: request 14.

Like those of made.ways: each function takes a request and its right answer.
"""

from second import index, nodes, register, sheet
from second.kits import with_units
from second.nodes import NO_TAG, NODE_WORDS, Node
from second.refusals import (
    EMPTY_KIT, NO_ROOM, NOT_HELD, NOT_SOUND, SHEET_AT_FAULT, TAG_TAKEN, TAG_ZERO, WRONG_LENGTH)

# Which word of a table is the root's tag, and how long the record of an empty kit is.
ROOT_TAG_AT = Node._fields.index("tag")
EMPTY_RECORD = len(sheet.record(sheet.FIRST_VERSION, 1, []))

# A way that requests by chance hardly ever go.
TWICE = "an empty kit twice on a sheet"


def root_tag(asked, came):
    """The empty kit's tag in a table that was found sound, or none."""
    if came.number in (WRONG_LENGTH, NOT_SOUND) or not asked.blocks["N"]:
        return NO_TAG
    return asked.blocks["N"][ROOT_TAG_AT]


def others_held(asked, came):
    """The kits with units in a table that was found sound, with their tags."""
    if came.number in (WRONG_LENGTH, NOT_SOUND) or not asked.blocks["N"]:
        return {}
    return with_units(nodes.held_kits(asked.blocks["N"]))


def empty_refused(asked, came):
    """19 where 9, 10 or 12 would come behind it, 8 before it; and the tag of a held empty kit."""
    refused, tag = came.number == EMPTY_KIT, root_tag(asked, came)
    others = others_held(asked, came) if refused else {}
    return {
        "19 where no empty kit is held": refused and not tag,
        "19 where an empty kit is held": refused and tag and asked.a != tag,
        "19 with a held empty kit's own tag": refused and asked.a == tag,
        "19 where another kit has the tag": refused and asked.a in others.values(),
        "19 where no node is free": refused and not index.free_count(asked.blocks["N"]),
        "tag 0 before 19": came.number == TAG_ZERO and not asked.blocks["L"],
        "an empty kit's tag taken": came.number == TAG_TAKEN and asked.a == tag,
        "another kit entered beside an empty one": came.done() and tag,
    }


def empty_found(asked, came):
    """The empty list found or struck out, and not held; another kit beside a held empty one."""
    nothing, tag = not asked.blocks["L"], root_tag(asked, came)
    return {
        "an empty kit named": came.done() and nothing and tag,
        "the empty list not held": came.number == NOT_HELD and nothing,
        "another kit named beside an empty one": came.done() and not nothing and tag,
        "a list not held beside an empty kit": came.number == NOT_HELD and tag,
    }


def passed_over(by_every_list):
    """The ways of a question that the empty kit would answer by every list, or by the empty one.

    By the empty list every other kit answers too.
    """
    def ways(asked, came):
        """An empty kit passed over, before others or alone."""
        tag = root_tag(asked, came) if came.done() else NO_TAG
        would = tag and (by_every_list or not asked.blocks["L"])
        others = others_held(asked, came) if would else {}
        gone = {
            "an empty kit passed over": would and came.value > 0,
            "an empty kit passed over alone": would and not others,
        }
        if by_every_list:
            gone["an empty kit passed over, and no other answers"] = others and came.value == 0
        return gone
    return ways


def exact_room(name):
    """The ways of a listing whose output has no place for an empty kit."""
    def ways(asked, came):
        """Just as many places as there are other kits that answer."""
        room = len(asked.blocks[name])
        return {"an empty kit takes no place": came.done() and came.value == room > 0
                                               and root_tag(asked, came)}
    return ways


def replaced(asked, came):
    """A sound table with an empty kit emptied, or another catalogue read into it."""
    lent, tag = asked.blocks, root_tag(asked, came) if came.done() else NO_TAG
    return {"an empty kit replaced": tag and register.sound(lent["R"]) and nodes.sound(
        lent["N"], len(register.numbers_of(lent["R"])))}


def left_out(asked, came):
    """An empty kit left out of a sheet, of others or alone, and of the room that is needed."""
    tag, room = root_tag(asked, came), len(asked.blocks["O"])
    others = others_held(asked, came) if tag else {}
    return {
        "an empty kit left out": came.done() and tag and others,
        "an empty kit left out alone": came.done() and tag and not others,
        "an empty kit takes no byte": came.done() and tag and came.value == room,
        "an empty kit is not in the bytes needed": came.number == NO_ROOM and tag,
    }


def first_record(data):
    """Where the first kit record of a sheet starts; 0 where its part list is at fault."""
    items = sheet.Items(data)
    items.at = len(sheet.MARK)
    try:
        sheet.read_numbers(items, sheet.read_version(items))
    except sheet.SheetFault:
        return 0
    return items.at + sheet.TWO_BYTES


def tag_at(data, at):
    """The two bytes of the tag of a record."""
    return data[at:at + sheet.TWO_BYTES]


def empty_at(data, at):
    """Whether a whole record of an empty kit with a tag stands here."""
    found = data[at:at + EMPTY_RECORD]
    return len(found) == EMPTY_RECORD and found[-1] == 0 and any(found)


def dropped(asked, came):
    """An empty kit dropped in reading, before others or alone; at fault by its place or its tag."""
    data, room = asked.blocks["I"], len(asked.blocks["N"]) // NODE_WORDS
    start = first_record(data) if came.number != WRONG_LENGTH else 0
    first = start and int.from_bytes(data[start - sheet.TWO_BYTES:start], "big") and empty_at(
        data, start)
    behind = came.value if came.number == SHEET_AT_FAULT and came.value > start > 0 else 0
    tags_differ = tag_at(data, behind) != tag_at(data, start)
    return {
        "an empty kit dropped": came.done() and first and came.value > 0,
        "an empty kit dropped alone": came.done() and first and came.value == 0,
        "an empty kit dropped, and no node is free": came.done() and first and came.value > 0
                                                     and not index.free_count(came.blocks["N"]),
        "an empty kit needs no node": came.number == NO_ROOM and first and came.value == room + 1,
        "a dropped kit's tag again": behind and first and not tags_differ,
        TWICE: behind and first and tags_differ and empty_at(data, behind),
        "an empty kit behind another on a sheet": behind and not first and empty_at(data, behind),
    }
