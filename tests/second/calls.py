"""The answer to a request: every call with its refusals in the order of documents 01 and 02."""

from . import card, index, kits, makers, nodes, paging, questions, register, sheet
from .lent import ANSWER_BLOCKS, Answer
from .refusals import (
    ALREADY_HELD, BAD_NUMBER, BOOKMARK_AT_FAULT, DONE, EMPTY_KIT, NO_ROOM, NOT_HELD, NOT_SOUND,
    PUNCTUATION_AT_END, SHEET_AT_FAULT, TAG_TAKEN, TAG_ZERO, TOO_FAR_SHORT, TOO_MANY_UNITS,
    WRONG_LENGTH, Refusal)

# "a number d from 0 to 64"
MOST_SHORT = 64


def check_register(lent):
    """The order "1 register, .. 2 register" where only the register is lent."""
    if not register.right_length(lent["R"]):
        raise Refusal(WRONG_LENGTH)
    if not register.sound(lent["R"]):
        raise Refusal(NOT_SOUND)


def check_number(number):
    """First in "For numbers: 3, then 9 or 11, then 12"."""
    if not register.good_number(number):
        raise Refusal(BAD_NUMBER)


def register_number(request):
    """Register a number: its place. After 3 come 16, 9 and 12."""
    lent = request.blocks
    check_register(lent)
    check_number(lent["I"])
    if register.punctuation_at_end(lent["I"]):
        raise Refusal(PUNCTUATION_AT_END)
    place = register.place_of(lent["R"], lent["I"])
    if place:
        raise Refusal(ALREADY_HELD, place)
    added = register.with_number_added(lent["R"], lent["I"])
    if added is None:
        # "registering finds no free slot (value 1)"
        raise Refusal(NO_ROOM, 1)
    return register.place_of(added, lent["I"]), {"R": added}


def look_up_number(request):
    """Look up a number: its place. After 3 comes 11."""
    lent = request.blocks
    check_register(lent)
    check_number(lent["I"])
    place = register.place_of(lent["R"], lent["I"])
    if not place:
        raise Refusal(NOT_HELD)
    return place, {}


def show_number(request):
    """Show the number at a place: the very stretch of the register that holds it."""
    lent = request.blocks
    check_register(lent)
    if not 1 <= request.a <= len(register.numbers_of(lent["R"])):
        raise Refusal(NOT_HELD)
    return 0, {"O": register.stretch_at(lent["R"], request.a)}


def check_lengths(lent):
    """The order "1 register, 1 nodes"."""
    if not register.right_length(lent["R"]):
        raise Refusal(WRONG_LENGTH)
    if not nodes.right_length(lent["N"]):
        raise Refusal(WRONG_LENGTH)


def check_tables(lent):
    """The order "1 register, 1 nodes, 2 register, 2 nodes"; gives the number of parts."""
    check_lengths(lent)
    if not register.sound(lent["R"]):
        raise Refusal(NOT_SOUND)
    parts = len(register.numbers_of(lent["R"]))
    if not nodes.sound(lent["N"], parts):
        raise Refusal(NOT_SOUND)
    return parts


def empty_tables(request):
    """Empty both tables: zeros. "Emptying and reading give 1 but never 2"."""
    lent = request.blocks
    check_lengths(lent)
    return 0, {"R": bytes(len(lent["R"])), "N": [0] * len(lent["N"])}


def insert_kit(request):
    """Insert list and tag: nodes newly taken.

    After the tables come 8, 4 to 6, 7, 19, 9, 10, 12: "Insertion no longer takes" an empty kit,
    also where one is held or the tag is taken.
    """
    lent, tag = request.blocks, request.a
    parts = check_tables(lent)
    if tag == 0:
        raise Refusal(TAG_ZERO)
    row = kits.units(kits.checked_lines(lent["L"], parts))
    if len(row) > kits.MOST_UNITS:
        raise Refusal(TOO_MANY_UNITS)
    return entered(lent["N"], row, tag)


def entered(words, row, tag):
    """A row of at most 64 units entered under this tag: nodes newly taken; or 19, 9, 10, 12."""
    if not row:
        raise Refusal(EMPTY_KIT)
    held = nodes.held_kits(words)
    if row in held:
        raise Refusal(ALREADY_HELD, held[row])
    if tag in held.values():
        raise Refusal(TAG_TAKEN)
    needed, free = index.missing_nodes(words, row), index.free_count(words)
    if needed > free:
        # "insertion needs more nodes than are free (value: how many too few)"
        raise Refusal(NO_ROOM, needed - free)
    return needed, {"N": index.inserted(words, row, tag)}


def held_row(request):
    """The row and tag of the held kit that a list names; after the list checks comes 11.

    "An empty kit already in a table can be found by its empty list and deleted".
    """
    lent = request.blocks
    parts = check_tables(lent)
    row = kits.units(kits.checked_lines(lent["L"], parts))
    held = nodes.held_kits(lent["N"])
    if row not in held:
        raise Refusal(NOT_HELD)
    return row, held[row]


def find_kit(request):
    """Find a list: its tag."""
    _, tag = held_row(request)
    return tag, {}


def delete_kit(request):
    """Delete a list: its tag."""
    row, tag = held_row(request)
    return tag, {"N": index.deleted(request.blocks["N"], row)}


def answering_tags(request, question):
    """The tags of all kits that answer this question on the lent list, in listing order."""
    lent = request.blocks
    parts = check_tables(lent)
    row = kits.units(kits.checked_lines(lent["L"], parts))
    return question(nodes.held_kits(lent["N"]), row)


def first_tag(tags):
    """The tag of the first such kit in listing order, or 0."""
    return tags[0] if tags else 0


def any_within(request):
    """Any kit within the bin."""
    return first_tag(answering_tags(request, questions.within)), {}


def any_containing(request):
    """Any kit containing the list."""
    return first_tag(answering_tags(request, questions.containing)), {}


def at_start(output, contents):
    """The output with these contents at its start; "what lies behind .. keeps its contents"."""
    if len(contents) > len(output):
        # "a listing or sheet exceeds its output (value: places or bytes needed in all)"
        raise Refusal(NO_ROOM, len(contents))
    return contents + output[len(contents):]


def all_within(request):
    """All kits within the bin: their tags; the value is how many."""
    tags = answering_tags(request, questions.within)
    return len(tags), {"P": at_start(request.blocks["P"], tags)}


def all_containing(request):
    """All kits containing the list: their tags; the value is how many."""
    tags = answering_tags(request, questions.containing)
    return len(tags), {"P": at_start(request.blocks["P"], tags)}


def almost_filled(request):
    """The kits that a bin almost fills: their tags, and the shortfall of each in a second output.

    "The value is how many." 14 comes "after the list checks and before 12", and 12 "where either
    output is shorter than the answer, value the places needed".
    """
    lent, most = request.blocks, request.a
    parts = check_tables(lent)
    row = kits.units(kits.checked_lines(lent["L"], parts))
    if most > MOST_SHORT:
        raise Refusal(TOO_FAR_SHORT)
    found = questions.almost_filled(nodes.held_kits(lent["N"]), row, most)
    return len(found), {"P": at_start(lent["P"], [tag for tag, _ in found]),
                        "Q": at_start(lent["Q"], [lacking for _, lacking in found])}


def turned_page(request, question):
    """A step from the lent bookmark: the tag of the kit that it shows, "or 0 when none is left".

    15 comes "after the list checks". Where none is left "the bookmark stays where it was".
    """
    lent = request.blocks
    parts = check_tables(lent)
    row = kits.units(kits.checked_lines(lent["L"], parts))
    bookmark = paging.bookmark_of(lent["K"])
    if paging.at_fault(bookmark, parts):
        raise Refusal(BOOKMARK_AT_FAULT)
    found = paging.shown(question(nodes.held_kits(lent["N"]), row), bookmark)
    if found is None:
        return 0, {}
    kit, tag = found
    return tag, {"K": paging.words_at(kit)}


def page_within(request):
    """The next page of the kits within the bin."""
    return turned_page(request, questions.kits_within)


def page_containing(request):
    """The next page of the kits containing the list."""
    return turned_page(request, questions.kits_containing)


def count_kits(request):
    """How many kits begin with a list: "the count for a list's units as a beginning"."""
    lent = request.blocks
    parts = check_tables(lent)
    row = kits.units(kits.checked_lines(lent["L"], parts))
    return questions.beginning_with(nodes.held_kits(lent["N"]), row), {}


def write_sheet(request):
    """Write the sheet at the start of a lent output: bytes written."""
    lent = request.blocks
    check_tables(lent)
    written = sheet.written(register.numbers_of(lent["R"]), nodes.held_kits(lent["N"]))
    return len(written), {"O": at_start(lent["O"], written)}


def fault_or(reader, data):
    """What a reader of sheets or cards gives of these bytes; 13 with the offset of a fault."""
    try:
        return reader(data)
    except sheet.SheetFault as fault:
        raise Refusal(SHEET_AT_FAULT, fault.offset) from fault


def tables_filled(lent, numbers, read):
    """Both tables "as if emptied, then filled in sheet order", or 12.

    "reading needs more slots (value: slots), or else more nodes counting the root (value: nodes)"
    """
    slot_count = len(lent["R"]) // register.SLOT_BYTES
    node_count = len(lent["N"]) // nodes.NODE_WORDS
    if len(numbers) > slot_count:
        raise Refusal(NO_ROOM, len(numbers))
    needed = sheet.nodes_needed(read)
    if needed > node_count:
        raise Refusal(NO_ROOM, needed)
    return {"R": register.filled(numbers, slot_count), "N": index.filled(node_count, read)}


def read_sheet(request):
    """Read a sheet: kits read. The order is 1 for each table, then 13, then 12.

    An empty kit is dropped, takes no node beyond the root and is not counted "among the kits read".
    """
    lent = request.blocks
    check_lengths(lent)
    numbers, read = fault_or(sheet.read, lent["I"])
    return len(read), tables_filled(lent, numbers, read)


def salvage_sheet(request):
    """Rescue a torn sheet: kits kept, kits announced, "the offset of the first fault or else the
    sheet's length".

    "1 as in reading, then 13 up to the kit count, then 12 for the kept part": slots for all parts,
    or else nodes for the kits kept.
    """
    lent = request.blocks
    check_lengths(lent)
    rescued = fault_or(sheet.salvaged, lent["I"])
    filled = tables_filled(lent, rescued.numbers, rescued.kits)
    return (len(rescued.kits), rescued.announced, rescued.offset), filled


def write_card(request):
    """Write a card for a held list: its bytes.

    "writing has those of finding a list, then 12 with the bytes needed". A held empty kit, which
    "can be found by its empty list", has a card too.
    """
    lent = request.blocks
    row, tag = held_row(request)
    written = card.written(tag, card.numbered(register.numbers_of(lent["R"]), row))
    return len(written), {"O": at_start(lent["O"], written)}


def looked_up_lines(register_bytes, lines):
    """A card's lines with places, "in order of place"; 11 for the first unregistered number."""
    placed = []
    for line, (number, quantity) in enumerate(lines, start=1):
        place = register.place_of(register_bytes, number)
        if not place:
            # "then 11 for an unregistered number, value its line"
            raise Refusal(NOT_HELD, line)
        placed.append((place, quantity))
    return sorted(placed)


def read_card(request):
    """Read a card into the index: nodes newly taken.

    "reading has 1 and 2 for the tables, then 13 .., then 11 .., then insertion's 9, 10 and 12"; 19
    comes "on .. reading its card", before 9. Tag 0 and more than 64 units are faults of the card.
    """
    lent = request.blocks
    check_tables(lent)
    tag, lines = fault_or(card.read, lent["I"])
    row = kits.units(looked_up_lines(lent["R"], lines))
    return entered(lent["N"], row, tag)


def check_beside_lengths(lent):
    """"for the register and then the second table, both lent, 1 for each, for the second also where
    slot counts differ"."""
    if not register.right_length(lent["R"]):
        raise Refusal(WRONG_LENGTH)
    if not makers.right_length(lent["M"], lent["R"]):
        raise Refusal(WRONG_LENGTH)


def check_beside(request):
    """Behind 1 "then 2 for each", "then 11 for a place not registered"."""
    lent = request.blocks
    check_beside_lengths(lent)
    if not register.sound(lent["R"]):
        raise Refusal(NOT_SOUND)
    parts = len(register.numbers_of(lent["R"]))
    if not makers.sound(lent["M"], parts):
        raise Refusal(NOT_SOUND)
    if not 1 <= request.a <= parts:
        raise Refusal(NOT_HELD)


def zero_makers(request):
    """"One call zeroes it whole", "zeroing giving 1 only"; the register stays as it is."""
    lent = request.blocks
    check_beside_lengths(lent)
    return 0, {"M": bytes(len(lent["M"]))}


def set_maker(request):
    """"Set .. a slot": behind 11 "then 3 for a bad maker's number", and 16 is another call's."""
    lent = request.blocks
    check_beside(request)
    check_number(lent["I"])
    return 0, {"M": makers.with_number(lent["M"], request.a, lent["I"])}


def clear_maker(request):
    """"clear a slot", whether it is set or not."""
    check_beside(request)
    return 0, {"M": makers.without_number(request.blocks["M"], request.a)}


def show_label(request):
    """"show for a place the maker's number if set and otherwise ours"."""
    lent = request.blocks
    check_beside(request)
    return 0, {"O": makers.label_at(lent["R"], lent["M"], request.a)}


# The calls by letter. Each gives its value, or three numbers, and the blocks that it changes; or it
# raises a Refusal.
CALLS = {
    "e": empty_tables,
    "p": register_number,
    "l": look_up_number,
    "n": show_number,
    "k": insert_kit,
    "f": find_kit,
    "d": delete_kit,
    "w": any_within,
    "c": any_containing,
    "W": all_within,
    "C": all_containing,
    "a": almost_filled,
    "g": page_within,
    "G": page_containing,
    "#": count_kits,
    "s": write_sheet,
    "r": read_sheet,
    "S": salvage_sheet,
    "x": write_card,
    "X": read_card,
    "z": zero_makers,
    "m": set_maker,
    "u": clear_maker,
    "v": show_label,
}
LETTERS = "".join(CALLS)

# The calls that give a stretch: the probe sends it back as O, "an empty stretch where refused".
SHOWING = "nv"

# The calls that report three numbers.
REPORTING = "S"


def answer(request):
    """The answer to a request whose letter is in the table."""
    blocks = {name: request.blocks[name] for name in ANSWER_BLOCKS}
    reporting = request.letter in REPORTING
    try:
        told, changed = CALLS[request.letter](request)
    except Refusal as refusal:
        # "Every refusal leaves all lent memory untouched."
        if request.letter in SHOWING:
            blocks["O"] = b""
        # "a refused call reports 0 for kept and announced, with the refusal's value in the third
        # place"
        value, third = (0, refusal.value) if reporting else (refusal.value, 0)
        return Answer(refusal.number, value, blocks, third=third)
    blocks.update(changed)
    value, second, third = told if reporting else (told, 0, 0)
    return Answer(DONE, value, blocks, second, third)
