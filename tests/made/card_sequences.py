"""Cards that go from one catalogue to another in which the parts stand at other places.

"Read where the places differ, it gives the same numbers and quantities": a kit that came by a card
is told by its part numbers alone, and its card written there is the same, byte for byte. What a
card brings in, a catalogue has as if it were inserted, so that the sheet shows no history.
"""

from run.door import Different
from second import card
from second.refusals import (
    ALREADY_HELD, DONE, EMPTY_KIT, NO_ROOM, NOT_HELD, SHEET_AT_FAULT, TAG_TAKEN)
from second.register import MOST_SLOTS, filled
from second.sheet import BYTE_PLACES

from .card_requests import SHELF, SHELF_KITS, card_of, row_of
from .carried import Contents, empty_catalogue, expect, lent_catalogue
from .many_parts import edge_rows
from .reached import (
    CARDS_BACK, CARDS_BESIDE, CARDS_CARRIED, CARDS_LACKED_NODE, CARDS_LAST_NODE, CARDS_OF_EMPTY)
from .register_requests import ALIKE, many_numbers
from .sheet_sequences import compare_sheets, written_sheet
from .tables import table

# Calls in a table of six nodes beside four slots, which are free at first, each with its answer.
# Numbers are registered (p), rows found (f) and struck out (d), and cards are read (X). By hand.
TWO_SEVENS = "4B4943 0001 0009 02 05 3030373431 01 03 373431 02"
TWO_CASES = "4B4943 0001 0007 02 01 41 01 01 61 01"
ONE_SMALL = "4B4943 0001 0005 01 01 61 01"
CARD_CALLS = [
    ("X", TWO_SEVENS, NOT_HELD, 1), ("p", b"741", DONE, 1), ("X", TWO_SEVENS, NOT_HELD, 1),
    ("p", b"00741", DONE, 2), ("X", TWO_SEVENS, DONE, 3), ("f", (1, 1, 2), DONE, 9),
    ("X", TWO_SEVENS, ALREADY_HELD, 9),
    # the same kit with another tag, another kit with the same one, and no kit at all
    ("X", "4B4943 0001 0008 02 05 3030373431 01 03 373431 02", ALREADY_HELD, 9),
    ("X", "4B4943 0001 0009 01 03 373431 01", TAG_TAKEN, 0),
    ("X", "4B4943 0001 0003 00", EMPTY_KIT, 0), ("X", "4B4943 0001 0009 00", EMPTY_KIT, 0),
    ("X", TWO_CASES, NOT_HELD, 1),
    ("p", b"A", DONE, 3), ("X", TWO_CASES, NOT_HELD, 2), ("p", b"a", DONE, 4),
    # falling lines, a longer number first, a fault behind a good card, and cards cut short
    ("X", "4B4943 0001 0007 02 01 61 01 01 41 01", SHEET_AT_FAULT, 11),
    ("X", "4B4943 0001 0007 02 03 373431 01 02 3734 01", SHEET_AT_FAULT, 13),
    ("X", TWO_CASES + "00", SHEET_AT_FAULT, 14), ("X", TWO_CASES[:-3], SHEET_AT_FAULT, 11),
    ("X", "4B4943 0001 0007", SHEET_AT_FAULT, 7), ("X", "4B4943 0001 0000 00", SHEET_AT_FAULT, 5),
    ("X", TWO_CASES, DONE, 2), ("X", ONE_SMALL, NO_ROOM, 1), ("d", (1, 1, 2), DONE, 9),
    ("X", ONE_SMALL, DONE, 1), ("X", TWO_SEVENS, NO_ROOM, 1), ("d", (4,), DONE, 5),
    ("X", TWO_SEVENS, DONE, 3), ("f", (3, 4), DONE, 7),
]
# The cards of what is then held, and lists that no card is written for.
CARDS_HELD = [((1, 1, 2), TWO_SEVENS), ((3, 4), TWO_CASES)]
NO_CARDS = [(), (1,), (1, 1), (4,), (1, 2)]


def card_call(catalogue, letter, given):
    """One call on a number, a row, or a card in digits."""
    if letter in "fd":
        return catalogue.call_on(letter, given)
    return catalogue.call(letter, I=given if letter == "p" else bytes.fromhex(given))


def by_hand(door):
    """Cards among other calls, answer by answer; then the cards of what is held."""
    catalogue = empty_catalogue(door, 4, 6)
    for letter, given, number, value in CARD_CALLS:
        expect(card_call(catalogue, letter, given), number, value, "%s %s" % (letter, given))
    catalogue.check_contents()
    for row, digits in CARDS_HELD:
        check_same(written_card(catalogue, row), bytes.fromhex(digits), "the card of %s" % (row,))
    for row in NO_CARDS:
        expect(catalogue.call_on("x", row, O=bytes(40)), NOT_HELD, 0, "a card of %s" % (row,))


def check_same(came, right, what):
    """Two cards must be the same."""
    if came != right:
        raise Different([what + ", and what it should be:", "  " + came.hex(" "),
                         "  " + right.hex(" ")])


def written_card(catalogue, row):
    """The card of a held row; the first call is refused and tells the bytes needed in all."""
    told = catalogue.call_on("x", row)
    expect(told, NO_ROOM, told.value, "a card of %s without room" % (row,))
    came = catalogue.call_on("x", row, O=bytes(told.value))
    expect(came, DONE, told.value, "a card of %s with just enough room" % (row,))
    return came.blocks["O"]


def by_parts(contents):
    """The kits as all know them who have the same parts at any places: tags and part numbers."""
    return sorted((tag, contents.parts_of(row)) for row, tag in contents.kits.items())


def carry_over(one, other):
    """Every kit of one catalogue goes to another by its card, and its card there is the same."""
    for row, tag in sorted(one.contents.kits.items()):
        data = written_card(one, row)
        needed = other.contents.nodes_needed()
        came = other.call("X", I=data)
        taken = other.contents.nodes_needed() - needed
        expect(came, DONE, taken, "a card of %s" % one.contents.parts_of(row))
        there = other.contents.row_of_parts(one.contents.parts_of(row))
        expect(other.call_on("f", there), DONE, tag, "what came by a card, looked for")
        check_same(written_card(other, there), data, "a card written where places differ")
        one.came_to(CARDS_CARRIED, there != row)
    other.check_contents()
    if by_parts(one.contents) != by_parts(other.contents):
        raise Different(["kits by part numbers, here and there:", "  %r" % one.contents,
                         "  %r" % other.contents])


def strike_all(catalogue):
    """Every kit struck out."""
    for row in sorted(catalogue.contents.kits):
        catalogue.call_on("d", row)


def there_and_back(door, contents, other_numbers):
    """The kits of a catalogue go to another one whose parts stand in this order, are struck out at
    home and come back: the sheet at home is what it was."""
    one, other = [empty_catalogue(door, max(1, len(contents.numbers)), 1 + sum(
        len(row) for row in contents.kits)) for _ in range(2)]
    expect(one.call("r", I=contents.sheet()), DONE, len(contents.kits), "a sheet of all kits")
    expect(other.call("r", I=Contents(other_numbers).sheet()), DONE, 0, "a sheet of the parts")
    before = written_sheet(one)
    carry_over(one, other)
    strike_all(one)
    carry_over(other, one)
    compare_sheets(one.contents, contents, written_sheet(one), before)
    one.came_to(CARDS_BACK)


def carried_over(door):
    """Registers that are reversed, sorted and turned, with numbers that look alike."""
    held = {row_of(SHELF, lines): tag for tag, lines in SHELF_KITS}
    shelf = Contents(SHELF, held)
    for numbers in (SHELF[::-1], sorted(SHELF), sorted(SHELF, reverse=True), SHELF[4:] + SHELF[:4]):
        there_and_back(door, shelf, numbers)
    every = len(ALIKE)
    alike = Contents(ALIKE, {
        **{(place, place + 1): 100 + place for place in range(1, every)},
        tuple(range(1, every + 1)): 9, (1, 1, every): 65535})
    for numbers in (ALIKE[::-1], sorted(ALIKE)):
        there_and_back(door, alike, numbers)


def old_cards(door):
    """The card of an empty kit that is lent: eight bytes, which no catalogue takes."""
    catalogue = lent_catalogue(door, filled(SHELF, 12), table(9, ((), 30), ((1, 2), 9)))
    other = lent_catalogue(door, filled(SHELF[::-1], 11), table(9, ((3,), 30)))
    data = written_card(catalogue, ())
    check_same(data, bytes.fromhex("4B4943 0001 001E 00"), "the card of an empty kit")
    for reader in (catalogue, other):
        expect(reader.call("X", I=data), EMPTY_KIT, 0, "an empty kit's card")
        expect(reader.call("X", I=card_of(77)), EMPTY_KIT, 0, "an empty card")
    # Its tag is taken for a card, until it is struck out.
    expect(catalogue.call("X", I=card_of(30, (b"A", 1))), TAG_TAKEN, 0, "an empty kit's tag")
    expect(catalogue.call_on("d", ()), DONE, 30, "an empty kit struck out")
    expect(catalogue.call_on("x", (), O=bytes(20)), NOT_HELD, 0, "no card of an empty kit")
    expect(catalogue.call("X", I=data), EMPTY_KIT, 0, "an empty kit's card, once more")
    expect(catalogue.call("X", I=card_of(30, (b"A", 1))), DONE, 1, "the tag is free")
    catalogue.check_contents()
    catalogue.came_to(CARDS_OF_EMPTY)


def just_enough(door):
    """Each kit by its card into just the nodes that it takes; with one less it is refused, and
    that kit comes in where another one is struck out."""
    for tag, lines in SHELF_KITS:
        data, row = card.written(tag, lines), row_of(SHELF[::-1], lines)
        whole = empty_catalogue(door, len(SHELF), 1 + len(row))
        whole.call("r", I=Contents(SHELF[::-1]).sheet())
        expect(whole.call("X", I=data), DONE, len(row), "a card into an empty table")
        whole.came_to(CARDS_LAST_NODE)
        # A kit of another beginning takes one of as many nodes.
        first = next(place for place in range(1, len(SHELF) + 1) if place != row[0])
        fewer = empty_catalogue(door, len(SHELF), 1 + len(row))
        fewer.call("r", I=Contents(SHELF[::-1], {(first,): 40000}).sheet())
        expect(fewer.call("X", I=data), NO_ROOM, 1, "a card and one node too few")
        fewer.call_on("d", (first,))
        expect(fewer.call("X", I=data), DONE, len(row), "a card and a node freed")
        fewer.came_to(CARDS_LACKED_NODE)
        check_same(written_card(fewer, row), data, "a card in a full table")


def beside_many_parts(door):
    """Catalogues of as many parts as a byte tells, one more, and 4,000, the parts reversed."""
    for parts in (BYTE_PLACES, BYTE_PLACES + 1, MOST_SLOTS):
        numbers, rows = many_numbers(parts), [row for row in edge_rows(parts) if row][-2:]
        kits = {row: 700 + at for at, row in enumerate(rows)}
        one = lent_catalogue(door, filled(numbers, parts), table(20, *kits.items()))
        other = lent_catalogue(door, filled(numbers[::-1], parts), table(20))
        carry_over(one, other)
        expect(other.call("X", I=card_of(5, (numbers[0], 1), (b"NEW", 1))), NOT_HELD, 2,
               "a number that is not registered")
        one.came_to(CARDS_BESIDE[parts])
