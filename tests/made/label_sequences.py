"""The maker's table of request 8 among all other calls, which leave it as it is and do not read it.

Emptying, reading and rescuing leave maker's numbers beyond the parts, and then setting, clearing
and showing answer 2 until the table is zeroed, or until so many parts are registered again.
"""

from run.door import Different
from second.lent import ANSWER_BLOCKS
from second.refusals import BAD_NUMBER, DONE, NOT_HELD, NOT_SOUND, SHEET_AT_FAULT
from second.register import LONGEST_NUMBER, MOST_SLOTS, filled
from second.sheet import BYTE_PLACES

from .bookmarks import not_begun
from .card_requests import card_of
from .carried import Contents, empty_catalogue, expect, lent_catalogue
from .label_requests import PLACE_LETTERS
from .many_parts import EDGE_PLACES
from .reached import LABELS_AGAIN, LABELS_BESIDE, LABELS_UNREAD, LABELS_ZEROED
from .register_requests import many_numbers
from .requests import USES
from .tables import table

# A sheet of the parts A and B without kits, the same with a part C, and one whose end is at fault.
TWO_PARTS = Contents([b"A", b"B"]).sheet()
THREE_PARTS = Contents([b"A", b"B", b"C"]).sheet()
AT_FAULT = TWO_PARTS + b"\0"
LONGEST = b"z" * LONGEST_NUMBER

# Calls on four slots that are free at first: letter, place, what is given, then the number; of v
# what is shown. By hand.
LABEL_CALLS = [
    # no part yet, and 11 before 3
    ("v", 1, b"", NOT_HELD), ("m", 1, b"A", NOT_HELD), ("m", 1, b"", NOT_HELD),
    ("u", 1, b"", NOT_HELD), ("z", 0, b"", DONE),
    # one part: ours is shown until the maker's is set
    ("p", 0, b"00741", DONE), ("v", 1, b"00741", DONE), ("m", 1, b"MC1741CP1", DONE),
    ("v", 1, b"MC1741CP1", DONE), ("m", 2, b"X", NOT_HELD), ("m", 2, b"_", NOT_HELD),
    ("m", 0, b"X", NOT_HELD), ("v", 0, b"", NOT_HELD), ("v", 2, b"", NOT_HELD),
    ("u", 2, b"", NOT_HELD), ("m", 1, b"_", BAD_NUMBER), ("m", 1, b"", BAD_NUMBER),
    ("m", 1, LONGEST + b"z", BAD_NUMBER), ("v", 1, b"MC1741CP1", DONE),
    # shorter, longest, punctuation at an end and alone, our own number; cleared twice
    ("m", 1, b"MC1741", DONE), ("v", 1, b"MC1741", DONE), ("m", 1, LONGEST, DONE),
    ("v", 1, LONGEST, DONE), ("m", 1, b"MC-", DONE), ("v", 1, b"MC-", DONE), ("m", 1, b"/", DONE),
    ("v", 1, b"/", DONE), ("m", 1, b"00741", DONE), ("v", 1, b"00741", DONE), ("u", 1, b"", DONE),
    ("v", 1, b"00741", DONE), ("u", 1, b"", DONE),
    # a gap, and one number twice
    ("p", 0, b"741", DONE), ("p", 0, b"4016", DONE), ("m", 3, b"CD4016", DONE),
    ("m", 1, b"CD4016", DONE), ("v", 1, b"CD4016", DONE), ("v", 2, b"741", DONE),
    ("v", 3, b"CD4016", DONE), ("v", 4, b"", NOT_HELD), ("l", 0, b"CD4016", NOT_HELD),
    ("n", 3, b"4016", DONE),
    # fewer parts leave place 3 behind; a refused sheet leaves all; a third part takes it over
    ("r", 0, AT_FAULT, SHEET_AT_FAULT), ("v", 3, b"CD4016", DONE), ("r", 0, TWO_PARTS, DONE),
    ("v", 1, b"", NOT_SOUND), ("v", 2, b"", NOT_SOUND), ("v", 3, b"", NOT_SOUND),
    ("v", 0, b"", NOT_SOUND), ("u", 3, b"", NOT_SOUND), ("m", 1, b"X", NOT_SOUND),
    ("m", 3, b"", NOT_SOUND), ("n", 1, b"A", DONE), ("l", 0, b"B", DONE), ("p", 0, b"C", DONE),
    ("v", 3, b"CD4016", DONE), ("v", 1, b"CD4016", DONE), ("v", 2, b"B", DONE),
    # cleared in time, nothing is left behind
    ("u", 3, b"", DONE), ("r", 0, TWO_PARTS, DONE), ("v", 1, b"CD4016", DONE),
    ("v", 2, b"B", DONE), ("v", 3, b"", NOT_HELD),
    # emptied: all is left behind, and zeroing helps
    ("e", 0, b"", DONE), ("v", 1, b"", NOT_SOUND), ("m", 1, b"X", NOT_SOUND),
    ("z", 0, b"", DONE), ("v", 1, b"", NOT_HELD), ("S", 0, THREE_PARTS[:-1], SHEET_AT_FAULT),
    ("S", 0, THREE_PARTS, DONE), ("v", 1, b"A", DONE), ("m", 3, b"c", DONE),
    ("S", 0, AT_FAULT, DONE), ("v", 1, b"", NOT_SOUND), ("r", 0, THREE_PARTS, DONE),
    ("v", 3, b"c", DONE), ("z", 0, b"", DONE), ("v", 3, b"C", DONE), ("z", 0, b"", DONE),
]


def expect_shown(came, shown, what):
    """The stretch that comes back must be this one."""
    if came.blocks["O"] != shown:
        raise Different(["%s: %r is shown, by the document %r" % (what, came.blocks["O"], shown)])


def by_hand(door):
    """The four calls among others, answer by answer."""
    catalogue = empty_catalogue(door, 4, 3)
    for letter, place, given, number in LABEL_CALLS:
        what = "%s %d %r" % (letter, place, given)
        came = catalogue.call(letter, place, I=given, O=b"old bytes")
        expect(came, number, came.value, what)
        if letter in "nv":
            expect_shown(came, given if came.done() else b"", what)
    catalogue.check_contents()


def set_all(catalogue, places):
    """A maker's number set at each of these places."""
    for place in places:
        number = b"M/%d-" % place
        expect(catalogue.call("m", place, I=number), DONE, 0, "place %d set" % place)
        expect_shown(catalogue.call("v", place), number, "place %d" % place)


def expect_behind(catalogue):
    """Setting, clearing and showing answer 2 at every place; zeroing is left to the caller."""
    for letter in PLACE_LETTERS:
        for place in range(catalogue.slots() + 2):
            expect(catalogue.call(letter, place, I=b"M", O=b"old bytes"), NOT_SOUND, 0,
                   "%s at place %d, a maker's number left behind" % (letter, place))


def left_behind(door):
    """Each number of maker's numbers, beside each number of parts that a call leaves.

    Zeroed, every part is shown by its own number again. Else as many parts are registered, and the
    maker's numbers are shown beside them.
    """
    numbers = many_numbers(4)
    for parts in range(1, 5):
        for left, letter in [(0, "e"), *((left, letter) for left in range(5) for letter in "rS")]:
            for zeroed in (True, False):
                catalogue = lent_catalogue(door, filled(numbers[:parts], 4), table(2))
                set_all(catalogue, [parts])
                came = catalogue.call(letter, I=Contents(numbers[::-1][:left]).sheet())
                expect(came, DONE, 0, "%d parts in place of %d" % (left, parts))
                if left < parts:
                    expect_behind(catalogue)
                bring_back(catalogue, parts, zeroed)


def bring_back(catalogue, place, zeroed):
    """The table zeroed, or parts registered until the place of a maker's number is one of them."""
    behind = catalogue.labels.left_behind(len(catalogue.contents.numbers))
    if zeroed:
        expect(catalogue.call("z"), DONE, 0, "zeroed")
        catalogue.came_to(LABELS_ZEROED, behind)
    for part in range(1 + len(catalogue.contents.numbers), place + 1):
        expect(catalogue.call("p", I=b"NEW%d" % part), DONE, part, "part %d registered" % part)
    came = catalogue.call("v", place)
    expect(came, DONE, 0, "place %d registered again" % place)
    expect_shown(came, catalogue.contents.numbers[place - 1] if zeroed else b"M/%d-" % place,
                 "place %d registered again" % place)
    catalogue.came_to(LABELS_AGAIN, behind and not zeroed)


def beside_many_parts(door):
    """As many parts as a byte tells, one more, and 4,000: the places around them, set and shown."""
    for parts in (BYTE_PLACES, BYTE_PLACES + 1, MOST_SLOTS):
        numbers = many_numbers(parts)
        catalogue = lent_catalogue(door, filled(numbers, parts), table(2))
        places = sorted({1, *(place for place in EDGE_PLACES if place <= parts)})
        set_all(catalogue, places)
        for place in (2, parts - 3):
            expect_shown(catalogue.call("v", place), numbers[place - 1], "place %d" % place)
        for place in places[::2]:
            expect(catalogue.call("u", place), DONE, 0, "place %d cleared" % place)
            expect_shown(catalogue.call("v", place), numbers[place - 1], "place %d" % place)
        expect(catalogue.call("v", parts + 1), NOT_HELD, 0, "place %d" % (parts + 1))
        expect(catalogue.call("z"), DONE, 0, "zeroed")
        expect_shown(catalogue.call("v", parts), numbers[-1], "place %d" % parts)
        catalogue.came_to(LABELS_BESIDE[parts])


# Calls of every other letter, on four slots and eight nodes: argument A and what is lent.
OTHER_CALLS = [
    ("p", 0, {"I": b"00741"}), ("p", 0, {"I": b"741"}), ("p", 0, {"I": b"4016"}),
    ("p", 0, {"I": b"741"}), ("l", 0, {"I": b"741"}), ("n", 3, {}),
    ("k", 7, {"L": [1, 2, 3, 1]}), ("k", 9, {"L": [1, 1]}), ("k", 5, {"L": [2, 1]}),
    ("k", 6, {"L": [1, 1]}), ("f", 0, {"L": [1, 1]}), ("w", 0, {"L": [1, 1, 2, 4]}),
    ("c", 0, {"L": [3, 1]}), ("W", 0, {"L": [1, 1, 2, 4], "P": [0] * 4}),
    ("C", 0, {"L": [], "P": [0] * 4}), ("a", 2, {"L": [1, 1], "P": [0] * 4, "Q": [0] * 4}),
    ("g", 0, {"L": [1, 1, 2, 4], "K": not_begun()}), ("G", 0, {"L": [], "K": not_begun()}),
    ("#", 0, {"L": [1, 1]}), ("s", 0, {"O": bytes(60)}), ("x", 0, {"L": [1, 2, 3, 1],
                                                                  "O": bytes(40)}),
    ("d", 0, {"L": [1, 2, 3, 1]}), ("X", 0, {"I": card_of(8, (b"4016", 2))}),
    ("s", 0, {"O": bytes(60)}),
    ("r", 0, {"I": Contents([b"A", b"B"], {(1, 2): 3}).sheet()}), ("s", 0, {"O": bytes(60)}),
    ("S", 0, {"I": Contents([b"B"], {(1,): 3}).sheet()[:-1]}), ("s", 0, {"O": bytes(60)}),
    ("e", 0, {}), ("s", 0, {"O": bytes(60)}),
]


def unread(door):
    """The same calls on two catalogues, of which one has maker's numbers set and cleared between:
    every answer and both tables of the catalogue are the same."""
    one, other = [empty_catalogue(door, 4, 8) for _ in range(2)]
    for letter, a, lent in OTHER_CALLS:
        came, right = [catalogue.answer_to(letter, a, **lent) for catalogue in (one, other)]
        for told in (came, right):
            if not told.done() and (letter, told.number) not in (("p", 9), ("k", 9)):
                raise Different(["%s is refused by %d" % (letter, told.number)])
        check_same(came, right, letter)
        parts = len(one.contents.numbers)
        for place in range(1, parts + 1):
            one.call(door.chance.pick("mmu"), place, I=b"M%d" % door.chance.below(3))
        one.came_to(LABELS_UNREAD, one.labels != other.labels)


def check_same(came, right, letter):
    """Two answers must be the same, in all blocks that the call uses."""
    told = [(one.number, one.value, one.second, one.third,
             [one.blocks[name] for name in ANSWER_BLOCKS if name in USES[letter]])
            for one in (came, right)]
    if told[0] != told[1]:
        raise Different(["%s beside maker's numbers, and without:" % letter, "  %r" % (told[0],),
                         "  %r" % (told[1],)])
