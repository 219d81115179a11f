"""Two catalogues, each begun empty and brought on by its own calls, refused ones among them.

Their sheets must agree exactly when their contents do, and a sheet that is read into another
catalogue is written again as it was.
"""

from run.door import Different
from second import card
from second.calls import MOST_SHORT
from second.kits import (
    MOST_UNITS, lines_of, lines_of_words, listing_order, units, words_of)
from second.nodes import NODE_WORDS
from second.refusals import ALREADY_HELD, DONE, NOT_HELD, PUNCTUATION_AT_END
from second.register import MOST_SLOTS, SLOT_BYTES, punctuation_at_end

from .almost_requests import some_question
from .bookmarks import not_begun, some_bookmark
from .carried import Catalogue, Contents, empty_catalogue, expect
from .index_requests import QUESTION_LETTERS, some_list, some_room, some_tag
from .page_sequences import page_through, turn_stray
from .reached import (
    ALMOST_FILLED, BROUGHT_IN, CARDS_HOME, CARDS_ON_THE_WAY, ENDED_ALIKE, ENDED_APART, ENDED_BESIDE,
    OLD_SHEETS_READ, RESCUED_ON_THE_WAY)
from .register_requests import ALIKE
from .salvage_requests import announcing
from .salvage_ways import front_of
from .sheet_requests import old_sheet
from .tables import some_new_tag, some_row

# The most calls that a catalogue may need from anywhere to its aim.
LONGEST_WAY = 2000

# Numbers that are against the rule.
BAD_NUMBERS = [b"", b"_", b"A B", b"7" * 25, b"741\n", b"\0", b"A:"]


def some_number(chance, numbers):
    """A good number that is not among these; numbers that look alike come often."""
    while True:
        number = chance.pick((chance.pick(ALIKE), b"%d" % chance.below(10000),
                              b"%c/%03d-%d" % (chance.pick(b"Nn"), chance.below(999),
                                               chance.below(9))))
        if number not in numbers:
            return number


def may_be_entered(row):
    """Whether insertion takes a kit of this row."""
    return 0 < len(row) <= MOST_UNITS


def some_kits(chance, parts, count):
    """About so many kits of these parts that share beginnings, with tags."""
    kits = {}
    for _ in range(count):
        row = some_row(chance, sorted(kits), parts)
        if may_be_entered(row) and row not in kits:
            kits[row] = some_new_tag(chance, kits)
    return kits


def some_contents(chance):
    """A part list and kits; now and then many of both."""
    most_parts, most_kits = (60, 40) if chance.one_in(12) else (7, 12)
    numbers = []
    for _ in range(chance.between(0, most_parts)):
        numbers.append(some_number(chance, numbers))
    return Contents(numbers, some_kits(chance, len(numbers), chance.between(0, most_kits)))


def one_thing_changed(chance, contents):
    """The contents with one thing changed: a tag, a kit, two parts' order, a number, a part."""
    changes = [with_part_more]
    if contents.numbers:
        changes += [with_number_changed, with_case_changed, with_kit_more]
    if len(contents.numbers) > 1:
        changes += [with_parts_swapped, with_parts_swapped_in_kits]
    if contents.kits:
        changes += [with_tag_changed, with_kit_less, with_kit_changed]
    if len(contents.kits) > 1:
        changes += [with_tags_swapped]
    while True:
        changed = Contents(contents.numbers, contents.kits)
        chance.pick(changes)(chance, changed)
        if changed != contents:
            return changed


def with_part_more(chance, contents):
    """One part more, behind the others."""
    contents.numbers.append(some_number(chance, contents.numbers))


def with_number_changed(chance, contents):
    """One part under another number."""
    at = chance.below(len(contents.numbers))
    contents.numbers[at] = some_number(chance, contents.numbers)


def with_case_changed(chance, contents):
    """One part's number in the other case, where it has a letter and no part bears that number."""
    at = chance.below(len(contents.numbers))
    number = contents.numbers[at].swapcase()
    if number not in contents.numbers:
        contents.numbers[at] = number


def with_parts_swapped(chance, contents):
    """Two parts in each other's place; the kits keep their places, and so mean other parts."""
    at = chance.below(len(contents.numbers) - 1)
    numbers = contents.numbers
    numbers[at], numbers[at + 1] = numbers[at + 1], numbers[at]


def with_parts_swapped_in_kits(chance, contents):
    """Two parts in each other's place, and the kits of the same part numbers as before."""
    at = chance.below(len(contents.numbers) - 1)
    numbers = contents.numbers
    numbers[at], numbers[at + 1] = numbers[at + 1], numbers[at]
    moved = {at + 1: at + 2, at + 2: at + 1}
    contents.kits = {tuple(sorted(moved.get(place, place) for place in row)): tag
                     for row, tag in contents.kits.items()}


def with_kit_more(chance, contents):
    """One kit more, near the others where that is new."""
    row = some_row(chance, sorted(contents.kits), len(contents.numbers))
    if may_be_entered(row):
        contents.kits.setdefault(row, some_new_tag(chance, contents.kits))


def with_kit_less(chance, contents):
    """One kit less."""
    del contents.kits[chance.pick(sorted(contents.kits))]


def with_kit_changed(chance, contents):
    """One tag on another kit, or on none."""
    tag = contents.kits.pop(chance.pick(sorted(contents.kits)))
    row = some_row(chance, sorted(contents.kits), len(contents.numbers))
    if may_be_entered(row):
        contents.kits.setdefault(row, tag)


def with_tag_changed(chance, contents):
    """One kit under another tag."""
    contents.kits[chance.pick(sorted(contents.kits))] = some_new_tag(chance, contents.kits)


def with_tags_swapped(chance, contents):
    """Two kits under each other's tag."""
    rows = sorted(contents.kits)
    one, other = chance.pick(rows), chance.pick(rows)
    kits = contents.kits
    kits[one], kits[other] = kits[other], kits[one]


def with_empty_kit(chance, contents):
    """An old sheet of these contents and of an empty kit under another tag."""
    return old_sheet(contents.numbers, {**contents.kits, (): some_new_tag(chance, contents.kits)})


def on_parts(row, parts):
    """Whether all places of a row are among so many parts; the last one is the greatest."""
    return all(place <= parts for place in row[-1:])


class Walk:
    """The calls that bring a catalogue to its aim, by detours and with refused ones among them.

    Registered parts stay until all is emptied or replaced. So on the way the part list is always
    a beginning of the aim's; kits come and go.
    """

    def __init__(self, catalogue, aim):
        self.catalogue = catalogue
        self.chance = catalogue.door.chance
        self.aim = aim
        # The list and the bookmark of the last page of each kind.
        self.pages = {}

    def contents(self):
        """What is held, by calls and replies."""
        return self.catalogue.contents

    def parts(self):
        """How many parts are registered, by calls and replies."""
        return len(self.contents().numbers)

    def stray(self):
        """A call of any letter that does not lead away from the aim's part list."""
        letter = self.chance.pick(STRAY_LETTERS)
        WAYS[letter](self, letter)

    def empty(self, letter):
        """Empty both tables."""
        self.catalogue.call(letter)

    def register(self, letter):
        """The aim's next part; or a number that is held, bad, or finds no free slot."""
        held = self.contents().numbers
        tries = held + [self.chance.pick(BAD_NUMBERS)] + self.aim.numbers[self.parts():][:1] * 4
        if self.parts() == self.catalogue.slots():
            tries.append(some_number(self.chance, held))
        self.catalogue.call(letter, I=self.chance.pick(tries))

    def look_up(self, letter):
        """A number that is held or not, or bad."""
        numbers = self.aim.numbers + self.contents().numbers + [self.chance.pick(ALIKE)]
        self.catalogue.call(letter, I=self.chance.pick(numbers + [self.chance.pick(BAD_NUMBERS)]))

    def show(self, letter):
        """A place that is registered, 0, or beyond."""
        self.catalogue.call(letter, self.chance.below(self.parts() + 3), O=b"old bytes")

    def insert(self, letter):
        """A kit of the aim, with its tag or another; or any kit; or a list at fault."""
        kits = self.contents().kits
        tag = some_tag(self.chance, kits)
        listed = some_list(self.chance, kits, self.parts())
        if self.aim.kits and self.chance.one_in(2):
            row, right_tag = self.chance.pick(sorted(self.aim.kits.items()))
            listed = words_of(lines_of(row))
            tag = self.chance.pick((right_tag, right_tag, right_tag, tag))
        self.catalogue.call(letter, tag, L=listed)

    def take_list(self, letter):
        """A held kit's list, one near it, or one at fault: found, struck out or counted."""
        self.catalogue.call(letter, L=self.some_list())

    def question(self, letter):
        """A bin or list, and an output of about the room that is needed."""
        room = some_room(self.chance, self.contents().kits) if letter in "WC" else 0
        self.catalogue.call(letter, L=self.some_list(), P=self.chance.some_words(room))

    def almost_filled(self, letter):
        """A bin, how much a kit may lack, and two outputs of about the room that is needed."""
        own = self.catalogue.own
        d, lent = some_question(self.chance, own["R"], own["N"], self.contents().kits,
                                self.parts())
        came = self.catalogue.call(letter, d, **lent)
        lacking = came.blocks["Q"][:came.value] if came.done() else []
        self.catalogue.came_to(ALMOST_FILLED, any(lacking))

    def turn_page(self, letter):
        """The next page of a listing, whatever was called since the last one; or of another."""
        listed, bookmark = self.pages.pop(letter, (None, None))
        if bookmark is None or self.chance.one_in(4):
            listed = self.some_list()
            bookmark = some_bookmark(self.chance, self.contents().kits, self.parts())
        bookmark = turn_stray(self.catalogue, letter, listed, bookmark)
        if bookmark is not None:
            self.pages[letter] = listed, bookmark

    def some_list(self):
        """A list near what is held, sometimes at fault."""
        return some_list(self.chance, self.contents().kits, self.parts())

    def write(self, letter):
        """The sheet, into an output that is full, one short, or of any size."""
        size = len(self.contents().sheet())
        room = self.chance.pick((0, size - 1, size, size + 3, self.chance.below(size + 9)))
        self.catalogue.call(letter, O=self.chance.some_bytes(room))

    def read(self, letter):
        """A sheet that is at fault, or too large, or whose parts begin as the aim's.

        Some are old ones with an empty kit, which is dropped.
        """
        contents = self.chance.pick((self.contents(), self.sheet_on_the_way()))
        whole, old = contents.sheet(), with_empty_kit(self.chance, contents)
        too_many = Contents(b"%d" % at for at in range(self.catalogue.slots() + 1))
        sheets = [whole, whole, old, whole[:self.chance.below(len(whole))], whole + b"\0",
                  whole[:4] + b"\2" + whole[5:]]
        if len(too_many.numbers) <= MOST_SLOTS:
            sheets.append(too_many.sheet())
        data = self.chance.pick(sheets)
        came = self.catalogue.call(letter, I=data)
        self.catalogue.came_to(OLD_SHEETS_READ, came.done() and data == old)

    def rescue(self, letter):
        """A sheet that is torn, or announces other kits, or has a byte of its records changed.

        Its parts begin as the aim's, or it is refused: at fault before the records, or too large.
        """
        contents = self.chance.pick((self.contents(), self.sheet_on_the_way()))
        whole = self.chance.pick((contents.sheet(), with_empty_kit(self.chance, contents)))
        start, kits = front_of(whole).start, len(contents.kits)
        cut = whole[:self.chance.between(start, len(whole))]
        sheets = [whole, cut, cut, cut, whole + b"\0", whole[:self.chance.below(start)],
                  announcing(whole, self.chance.below(kits + 3)), announcing(cut, kits)]
        if start < len(whole):
            at = self.chance.between(start, len(whole) - 1)
            sheets.append(whole[:at] + self.chance.some_bytes(1) + whole[at + 1:])
        came = self.catalogue.call(letter, I=self.chance.pick(sheets))
        self.catalogue.came_to(RESCUED_ON_THE_WAY, came.done() and 0 < came.value < came.second)

    def write_card(self, letter):
        """A card of a held kit or of a list near it, with about the room that it needs."""
        kits, numbers = self.contents().kits, self.contents().numbers
        listed = self.some_list()
        if kits and self.chance.one_in(2):
            listed = words_of(lines_of(self.chance.pick(sorted(kits))))
        size = self.chance.pick([len(card.written(tag, card.numbered(numbers, row)))
                                 for row, tag in kits.items()] or [8])
        room = self.chance.pick((0, size - 1, size, size + 3, 300))
        came = self.catalogue.call(letter, L=listed, O=self.chance.some_bytes(room))
        self.catalogue.came_to(CARDS_ON_THE_WAY[letter], came.done())

    def read_card(self, letter):
        """A card of a kit of the aim, of a held one or of another, whole or not, or an empty one.

        A part of the aim that is not registered yet is on some of them.
        """
        kits, numbers = self.contents().kits, self.contents().numbers
        numbers = numbers + self.aim.numbers[len(numbers):]
        row = some_row(self.chance, sorted(kits), len(numbers))
        if self.aim.kits and self.chance.one_in(2):
            row = self.chance.pick(sorted(self.aim.kits))
        tag = some_tag(self.chance, {**kits, **self.aim.kits})
        whole = card.written(tag, card.numbered(numbers, row))
        data = self.chance.pick((whole, whole, whole, whole[:self.chance.below(len(whole))],
                                 whole + b"\0", card.written(tag, [])))
        came = self.catalogue.call(letter, I=data)
        self.catalogue.came_to(CARDS_ON_THE_WAY[letter], came.done())

    def label(self, letter):
        """A maker's number set, cleared or shown; a place that is not registered, a bad number."""
        place, numbers = self.chance.below(self.parts() + 3), self.contents().numbers
        number = self.chance.pick([*ALIKE, *numbers, *self.chance.pick((BAD_NUMBERS, [b"MC1741"]))])
        self.catalogue.call(letter, place, I=number, O=b"old bytes")

    def zero(self, letter):
        """All maker's numbers zeroed, which they are where some are left behind."""
        behind = self.catalogue.labels.left_behind(self.parts())
        if behind or self.chance.one_in(8):
            self.catalogue.call(letter)

    def card_or_list(self, letter, a, lent):
        """This call, or where it inserts a kit now and then the same by the kit's card."""
        if letter != "k" or not self.chance.one_in(3):
            return letter, a, lent
        row = units(lines_of_words(lent["L"]))
        self.catalogue.came_to(CARDS_HOME)
        return "X", 0, {"I": card.written(a, card.numbered(self.contents().numbers, row))}

    def sheet_on_the_way(self):
        """Contents whose parts begin as the aim's, with kits of the aim and others."""
        parts = self.chance.below(len(self.aim.numbers) + 1)
        kits = some_kits(self.chance, parts, self.chance.below(5))
        for row, tag in self.aim.kits.items():
            if row not in kits and tag not in kits.values() and on_parts(row, parts):
                if self.chance.one_in(2):
                    kits[row] = tag
        return Contents(self.aim.numbers[:parts], kits)

    def next_part(self):
        """The call that brings in the aim's next part, if one is missing.

        Registration refuses a number with punctuation at an end: a sheet of all that is held and
        of this part brings it in.
        """
        numbers = self.aim.numbers[:self.parts() + 1]
        if len(numbers) == self.parts():
            return []
        if punctuation_at_end(numbers[-1]):
            return [("r", 0, {"I": Contents(numbers, self.contents().kits).sheet()})]
        return [("p", 0, {"I": numbers[-1]})]

    def useful_calls(self):
        """The calls that lead to the aim from here, as letter, argument and blocks."""
        held, wanted = self.contents().kits, self.aim.kits
        useful = self.next_part()
        for row, tag in sorted(held.items()):
            if wanted.get(row) != tag:
                useful.append(("d", 0, {"L": words_of(lines_of(row))}))
        for row, tag in sorted(wanted.items()):
            if row not in held and on_parts(row, self.parts()):
                useful.append(("k", tag, {"L": words_of(lines_of(row))}))
        return useful

    def come_home(self):
        """Makes useful calls in any order, others among them, until the aim is reached."""
        for _ in range(LONGEST_WAY):
            useful = self.useful_calls()
            if not useful:
                break
            letter, a, lent = self.card_or_list(*self.chance.pick(useful))
            self.catalogue.call(letter, a, **lent)
            if self.chance.one_in(5):
                asked = self.chance.pick(QUESTION_LETTERS)
                WAYS[asked](self, asked)
        if self.contents() != self.aim:
            raise Different(["the aim was not reached: %r" % self.aim,
                             "held: %r" % self.contents()])


# The letters of a stray call, and how each is made.
STRAY_LETTERS = "pppplnkkkkkkkkffdddwcWCaaggGG#srrSSxXXXmmmuvvz" * 2 + "e"
WAYS = {
    "e": Walk.empty, "p": Walk.register, "l": Walk.look_up, "n": Walk.show, "k": Walk.insert,
    "f": Walk.take_list, "d": Walk.take_list, "w": Walk.question, "c": Walk.question,
    "W": Walk.question, "C": Walk.question, "a": Walk.almost_filled, "g": Walk.turn_page,
    "G": Walk.turn_page, "#": Walk.take_list, "s": Walk.write, "r": Walk.read, "S": Walk.rescue,
    "x": Walk.write_card, "X": Walk.read_card, "z": Walk.zero, "m": Walk.label, "u": Walk.label,
    "v": Walk.label,
}


def room_for(chance, contents):
    """Slots and nodes for these contents: just enough, or a few more."""
    slots = max(1, len(contents.numbers) + chance.pick((0, 0, 1, 3)))
    return min(MOST_SLOTS, slots), contents.nodes_needed() + chance.pick((0, 0, 1, 2, 5, 20))


def brought_to(door, size, aim):
    """A catalogue of this size, begun empty and brought to the aim, by way of others perhaps."""
    chance = door.chance
    catalogue = empty_catalogue(door, *size)
    walk = Walk(catalogue, aim)
    for _ in range(chance.below(3)):
        wander(Walk(catalogue, some_contents(chance)), chance.between(5, 40))
        begin_again(walk)
    wander(walk, chance.between(5, 60))
    walk.come_home()
    catalogue.check_contents()
    ask_for_parts(catalogue)
    list_all(catalogue)
    count_all(catalogue)
    page_through(catalogue, "G", (), not_begun())
    return catalogue


def ask_for_parts(catalogue):
    """Each part is found at its place, and registered again it is refused."""
    for place, number in enumerate(catalogue.contents.numbers, start=1):
        brought_in = punctuation_at_end(number)
        refusal = (PUNCTUATION_AT_END, 0) if brought_in else (ALREADY_HELD, place)
        expect(catalogue.call("p", I=number), *refusal, "%r registered again" % number)
        expect(catalogue.call("l", I=number), DONE, place, "%r looked up" % number)
        catalogue.came_to(BROUGHT_IN, brought_in)


def list_all(catalogue):
    """A bin of nothing and d 64 list every kit, and each lacks all its units."""
    kits = listing_order(catalogue.contents.kits)
    came = catalogue.call("a", MOST_SHORT, P=[0] * len(kits), Q=[0] * len(kits))
    expect(came, DONE, len(kits), "every kit beside a bin of nothing")
    listed = list(zip(came.blocks["P"], came.blocks["Q"]))
    if listed != [(tag, len(row)) for row, tag in kits]:
        raise Different(["tags and shortfalls %s beside a bin of nothing; by calls and replies" %
                         listed, "  %r" % catalogue.contents])


def count_all(catalogue):
    """Every kit begins with nothing, and every one with just one part."""
    kits = catalogue.contents.kits
    expect(catalogue.call_on("#", ()), DONE, len(kits), "all kits counted")
    places = range(1, len(catalogue.contents.numbers) + 1)
    counts = [catalogue.call_on("#", (place,)).value for place in places]
    if sum(counts) != len(kits):
        raise Different(["kits by the part that they begin with: %s; by calls and replies" % counts,
                         "  %r" % catalogue.contents])


def wander(walk, calls):
    """Makes so many stray calls."""
    for _ in range(calls):
        walk.stray()


def begin_again(walk):
    """All is replaced by what a sheet has, whole or torn, or emptied where that is refused or by
    chance."""
    data, letter = walk.sheet_on_the_way().sheet(), walk.chance.pick("rS")
    if letter == "S":
        data = data[:walk.chance.between(front_of(data).start, len(data))]
    if walk.chance.one_in(2) or not walk.catalogue.call(letter, I=data).done():
        walk.catalogue.call("e")


def written_sheet(catalogue):
    """The sheet; the first call is refused and tells the bytes needed in all."""
    needed = catalogue.call("s").value
    came = catalogue.call("s", O=bytes(needed))
    expect(came, DONE, needed, "a sheet with just enough room")
    return came.blocks["O"]


def read_again(door, contents, data):
    """Reads a sheet into another catalogue, over anything, and writes it again."""
    slots, node_count = room_for(door.chance, contents)
    other = Catalogue(door, door.chance.some_bytes(1) * (slots * SLOT_BYTES),
                      door.chance.some_words(1) * (node_count * NODE_WORDS))
    expect(other.call("r", I=data), DONE, len(contents.kits), "a sheet that was written is read")
    other.check_contents()
    again = written_sheet(other)
    if again != data:
        raise Different(["a sheet that was read is written otherwise:",
                         "  " + data.hex(" "), "  " + again.hex(" ")])
    compare_sheets(contents, other.contents, data, again)


def torn_label(door):
    """A number that a sheet brings in, among numbers that are registered.

    It is refused on registration before and after that, and in the full register.
    """
    catalogue = empty_catalogue(door, 3, 2)
    kits = {(2,): 7}
    data = Contents([b"CD4016", b"CD4016-"], kits).sheet()
    steps = [
        ("p", b"CD4016-", PUNCTUATION_AT_END, 0), ("l", b"CD4016-", NOT_HELD, 0),
        ("p", b"CD4016", DONE, 1), ("r", data, DONE, 1), ("p", b"CD4016-", PUNCTUATION_AT_END, 0),
        ("l", b"CD4016-", DONE, 2), ("p", b"CD4016", ALREADY_HELD, 1), ("p", b"4016", DONE, 3),
        ("p", b"CD4016-", PUNCTUATION_AT_END, 0), ("p", b"/4016", PUNCTUATION_AT_END, 0),
        ("l", b"CD4016-", DONE, 2), ("l", b"4016", DONE, 3),
    ]
    for letter, given, number, value in steps:
        expect(catalogue.call(letter, I=given), number, value, "%s %r" % (letter, given))
    catalogue.check_contents()
    read_again(door, Contents([b"CD4016", b"CD4016-", b"4016"], kits), written_sheet(catalogue))
    expect(catalogue.call("e"), DONE, 0, "emptied")
    expect(catalogue.call("p", I=b"CD4016-"), PUNCTUATION_AT_END, 0, "p in an empty register")


def pair(door, alike):
    """Two catalogues of different sizes that end alike, or apart in one thing."""
    chance = door.chance
    aim = some_contents(chance)
    aims = [aim, aim if alike else one_thing_changed(chance, aim)]
    sizes = [room_for(chance, aims[0]), room_for(chance, aims[1])]
    while sizes[0] == sizes[1]:
        sizes[1] = room_for(chance, aims[1])
    one, other = [brought_to(door, *of_each) for of_each in zip(sizes, aims)]
    sheets = [written_sheet(one), written_sheet(other)]
    compare_sheets(one.contents, other.contents, *sheets)
    one.came_to(ENDED_ALIKE if sheets[0] == sheets[1] else ENDED_APART)
    one.came_to(ENDED_BESIDE, sheets[0] == sheets[1] and one.labels != other.labels)
    for catalogue, data in zip((one, other), sheets):
        read_again(door, catalogue.contents, data)


def compare_sheets(contents, other_contents, data, other_data):
    """The sheets must agree exactly when the contents do, as calls and replies tell them."""
    if (data == other_data) != (contents == other_contents):
        raise Different([
            "contents %s, sheets %s:" % ("agree" if contents == other_contents else "differ",
                                         "agree" if data == other_data else "differ"),
            "  %r" % contents, "  " + data.hex(" "),
            "  %r" % other_contents, "  " + other_data.hex(" ")])
