"""Catalogues that are carried on from call to call.

The tables that the program answered go into its next request. Beside them the second program
carries tables of its own, and every block of every answer is compared. The contents are a third
account, kept by the calls and replies alone. Behind each call it is asked how many kits begin with
some row, and the answer is held against the contents, as is every page that is turned and every
card that is written. No call enters an empty kit: a table has one only where it was lent with it.
The maker's table has such an account beside it, which tells every byte of it behind every call.
"""

from collections import Counter

from run.door import Different
from second import calls, card, nodes, paging, register, sheet
from second.kits import (
    beginnings, first_fault, lines_of, lines_of_words, units, with_units, words_of)
from second.lent import Request
from second.nodes import NO_TAG, NODE_WORDS, ROOT
from second.refusals import DONE, NOT_SOUND
from second.register import SLOT_BYTES

from .bookmarks import PAGE_LETTERS, begun_at
from .empty_ways import ROOT_TAG_AT
from .label_requests import LABEL_LETTERS
from .labels import Labels
from .reached import (
    ANSWER, COUNTED, COUNTED_BEHIND, LABELS_LEFT, LABELS_REFUSED, LABELS_SHOWN, SEQUENCES)
from .requests import fill_unused
from .salvage_requests import rescued_sheet

# The tables, which one call leaves to the next, and the calls that replace all that they hold.
TABLES = "RNM"
REPLACING = "erS"


class Contents:
    """The part list and the kits with their tags, read off the accepted calls."""

    def __init__(self, numbers=(), kits=()):
        self.numbers = list(numbers)
        self.kits = dict(kits)

    def __eq__(self, other):
        return (self.numbers, self.kits) == (other.numbers, other.kits)

    def __repr__(self):
        return "parts %s, kits %s" % (self.numbers, sorted(self.kits.items()))

    def take_note(self, request, answer):
        """The contents after this call; a refused one leaves them."""
        if not answer.done():
            return
        lent = request.blocks
        if request.letter == "e":
            self.numbers, self.kits = [], {}
        elif request.letter == "p":
            self.numbers.append(lent["I"])
        elif request.letter == "k" and lent["L"]:
            self.kits[units(lines_of_words(lent["L"]))] = request.a
        elif request.letter == "d":
            del self.kits[units(lines_of_words(lent["L"]))]
        elif request.letter in "rS":
            numbers, read = kits_brought(request, answer)
            self.numbers, self.kits = numbers, with_units(dict(read))
        elif request.letter == "X":
            tag, lines = card.read(lent["I"])
            self.kits[self.row_of_parts(parts_on(lines))] = tag

    def nodes_needed(self):
        """The nodes that the kits take: "1 plus the number of different nonempty beginnings"."""
        return sheet.nodes_needed(self.kits.items())

    def listed(self):
        """The kits with at least one unit."""
        return Contents(self.numbers, with_units(self.kits))

    def beginning_with(self, row):
        """How many kits with at least one unit have this row as a beginning."""
        return sum(row in beginnings([kit]) | {()} for kit in self.listed().kits)

    def answering(self, letter, row):
        """The rows of the kits within a bin (g) or containing a list (G), in listing order.

        A kit is within a bin when nothing of it is left without what the bin has.
        """
        given = Counter(row)
        left = {"g": lambda kit: Counter(kit) - given, "G": lambda kit: given - Counter(kit)}
        return [kit for kit in sorted(self.listed().kits) if not left[letter](kit)]

    def parts_of(self, row):
        """A row's units as part numbers, in no order of places: the kit as others know it."""
        return sorted(self.numbers[place - 1] for place in row)

    def row_of_parts(self, parts):
        """The units of these part numbers, at their places here."""
        return tuple(sorted(1 + self.numbers.index(number) for number in parts))

    def sheet(self):
        """The sheet that the document lays down for these contents."""
        return sheet.written(self.numbers, self.kits)


def kits_brought(request, answer):
    """The part numbers and the kits of a sheet that was read, or of what was rescued of one.

    That is "a sheet with just those kits" which a rescue reports, and it must be faultless.
    """
    data = request.blocks["I"]
    if request.letter == "r":
        return sheet.read(data)
    just = rescued_sheet(data, answer.value, answer.third)
    try:
        return sheet.read(just)
    except sheet.SheetFault as fault:
        raise Different(["%d kits kept up to byte %d are no faultless sheet:" % (
            answer.value, answer.third), "  " + just.hex(" ")]) from fault


def parts_on(lines):
    """The units that the lines of a card say, as part numbers."""
    return sorted(number for number, quantity in lines for _ in range(quantity))


class Catalogue:
    """All tables as the program left them, the second program's own, and the contents.

    The maker's table begins with zeros.
    """

    def __init__(self, door, register_bytes, words):
        self.door = door
        self.theirs = {"R": register_bytes, "N": words, "M": bytes(len(register_bytes))}
        self.own = dict(self.theirs)
        self.contents = Contents()
        self.labels = Labels()
        # Tables that begin with anything hold the contents once a call has replaced all of it.
        self.told = not any(register_bytes) and not any(words)

    def call(self, letter, a=0, **lent):
        """The answer to this call, after which all of both accounts is the same.

        Behind it, where the contents are told, the kits that begin with some row are counted.
        """
        came = self.answer_to(letter, a, **lent)
        self.told = self.told or (came.done() and letter in REPLACING)
        if self.told and letter != "#":
            self.count_near(lent.get("L", []))
            behind = letter if came.done() else None
            self.came_to(COUNTED_BEHIND.get(behind), behind in COUNTED_BEHIND)
        return came

    def answer_to(self, letter, a, **lent):
        """The answer to this call alone; a count must be the one that calls and replies tell."""
        asked = Request(letter, a, **self.own, **lent)
        fill_unused(self.door.chance, asked)
        right = calls.answer(asked)
        sent = Request(letter, asked.a, asked.b, **{**asked.blocks, **self.theirs})
        came = self.door.ask(sent, right)
        self.door.reached.note(letter, ANSWER % came.number)
        self.theirs = {name: came.blocks[name] for name in TABLES}
        self.own = {name: right.blocks[name] for name in TABLES}
        self.contents.take_note(sent, came)
        self.labels.take_note(sent, came)
        self.check_makers(sent, came)
        if self.told or (came.done() and letter in REPLACING):
            self.check_root()
        if letter == "#" and came.done():
            self.check_count(units(lines_of_words(sent.blocks["L"])), came)
        if letter in PAGE_LETTERS and came.done() and self.told:
            self.check_page(sent, came)
        if letter == "x" and came.done() and self.told:
            self.check_card(sent, came)
        return came

    def check_makers(self, sent, came):
        """The maker's table is, byte for byte, what calls and replies tell, whatever was called;
        and its own calls are answered so."""
        letter, numbers, labels = sent.letter, self.contents.numbers, self.labels
        if self.theirs["M"] != labels.table(self.slots()):
            raise Different(["the maker's table behind %s; by calls and replies" % letter,
                             "  %r" % labels, "  " + self.theirs["M"].hex(" ")])
        if letter in REPLACING:
            self.came_to(LABELS_LEFT[letter], came.done() and labels.left_behind(len(numbers)))
        if letter not in LABEL_LETTERS or not self.told:
            return
        what = "%s at place %d, of %r and %r" % (letter, sent.a, self.contents, labels)
        expect(came, labels.told(sent, len(numbers)), 0, what)
        if letter == "v":
            shown = labels.shown(sent.a, numbers) if came.done() else b""
            if came.blocks["O"] != shown:
                raise Different([what + ": %r is shown" % came.blocks["O"]])
            self.came_to(LABELS_SHOWN[sent.a in labels.numbers], came.done())
        if letter in LABELS_REFUSED:
            self.came_to(LABELS_REFUSED[letter], came.number == NOT_SOUND)

    def check_root(self):
        """The root has a tag just as long as an empty kit that was lent is not struck out."""
        tag = self.theirs["N"][ROOT_TAG_AT]
        if tag != self.contents.kits.get((), NO_TAG):
            raise Different(["the root has tag %d; by calls and replies" % tag,
                             "  %r" % self.contents])

    def lend_empty_kit(self, tag):
        """An empty kit under this tag, as a table from before request 14 has it at its root."""
        for tables in (self.theirs, self.own):
            row = nodes.nodes_of(tables["N"])
            row[ROOT] = row[ROOT]._replace(tag=tag, tagged=row[ROOT].tagged + 1)
            tables["N"] = nodes.words_of(row)
        self.contents.kits[()] = tag

    def check_count(self, row, came):
        """A count is the number of kits, by calls and replies, that begin with the row."""
        right, kits = self.contents.beginning_with(row), len(self.contents.listed().kits)
        expect(came, DONE, right, "kits that begin with %s, of %r" % (row, self.contents))
        self.came_to(COUNTED["none"], right == 0 < kits)
        self.came_to(COUNTED["one"], right == 1)
        self.came_to(COUNTED["several"], 1 < right < kits)
        self.came_to(COUNTED["all"], right == kits > 1 and row)

    def check_page(self, sent, came):
        """A page is the first of the kits, by calls and replies, that answers behind the row."""
        row, bookmark = units(lines_of_words(sent.blocks["L"])), sent.blocks["K"]
        before = paging.bookmark_of(bookmark)
        left = [kit for kit in self.contents.answering(sent.letter, row)
                if not before.begun or kit > paging.row_of(before)]
        what = "a page of %s behind %s, of %r" % (row, before, self.contents)
        expect(came, DONE, self.contents.kits[left[0]] if left else 0, what)
        if came.blocks["K"] != (begun_at(left[0]) if left else bookmark):
            raise Different([what + ": the bookmark", "  %s" % came.blocks["K"]])

    def check_card(self, sent, came):
        """A card has the tag and the part numbers of the kit, by calls and replies."""
        row = units(lines_of_words(sent.blocks["L"]))
        tag, lines = card.read(came.blocks["O"][:came.value])
        if (tag, parts_on(lines)) != (self.contents.kits.get(row), self.contents.parts_of(row)):
            raise Different(["a card of %s says tag %d and %s; by calls and replies" % (
                row, tag, lines), "  %r" % self.contents])

    def count_near(self, listed):
        """Counts the kits that begin as this list does, as a held kit does, or with a unit more."""
        chance, parts = self.door.chance, len(self.contents.numbers)
        rows = sorted(self.contents.kits)
        if listed and not first_fault(listed, parts):
            rows += [units(lines_of_words(listed))] * (1 + len(rows))
        row = chance.pick(rows) if rows else ()
        row = row[:chance.pick((0, 1, len(row), len(row), chance.below(len(row) + 1)))]
        if parts and chance.one_in(5):
            row += (chance.between(max((1, *row)), parts),)
        self.call_on("#", row)

    def came_to(self, what, really=True):
        """Counts a turn that a sequence took."""
        if really:
            self.door.reached.note(SEQUENCES, what)

    def call_on(self, letter, row, a=0, **lent):
        """The answer to this call on the list whose units are this row."""
        return self.call(letter, a, L=words_of(lines_of(row)), **lent)

    def slots(self):
        """How many slots the register has."""
        return len(self.own["R"]) // SLOT_BYTES

    def nodes_used(self):
        """How many nodes are used in the table that the program left."""
        return len(nodes.used_numbers(nodes.nodes_of(self.theirs["N"])))

    def check_contents(self):
        """The tables that the program left are sound and hold what calls and replies tell."""
        register_bytes, words = self.theirs["R"], self.theirs["N"]
        if not register.sound(register_bytes) or not nodes.sound(
                words, len(register.numbers_of(register_bytes))):
            raise Different(["the tables are not sound; by calls and replies they hold",
                             "  %r" % self.contents])
        held = Contents(register.numbers_of(register_bytes), nodes.held_kits(words))
        if held != self.contents:
            raise Different(["the tables hold, and then by calls and replies:",
                             "  %r" % held, "  %r" % self.contents])
        # "nodes used are always 1 plus the number of different nonempty beginnings of held kits"
        if self.nodes_used() != 1 + len(beginnings(held.kits)):
            raise Different(["%d nodes used for %r" % (self.nodes_used(), held)])


def expect(came, number, value, what):
    """An answer must be what the document says, whatever the second program thinks."""
    if (came.number, came.value) != (number, value):
        raise Different(["%s: answer %d %d, by the document %d %d" % (
            what, came.number, came.value, number, value)])


def expect_report(came, right, what):
    """The number and the three numbers of a rescue must be what the document says."""
    told = came.number, came.value, came.second, came.third
    if told != right:
        raise Different(["%s: answer %d, %d of %d kept, offset %d; by the document %d, %d of %d, %d"
                         % (what, *told, *right)])


def empty_catalogue(door, slots, node_count):
    """A catalogue begun empty, with so many slots and nodes."""
    return Catalogue(door, bytes(slots * SLOT_BYTES), [0] * (node_count * NODE_WORDS))


def lent_catalogue(door, register_bytes, words):
    """A catalogue begun with these sound tables, and with the contents that they hold."""
    catalogue = Catalogue(door, register_bytes, list(words))
    catalogue.contents = Contents(register.numbers_of(register_bytes), nodes.held_kits(words))
    catalogue.told = True
    return catalogue
