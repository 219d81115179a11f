"""Listings that are paged through, in catalogues that stay as they are and in ones that change.

"If catalogue and question stay the same, the pages from a bookmark not begun are the whole listing,
each once." Where kits come and go between pages, none is shown twice, and none is missed that was
held all along and answers.
"""

from run.door import Different
from second import nodes, paging
from second.kits import MOST_QUANTITY, lines_of_words, units
from second.lent import ANSWER_BLOCKS, Answer, Request
from second.refusals import BOOKMARK_AT_FAULT, DONE
from second.sheet import BYTE_PLACES

from .bookmarks import LISTING, LONGEST_ROW, NOTHING, PAGE_LETTERS, begun_at, not_begun
from .carried import expect, lent_catalogue
from .count_requests import PARTS, TEN_KITS, around
from .page_requests import EMPTY_KIT_TABLES, LISTS
from .page_ways import QUESTIONS
from .reached import (
    AT_ROW, BEFORE_ROW, BEHIND_ROW, CHANGED, CHANGED_FULL, PAGED_AMID, PAGED_FAR, PAGED_FULL,
    PAGED_ON, PAGED_TO_END, SEQUENCES)
from .tables import example_words, large_table, parts_register, some_new_tag, some_row, table

# Of so many calls by chance one more turns a page.
TURNS_TO_PAGE = 3

# How many kits are struck out or entered at each page and on each side of it.
TRIES = 2


class Reader:
    """Who pages through a listing: the question, the bookmark as it was left, and the rows shown.

    `all_along` are the kits that were held and answered at every page since the first.
    """

    def __init__(self, catalogue, letter, row, bookmark):
        self.catalogue = catalogue
        self.letter = letter
        self.row = row
        self.bookmark = bookmark
        self.shown = []
        self.all_along = None

    def turn(self):
        """One page: the tag that it shows, 0 where none is left. Rows rise, so none comes twice."""
        held = set(self.catalogue.contents.answering(self.letter, self.row))
        self.all_along = held if self.all_along is None else self.all_along & held
        came = self.catalogue.call_on(self.letter, self.row, K=self.bookmark)
        expect(came, DONE, came.value, "a page of %s" % (self.row,))
        if came.value:
            self.shown.append(paging.row_of(paging.bookmark_of(came.blocks["K"])))
        elif came.blocks["K"] != self.bookmark:
            raise Different(["no page is left, and the bookmark is moved:",
                             "  %s" % self.bookmark, "  %s" % came.blocks["K"]])
        if sorted(set(self.shown)) != self.shown:
            raise Different(["pages of %s show a kit twice or out of order:" % (self.row,),
                             "  %s" % self.shown])
        self.bookmark = came.blocks["K"]
        return came.value

    def to_end(self):
        """Pages on to the end, and once more: the tags shown."""
        tags = list(iter(self.turn, 0))
        expect_tag(self.turn(), 0, "none behind the end")
        return tags

    def check_complete(self):
        """From a bookmark not begun no kit is missed that was held all along and answers."""
        missed = self.all_along - set(self.shown)
        if missed:
            raise Different(["pages of %s missed %s and showed %s" % (
                self.row, sorted(missed), self.shown)])


def expect_tag(tag, right, what):
    """A page shows this tag."""
    if tag != right:
        raise Different(["a page shows tag %d in place of %d, %s" % (tag, right, what)])


def list_row(listed):
    """The units of a good list."""
    return units(lines_of_words(listed))


# Calls in a table of nine nodes beside three parts, each with its value; a page (G, of nothing, and
# g, of the bin below) goes on from where the last one was left, and has the row of the bookmark
# afterwards. By hand.
BIN = (1, 2, 2, 3)
PAGED_CALLS = [
    ("G", (), 0, 0, None), ("g", BIN, 0, 0, None),
    ("k", (1,), 4, 1, None), ("k", (1, 2), 9, 1, None), ("k", (2, 2), 5, 2, None),
    ("k", (3,), 7, 1, None),
    ("G", (), 0, 4, (1,)), ("g", BIN, 0, 4, (1,)), ("G", (), 0, 9, (1, 2)),
    # at the bookmark: struck out; then one before it is entered, and one that does not fit
    ("d", (1, 2), 0, 9, None), ("G", (), 0, 5, (2, 2)), ("g", BIN, 0, 5, (2, 2)),
    ("k", (1, 1), 11, 1, None), ("k", (2, 2, 2), 12, 1, None),
    ("g", BIN, 0, 7, (3,)), ("G", (), 0, 12, (2, 2, 2)), ("G", (), 0, 7, (3,)),
    # the end, twice; behind it one more comes in, and is struck out again
    ("G", (), 0, 0, (3,)), ("g", BIN, 0, 0, (3,)), ("G", (), 0, 0, (3,)),
    ("k", (3, 3), 13, 1, None), ("G", (), 0, 13, (3, 3)), ("g", BIN, 0, 0, (3,)),
    ("d", (3, 3), 0, 13, None), ("G", (), 0, 0, (3, 3)),
    # behind the bookmark of one reader, at that of the other
    ("k", (3, 3), 14, 1, None), ("G", (), 0, 0, (3, 3)), ("d", (3,), 0, 7, None),
    ("k", (3,), 15, 0, None), ("g", BIN, 0, 0, (3,)), ("k", (3, 3, 3), 16, 1, None),
    ("G", (), 0, 16, (3, 3, 3)), ("G", (), 0, 0, (3, 3, 3)),
]


def by_hand(door):
    """Pages of both kinds by turns, and kits that come and go between them."""
    catalogue = lent_catalogue(door, parts_register(3), table(9))
    bookmarks = {letter: not_begun() for letter in PAGE_LETTERS}
    for letter, row, tag, value, at in PAGED_CALLS:
        what = "%s %s" % (letter, row)
        if letter not in PAGE_LETTERS:
            expect(catalogue.call_on(letter, row, tag), DONE, value, what)
            continue
        came = catalogue.call_on(letter, row, K=bookmarks[letter])
        expect(came, DONE, value, what)
        right = bookmarks[letter] if at is None else begun_at(at)
        if came.blocks["K"] != right:
            raise Different([what + ": the bookmark", "  %s" % came.blocks["K"], "  %s" % right])
        bookmarks[letter] = came.blocks["K"]
    # Emptied, a catalogue has no part that a bookmark may name.
    catalogue.call("e")
    for letter in PAGE_LETTERS:
        expect(catalogue.call_on(letter, (), K=bookmarks[letter]), BOOKMARK_AT_FAULT, 0, letter)
        expect(catalogue.call_on(letter, (), K=not_begun()), DONE, 0, letter)


def page_through(catalogue, letter, row, bookmark):
    """Pages from a bookmark not begun are the whole listing, as the program itself lists it."""
    reader = Reader(catalogue, letter, row, bookmark)
    tags = reader.to_end()
    room = len(catalogue.contents.kits)
    came = catalogue.call_on(LISTING[letter], row, P=[0] * room)
    if came.blocks["P"][:came.value] != tags:
        raise Different(["pages of %s show %s, and all of it is" % (row, tags),
                         "  %s" % came.blocks["P"][:came.value]])
    reader.check_complete()
    catalogue.came_to(PAGED_TO_END[letter], tags)


def to_the_end(door):
    """Small tables, with an empty kit and with 64 units, by each list and each letter."""
    tables = [table(20, *TEN_KITS), table(20, *TEN_KITS[:0:-1]), list(example_words()), table(1),
              table(80, (LONGEST_ROW, 7), (LONGEST_ROW[:-1], 8), ((2,) * 15, 9)),
              *EMPTY_KIT_TABLES]
    for words in tables:
        catalogue = lent_catalogue(door, parts_register(5), words)
        for listed in [*LISTS, [1, 15, 2, 15, 3, 15, 4, 15, 5, 15]]:
            for letter in PAGE_LETTERS:
                page_through(catalogue, letter, list_row(listed), not_begun())
                page_through(catalogue, letter, list_row(listed), not_begun(0, NOTHING))
        catalogue.check_contents()


def where_from(row, kit):
    """On which side of a bookmark's row a kit is."""
    if kit == row:
        return AT_ROW
    return BEFORE_ROW if kit < row else BEHIND_ROW


def change(catalogue, letter, row, kit, changed=CHANGED):
    """Strikes out or enters a kit between two pages."""
    tag = some_new_tag(catalogue.door.chance, catalogue.contents.kits)
    came = catalogue.call_on(letter, kit, tag)
    expect(came, DONE, came.value, "%s %s" % (letter, kit))
    catalogue.came_to(changed[letter, where_from(row, kit)])


def changes_around(chance, row, kits):
    """Changes beside a bookmark at a kit: what is struck out or entered, some on each side."""
    new = [kit for kit in around(kits, PARTS) if kit and kit not in kits]
    yield [("d", row)]
    yield [("d", row), ("k", row)]
    for letter, rows in (("d", [kit for kit in kits if kit]), ("k", new)):
        for side in (BEFORE_ROW, BEHIND_ROW):
            there = [kit for kit in rows if where_from(row, kit) == side]
            yield from ([(letter, chance.pick(there))] for _ in range(TRIES) if there)
    # At the bookmark and on both sides of it at once.
    yield [("d", row), *(("k", chance.pick(there)) for there in (
        [kit for kit in new if kit < row], [kit for kit in new if kit > row]) if there)]


def changed_between(door):
    """Kits struck out and entered before, at and behind each page of a listing; then paged on."""
    kits = dict(TEN_KITS)
    rows = sorted(kit for kit in kits if kit)
    lists = {"g": list_row(LISTS[1]), "G": ()}
    for letter in PAGE_LETTERS:
        for at, row in enumerate(rows):
            for changes in changes_around(door.chance, row, kits):
                catalogue = lent_catalogue(door, parts_register(PARTS), table(30, *TEN_KITS))
                reader = Reader(catalogue, letter, lists[letter], not_begun())
                for kit in rows[:at + 1]:
                    expect_tag(reader.turn(), kits[kit], kit)
                for what, kit in changes:
                    change(catalogue, what, row, kit)
                reader.to_end()
                reader.check_complete()
                catalogue.came_to(PAGED_AMID[letter])


# Kinds of tables of 4,096 nodes that are paged through: with each letter and list.
FIRST_PARTS = [word for place in range(1, 41) for word in (place, 1)]
EVERY_PART = [word for place in range(1, BYTE_PLACES + 1) for word in (place, MOST_QUANTITY)]
FULL_LISTINGS = [
    ("every node a kit", "G", []), ("every node a kit", "g", FIRST_PARTS),
    ("pairs", "g", EVERY_PART), ("renumbered", "g", EVERY_PART), ("renumbered", "G", [1, 1]),
]
FAR = 4095
# In a full table kits come and go behind each of so many pages.
PAGES_TO_CHANGE = 18


def full_tables(door):
    """Tables of 4,096 nodes paged through, by the law alone: each page is the next of the listing,
    and behind the last one the bookmark stays."""
    lent = parts_register(BYTE_PLACES, BYTE_PLACES)
    for kind, letter, listed in FULL_LISTINGS:
        words = list(large_table(kind))
        whole = QUESTIONS[letter](nodes.held_kits(words), list_row(listed))
        bookmark = not_begun()
        for row, tag in [*whole, (None, 0), (None, 0)]:
            asked = Request(letter, R=lent, N=words, L=listed, K=bookmark,
                            note="4,096 nodes, %s, paged through" % kind)
            bookmark = bookmark if row is None else begun_at(row)
            door.ask(asked, Answer(DONE, tag, {
                name: bookmark if name == "K" else asked.blocks[name]
                for name in ANSWER_BLOCKS}))
        door.reached.note(SEQUENCES, PAGED_FULL[letter])
        if len(whole) == FAR:
            door.reached.note(SEQUENCES, PAGED_FAR[letter])


def shortened_around(chance, row, kits):
    """Changes where no node is free, so that each kit entered stands in what one struck out leaves.

    The kit at the bookmark is entered again; before it and behind it a kit loses its last unit.
    """
    shorter = [kit for kit in kits if kit[:-1] and kit[:-1] not in kits]
    yield ("d", row), ("k", row)
    for there in ([kit for kit in shorter if kit < row], [kit for kit in shorter if kit[:-1] > row]):
        if there:
            kit = chance.pick(there)
            yield ("d", kit), ("k", kit[:-1])


def changed_in_full(door):
    """A table of 4,096 nodes in any order: kits come and go before, at and behind the bookmark."""
    lent = parts_register(BYTE_PLACES, BYTE_PLACES)
    lists = {"g": list_row(EVERY_PART), "G": ()}
    for letter in PAGE_LETTERS:
        catalogue = lent_catalogue(door, lent, large_table("renumbered"))
        reader = Reader(catalogue, letter, lists[letter], not_begun())
        while reader.turn():
            if len(reader.shown) % PAGES_TO_CHANGE:
                continue
            row, kits = reader.shown[-1], sorted(catalogue.contents.kits)
            for changes in shortened_around(door.chance, row, kits):
                for what, kit in changes:
                    change(catalogue, what, row, kit, CHANGED_FULL)
        reader.check_complete()
        catalogue.check_contents()


class Readers:
    """Two readers by chance beside the calls of a sequence, one for each kind of question."""

    def __init__(self, catalogue):
        self.catalogue = catalogue
        self.chance = catalogue.door.chance
        self.reading = {}

    def may_turn(self):
        """Now and then one of them turns a page, or begins again where none is left."""
        if not self.chance.one_in(TURNS_TO_PAGE):
            return
        letter = self.chance.pick(PAGE_LETTERS)
        if letter not in self.reading:
            self.reading[letter] = Reader(self.catalogue, letter, self.some_row(letter),
                                          not_begun())
        reader = self.reading[letter]
        if not reader.turn():
            reader.check_complete()
            self.catalogue.came_to(PAGED_AMID[letter], len(reader.shown) > 1)
            del self.reading[letter]


    def some_row(self, letter):
        """The units of a list: mostly one that many kits answer, else one near a kit."""
        contents = self.catalogue.contents
        parts = len(contents.numbers)
        if self.chance.one_in(3):
            return some_row(self.chance, sorted(contents.kits), parts)
        if letter == "G":
            return ()
        return units((place, self.chance.pick((1, 2, MOST_QUANTITY)))
                     for place in range(1, parts + 1))


def turn_stray(catalogue, letter, listed, bookmark):
    """A page of any list from any bookmark: the bookmark afterwards, None where it is refused."""
    came = catalogue.call(letter, L=listed, K=bookmark)
    catalogue.came_to(PAGED_ON, came.done() and came.value and paging.bookmark_of(bookmark).begun)
    return came.blocks["K"] if came.done() else None
