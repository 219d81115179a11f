"""Long sequences of insertions, deletions and re-insertions on a catalogue that is carried on."""

from collections import namedtuple

from run.door import Different
from second import index, nodes, sheet
from second.kits import MOST_QUANTITY, MOST_UNITS, beginnings, lines_of_words, units
from second.nodes import MOST_NODES
from second.refusals import ALREADY_HELD, DONE, EMPTY_KIT, NO_ROOM, NOT_HELD, TAG_TAKEN
from second.register import MOST_SLOTS
from second.sheet import BYTE_PLACES

from .carried import empty_catalogue, expect
from .index_requests import LONGEST_LIST, TOO_LONG_LIST
from .page_sequences import Readers
from .reached import EMPTY_STRUCK, ENTERED_AGAIN, LACKED_ONE_NODE, TOOK_LAST_NODE
from .register_requests import many_numbers
from .short_cases import DELETE, SHORT_CASES
from .tables import large_table, some_new_tag, some_row
from .undone_sequences import strike_at_once

# How many of the kits struck out last may come in again.
REMEMBERED_KITS = 12

# More parts than these are not registered one by one.
FEW_PARTS = 20

# How often a row that takes just so many nodes is looked for.
TRIES = 12

# Of so many sequences one goes on with a table that has an empty kit.
TURNS_TO_LEND = 4


def fixed(door):
    """The deletions of the document's short cases, the last free node, counts at every step."""
    short_deletions(door)
    last_free_node(door)
    counts_by_hand(door)


def with_parts(catalogue, parts):
    """Registers so many parts, or reads a sheet of them where they are many."""
    if parts > FEW_PARTS:
        data = sheet.written(many_numbers(parts), {})
        expect(catalogue.call("r", I=data), DONE, 0, "a sheet of %d parts" % parts)
        return
    for place, number in enumerate(many_numbers(parts), start=1):
        expect(catalogue.call("p", I=number), DONE, place, "part %d" % place)


def short_deletions(door):
    """Document 01's short cases that delete: nodes used afterwards; then all is struck out."""
    for held, question, row, right in SHORT_CASES:
        if question != DELETE:
            continue
        catalogue = empty_catalogue(door, 3, 6)
        with_parts(catalogue, 3)
        for tag, kit in enumerate(held, start=11):
            catalogue.call_on("k", kit, tag)
        for _ in range(2):
            tag = catalogue.call_on("d", row).value
            if catalogue.nodes_used() != right:
                raise Different(["delete %s from %s: %d nodes used, by the document %d" % (
                    row, held, catalogue.nodes_used(), right)])
            catalogue.call_on("k", row, tag)
        for kit in held:
            catalogue.call_on("d", kit)
        if any(catalogue.theirs["N"]):
            raise Different(["all of %s struck out leaves a word that is not 0" % held])


def last_free_node(door):
    """A row of 64 takes the last of 64 free nodes; then one is too few until it is struck out."""
    catalogue = empty_catalogue(door, 5, 1 + MOST_UNITS)
    with_parts(catalogue, 5)
    longest = units(lines_of_words(LONGEST_LIST))
    calls = [
        ("k", longest, 1, DONE, MOST_UNITS), ("k", (5,), 2, NO_ROOM, 1),
        ("k", (5, 5), 2, NO_ROOM, 2), ("k", longest[:-1], 2, DONE, 0), ("k", (), 3, EMPTY_KIT, 0),
        ("d", longest, 0, DONE, 1), ("k", (5, 5), 4, NO_ROOM, 1), ("k", (5,), 4, DONE, 1),
        ("k", longest, 1, NO_ROOM, 1), ("d", (5,), 0, DONE, 4), ("k", longest, 1, DONE, 1),
        ("d", longest[:-1], 0, DONE, 2), ("d", longest, 0, DONE, 1), ("k", (5, 5), 4, DONE, 2),
        ("k", longest, 1, NO_ROOM, 2), ("d", (5, 5), 0, DONE, 4),
        ("k", longest, 1, DONE, MOST_UNITS),
    ]
    for letter, row, tag, number, value in calls:
        expect(catalogue.call_on(letter, row, tag), number, value, "%s %s" % (letter, row))


# Calls in a table of six nodes, each with its answer, and the counts behind it for the rows below.
COUNTED_ROWS = [(), (1,), (1, 1), (1, 1, 2), (1, 2), (2,), (3,)]
COUNTED_CALLS = [
    ("k", (1, 1, 2), 7, DONE, 3, [1, 1, 1, 1, 0, 0, 0]),
    ("k", (1,), 9, DONE, 0, [2, 2, 1, 1, 0, 0, 0]),
    ("k", (1,), 8, ALREADY_HELD, 9, [2, 2, 1, 1, 0, 0, 0]),
    ("k", (), 5, EMPTY_KIT, 0, [2, 2, 1, 1, 0, 0, 0]),
    ("k", (1, 2), 7, TAG_TAKEN, 0, [2, 2, 1, 1, 0, 0, 0]),
    ("k", (1, 2), 6, DONE, 1, [3, 3, 1, 1, 1, 0, 0]),
    ("k", (2, 2), 4, NO_ROOM, 1, [3, 3, 1, 1, 1, 0, 0]),
    ("k", (3,), 4, DONE, 1, [4, 3, 1, 1, 1, 0, 1]),
    ("k", (), 4, EMPTY_KIT, 0, [4, 3, 1, 1, 1, 0, 1]),
    ("d", (1, 1), 0, NOT_HELD, 0, [4, 3, 1, 1, 1, 0, 1]),
    ("d", (1, 1, 2), 0, DONE, 7, [3, 2, 0, 0, 1, 0, 1]),
    ("d", (1,), 0, DONE, 9, [2, 1, 0, 0, 1, 0, 1]),
    ("k", (2, 2), 7, DONE, 2, [3, 1, 0, 0, 1, 1, 1]),
    ("d", (), 0, NOT_HELD, 0, [3, 1, 0, 0, 1, 1, 1]),
    ("d", (1, 2), 0, DONE, 6, [2, 0, 0, 0, 0, 1, 1]),
    ("d", (3,), 0, DONE, 4, [1, 0, 0, 0, 0, 1, 0]),
    ("d", (2, 2), 0, DONE, 7, [0, 0, 0, 0, 0, 0, 0]),
]


def counts_by_hand(door):
    """Kits that come and go, and behind each call the counts for the same rows."""
    catalogue = empty_catalogue(door, 3, 6)
    with_parts(catalogue, 3)
    for letter, row, tag, number, value, counts in COUNTED_CALLS:
        what = "%s %s" % (letter, row)
        expect(catalogue.call_on(letter, row, tag), number, value, what)
        for counted, right in zip(COUNTED_ROWS, counts):
            expect(catalogue.call_on("#", counted), DONE, right,
                   "behind %s, kits that begin with %s" % (what, counted))


# A kind of sequence: how many parts and nodes, how many calls, and what rows are entered.
Kind = namedtuple("Kind", "name parts node_counts calls row")


def long_row(chance, rows, parts):
    """A row of 64 units or little less in long runs, mostly sharing a beginning."""
    row = list(chance.pick(rows)) if rows and chance.below(4) < 3 else []
    row = row[:chance.below(len(row) + 1)]
    longest = MOST_UNITS - chance.pick((0, 0, 0, 1, 2, 4))
    label = row[-1] if row else 1
    while label <= parts and len(row) < longest:
        run = min(MOST_QUANTITY - row.count(label), chance.pick((1, 4, 14) + (15,) * 9))
        row += [label] * min(run, longest - len(row))
        label += chance.pick((1, 1, 1, 1, 2))
    return tuple(row)


def wide_row(chance, rows, parts):
    """A row of one to three units of any places, so that many nodes have one parent."""
    row = chance.pick(rows)[:1] if rows and chance.one_in(3) else ()
    longest = chance.pick((1, 1, 2, 3))
    while len(row) < longest:
        row += (chance.between(row[-1] if row else 1, parts),)
    return row


KINDS = [
    Kind("a small table", (1, 2, 3, 3, 4), (1, 2, 3, 4, 5, 6, 9), 260, some_row),
    Kind("shared beginnings", (2, 3, 4, 6), (16, 25, 40, 60), 260, some_row),
    Kind("rows of 64", (5, 6, 9), (65, 66, 140, 230), 140, long_row),
    Kind("long chains", (40, BYTE_PLACES, 300), (30, 60, 110), 140, wide_row),
]
FULL_KIND = Kind("4,096 nodes", (BYTE_PLACES,), (MOST_NODES,), 40, long_row)


def row_taking(chance, rows, parts, count):
    """A row that lacks just so many nodes beside these rows, or None where none was found."""
    begun = beginnings(rows) | {()}
    starts = sorted(begun)
    for _ in range(TRIES):
        row = list(chance.pick(starts))
        if len(row) + count > MOST_UNITS:
            continue
        label = (row[-1] if row else 1) + chance.pick((0, 0, 1, 2))
        wanted = len(row) + count
        while label <= parts and len(row) < wanted:
            if row.count(label) < MOST_QUANTITY and tuple(row) + (label,) not in begun:
                row.append(label)
            else:
                label += 1
        if len(row) == wanted:
            return tuple(row)
    return None


class Steps:
    """The calls of one sequence, which fill the table and empty it again by turns."""

    def __init__(self, catalogue, kind, chance):
        self.catalogue = catalogue
        self.kind = kind
        self.chance = chance
        self.filling = True
        self.struck = []

    def rows(self):
        """The rows held, by calls and replies."""
        return sorted(self.catalogue.contents.kits)

    def parts(self):
        """How many parts are registered, by calls and replies."""
        return len(self.catalogue.contents.numbers)

    def free(self):
        """How many nodes are free in the second program's own table."""
        return index.free_count(self.catalogue.own["N"])

    def new_tag(self):
        """A tag that no kit bears."""
        return some_new_tag(self.chance, self.catalogue.contents.kits)

    def insert(self, row, tag):
        """One insertion."""
        came = self.catalogue.call_on("k", row, tag)
        came_to = self.catalogue.came_to
        if came.done():
            came_to(TOOK_LAST_NODE, came.value > 0 and self.free() == 0)
            came_to(ENTERED_AGAIN, row in [kit for kit, _ in self.struck])
        else:
            came_to(LACKED_ONE_NODE, (came.number, came.value) == (NO_ROOM, 1))

    def insert_new(self):
        """A row of this sequence's kind."""
        self.insert(self.kind.row(self.chance, self.rows(), self.parts()), self.new_tag())

    def insert_again(self):
        """A kit that was struck out, with its tag or another."""
        if self.struck:
            row, tag = self.chance.pick(self.struck)
            self.insert(row, self.chance.pick((tag, self.new_tag())))

    def insert_beginning(self):
        """A beginning of a held kit, which takes no node, or the empty list, which is refused."""
        self.insert(self.some_beginning(), self.new_tag())

    def row_for_last(self):
        """A row that takes all free nodes or lacks one, or None where none was found."""
        count = self.free() + self.chance.below(2)
        return row_taking(self.chance, self.rows(), self.parts(), count) if count else None

    def insert_last(self):
        """A row that takes all free nodes, or one node more than are free."""
        row = self.row_for_last()
        if row is not None:
            self.insert(row, self.new_tag())

    def insert_refused(self):
        """A kit that is held, a tag that is taken, tag 0, or a list of 65 units on five parts."""
        kits = self.catalogue.contents.kits
        row = self.kind.row(self.chance, self.rows(), self.parts())
        if not kits or self.chance.one_in(6):
            self.catalogue.call("k", self.new_tag(), L=TOO_LONG_LIST)
            self.insert(row, 0)
            return
        held, tag = self.chance.pick(sorted(kits.items()))
        self.insert(held, self.chance.pick((tag, self.new_tag())))
        self.insert(row, tag)

    def strike_at_once(self):
        """A row of this kind, a beginning or one for the last nodes, entered and struck at once."""
        row = self.chance.pick((
            self.kind.row(self.chance, self.rows(), self.parts()), self.some_beginning(),
            self.row_for_last()))
        if row and len(row) <= MOST_UNITS and row not in self.rows():
            strike_at_once(self.catalogue, row, self.new_tag())

    def some_beginning(self):
        """A beginning of a held kit, which may be all of it or nothing."""
        rows = self.rows()
        row = self.chance.pick(rows) if rows else ()
        return row[:self.chance.below(len(row) + 1)]

    def delete(self, row):
        """One deletion; what is struck out may come in again."""
        came = self.catalogue.call_on("d", row)
        self.catalogue.came_to(EMPTY_STRUCK, came.done() and not row)
        if came.done():
            self.struck = self.struck[1 - REMEMBERED_KITS:] + [(row, came.value)]

    def delete_held(self):
        """A held kit is struck out."""
        rows = self.rows()
        if rows:
            self.delete(self.chance.pick(rows))

    def delete_beginning(self):
        """A beginning of a held kit is struck out where it is a kit, else refused."""
        self.delete(self.some_beginning())

    def find_some(self):
        """A beginning of a held kit, or a kit struck out, is looked for."""
        struck = [row for row, _ in self.struck]
        self.catalogue.call_on("f", self.chance.pick(struck + [self.some_beginning()]))

    def turn(self):
        """Filling ends some time after no node is free, emptying when hardly a kit is left."""
        if self.filling and (self.free() == 0 or self.chance.one_in(40)):
            self.filling = not self.chance.one_in(8)
        elif not self.filling and len(self.catalogue.contents.kits) < self.chance.pick((1, 2, 9)):
            self.filling = True

    def step(self):
        """The next call."""
        ways = FILLING if self.filling else EMPTYING
        self.chance.pick(ways)(self)
        self.turn()


FILLING = ([Steps.insert_new] * 6 + [Steps.insert_last] * 4 + [Steps.insert_beginning] * 2
           + [Steps.insert_again] * 2 + [Steps.delete_held] * 2 + [Steps.insert_refused]
           + [Steps.delete_beginning, Steps.find_some, Steps.strike_at_once])
EMPTYING = ([Steps.delete_held] * 6 + [Steps.delete_beginning] * 2 + [Steps.insert_again] * 2
            + [Steps.insert_new, Steps.insert_last, Steps.insert_refused, Steps.find_some,
               Steps.strike_at_once])


def by_chance(door, kind):
    """One sequence of this kind by chance, now and then from a table on that has an empty kit."""
    chance = door.chance
    parts = chance.pick(kind.parts)
    slots = min(MOST_SLOTS, parts + chance.below(2))
    catalogue = empty_catalogue(door, slots, chance.pick(kind.node_counts))
    with_parts(catalogue, parts)
    if chance.one_in(TURNS_TO_LEND):
        catalogue.lend_empty_kit(some_new_tag(chance, {}))
    bring_on(catalogue, kind)


def full_table(door):
    """A sequence on 4,096 nodes, all used at first: read from a sheet, which is one call."""
    held = nodes.held_kits(large_table("long paths"))
    catalogue = empty_catalogue(door, BYTE_PLACES, MOST_NODES)
    data = sheet.written(many_numbers(BYTE_PLACES), held)
    expect(catalogue.call("r", I=data), DONE, len(held), "a sheet that takes 4,096 nodes")
    bring_on(catalogue, FULL_KIND)


def bring_on(catalogue, kind):
    """Makes the calls of a sequence of this kind, and then holds the tables against them.

    Behind each of them there is one that counts, and pages are turned among them.
    """
    steps, readers = Steps(catalogue, kind, catalogue.door.chance), Readers(catalogue)
    last = catalogue.door.calls + 2 * kind.calls
    while catalogue.door.calls < last:
        steps.step()
        readers.may_turn()
    catalogue.check_contents()
