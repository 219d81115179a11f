"""Kits that are entered and struck out at once: request 11.

Both tables must then be what they were, in every byte, whatever the second program makes of them,
and the kit is not held. A kit that is struck out and entered again may stand at another node.
"""

from itertools import combinations_with_replacement, product

from run.door import Different
from run.showing import elements_text, places_mark
from second import index, nodes
from second.kits import MOST_QUANTITY, MOST_UNITS, beginnings, lines_of_words, units
from second.nodes import FREE, Node
from second.refusals import DONE, NO_ROOM, NOT_HELD
from second.sheet import BYTE_PLACES

from .carried import expect, lent_catalogue
from .index_requests import LONGEST_LIST
from .reached import AT_OTHER_NODES
from .tables import large_table, parts_register, renumbered, some_new_tag, some_order, table
from .undone_ways import gone_at_once, refused_at_once

# How many parts stand beside the small tables.
PARTS = 6

# Rows of 64 units: of the first parts, of others, and of the last of 255.
LONGEST = units(lines_of_words(LONGEST_LIST))
LONGEST_FROM_2 = units([(2, 15), (3, 15), (4, 15), (5, 15), (6, 4)])
LAST_PARTS = units([(251, 4), (252, 15), (253, 15), (254, 15), (255, 15)])

# Kits on paths with branches, of which one is a kit; and rows whose paths part from theirs at every
# node, before, between and behind other children, or are there and have no tag.
KITS = [((4, 4, 5), 71), ((2,), 40), ((2, 3, 3), 50), ((2, 5), 60), ((2, 3, 5), 65535)]
PLACES = range(1, PARTS + 1)
ROWS = [*product(PLACES), *combinations_with_replacement(PLACES, 2), (2, 2, 6), (2, 3, 4),
        (2, 3, 6), (2, 3, 3, 3, 6), (4, 4, 4), (4, 4, 5, 5),
        *((place,) * MOST_QUANTITY for place in PLACES), LONGEST, LONGEST_FROM_2]

# An empty kit, as tables from before request 14 may have one.
EMPTY_KITS = [[], [((), 7)]]


def compare_tables(catalogue, right, what):
    """The tables that the program left are these, in every byte."""
    for name, elements in right.items():
        came = catalogue.theirs[name]
        if came != elements:
            raise Different(["%s, block %s as it came and as it should be:" % (what, name),
                             "  " + elements_text(name, came) + places_mark(came, elements),
                             "  " + elements_text(name, elements)])


def strike_at_once(catalogue, row, tag):
    """A kit that is not held, with a free tag: entered and struck out next, or refused for room."""
    before = catalogue.theirs
    taken, free = index.missing_nodes(before["N"], row), index.free_count(before["N"])
    if taken <= free:
        gone = gone_at_once(before["N"], row)
        calls = [("f", NOT_HELD, 0), ("k", DONE, taken), ("f", DONE, tag), ("d", DONE, tag),
                 ("f", NOT_HELD, 0)]
    else:
        gone = refused_at_once(before["N"], row)
        calls = [("k", NO_ROOM, taken - free), ("d", NOT_HELD, 0), ("f", NOT_HELD, 0)]
    for letter, number, value in calls:
        expect(catalogue.call_on(letter, row, tag), number, value, "%s %s" % (letter, row))
    compare_tables(catalogue, before, "%s entered and struck out" % (row,))
    for what, really in gone.items():
        catalogue.came_to(what, really)


def strike_all_at_once(catalogue, rows):
    """Each of these kits that is not held, entered and struck out next, one behind the other."""
    chance, kits = catalogue.door.chance, catalogue.contents.kits
    for row in rows:
        if row not in kits:
            strike_at_once(catalogue, row, some_new_tag(chance, kits))
    catalogue.check_contents()


def orders(chance, node_count):
    """The nodes as they were taken, the other way round, and in any order."""
    return [list(range(node_count)), [0, *range(node_count - 1, 0, -1)],
            some_order(chance, node_count)]


def around_room(door):
    """Each row beside the same kits with no node free, one, one too few, just enough, one more.

    The free nodes stand behind the others, before them, and among them.
    """
    used = 1 + len(beginnings(kit for kit, _ in KITS))
    for row, empty in product(ROWS, EMPTY_KITS):
        taken = index.missing_nodes(table(used, *KITS), row)
        for free in sorted({0, 1, max(0, taken - 1), taken, taken + 1}):
            words = table(used + free, *KITS, *empty)
            for order in orders(door.chance, used + free):
                strike_all_at_once(
                    lent_catalogue(door, parts_register(PARTS), renumbered(words, order)), [row])


# Node counts, kits in so many nodes, and what is tried beside them.
FITTING = LONGEST[:MOST_UNITS - 1]
FEW_NODES = [
    (1, [], ROWS), (2, [], ROWS), (2, [((3,), 5)], ROWS),
    (MOST_UNITS, [], [*ROWS, FITTING]), (MOST_UNITS, KITS, [*ROWS, FITTING]),
    (MOST_UNITS, [(FITTING[:-1], 5)], [*ROWS, FITTING]),
    (MOST_UNITS, [(FITTING, 5)], [*ROWS, *sorted(beginnings([FITTING]))]),
]


def few_nodes(door):
    """Tables of 1, 2 and 64 nodes: empty, with room for some of the rows, and full."""
    for (node_count, kits, rows), empty in product(FEW_NODES, EMPTY_KITS):
        strike_all_at_once(
            lent_catalogue(door, parts_register(PARTS), table(node_count, *kits, *empty)), rows)


def most_nodes(door):
    """4,096 nodes in any order, all used; then kits are struck out and leave room in between."""
    lent = parts_register(BYTE_PLACES, BYTE_PLACES)
    catalogue = lent_catalogue(door, lent, large_table("renumbered"))
    held = sorted(catalogue.contents.kits, reverse=True)
    rows = [held[0][:-1], held[-1][:1], (BYTE_PLACES,), LAST_PARTS]
    strike_all_at_once(catalogue, rows)
    catalogue.lend_empty_kit(some_new_tag(door.chance, catalogue.contents.kits))
    strike_all_at_once(catalogue, rows[:2])
    for row in held[:3]:
        catalogue.call_on("d", row)
        strike_all_at_once(catalogue, [row, held[0] + held[0][-1:], *rows])
    strike_all_at_once(lent_catalogue(door, lent, large_table("one free")),
                       [(16, 100), (1, 1, 1), (1, 1, 1, 1), (BYTE_PLACES, BYTE_PLACES)])


# Three nodes of which the last has the second of two kits, the first being struck out; and how they
# are once that kit, too, is struck out and entered again.
SECOND = Node(parent=0, first_child=0, next_sibling=0, label=2, depth=1, tag=6, tagged=1)
ABOVE = Node(parent=0, first_child=2, next_sibling=0, label=0, depth=0, tag=0, tagged=1)
AT_NODE_2 = nodes.words_of([ABOVE, FREE, SECOND])
AT_NODE_1 = nodes.words_of([ABOVE._replace(first_child=1), SECOND, FREE])
AGAIN_CALLS = [
    ("k", (1,), 5, 1, None), ("k", (2,), 6, 1, None), ("d", (1,), 0, 5, AT_NODE_2),
    ("d", (2,), 0, 6, table(3)), ("k", (2,), 6, 1, AT_NODE_1),
]


def entered_again(door):
    """The other way round the table may change: struck out and entered again, at another node."""
    catalogue = lent_catalogue(door, parts_register(2), table(3))
    for letter, row, tag, value, words in AGAIN_CALLS:
        what = "%s %s" % (letter, row)
        expect(catalogue.call_on(letter, row, tag), DONE, value, what)
        compare_tables(catalogue, {"N": words} if words else {}, what)
    catalogue.check_contents()
    catalogue.came_to(AT_OTHER_NODES)
