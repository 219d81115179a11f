"""Registers and node tables that calls are tried on: brought on by chance, large, and damaged."""

import functools

from second import index, nodes
from second.kits import MOST_QUANTITY, MOST_UNITS
from second.nodes import DEEPEST, FREE, MOST_NODES, NODE_WORDS, ROOT, Node
from second.register import MOST_SLOTS, filled, numbers_of
from second.sheet import BYTE_PLACES

from .chance import Chance
from .counts import by_chains, by_parents, counted
from .register_requests import damaged_register, many_numbers, some_numbers

# Values that a damaged word is often given: limits of depth, quantity, parts and words.
EDGE_WORDS = [0, 1, 2, 3, 14, 15, 16, 17, 63, 64, 65, 255, 256, 257, 4000, 4001, 32767, 32768,
              65534, 65535]


def parts_register(parts, slots=None):
    """A register with so many parts, and one slot free where no slot count is given."""
    return filled(many_numbers(parts), parts + 1 if slots is None else slots)


def table(node_count, *kits):
    """A table of so many nodes with these kits (row, tag) inserted in order."""
    return index.filled(node_count, kits)


def raw_path(labels, tag=1, spare=0):
    """A table whose one path has these labels, set down word by word."""
    row = [Node(0, 1 if labels else 0, 0, 0, 0, 0 if labels else tag, 1)]
    for at, label in enumerate(labels, start=1):
        last = at == len(labels)
        row.append(Node(at - 1, 0 if last else at + 1, 0, label, at, tag if last else 0, 1))
    return nodes.words_of(row + [FREE] * spare)


@functools.lru_cache(maxsize=None)
def example_words():
    """A small table with branches, shared beginnings, freed nodes and numbers out of order."""
    kits = [((2, 3, 3), 50), ((1, 2), 40), ((3,), 60), ((1, 1, 2), 20), ((1,), 10), ((2, 2), 45),
            ((1, 1), 15), ((), 5)]
    words = table(12, *kits)
    words = index.deleted(words, (2, 2))
    words = index.deleted(words, (3,))
    return tuple(index.inserted(words, (1, 3), 41))


def swapped(row, one, other):
    """The nodes with two of them in each other's place."""
    row = list(row)
    row[one], row[other] = row[other], row[one]
    return row


def copied(row, one, other):
    """The nodes with the first of two also in the other's place."""
    row = list(row)
    row[other] = row[one]
    return row


def some_order(chance, node_count):
    """The numbers of so many nodes in any order, but the root's first."""
    order = list(range(ROOT + 1, node_count))
    for at in range(len(order) - 1, 0, -1):
        other = chance.below(at + 1)
        order[at], order[other] = order[other], order[at]
    return [ROOT] + order


def renumbered(words, order):
    """The table with node `at` moved to place order[at], all links along with it."""
    moved = [FREE] * len(order)
    for at, node in enumerate(nodes.nodes_of(words)):
        if at == ROOT or node != FREE:
            moved[order[at]] = node._replace(
                parent=order[node.parent], first_child=order[node.first_child],
                next_sibling=order[node.next_sibling])
    return nodes.words_of(moved)


@functools.lru_cache(maxsize=None)
def large_table(kind):
    """A sound table of 4,096 nodes beside 255 parts, of one of several shapes."""
    if kind == "pairs":
        # 255 siblings below the root, and chains below them, until all nodes are used.
        rows = [(first,) for first in range(1, BYTE_PLACES + 1)]
        rows += [(first, second) for first in range(1, BYTE_PLACES + 1)
                 for second in range(first, BYTE_PLACES + 1)]
        return tuple(table(MOST_NODES, *((row, tag) for tag, row in enumerate(
            rows[:MOST_NODES - 1], start=1))))
    if kind == "every node a kit":
        return tuple(index.inserted(list(large_table("pairs")), (), 65535))
    if kind == "one free":
        return tuple(index.deleted(list(large_table("pairs")), (16, 100)))
    if kind == "long paths":
        return tuple(long_paths(Chance(64), MOST_NODES))
    if kind == "renumbered":
        words = list(large_table("long paths"))
        return tuple(renumbered(words, some_order(Chance(65), MOST_NODES)))
    raise ValueError(kind)


LARGE_KINDS = ["pairs", "every node a kit", "one free", "long paths", "renumbered"]


def long_paths(chance, node_count):
    """A table filled with kits of 64 units that share beginnings, until no node is free."""
    words = [FREE] * node_count
    free = node_count - 1
    tag = 1
    row = []
    while free > 0:
        row = row[:chance.below(len(row) + 1)]
        while len(row) < MOST_UNITS:
            label = min(BYTE_PLACES, (row[-1] if row else 1) + chance.pick((0, 0, 0, 1, 2, 9)))
            while row.count(label) >= MOST_QUANTITY:
                label += 1
            if label > BYTE_PLACES:
                break
            row.append(label)
        held = index.missing_nodes(nodes.words_of(words), row)
        if held == 0:
            continue
        row = row[:len(row) - max(0, held - free)]
        index.enter(words, row, tag)
        free -= min(held, free)
        tag += 1
    return nodes.words_of(nodes.counted(words))


class Stock:
    """Catalogues that grow and shrink from request to request, as calls would bring them on.

    Some have an empty kit, which calls entered before request 14.
    """

    def __init__(self, chance):
        self.chance = chance
        self.held = [self.new_catalogue() for _ in range(16)]

    def new_catalogue(self):
        """An empty catalogue with a few parts and a few nodes."""
        chance = self.chance
        parts = chance.pick((0, 1, 2, 2, 3, 3, 3, 4, 5, 6, 6, 9))
        slots = max(1, parts + chance.pick((0, 0, 1, 3)))
        node_count = chance.pick((1, 2, 3, 5, 8, 12, 12, 16, 20, 30, 40, 70))
        return filled(some_numbers(chance, parts), slots), [0] * node_count * NODE_WORDS

    def catalogue(self):
        """One of the catalogues, brought on by a step: its register, table and kits."""
        chance = self.chance
        at = chance.below(len(self.held))
        if chance.one_in(40):
            self.held[at] = self.new_catalogue()
        register, words = self.held[at]
        parts = len(numbers_of(register))
        kits = nodes.held_kits(words)
        for _ in range(chance.pick((0, 1, 1, 2))):
            words, kits = self.step(words, kits, parts)
        self.held[at] = register, words
        return register, words, kits

    def step(self, words, kits, parts):
        """The table after a deletion or an insertion that has room."""
        chance = self.chance
        if kits and chance.one_in(4):
            row = chance.pick(sorted(kits))
            words = index.deleted(words, row)
        else:
            row = some_row(chance, sorted(kits), parts)
            tag = some_new_tag(chance, kits)
            if len(row) > MOST_UNITS or row in kits:
                return words, kits
            if index.missing_nodes(words, row) > index.free_count(words):
                return words, kits
            words = index.inserted(words, row, tag)
        return words, nodes.held_kits(words)


def some_new_tag(chance, kits):
    """A tag that no held kit bears."""
    while True:
        tag = chance.pick((chance.between(1, 30), chance.between(1, 65535), 65535))
        if tag not in kits.values():
            return tag


def some_row(chance, rows, parts):
    """A unit row, mostly sharing its beginning with a held one."""
    if parts == 0:
        return ()
    row = list(chance.pick(rows)) if rows and chance.below(5) < 3 else []
    row = row[:chance.below(len(row) + 1)] if chance.one_in(2) else row
    for _ in range(chance.pick((0, 1, 1, 1, 2, 2, 3, 5, 17))):
        low = row[-1] if row else 1
        label = min(parts, low + chance.pick((0, 0, 1, 1, 2, 3)))
        if row.count(label) < MOST_QUANTITY:
            row.append(label)
    return tuple(row)


def some_far_kits(chance, parts):
    """A few kits, with tags, of places around 255 and of the first and the last ones."""
    edges = [1, 2, 254, 255, 256, 257, 258, parts - 1, parts]
    kits = {}
    for _ in range(chance.between(0, 6)):
        row = tuple(sorted(min(parts, chance.pick(edges)) for _ in range(chance.between(0, 4))))
        kits.setdefault(row, some_new_tag(chance, kits))
    return kits


def far_tables(chance):
    """Both tables with about 255 parts or more, and rarely about 4,000."""
    parts = chance.pick((255, 256, 256, 257, 258, 300, 514))
    if chance.one_in(8):
        parts = chance.pick((MOST_SLOTS - 1, MOST_SLOTS))
    kits = some_far_kits(chance, parts)
    slots = min(MOST_SLOTS, parts + chance.pick((0, 0, 1)))
    return parts_register(parts, slots), table(chance.pick((26, 27, 40)), *kits.items())


def upwards(row, at):
    """The numbers from a node up to the root; in a damaged table no more than a path may have."""
    passed = [at]
    while passed[-1] != ROOT and len(passed) <= DEEPEST:
        passed.append(row[passed[-1]].parent % len(row))
    return passed


def miscounted(chance, words):
    """The table with counts alone changed: one, two whose sum stays, or those of a whole path."""
    row = nodes.nodes_of(words)
    one, other = chance.below(len(row)), chance.below(len(row))
    more = chance.pick((1, 1, 65535, 65535, 2, 256, 32768, chance.between(1, 65535)))
    way = chance.below(5)
    changes = [(one, more)]
    if way == 0 and one != other:
        changes.append((other, 65536 - more))
    elif way == 1:
        changes = [(at, more) for at in upwards(row, one)]
    elif way == 2:
        changes = [(one, 65535 - row[one].tagged)]
    elif way == 3:
        changes = [(ROOT, more)]
    for at, change in changes:
        row[at] = row[at]._replace(tagged=(row[at].tagged + change) % 65536)
    return nodes.words_of(row)


def counted_again(chance, words):
    """The table as it is, or with its counts set right, so that other damage has to be found."""
    way = chance.pick((None, by_parents, by_chains))
    return nodes.words_of(counted(nodes.nodes_of(words), way)) if way else words


def damaged_table(chance, words, parts):
    """The table with a few words, a node or the length changed, which may leave it sound."""
    words = list(words)
    way = chance.below(14)
    if way == 0:
        return words[:chance.below(len(words) + 1)]
    if way == 1:
        return words + [0] * chance.pick((1, NODE_WORDS - 1, NODE_WORDS, NODE_WORDS + 1))
    if way in (2, 3):
        return miscounted(chance, words)
    return counted_again(chance, with_damage(chance, words, parts))


def with_damage(chance, words, parts):
    """The table with a node moved, doubled or freed, or more often with a few words changed."""
    row, count = nodes.nodes_of(words), len(words) // NODE_WORDS
    taken = nodes.used_numbers(row)
    way = chance.below(10)
    if way == 0:
        return nodes.words_of(swapped(row, chance.pick(taken), chance.below(count)))
    if way == 1:
        return nodes.words_of(copied(row, chance.pick(taken), chance.below(count)))
    if way == 2:
        row[chance.pick(taken)] = FREE
        return nodes.words_of(row)
    for _ in range(chance.pick((1, 1, 1, 2, 3))):
        at = chance.pick(taken) * NODE_WORDS + chance.below(NODE_WORDS)
        words[at] = chance.pick((0, 1, (words[at] + 1) % 65536, (words[at] - 1) % 65536,
                                 chance.below(count + 1), chance.below(count + 1), parts,
                                 chance.pick(EDGE_WORDS)))
    return words


def some_tables(chance, stock):
    """Both tables and the kits that they held before any damage; now and then large ones, and ones
    with many parts."""
    if chance.one_in(250):
        register = parts_register(BYTE_PLACES, BYTE_PLACES)
        words = list(large_table(chance.pick(LARGE_KINDS)))
    elif chance.one_in(60):
        register, words = far_tables(chance)
    else:
        register, words, _ = stock.catalogue()
    kits = nodes.held_kits(words)
    parts = len(numbers_of(register))
    if chance.below(10) < 3:
        if chance.one_in(6):
            register = damaged_register(chance, register)
        else:
            words = damaged_table(chance, words, parts)
    return register, words, kits, parts
