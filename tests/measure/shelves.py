"""Full tables of nodes that hold kits, for measuring questions on them."""

from bisect import bisect_right
from itertools import accumulate, product

from second.kits import lines_of, units
from second.nodes import MOST_NODES, NO_TAG, NONE, ROOT
from second.sheet import BYTE_PLACES

from .growing import Growing, tag_of

# A shop's kits: their units, and how many of one part.
FEWEST_UNITS = 8
MOST_UNITS = 30
MOST_OF_ONE = 4
# Parts drawn for one kit; behind some beginnings few parts are left.
DRAWN = 200
# What all kits of a table begin with, so that a bin can lack many units of each.
STEM = (1,) * 15 + (2,) * 15
# Six parts behind the stem, up to three of each.
VARIED = range(3, 9)
COPIES = range(4)


class Shelf(Growing):
    """A table that kits are entered in; a node takes the next number when a kit first needs it."""

    def __init__(self):
        super().__init__(MOST_NODES)
        self.numbers = {}
        self.rows = set()

    def before(self, parent, label):
        """The last node on the parent's chain with a smaller label, or none."""
        found, at = NONE, self.nodes[parent].first_child
        while at != NONE and self.nodes[at].label < label:
            found, at = at, self.nodes[at].next_sibling
        return found

    def add_in_order(self, parent, label):
        """Adds a node without a tag at its place on its parent's chain: its number."""
        before = self.before(parent, label)
        link = "next_sibling" if before != NONE else "first_child"
        linked = before if before != NONE else parent
        at = self.add_lone(parent, label, getattr(self.nodes[linked], link))
        self.change(at, tag=NO_TAG)
        self.change(linked, **{link: at})
        return at

    def known(self, row):
        """The node that the row's longest beginning in the table leads to, and its length."""
        at = ROOT
        for depth, label in enumerate(row):
            if (at, label) not in self.numbers:
                return at, depth
            at = self.numbers[at, label]
        return at, len(row)

    def enter(self, row):
        """Enters a kit that is not held where there is room for it: whether that is so."""
        at, depth = self.known(row)
        if row in self.rows or len(row) - depth > self.room():
            return False
        for label in row[depth:]:
            below = self.add_in_order(at, label)
            self.numbers[at, label] = below
            at = below
        self.change(at, tag=tag_of(at))
        self.rows.add(row)
        return True


def shuffled(row, chance):
    """The row in an order by chance."""
    return sorted(row, key=lambda _: chance.word())


class Popular:
    """Parts by chance, the one of rank r as often as 1 / r; ranks are spread over the places."""

    SHARES = 1 << 20

    def __init__(self, chance):
        self.chance = chance
        self.places = shuffled(range(1, BYTE_PLACES + 1), chance)
        self.up_to = list(accumulate(self.SHARES // rank for rank in range(1, BYTE_PLACES + 1)))

    def one(self):
        """A part's place."""
        return self.places[bisect_right(self.up_to, self.chance.below(self.up_to[-1]))]


def drawn_kit(beginning, popular, chance):
    """A kit that has these lines and behind them others by chance."""
    lines = dict(beginning)
    behind = max(lines, default=0)
    wanted = chance.between(FEWEST_UNITS, MOST_UNITS)
    for _ in range(DRAWN):
        left = wanted - sum(lines.values())
        place = popular.one()
        if left > 0 and place > behind and place not in lines:
            lines[place] = min(chance.between(1, MOST_OF_ONE), left)
    return units(sorted(lines.items()))


def drawn(chance, new, kept):
    """A table of kits by chance, one in so many new; others keep the lines that are kept."""
    shelf, popular, came = Shelf(), Popular(chance), []
    while shelf.room():
        beginning = []
        if came and not chance.one_in(new):
            beginning = kept(lines_of(chance.pick(came)))
        row = drawn_kit(beginning, popular, chance)
        if len(row) >= FEWEST_UNITS and shelf.enter(row):
            came.append(row)
    return shelf


def shop(chance):
    """Kits of 8 to 30 units; half of them begin as a kit that came before."""
    return drawn(chance, 2, lambda lines: lines[:chance.between(1, len(lines) - 1)])


def alike(chance):
    """The same, but nine in ten are a kit that came before up to its last line or two."""
    return drawn(chance, 10, lambda lines: lines[:-chance.between(1, 2)])


def entered(rows, chance):
    """A table with these kits as far as there is room, in an order by chance."""
    shelf = Shelf()
    for row in shuffled(rows, chance):
        shelf.enter(row)
    return shelf


def variants(chance):
    """Behind a stem of 30 units up to three of each of six parts: nearly every node has a kit."""
    return entered([STEM + units(zip(VARIED, times))
                    for times in product(COPIES, repeat=len(VARIED))], chance)


def long_chains(chance):
    """Behind a stem of 30 units all parts that are left, and below each all that may stand."""
    labels = range(STEM[-1] + 1, BYTE_PLACES + 1)
    ends = [(label,) for label in labels]
    ends += [(first, second) for first in labels for second in labels if first <= second]
    return entered([STEM + end for end in ends[:MOST_NODES - 1 - len(STEM)]], chance)
