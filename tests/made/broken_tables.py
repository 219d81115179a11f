"""Small node tables by name: one for each way in which a condition of soundness alone is broken.

A node is parent, first child, next sibling, label, depth, tag; what it counts is set behind.
"""

from second.kits import units
from second.nodes import FREE, Node, counted

from .counts import both_ways


def plain(*words):
    """A node of six words, before anything is counted."""
    return Node(*words, tagged=0)


TOP, LEAF = plain(0, 1, 0, 0, 0, 0), plain(0, 0, 0, 1, 1, 9)

# Beside two parts; the last one is sound.
BROKEN_TABLES = both_ways({
    "the root has a parent": [plain(1, 1, 0, 0, 0, 0), LEAF],
    "the root alone has a parent": [plain(1, 0, 0, 0, 0, 0), FREE],
    "the root alone has a sibling": [plain(0, 0, 1, 0, 0, 0), FREE],
    "the root has a sibling": [plain(0, 1, 1, 0, 0, 0), LEAF],
    "the root alone has a label": [plain(0, 0, 0, 1, 0, 0), FREE],
    "the root alone has a depth": [plain(0, 0, 0, 0, 1, 0), FREE],
    "all depths one too high": [plain(0, 1, 0, 0, 1, 0), LEAF._replace(depth=2)],
    "the root's child is free": [TOP, FREE],
    "the root's child is past the end": [TOP._replace(first_child=2), FREE],
    "a node names itself as parent": [TOP, LEAF._replace(parent=1)],
    "a node is its own child": [TOP, LEAF._replace(first_child=1)],
    "a node is its own sibling": [TOP, LEAF._replace(next_sibling=1)],
    "a free node with a tag": [plain(0, 0, 0, 0, 0, 0), plain(0, 0, 0, 0, 0, 4)],
    "a free node with a label": [plain(0, 0, 0, 0, 0, 0), plain(0, 0, 0, 1, 0, 0)],
    "a node on no chain": [plain(0, 0, 0, 0, 0, 0), LEAF],
    "a second node on no chain": [TOP, LEAF, LEAF._replace(label=2, tag=8)],
    "a leaf without a tag": [TOP, LEAF._replace(tag=0)],
    "a tag twice": [TOP, LEAF._replace(next_sibling=2), LEAF._replace(label=2)],
    "the root's tag twice": [TOP._replace(tag=9), LEAF],
    "siblings with one label": [TOP, LEAF._replace(next_sibling=2), LEAF._replace(tag=8)],
    "siblings falling": [TOP, LEAF._replace(next_sibling=2, label=2), LEAF._replace(tag=8)],
    "siblings in a ring": [TOP, LEAF._replace(next_sibling=2),
                           LEAF._replace(label=2, tag=8, next_sibling=1)],
    "a sibling of another parent": [TOP, LEAF._replace(first_child=2, next_sibling=3),
                                    plain(1, 0, 3, 1, 2, 8), LEAF._replace(label=2, tag=7)],
    "a child of another parent": [TOP, LEAF._replace(next_sibling=2, first_child=3),
                                  LEAF._replace(label=2, tag=8, first_child=3),
                                  plain(2, 0, 0, 2, 2, 7)],
    "a child that is its parent's sibling": [TOP, LEAF._replace(first_child=2, next_sibling=2),
                                             LEAF._replace(label=2, tag=8)],
    "a path back to its start": [TOP, LEAF._replace(first_child=2),
                                 plain(1, 1, 0, 1, 2, 8)],
    "two nodes that name each other": [plain(0, 0, 0, 0, 0, 3), plain(2, 2, 0, 1, 1, 9),
                                       plain(1, 1, 0, 1, 2, 8)],
    "a depth one too low": [TOP, LEAF._replace(first_child=2), plain(1, 0, 0, 1, 1, 8)],
    "a depth one too high": [TOP, LEAF._replace(first_child=2), plain(1, 0, 0, 1, 3, 8)],
    "a label 0": [TOP, LEAF._replace(label=0)],
    "a label beyond the parts": [TOP, LEAF._replace(label=3)],
    "a label below its parent's": [TOP, LEAF._replace(label=2, first_child=2),
                                   plain(1, 0, 0, 1, 2, 8)],
    "a parent past the end": [TOP, LEAF._replace(parent=2)],
    "a sibling past the end": [TOP, LEAF._replace(next_sibling=2)],
    "a child past the end": [TOP, LEAF._replace(first_child=2)],
    "a child far past the end": [TOP, LEAF._replace(first_child=65535)],
    "sound": [TOP, LEAF._replace(next_sibling=2), LEAF._replace(label=2, tag=8), FREE],
})

# The root's chain is nodes 1, 2, 3; node 1's chain is nodes 4, 5, 6; nodes 7 and 8 are free.
TWO_CHAINS = counted([
    plain(0, 1, 0, 0, 0, 0),
    plain(0, 4, 2, 1, 1, 11), plain(0, 0, 3, 2, 1, 12), plain(0, 0, 0, 3, 1, 13),
    plain(1, 0, 5, 1, 2, 14), plain(1, 0, 6, 2, 2, 15), plain(1, 0, 0, 3, 2, 16),
    FREE, FREE])
FIRST_CHILD, NEXT = "first_child", "next_sibling"


def relinked(*changes):
    """The two chains with links changed: a node's number, which link, and where it leads."""
    row = list(TWO_CHAINS)
    for at, link, to in changes:
        row[at] = row[at]._replace(**{link: to})
    return row


# Every node is right by itself, and some are on no chain.
LOST_NODES = both_ways({
    "a chain's first node on no chain": relinked((1, FIRST_CHILD, 5)),
    "a chain's middle node on no chain": relinked((4, NEXT, 6)),
    "a chain's last node on no chain": relinked((5, NEXT, 0)),
    "two nodes that name one next sibling": relinked((1, NEXT, 3)),
    "a whole chain on no chain": relinked((1, FIRST_CHILD, 0)),
    "the root's whole chain on no chain": relinked((0, FIRST_CHILD, 0)),
})
# Links that lead where no chain may go.
WRONG_LINKS = both_ways({
    "a chain that runs into its first node": relinked((6, NEXT, 4)),
    "a chain that runs into its middle node": relinked((6, NEXT, 5)),
    "a chain that runs into its last node": relinked((6, NEXT, 6)),
    "two nodes of a chain that are each other's sibling": relinked((5, NEXT, 4)),
    "two nodes on no chain that are each other's sibling": relinked(
        (1, FIRST_CHILD, 6), (5, NEXT, 4)),
    "a node on two chains": relinked((2, FIRST_CHILD, 4)),
    "a chain into another's children": relinked((3, NEXT, 5)),
    "a chain that ends in its parent": relinked((6, NEXT, 1)),
    "a chain that ends in a child of the root": relinked((6, NEXT, 3)),
    "a chain that ends in the root, which has a sibling": relinked((0, NEXT, 1)),
    "a chain that ends in a free node": relinked((6, NEXT, 7)),
    "a chain that ends behind the table": relinked((6, NEXT, len(TWO_CHAINS))),
    "a free node with a chain": relinked((7, FIRST_CHILD, 4)),
    "a free node with a next sibling": relinked((7, NEXT, 4)),
})

# Below the root, which is a kit, a stem of two nodes without tags and two leaves; node 5 is free.
STEM = counted([plain(0, 1, 0, 0, 0, 5), plain(0, 2, 0, 1, 1, 0), plain(1, 3, 0, 1, 2, 0),
                plain(2, 0, 4, 2, 3, 7), plain(2, 0, 0, 3, 3, 8), FREE])
NO_KITS = [FREE, FREE]


def recounted(row, *counts):
    """The nodes with these counts from the root on, None for one that stays."""
    row = list(row)
    for at, tagged in enumerate(counts):
        if tagged is not None:
            row[at] = row[at]._replace(tagged=tagged)
    return row


# Tables in which the counts alone are wrong. The two chains count 6; 4, 1, 1; 1, 1, 1, and the stem
# 3; 2; 2; 1, 1.
WRONG_COUNTS = {
    "the root's count one too high": recounted(TWO_CHAINS, 7),
    "the root's count one too low": recounted(TWO_CHAINS, 5),
    "the root's count 0": recounted(TWO_CHAINS, 0),
    "the root's count 65,535": recounted(TWO_CHAINS, 65535),
    "a count in the middle one too high": recounted(TWO_CHAINS, None, 5),
    "a count in the middle one too low": recounted(TWO_CHAINS, None, 3),
    "a count in the middle 0": recounted(TWO_CHAINS, None, 0),
    "a count in the middle 65,535": recounted(TWO_CHAINS, None, 65535),
    "a count one too high where there is no tag": recounted(STEM, None, 3),
    "a count one too low where there is no tag": recounted(STEM, None, None, 1),
    "the first leaf's count 0": recounted(TWO_CHAINS, None, None, None, None, 0),
    "the first leaf's count 2": recounted(TWO_CHAINS, None, None, None, None, 2),
    "the last leaf's count 0": recounted(STEM, None, None, None, None, 0),
    "the last leaf's count 2": recounted(STEM, None, None, None, None, 2),
    "a leaf's count 65,535": recounted(TWO_CHAINS, None, None, 65535),
    "the root's count 256 too high": recounted(TWO_CHAINS, 262),
    "a count in the middle 32,768 too high": recounted(STEM, None, 32770),
    "a leaf's count 257": recounted(STEM, None, None, None, 257),
    "a free node counts 256": recounted(STEM, *[None] * 5, 256),
    "the first free node counts 1": recounted(TWO_CHAINS, *[None] * 7, 1),
    "the last free node counts 1": recounted(TWO_CHAINS, *[None] * 8, 1),
    "a free node counts 65,535": recounted(STEM, *[None] * 5, 65535),
    "no kit, and the root counts 1": recounted(NO_KITS, 1),
    "no kit, and a free node counts 1": recounted(NO_KITS, None, 1),
    "no kit, and both nodes count 1": recounted(NO_KITS, 1, 1),
    "two leaves wrong, and their sum right": recounted(TWO_CHAINS, *[None] * 4, 0, 2),
    "two leaves wrong, and their sum right the other way": recounted(TWO_CHAINS, *[None] * 5, 2, 0),
    "two leaves wrong, and their sum right in 16 bits": recounted(
        TWO_CHAINS, *[None] * 5, 65535, 3),
    "two children of the root wrong, and their sum right": recounted(TWO_CHAINS, None, 5, 0),
    "a leaf wrong, and all above it by as much": recounted(STEM, 4, 3, 3, 2),
    "a leaf 0, and all above it by as much": recounted(STEM, 2, 1, 1, 0),
    "a stem wrong, and the root by as much": recounted(STEM, 4, 3, 3),
    "the root and one below it wrong": recounted(TWO_CHAINS, 7, 5),
    "nothing counted": recounted(TWO_CHAINS, *[0] * 7),
    "nodes counted, not tags": recounted(STEM, 5, 4, 3, 1, 1),
    "a node's own tag left out": recounted(STEM, 2, 2, 2, 0, 0),
    "a node's own tag alone": recounted(STEM, 1, 0, 0, 1, 1),
    "the root's own tag left out": recounted(STEM, 2),
    "children counted, not what is below them": recounted(TWO_CHAINS, 3),
}

# The labels of a table's one path, beside five parts, at every limit; some of them are sound.
RAW_PATHS = {
    "path of 63": units([(1, 15), (2, 15), (3, 15), (4, 15), (5, 3)]),
    "path of 64": units([(1, 15), (2, 15), (3, 15), (4, 15), (5, 4)]),
    "path of 65": units([(1, 15), (2, 15), (3, 15), (4, 15), (5, 5)]),
    "14 equal labels": (1,) + (2,) * 14 + (3,),
    "15 equal labels": (1,) + (2,) * 15 + (3,),
    "16 equal labels": (1,) + (2,) * 16 + (3,),
    "15 equal labels at the end": (3,) * 15,
    "16 equal labels at the end": (3,) * 16,
    "16 equal labels apart, falling": (1, 2) * 16,
    "the last part": (1, 5),
    "beyond the last part": (1, 6),
    "a label 0": (0, 1),
    "a label 0 below another": (1, 0),
    "falling labels": (2, 1),
    "an empty path": (),
}
