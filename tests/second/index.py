"""Insertion and deletion in a sound node table, word for word as document 01 lays down.

What request 7 counts is not carried along: behind each change all nodes are counted again. The
empty row is entered like any other, though no call does since request 14: old tables have it.
"""

from .nodes import FREE, NO_TAG, NONE, ROOT, Node, chain, counted, nodes_of, words_of


def child_with(nodes, at, label):
    """The child of a node with this label, or none."""
    for child in chain(nodes, at):
        if nodes[child].label == label:
            return child
    return NONE


def missing_nodes(words, row):
    """How many nodes the path of this row lacks."""
    nodes = nodes_of(words)
    at = ROOT
    for passed, label in enumerate(row):
        at = child_with(nodes, at, label)
        if at == NONE:
            return len(row) - passed
    return 0


def free_count(words):
    """How many nodes are free; the root never is."""
    return nodes_of(words)[ROOT + 1:].count(FREE)


def link(nodes, at):
    """Puts a new node on its parent's chain, where labels rise."""
    parent, label = nodes[at].parent, nodes[at].label
    smaller = [child for child in chain(nodes, parent) if nodes[child].label < label]
    if smaller:
        before = smaller[-1]
        nodes[at] = nodes[at]._replace(next_sibling=nodes[before].next_sibling)
        nodes[before] = nodes[before]._replace(next_sibling=at)
    else:
        nodes[at] = nodes[at]._replace(next_sibling=nodes[parent].first_child)
        nodes[parent] = nodes[parent]._replace(first_child=at)


def unlink(nodes, at):
    """Takes a node off its parent's chain."""
    parent, behind = nodes[at].parent, nodes[at].next_sibling
    if nodes[parent].first_child == at:
        nodes[parent] = nodes[parent]._replace(first_child=behind)
        return
    for child in chain(nodes, parent):
        if nodes[child].next_sibling == at:
            nodes[child] = nodes[child]._replace(next_sibling=behind)
            return


def enter(nodes, row, tag):
    """Enters a kit, all but what is counted; there must be enough free nodes.

    "Insertion takes missing nodes from shallow to deep, each the lowest numbered free one."
    """
    at = ROOT
    for label in row:
        child = child_with(nodes, at, label)
        if child == NONE:
            child = nodes.index(FREE, ROOT + 1)
            nodes[child] = Node(parent=at, first_child=NONE, next_sibling=NONE, label=label,
                                depth=nodes[at].depth + 1, tag=NO_TAG, tagged=0)
            link(nodes, child)
        at = child
    nodes[at] = nodes[at]._replace(tag=tag)


def inserted(words, row, tag):
    """The table with this kit entered."""
    nodes = nodes_of(words)
    enter(nodes, row, tag)
    return words_of(counted(nodes))


def filled(node_count, kits):
    """A table of so many nodes, empty and then filled with these kits in their order."""
    nodes = [FREE] * node_count
    for row, tag in kits:
        enter(nodes, row, tag)
    return words_of(counted(nodes))


def deleted(words, row):
    """The table with this held kit struck out.

    "Deletion clears the tag, then from that node upwards zeroes and unlinks each node but the
    root that has neither tag nor child, and stops at the first that must stay."
    """
    nodes = nodes_of(words)
    at = ROOT
    for label in row:
        at = child_with(nodes, at, label)
    nodes[at] = nodes[at]._replace(tag=NO_TAG)
    while at != ROOT and nodes[at].tag == NO_TAG and nodes[at].first_child == NONE:
        parent = nodes[at].parent
        unlink(nodes, at)
        nodes[at] = FREE
        at = parent
    return words_of(counted(nodes))
