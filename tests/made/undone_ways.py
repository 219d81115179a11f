"""The ways that a kit can go which is entered and struck out next: request 11.

Each function takes the words of the node table before, and the row of the kit.
"""

from second import index, nodes
from second.kits import MOST_QUANTITY, MOST_UNITS
from second.nodes import FEWEST_NODES, FREE, MOST_NODES, NO_TAG, NODE_WORDS, NONE, ROOT

# Counts of nodes: the fewest, the fewest that have room for a kit, one too few for 64 units, most.
NODE_COUNTS = [FEWEST_NODES, FEWEST_NODES + 1, MOST_UNITS, MOST_NODES]

AT_ONCE = "struck out at once: %s"
ONE_MORE = "refused for one node more than %d"


def passed_down(table, row):
    """The numbers of the nodes that stand on a row's path, from the root on."""
    passed = [ROOT]
    for label in row:
        child = index.child_with(table, passed[-1], label)
        if child == NONE:
            break
        passed.append(child)
    return passed


def nodes_taken(words, row):
    """How many of the free nodes the kit takes, and whether a used one stands behind a free one."""
    table = nodes.nodes_of(words)
    taken, free = index.missing_nodes(words, row), index.free_count(words)
    return {
        "a tag alone, and no node is free": taken == free == 0,
        "a tag alone, and nodes are free": taken == 0 < free,
        "the only free node": taken == free == 1,
        "all of several free nodes": taken == free > 1,
        "all but one of the free nodes": 0 < taken == free - 1,
        "nodes before a used one": taken and table.index(FREE, ROOT + 1) < max(
            nodes.used_numbers(table)),
    }


def where_linked(words, row):
    """Among which children of its parent the first new node comes, and below what node."""
    table = nodes.nodes_of(words)
    passed = passed_down(table, row)
    new, parent = row[len(passed) - 1:], passed[-1]
    labels = [table[child].label for child in nodes.chain(table, parent)] if new else []
    before = [label for label in labels if label < new[0]]
    behind = labels[len(before):]
    below, tag = new and parent != ROOT, table[parent].tag
    return {
        "an only child": new and not labels,
        "a child before others": behind and not before,
        "a child between others": before and behind,
        "a child behind others": before and not behind,
        "nodes freed up to the root": new and parent == ROOT,
        "nodes freed up to a kit": below and tag != NO_TAG,
        "nodes freed up to a branch that is no kit": below and tag == NO_TAG,
    }


def what_was_held(words, _):
    """An empty table, and one with an empty kit, from before request 14; how many nodes it has."""
    table = nodes.nodes_of(words)
    return {
        "an empty table": not any(words),
        "beside an empty kit": table[ROOT].tag != NO_TAG,
        **{"in %d nodes" % count: len(table) == count for count in NODE_COUNTS[1:]},
    }


def units_given(_, row):
    """The fewest units and the most, in all and of one part."""
    return {
        "1 unit": len(row) == 1,
        "2 units": len(row) == 2,
        "15 equal units": row == row[:1] * MOST_QUANTITY,
        "64 units": len(row) == MOST_UNITS,
    }


def gone_at_once(words, row):
    """All of these ways by name, with whether a kit that was struck out at once went it."""
    return {AT_ONCE % what: gone
            for ways in (nodes_taken, where_linked, what_was_held, units_given)
            for what, gone in ways(words, row).items()}


def refused_at_once(words, row):
    """In tables of how many nodes a kit that lacks one was refused."""
    lacking = index.missing_nodes(words, row) - index.free_count(words)
    return {ONE_MORE % count: lacking == 1 and len(words) == count * NODE_WORDS
            for count in NODE_COUNTS}


def names_at_once():
    """The names of all these ways, as an empty table and an empty row tell them."""
    nothing = nodes.words_of([FREE]), ()
    return {*gone_at_once(*nothing), *refused_at_once(*nothing)}
