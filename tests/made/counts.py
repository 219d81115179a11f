"""The seventh word of nodes, the tagged ones at or below each, in tables that may be damaged.

What stands below a node is told by the parents that nodes name, and by the chains. In a sound table
that is the same. In a damaged one it may not be, and either lets the damage alone be found.
"""

from second.nodes import NO_TAG, NONE, ROOT, used


def by_parents(row):
    """For each node those that name it as parent."""
    below = [[] for _ in row]
    for at, node in enumerate(row):
        if at != ROOT and used(row, at) and node.parent < len(row):
            below[node.parent].append(at)
    return below


def by_chains(row):
    """For each node those on its chain, which ends where a node is met again or is none at all."""
    below = []
    for node in row:
        met, at = [], node.first_child
        while at != NONE and at < len(row) and at not in met:
            met.append(at)
            at = row[at].next_sibling
        below.append(met)
    return below


def at_or_below(below, at):
    """The number of a node and those of all below it, each once."""
    found, left = set(), [at]
    while left:
        one = left.pop()
        if one not in found:
            found.add(one)
            left += below[one]
    return found


def counted(row, way):
    """The nodes with the seventh word of each used one as this way tells what stands below it."""
    row = [node._replace(tagged=0) for node in row]
    below = way(row)
    return [node._replace(tagged=sum(row[one].tag != NO_TAG for one in at_or_below(below, at)))
            if used(row, at) else node for at, node in enumerate(row)]


def both_ways(tables):
    """These tables by name, counted by parents, and counted by chains where that is another one."""
    made = {}
    for note, row in tables.items():
        made[note], other = counted(row, by_parents), counted(row, by_chains)
        if other != made[note]:
            made[note + ", counted by chains"] = other
    return made
