"""The node table of document 01 and request 7: fields, soundness, and the kits that it holds."""

from collections import Counter, namedtuple
from functools import lru_cache
from itertools import chain as joined

# "Lent 16-bit words, six per node .. 1 to 4,096 nodes." Request 7: "Each node gets a seventh word,
# the number of tagged nodes at or below it."
Node = namedtuple("Node", "parent first_child next_sibling label depth tag tagged")
NODE_WORDS = len(Node._fields)
FEWEST_NODES = 1
MOST_NODES = 4096
ROOT = 0
# "link 0 means none; tag 0 means no kit ends here." "free nodes keep seven zeros"
NONE = 0
NO_TAG = 0
FREE = Node(*[0] * NODE_WORDS)
# "depth .. at most 64"; "no path has more than 15 equal labels"
DEEPEST = 64
MOST_EQUAL_LABELS = 15

# A call and the next one mostly look at the same table; so many verdicts are remembered.
REMEMBERED = 8


def right_length(words):
    """Whether the table has whole nodes, "1 to 4,096": "a multiple of 7, up to 28,672 words"."""
    nodes, rest = divmod(len(words), NODE_WORDS)
    return rest == 0 and FEWEST_NODES <= nodes <= MOST_NODES


def nodes_of(words):
    """The nodes in their order."""
    return list(remembered_nodes(tuple(words)))


@lru_cache(maxsize=REMEMBERED)
def remembered_nodes(words):
    """The nodes of these words."""
    return tuple(map(Node._make, zip(*[iter(words)] * NODE_WORDS)))


def words_of(nodes):
    """The table's words."""
    return list(joined.from_iterable(nodes))


def used(nodes, at):
    """Whether a node is used: the root always, another one when it is not free."""
    return at == ROOT or nodes[at] != FREE


def used_numbers(nodes):
    """The numbers of the used nodes."""
    return [ROOT] + [at for at, node in enumerate(nodes) if node != FREE and at != ROOT]


def root_is_right(nodes):
    """Whether "the root's parent, sibling, label and depth are 0"."""
    root = nodes[ROOT]
    return root.parent == root.next_sibling == root.label == root.depth == 0


def links_are_below(nodes, numbers):
    """Whether "every link is below the number of nodes"; those of a free node are 0."""
    return all(link < len(nodes)
               for at in numbers
               for link in (nodes[at].parent, nodes[at].first_child, nodes[at].next_sibling))


def has_right_parent(nodes, at, parts):
    """Whether a used node other than the root stands right below its parent.

    "a used parent (the root counts), depth one more than its parent's and at most 64, and a
    label from 1 to the number of parts, at least its parent's label".
    """
    node = nodes[at]
    parent = nodes[node.parent]
    return (used(nodes, node.parent)
            and node.depth == parent.depth + 1
            and node.depth <= DEEPEST
            and 1 <= node.label <= parts
            and node.label >= parent.label)


def first_child_is_right(nodes, at):
    """Whether it is none or "a used node other than the root that names that node as parent"."""
    child = nodes[at].first_child
    return child == NONE or (used(nodes, child) and nodes[child].parent == at)


def next_sibling_is_right(nodes, at):
    """Whether it is none or used, not the root, "with the same parent and a greater label"."""
    node = nodes[at]
    sibling = node.next_sibling
    if sibling == NONE:
        return True
    return (used(nodes, sibling)
            and nodes[sibling].parent == node.parent
            and nodes[sibling].label > node.label)


def chain(nodes, at):
    """The numbers on a node's chain: its first child, and from each the next sibling."""
    numbers = []
    child = nodes[at].first_child
    while child != NONE:
        numbers.append(child)
        child = nodes[child].next_sibling
    return numbers


def all_on_chains(nodes, numbers):
    """Whether "every used node but the root is found on its parent's chain"."""
    chains = {}
    for at in numbers:
        if at == ROOT:
            continue
        parent = nodes[at].parent
        if parent not in chains:
            chains[parent] = set(chain(nodes, parent))
        if at not in chains[parent]:
            return False
    return True


def path_rows(nodes, numbers):
    """For each used node the labels on the path from the root to it."""
    rows = {ROOT: ()}
    for at in numbers:
        climbed = []
        while at not in rows:
            climbed.append(at)
            at = nodes[at].parent
        for below in reversed(climbed):
            rows[below] = rows[nodes[below].parent] + (nodes[below].label,)
    return rows


def few_equal_labels(nodes, numbers):
    """Whether "no path has more than 15 equal labels".

    Every label on a path is the last label of a shorter path, so the last ones are counted.
    """
    return all(row.count(row[-1]) <= MOST_EQUAL_LABELS
               for row in path_rows(nodes, numbers).values() if row)


def childless_have_tags(nodes, numbers):
    """Whether "a used node without children, other than the root, has a tag"."""
    return all(nodes[at].tag != NO_TAG
               for at in numbers
               if at != ROOT and nodes[at].first_child == NONE)


def tags_differ(nodes, numbers):
    """Whether "nonzero tags differ", the root's among them."""
    tags = [nodes[at].tag for at in numbers if nodes[at].tag != NO_TAG]
    return len(tags) == len(set(tags))


def tagged_at_or_below(nodes, numbers):
    """For each used node "the number of tagged nodes at or below it".

    A node stands at or below all that are passed on the way from it up to the root.
    """
    found = Counter()
    for at in numbers:
        if nodes[at].tag == NO_TAG:
            continue
        while at != ROOT:
            found[at] += 1
            at = nodes[at].parent
        found[ROOT] += 1
    return found


def counts_are_right(nodes, numbers):
    """Whether the seventh word of each used node, the root too, is that number."""
    right = tagged_at_or_below(nodes, numbers)
    return all(nodes[at].tagged == right[at] for at in numbers)


def counted(nodes):
    """The nodes with the seventh word of each used one as soundness requires it."""
    numbers = used_numbers(nodes)
    right = tagged_at_or_below(nodes, numbers)
    nodes = list(nodes)
    for at in numbers:
        nodes[at] = nodes[at]._replace(tagged=right[at])
    return nodes


def sound(words, parts):
    """Whether a table of right length is sound beside a register of so many parts.

    The conditions stand so that each can rely on those before it: links lead to nodes, then
    paths to the root and chains have an end.
    """
    return remembered_verdict(tuple(words), parts)


@lru_cache(maxsize=REMEMBERED)
def remembered_verdict(words, parts):
    """Whether these words are sound."""
    nodes = nodes_of(words)
    numbers = used_numbers(nodes)
    return (root_is_right(nodes)
            and links_are_below(nodes, numbers)
            and all(has_right_parent(nodes, at, parts) for at in numbers if at != ROOT)
            and few_equal_labels(nodes, numbers)
            and all(first_child_is_right(nodes, at) for at in numbers)
            and all(next_sibling_is_right(nodes, at) for at in numbers)
            and all_on_chains(nodes, numbers)
            and childless_have_tags(nodes, numbers)
            and tags_differ(nodes, numbers)
            and counts_are_right(nodes, numbers))


def held_kits(words):
    """The kits held: "the label rows of paths from the root to tagged nodes", with their tags."""
    nodes = nodes_of(words)
    return {row: nodes[at].tag
            for at, row in path_rows(nodes, used_numbers(nodes)).items()
            if nodes[at].tag != NO_TAG}
