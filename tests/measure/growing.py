"""Tables of nodes that grow, for measuring."""

from second import nodes
from second.nodes import FREE, NONE, Node

# An odd number: its multiples differ in 16 bits and are spread over all of them.
TAG_STEP = 40503
TAGS = 1 << 16


def tag_of(at):
    """The tag that the node of this number bears, if any."""
    return at * TAG_STEP % TAGS


class Growing:
    """A table that nodes are added to, in the order of their numbers; each bears a tag."""

    def __init__(self, size):
        self.size = size
        self.nodes = [FREE]
        self.last_child = {}

    def room(self):
        """How many nodes can still be added."""
        return self.size - len(self.nodes)

    def last(self):
        """The number of the node added last."""
        return len(self.nodes) - 1

    def change(self, at, **fields):
        """Sets fields of a node."""
        self.nodes[at] = self.nodes[at]._replace(**fields)

    def add_lone(self, parent, label, next_sibling=NONE):
        """Adds a node that names its parent but is on no chain: its number."""
        at = len(self.nodes)
        depth = self.nodes[parent].depth + 1
        self.nodes.append(Node(parent, NONE, next_sibling, label, depth, tag_of(at), tagged=0))
        return at

    def add(self, parent, label):
        """Adds a node at the end of its parent's chain: its number."""
        at = self.add_lone(parent, label)
        if parent in self.last_child:
            self.change(self.last_child[parent], next_sibling=at)
        else:
            self.change(parent, first_child=at)
        self.last_child[parent] = at
        return at

    def add_path(self, labels):
        """Adds a path from the root, as much of it as there is room for: its last node."""
        at = nodes.ROOT
        for label in labels[:self.room()]:
            at = self.add(at, label)
        return at

    def renumber(self, numbers):
        """Moves each node to its number in this row, where the root's is 0; links follow."""
        moved = list(self.nodes)
        for number, node in zip(numbers, self.nodes):
            moved[number] = node._replace(
                parent=numbers[node.parent], first_child=numbers[node.first_child],
                next_sibling=numbers[node.next_sibling])
        self.nodes = moved

    def words(self):
        """The table's words, what is left of it free; what stands below each node is counted."""
        return nodes.words_of(nodes.counted(self.nodes) + [FREE] * self.room())
