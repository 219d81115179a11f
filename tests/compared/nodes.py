"""Node tables, right and damaged, through the calls of the built probe: the verdict on each.

Asks of the fixed tables, of each kind of table of 4,096 nodes with so many damages, and of so many
by chance, up to the first difference.
"""

from made import node_tables
from made.reached import SOUND, nodes_reached
from run.door import played
from second import calls

from .telling import Differences, verdict

PROGRAM = "probe"


def add_options(parser):
    """The options of this word."""
    parser.add_argument("--requests", type=int, default=2000, help="how many tables by chance")
    parser.add_argument("--damages", type=int, default=40,
                        help="how many of each kind with 4,096 nodes")


class Comparison:
    """The running count of tables, and of those that are sound for some number of parts."""

    def __init__(self, options):
        self.options = options
        self.differences = Differences()
        self.reached = nodes_reached(node_tables.VERDICTS)
        self.tables = 0
        self.sound = 0

    def play(self, door):
        """Asks of all tables in one conversation."""
        options = self.options
        for table in node_tables.everything(options.seed, options.requests, options.damages):
            verdicts = {}
            for parts, request in node_tables.requests_of(table):
                right = calls.answer(request)
                verdicts[parts] = node_tables.verdict(right)
                door.ask(request, right)
            self.tables += 1
            self.sound += SOUND in verdicts.values()
            node_tables.note_table(self.reached, table, verdicts)


def compare(command, options):
    """Compares, and says how it went; the status."""
    comparison = Comparison(options)
    asked, lines = played(command, comparison.play)
    comparison.differences.tell(lines)
    return verdict("nodes", comparison.reached,
                   "%d tables, %d of them sound for some number of parts, %d requests" % (
                       comparison.tables, comparison.sound, asked), comparison.differences)
