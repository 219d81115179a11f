"""Pairs of lists through the calls of the built probe: checks, rows, order, inclusion.

Asks of the fixed pairs, then of so many by chance, up to the first difference.
"""

from made import list_pairs
from made.chance import Chance
from made.reached import lists_reached
from run.door import played
from second import calls

from .telling import Differences, verdict

PROGRAM = "probe"


def add_options(parser):
    """The options of this word."""
    parser.add_argument("--requests", type=int, default=1000, help="how many pairs by chance")


class Comparison:
    """The running count of pairs."""

    def __init__(self, options):
        self.options = options
        self.differences = Differences()
        self.reached = lists_reached()
        self.pairs = 0

    def play(self, door):
        """Asks of all pairs in one conversation."""
        options = self.options
        for who, pair in list_pairs.everything(Chance(options.seed), options.requests):
            for request in list_pairs.requests_of(*pair):
                door.ask(request, calls.answer(request))
            self.pairs += 1
            list_pairs.note_pair(self.reached, who, *pair)


def compare(command, options):
    """Compares, and says how it went; the status."""
    comparison = Comparison(options)
    asked, lines = played(command, comparison.play)
    comparison.differences.tell(lines)
    return verdict("lists", comparison.reached, "%d pairs, %d requests" % (
        comparison.pairs, asked), comparison.differences)
