"""Long sequences of calls of the built probe.

The tables that the probe answered go into its next request. Plays the fixed sequences, then so
many by chance: by turns one catalogue that is filled and emptied, and two catalogues whose sheets
must agree exactly when their contents do. No call ever leaves a tag at the root, but in tables that
were lent with one. A kit that is entered and struck out next leaves both tables as they were.
Listings are paged through, and kits come and go between two pages. Torn sheets are rescued, and
what is written then is the sheet of just the kits kept. Cards go from one catalogue to another in
which the parts stand at other places. Maker's numbers are set, cleared and shown among all other
calls, which leave them, beyond the parts too.
"""

from made import (
    card_sequences, empty_sequences, index_sequences, label_sequences, page_sequences,
    salvage_sequences, sheet_sequences, undone_sequences, version_sequences)
from made.chance import Chance
from made.reached import sequences_reached
from run.door import played

from .telling import Differences, verdict

PROGRAM = "probe"

# Each sequence draws from its own row of chance, so that it does not hang on those before it.
SEED_STRIDE = 1_000_003


def add_options(parser):
    """The options of this word."""
    parser.add_argument("--sequences", type=int, default=300, help="how many by chance")


class Comparison:
    """The running count of sequences, calls and differences."""

    def __init__(self, command, seed):
        self.command = command
        self.seed = seed
        self.sequences = 0
        self.calls = 0
        self.differences = Differences()
        self.reached = sequences_reached()

    def play(self, what, sequence, *arguments):
        """Plays one sequence in a conversation of its own, to its end or its first difference."""
        self.sequences += 1
        asked, lines = played(
            self.command, lambda door: sequence(door, *arguments),
            chance=Chance(self.seed * SEED_STRIDE + self.sequences), reached=self.reached)
        self.calls += asked
        if lines:
            self.differences.tell(["sequence %d, seed %d, %s" % (
                self.sequences, self.seed, what)] + lines)


def by_chance(comparison, turn, two):
    """Plays one catalogue of the kind whose turn it is, or two that end alike by turns."""
    if two:
        comparison.play("two catalogues", sheet_sequences.pair, turn % 2 == 0)
    else:
        kind = index_sequences.KINDS[turn % len(index_sequences.KINDS)]
        comparison.play(kind.name, index_sequences.by_chance, kind)


def compare(command, options):
    """Compares, and says how it went; the status."""
    comparison = Comparison(command, options.seed)
    comparison.play("fixed", index_sequences.fixed)
    comparison.play("4,096 nodes", index_sequences.full_table)
    comparison.play("a torn label", sheet_sequences.torn_label)
    comparison.play("old tables with an empty kit", empty_sequences.old_tables)
    comparison.play("old sheets with an empty kit", empty_sequences.old_sheets)
    comparison.play("struck out at once, around the room", undone_sequences.around_room)
    comparison.play("struck out at once, few nodes", undone_sequences.few_nodes)
    comparison.play("struck out at once, 4,096 nodes", undone_sequences.most_nodes)
    comparison.play("struck out and entered again", undone_sequences.entered_again)
    comparison.play("pages by hand", page_sequences.by_hand)
    comparison.play("paged to the end", page_sequences.to_the_end)
    comparison.play("changed between pages", page_sequences.changed_between)
    comparison.play("paged through 4,096 nodes", page_sequences.full_tables)
    comparison.play("changed between pages of 4,096 nodes", page_sequences.changed_in_full)
    comparison.play("torn anywhere", salvage_sequences.torn_anywhere)
    comparison.play("other kits announced", salvage_sequences.counts_announced)
    comparison.play("old sheets torn", salvage_sequences.old_sheets)
    comparison.play("room for the kits kept", salvage_sequences.just_enough)
    comparison.play("cards by hand", card_sequences.by_hand)
    comparison.play("cards carried over", card_sequences.carried_over)
    comparison.play("cards of an empty kit", card_sequences.old_cards)
    comparison.play("room for a card's kit", card_sequences.just_enough)
    comparison.play("cards beside many parts", card_sequences.beside_many_parts)
    comparison.play("maker's numbers by hand", label_sequences.by_hand)
    comparison.play("maker's numbers left behind", label_sequences.left_behind)
    comparison.play("maker's numbers beside many parts", label_sequences.beside_many_parts)
    comparison.play("maker's numbers that no other call reads", label_sequences.unread)
    comparison.play("both versions", version_sequences.both_versions)
    comparison.play("4,000 parts", version_sequences.four_thousand_parts)
    for turn in range(options.sequences):
        by_chance(comparison, *divmod(turn, 2))
    return verdict("sequences", comparison.reached, "%d sequences, %d calls" % (
        comparison.sequences, comparison.calls), comparison.differences)
