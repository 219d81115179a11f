"""What each word of `tests/compare` must come to, and the count of what a run came to.

A thing reached is who came to it (a call, a line of the desk, a pair of lists) and what it was. A
run that misses one tried too little; an answer that is not laid down is a fault of the second
program.
"""

from collections import Counter
from itertools import product

from second.desk import (
    CALL_LETTERS, LIST_LETTERS, LONGEST_LINE, NODES, OTHER_LINE, SHEET_BYTES, SLOTS, SPACE)
from second.refusals import (
    ALREADY_HELD, BAD_NUMBER, BAD_ORDER, BAD_QUANTITY, BOOKMARK_AT_FAULT, DONE, EMPTY_KIT, LIST,
    NO_ROOM, NOT_HELD, NOT_SOUND, PUNCTUATION_AT_END, SHEET_AT_FAULT, TAG_TAKEN, TAG_ZERO,
    TOO_FAR_SHORT, TOO_MANY_UNITS, WRONG_LENGTH)
from second.register import MOST_SLOTS
from second.sheet import BYTE_PLACES

from .bookmarks import PAGE_LETTERS
from .card_requests import EXAMPLE_CARD
from .card_ways import CARD_BYTE_SET, CARD_CUT, card_altered, card_cut
from .label_requests import PLACE_LETTERS
from .many_parts import EDGE_PLACES
from .many_ways import BEHIND, WIDE_CUT, sizes_read
from .salvage_ways import (
    BYTE_SET, TORN_OFF, WIDE_TORN_OFF, byte_set, printed_altered, printed_torn, sizes_kept)
from .sheet_requests import PRINTED_SHEET
from .undone_ways import names_at_once
from .version_requests import SMALLEST
from .ways import ALL_WAYS, CUT_SHORT, LEFT_TO_LIMITS, names_of, sheet_read

ANSWER = "answer %d"

# Who came to something, where what is drawn by chance has to come to it by itself.
BY_CHANCE = "%s by chance"


class Reached:
    """The running count of what a run came to, beside what it must come to.

    Answers other than those that it must or may come to are not laid down.
    """

    def __init__(self, must, may=()):
        self.must = set(must)
        self.may = set(may)
        self.times = Counter()

    def note(self, who, *whats):
        """Counts what came; tells whether any of it is new."""
        new = any(self.times[who, what] == 0 for what in whats)
        self.times.update((who, what) for what in whats)
        return new

    def told(self):
        """All that was reached, by whomever, with how often."""
        times = Counter()
        for (_, what), count in self.times.items():
            times[what] += count
        return "; ".join("%s (%d)" % line for line in sorted(times.items(), key=in_order))

    def faults(self):
        """What was missed, and what should not have come, told in lines."""
        came = set(self.times)
        return (["%s never came to: %s" % missed for missed in sorted(self.must - came)]
                + ["%s came to: %s, which is not laid down" % (who, what)
                   for who, what in sorted(came - self.must - self.may) if is_answer(what)])


def is_answer(what):
    """Whether it is the number of an answer."""
    return what.startswith(ANSWER.split("%", maxsplit=1)[0])


def in_order(line):
    """Answers first, by their numbers, then all else by name."""
    what, _ = line
    return (0, int(what.split()[-1]), "") if is_answer(what) else (1, 0, what)


# Calls: the numbers that documents 01 and 02 lay down for each.

TABLES = {DONE, WRONG_LENGTH, NOT_SOUND}
NUMBERS = {
    "e": {DONE, WRONG_LENGTH},
    "p": TABLES | {BAD_NUMBER, PUNCTUATION_AT_END, ALREADY_HELD, NO_ROOM},
    "l": TABLES | {BAD_NUMBER, NOT_HELD},
    "n": TABLES | {NOT_HELD},
    "k": TABLES | LIST | {TOO_MANY_UNITS, TAG_ZERO, EMPTY_KIT, ALREADY_HELD, TAG_TAKEN, NO_ROOM},
    "f": TABLES | LIST | {NOT_HELD},
    "d": TABLES | LIST | {NOT_HELD},
    "w": TABLES | LIST,
    "c": TABLES | LIST,
    "W": TABLES | LIST | {NO_ROOM},
    "C": TABLES | LIST | {NO_ROOM},
    "a": TABLES | LIST | {NO_ROOM, TOO_FAR_SHORT},
    "g": TABLES | LIST | {BOOKMARK_AT_FAULT},
    "G": TABLES | LIST | {BOOKMARK_AT_FAULT},
    "#": TABLES | LIST,
    "s": TABLES | {NO_ROOM},
    "r": {DONE, WRONG_LENGTH, NO_ROOM, SHEET_AT_FAULT},
    # Never 2, as in reading, and never 16: a sheet may bring in what registration refuses.
    "S": {DONE, WRONG_LENGTH, NO_ROOM, SHEET_AT_FAULT},
    "x": TABLES | LIST | {NOT_HELD, NO_ROOM},
    # Never 3 to 8, whose cases are faults of the card, and never 16.
    "X": TABLES | {SHEET_AT_FAULT, NOT_HELD, EMPTY_KIT, ALREADY_HELD, TAG_TAKEN, NO_ROOM},
    # Zeroing never 2, and setting never 16.
    "z": {DONE, WRONG_LENGTH},
    "m": TABLES | {NOT_HELD, BAD_NUMBER},
    "u": TABLES | {NOT_HELD},
    "v": TABLES | {NOT_HELD},
}


def answers(numbers, who="%s"):
    """Each letter with each of its numbers."""
    return {(who % letter, ANSWER % number) for letter, row in numbers.items() for number in row}


# The printed sheet, the smallest one of version 2 and the example's card must be cut at every byte,
# and every byte of the printed one and of the card must be set to every value: by letter and way,
# who tells the way, all the spots where it must come, and the spot of a request.
CUT_AT = "%s of %d bytes"
SET_AT = "%s with byte %d set to %d"


def cuts_of(letter, whole):
    """A sheet or a card cut at every byte."""
    return ({CUT_AT % (letter, size) for size in range(len(whole))},
            lambda data: CUT_AT % (letter, len(data)))


def sets_of(letter, whole):
    """A sheet or a card with every byte set to every other value."""
    return ({SET_AT % (letter, at, value) for at, byte in enumerate(whole)
             for value in range(256) if value != byte},
            lambda data: SET_AT % (letter, *byte_set(data, whole)))


SPOTS = {
    ("r", CUT_SHORT): (sheet_read, *cuts_of("r", PRINTED_SHEET)),
    ("r", WIDE_CUT): (sizes_read, *cuts_of("r", SMALLEST)),
    ("S", TORN_OFF): (printed_torn, *cuts_of("S", PRINTED_SHEET)),
    ("S", WIDE_TORN_OFF): (sizes_kept, *cuts_of("S", SMALLEST)),
    ("S", BYTE_SET): (printed_altered, *sets_of("S", PRINTED_SHEET)),
    ("X", CARD_CUT): (card_cut, *cuts_of("X", EXAMPLE_CARD)),
    ("X", CARD_BYTE_SET): (card_altered, *sets_of("X", EXAMPLE_CARD)),
}
ANY_CALL = BY_CHANCE % "any call"


class CallsReached(Reached):
    """What fixed requests for these calls come to: the numbers laid down for them, and ways."""

    def __init__(self, letters, ways=ALL_WAYS):
        self.ways = {letter: ways.get(letter, []) for letter in letters}
        self.numbers = {letter: NUMBERS[letter] for letter in letters}
        super().__init__(
            answers(self.numbers) | self.all_ways()
            | {(spot, what) for (letter, what), (way, spots, _) in SPOTS.items() for spot in spots
               if way in self.ways.get(letter, [])})

    def all_ways(self):
        """Each call with each of its ways."""
        return {(letter, what) for letter, row in self.ways.items() for what in names_of(row)}

    def ways_of(self, request, answer):
        """The ways that this request went."""
        return [what for ways in self.ways[request.letter]
                for what, gone in ways(request, answer).items() if gone]

    def note_call(self, request, answer):
        """Counts one request and its right answer; tells whether it came to anything new."""
        gone = self.ways_of(request, answer)
        for (letter, what), (_, _, spot_of) in SPOTS.items():
            if letter == request.letter and what in gone:
                self.note(spot_of(request.blocks["I"]), what)
        return self.note(request.letter, ANSWER % answer.number, *gone)


class AllCallsReached(CallsReached):
    """The same with requests by chance: all numbers for each call, and most ways for any."""

    def __init__(self, letters):
        super().__init__(letters)
        self.must |= answers(self.numbers, BY_CHANCE)
        self.must |= {(ANY_CALL, what) for _, what in self.all_ways() if what not in LEFT_TO_LIMITS}

    def note_by_chance(self, request, answer):
        """Counts one request by chance and its right answer."""
        self.note(BY_CHANCE % request.letter, ANSWER % answer.number)
        self.note(ANY_CALL, *self.ways_of(request, answer))


# Lists: what a list's check says, and how the rows of two lists stand to each other.

# A refusal with the line that it says.
ON_LINE = "%d on line %d"
GOOD = "good"
GOOD_PLACE, BEYOND = "place %d good", "place %d just beyond the parts"
FIXED_CHECKS = ["4 by an odd length", "above 64 units",
                *(ON_LINE % fault for fault in product(sorted(LIST), range(1, 6))),
                *(GOOD_PLACE % place for place in EDGE_PLACES),
                *(BEYOND % place for place in BEHIND)]
CHECKS = [GOOD, "4 by a place", "5", "6"]
STANDINGS = ["before the other", "the same", "after the other", "begins the other",
             "within the other", "not within the other", "apart from the first place on",
             "apart behind a common beginning"]
PAIR = "a pair"


def lists_reached():
    """What pairs of lists come to, fixed ones and those by chance."""
    return Reached({(PAIR, what) for what in FIXED_CHECKS + CHECKS + STANDINGS}
                   | {(BY_CHANCE % PAIR, what) for what in CHECKS + STANDINGS})


# Node tables: verdicts on each kind of table.

SOUND, UNSOUND, WRONG = "sound", "not sound", "of wrong length"
VERDICT = "%s, %s"
TABLE = "a table"


def nodes_reached(verdicts):
    """What tables come to, given the verdicts that each kind must get."""
    return Reached({(TABLE, VERDICT % (kind, verdict))
                    for kind, row in verdicts.items() for verdict in row})


# Sequences: every number that a call can answer on tables that calls brought on, and turns.

TOOK_LAST_NODE = "insertions took the last free node"
LACKED_ONE_NODE = "insertions lacked one node"
ENTERED_AGAIN = "kits struck out were entered again"
AT_OTHER_NODES = "kits struck out and entered again stood at other nodes"
ALMOST_FILLED = "listings had kits almost filled"
BROUGHT_IN = "numbers that sheets alone bring in were registered and looked up"
# Counts by how many of the kits held they tell, and the calls that they are asked behind.
COUNTED = {"none": "counts of no kit", "one": "counts of one kit",
           "several": "counts of several kits and not all", "all": "counts of all kits by a list"}
COUNTED_BEHIND = {**{letter: "kits counted behind an accepted " + letter for letter in "epkdrSX"},
                  None: "kits counted behind a refusal"}
PAGED_ON = "pages were turned between other calls"
PAGED_TO_END = {letter: "listings were paged to their end by %s, and once more" % letter
                for letter in PAGE_LETTERS}
PAGED_AMID = {letter: "listings were paged to their end by %s while kits came and went" % letter
              for letter in PAGE_LETTERS}
PAGED_FULL = {letter: "listings of 4,096 nodes were paged to their end by " + letter
              for letter in PAGE_LETTERS}
PAGED_FAR = {letter: "listings of 4,095 pages were paged to their end by " + letter
             for letter in PAGE_LETTERS}
# Where a kit is struck out or entered between two pages, from the bookmark's row.
BEFORE_ROW, AT_ROW, BEHIND_ROW = "before the bookmark", "at the bookmark", "behind the bookmark"
CHANGED = {(letter, where): "kits were %s %s" % (what, where)
           for letter, what in (("d", "struck out"), ("k", "entered"))
           for where in (BEFORE_ROW, AT_ROW, BEHIND_ROW)}
CHANGED_FULL = {way: what + " in a table of 4,096 nodes" for way, what in CHANGED.items()}
VERSIONS_WRITTEN = {1: "sheets of version 1 written and read again",
                    2: "sheets of version 2 written and read again"}
ALL_SLOTS_TAKEN = "catalogues of 4,000 parts were carried on"
EMPTY_STRUCK = "empty kits of old tables were struck out"
OLD_TABLES_WRITTEN = "old tables with an empty kit were written without it and read again"
OLD_SHEETS_READ = "old sheets with an empty kit were read"
OLD_SHEETS_WRITTEN = "old sheets with an empty kit were read and written without it"
RESCUED_WHOLE = "faultless sheets were rescued as they are read"
RESCUED_WRITTEN = "sheets were rescued in part and written with just the kits kept"
RESCUED_NOTHING = "sheets were rescued without a kit"
RESCUED_OLD = "old sheets with an empty kit were rescued"
RESCUED_AGAIN = "kits that were lost were entered again, and the sheet was whole"
RESCUED_LAST_NODE = "the kits kept took the last free node"
RESCUED_TIGHT = "rescues lacked a slot or a node for the kits kept"
RESCUED_LEFT = "rescues were refused for a kit count cut short"
RESCUED_VERSIONS = {1: "sheets of version 1 were rescued in part",
                    2: "sheets of version 2 were rescued in part"}
RESCUED_ON_THE_WAY = "sheets were rescued in part between other calls"
CARDS_CARRIED = "cards were read where places differ and written there alike"
CARDS_BACK = "kits struck out came back by their cards, and the sheet was as before"
CARDS_OF_EMPTY = "cards of an empty kit of old tables were written and not taken"
CARDS_LAST_NODE = "cards took the last free node"
CARDS_LACKED_NODE = "cards lacked one node until a kit was struck out"
CARDS_BESIDE = {parts: "cards were carried between catalogues of %d parts" % parts
                for parts in (BYTE_PLACES, BYTE_PLACES + 1, MOST_SLOTS)}
CARDS_ON_THE_WAY = {"x": "cards were written between other calls",
                    "X": "cards were read between other calls"}
CARDS_HOME = "kits of the aim came in by their cards"
# Which table was shown, by whether the maker's number is set.
LABELS_SHOWN = {True: "maker's numbers were shown", False: "our numbers were shown as labels"}
LABELS_LEFT = {letter: "maker's numbers were left beyond the parts by an accepted " + letter
               for letter in "erS"}
LABELS_REFUSED = {letter: "%s was refused while a maker's number was left behind" % letter
                  for letter in PLACE_LETTERS}
LABELS_ZEROED = "maker's numbers that were left behind were zeroed"
LABELS_AGAIN = "maker's numbers that were left behind were shown beside new parts"
LABELS_UNREAD = "all other calls went alike beside other maker's numbers"
LABELS_BESIDE = {parts: "maker's numbers were set beside %d parts" % parts
                 for parts in (BYTE_PLACES, BYTE_PLACES + 1, MOST_SLOTS)}
ENDED_BESIDE = "pairs ended alike beside other maker's numbers"
ENDED_ALIKE = "pairs ended alike"
ENDED_APART = "pairs ended apart"
SEQUENCES = "sequences"


def sequences_reached():
    """What sequences of calls come to. 2 comes where maker's numbers are left behind alone."""
    numbers = {letter: row - {WRONG_LENGTH, NOT_SOUND} for letter, row in NUMBERS.items()}
    for letter in PLACE_LETTERS:
        numbers[letter] = numbers[letter] | {NOT_SOUND}
    turns = {TOOK_LAST_NODE, LACKED_ONE_NODE, ENTERED_AGAIN, AT_OTHER_NODES, ALMOST_FILLED,
             BROUGHT_IN, ENDED_ALIKE, ENDED_APART, ALL_SLOTS_TAKEN, EMPTY_STRUCK,
             OLD_TABLES_WRITTEN, OLD_SHEETS_READ, OLD_SHEETS_WRITTEN, *VERSIONS_WRITTEN.values(),
             *COUNTED.values(), *COUNTED_BEHIND.values(), *names_at_once(), PAGED_ON,
             *PAGED_TO_END.values(), *PAGED_AMID.values(), *PAGED_FULL.values(),
             *PAGED_FAR.values(), *CHANGED.values(), *CHANGED_FULL.values(), RESCUED_WHOLE,
             RESCUED_WRITTEN, RESCUED_NOTHING, RESCUED_OLD, RESCUED_AGAIN, RESCUED_LAST_NODE,
             RESCUED_TIGHT, RESCUED_LEFT, *RESCUED_VERSIONS.values(), RESCUED_ON_THE_WAY,
             CARDS_CARRIED, CARDS_BACK, CARDS_OF_EMPTY, CARDS_LAST_NODE, CARDS_LACKED_NODE,
             *CARDS_BESIDE.values(), *CARDS_ON_THE_WAY.values(), CARDS_HOME,
             *LABELS_SHOWN.values(), *LABELS_LEFT.values(), *LABELS_REFUSED.values(), LABELS_ZEROED,
             LABELS_AGAIN, LABELS_UNREAD, *LABELS_BESIDE.values(), ENDED_BESIDE}
    return Reached(answers(numbers) | {(SEQUENCES, turn) for turn in turns})


# The desk: every number that a line can get, each reason for `?`, and its own limits.

LOOKED_UP = {BAD_NUMBER, NOT_HELD}
DESK_NUMBERS = {
    "P": {DONE, BAD_NUMBER, PUNCTUATION_AT_END, ALREADY_HELD, NO_ROOM},
    "K": {DONE, TOO_MANY_UNITS, TAG_ZERO, EMPTY_KIT, ALREADY_HELD, TAG_TAKEN, NO_ROOM,
          BAD_ORDER, BAD_QUANTITY} | LOOKED_UP,
    **{letter: {DONE, BAD_ORDER, BAD_QUANTITY} | LOOKED_UP for letter in LIST_LETTERS},
    "W": {DONE, NO_ROOM},
}
# Those that lines by chance come to often.
OFTEN = {**{letter: {DONE} for letter in CALL_LETTERS}, "P": {DONE, ALREADY_HELD},
         "K": {DONE, BAD_ORDER, EMPTY_KIT, ALREADY_HELD, NOT_HELD}, "F": {DONE, NOT_HELD},
         "D": {DONE, BAD_ORDER, NOT_HELD}}
OTHERS = "?"
EMPTY, OVERLONG, EMPTY_FIELD, OTHER = (
    "an empty line", "an overlong line", "an empty field", "another line that is none")
LONGEST = "a line of 512 bytes"
# Faults with their lines. A first line is never out of order: the place looked up is not 0.
SAID_LINES = [(BAD_ORDER, 2), (BAD_ORDER, 40), (BAD_QUANTITY, 1), (BAD_QUANTITY, 40)]
# Replies that are given only at a limit of the desk's tables and outputs, or that say such a line.
LIMIT_REPLIES = {
    ("P", DONE, SLOTS): "the last slot",
    ("W", DONE, SHEET_BYTES): "a sheet of 8,192 bytes",
    ("W", NO_ROOM, SHEET_BYTES + 1): "a sheet one byte too long",
    ("s", DONE, NODES - 1): "a kit for each node but the root",
    ("K", NO_ROOM, 1): "one node too few",
    **{(letter, *fault): ON_LINE % fault for letter in "K" + LIST_LETTERS for fault in SAID_LINES},
}
IN_PIECES, TALKED, NO_LINE_FEED = "lines in pieces", "a conversation", "no last line feed"
INPUT = "input"


def desk_reached():
    """What scripts come to, fixed ones and those by chance."""
    return Reached(
        answers(DESK_NUMBERS) | answers(OFTEN, BY_CHANCE)
        | {(letter, what) for (letter, _, _), what in LIMIT_REPLIES.items()}
        | {(OTHERS, reason) for reason in (EMPTY, OVERLONG, EMPTY_FIELD, OTHER)}
        | {(BY_CHANCE % OTHERS, reason) for reason in (EMPTY_FIELD, OTHER)}
        | {(INPUT, what) for what in (LONGEST, IN_PIECES, TALKED, NO_LINE_FEED)},
        may=answers(DESK_NUMBERS, BY_CHANCE))


def reason_for_other(line):
    """Why a line is answered by `?`."""
    if line == b"":
        return EMPTY
    if len(line) > LONGEST_LINE:
        return OVERLONG
    return EMPTY_FIELD if b"" in line.split(SPACE) else OTHER


def note_reply(reached, line, reply, who="%s"):
    """Counts one line and its right reply."""
    if reply == OTHER_LINE:
        reached.note(who % OTHERS, reason_for_other(line))
        return
    letter, number, value = reply.decode("ascii").split(" ")[:3]
    reached.note(who % letter, ANSWER % int(number))
    limit = LIMIT_REPLIES.get((letter, int(number), int(value)))
    if limit:
        reached.note(letter, limit)
    if len(line) == LONGEST_LINE:
        reached.note(INPUT, LONGEST)
