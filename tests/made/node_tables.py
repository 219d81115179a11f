"""Node tables, right and damaged, each with its kind, and the calls that show a verdict on it.

An insertion of many units shows whether the table is sound, by 2 or another answer, and then by
12 or the table how many of its nodes are free; beside no parts there is the empty list alone, which
is refused. The count for the empty list shows the root's word, less its own tag.
"""

from collections import namedtuple
from itertools import count, islice

from second.lent import Request
from second.nodes import NODE_WORDS, Node, nodes_of, words_of
from second.refusals import NOT_SOUND, WRONG_LENGTH
from second.register import MOST_SLOTS, numbers_of
from second.sheet import BYTE_PLACES

from . import index_requests
from .chance import Chance
from .counts import by_chains, counted
from .index_requests import LARGE_LENGTHS, LONGEST_LIST, SMALL_LENGTHS
from .many_parts import sibling_words
from .reached import SOUND, TABLE, UNSOUND, VERDICT, WRONG
from .tables import (
    EDGE_WORDS, LARGE_KINDS, Stock, counted_again, large_table, miscounted, parts_register,
    raw_path, table)

# The kinds of tables, and the verdicts that each must get.
LENGTHS, BROKEN, CHAINS, PATHS = "lengths", "broken tables", "broken chains", "paths"
SIBLINGS, SWEPT, BY_CHANCE = "255 siblings", "words changed one by one", "by chance"
FAR_LABELS, ALL_SIBLINGS = "labels around 255 and 4,000", "4,000 siblings"
COUNTS, MISCOUNTED = "wrong counts", "counts changed by chance"
LARGE = "4,096 nodes, %s"
VERDICTS = {
    LENGTHS: {SOUND, UNSOUND, WRONG}, BROKEN: {SOUND, UNSOUND}, CHAINS: {SOUND, UNSOUND},
    COUNTS: {SOUND, UNSOUND}, PATHS: {SOUND, UNSOUND}, SIBLINGS: {SOUND, UNSOUND},
    FAR_LABELS: {SOUND, UNSOUND}, ALL_SIBLINGS: {SOUND, UNSOUND},
    SWEPT: {SOUND, UNSOUND}, MISCOUNTED: {UNSOUND},
    **{LARGE % kind: {SOUND, UNSOUND} for kind in LARGE_KINDS}, BY_CHANCE: {SOUND, UNSOUND},
}

# The first tag that is tried for the insertion.
FIRST_TAG = 60001


# A table: its kind, the parts that it is made for, all numbers of parts asked for, and its words.
Table = namedtuple("Table", "kind own parts words")


def around(kind, parts, words):
    """A table beside one part less, these parts and one more."""
    return Table(kind, parts, range(max(0, parts - 1), min(MOST_SLOTS, parts + 1) + 1), words)


def tables_of(kind, row):
    """Each table of these requests to the probe once, around its number of parts."""
    seen = set()
    for asked in row:
        parts, words = len(numbers_of(asked.blocks["R"])), tuple(asked.blocks["N"])
        if (parts, words) not in seen:
            seen.add((parts, words))
            yield around(kind, parts, words)


def limits():
    """Lengths, one table for each way to break a condition alone, paths at their limits."""
    for length in SMALL_LENGTHS:
        yield Table(LENGTHS, 2, range(3), [0] * length)
        yield Table(LENGTHS, 0, range(1), [1] * length)
    yield from tables_of(BROKEN, index_requests.broken_tables())
    yield from tables_of(CHAINS, index_requests.broken_chains())
    yield from tables_of(COUNTS, index_requests.wrong_counts())
    yield from tables_of(PATHS, index_requests.raw_paths())
    # every number of parts that a byte tells, and labels beyond it
    yield Table(PATHS, BYTE_PLACES, range(BYTE_PLACES + 3), raw_path((1, 2)))
    yield around(PATHS, BYTE_PLACES, raw_path((300, 65535)))
    for label in (BYTE_PLACES, BYTE_PLACES + 1, BYTE_PLACES + 2, 512, MOST_SLOTS):
        yield around(FAR_LABELS, label, raw_path((1, label)))
        yield around(FAR_LABELS, label - 1, raw_path((label - 1, label)))
    yield around(FAR_LABELS, MOST_SLOTS, raw_path((MOST_SLOTS + 1,)))
    siblings = table(BYTE_PLACES + 1, *(
        ((place,), 1000 - place) for place in range(BYTE_PLACES, 0, -1)))
    yield around(SIBLINGS, BYTE_PLACES, siblings)
    # the first and the last of 255 siblings lost from the chain, and a ring at its end
    for at, link in ((BYTE_PLACES, 0), (1, 1), (2, 0), (BYTE_PLACES // 2, BYTE_PLACES)):
        changed = list(siblings)
        changed[at * NODE_WORDS + 2] = link
        yield around(SIBLINGS, BYTE_PLACES, changed)
        yield around(SIBLINGS, BYTE_PLACES, words_of(counted(nodes_of(changed), by_chains)))


def all_siblings():
    """4,000 siblings, and the first, one of the middle and the last lost, or a ring among them."""
    words = sibling_words()
    yield around(ALL_SIBLINGS, MOST_SLOTS, words)
    sibling = Node._fields.index("next_sibling")
    for at, link in ((1, 3), (BYTE_PLACES, 0), (BYTE_PLACES + 1, BYTE_PLACES), (MOST_SLOTS - 1, 0),
                     (MOST_SLOTS, 1), (MOST_SLOTS, MOST_SLOTS)):
        changed = list(words)
        changed[at * NODE_WORDS + sibling] = link
        yield Table(ALL_SIBLINGS, MOST_SLOTS, [MOST_SLOTS], changed)


def damaged(chance, words, times):
    """The table with so many words changed, mostly to values that could be right elsewhere."""
    words = list(words)
    for _ in range(times):
        at = chance.below(len(words))
        words[at] = chance.pick((
            0, words[at] + 1, max(0, words[at] - 1), chance.pick(words),
            chance.below(len(words) // NODE_WORDS + 1), chance.pick(EDGE_WORDS),
            chance.below(65536))) % 65536
    return counted_again(chance, words)


def by_chance(chance):
    """A table brought on by insertions and deletions, then damaged more often than not."""
    stock = Stock(chance)
    while True:
        register, words, _ = stock.catalogue()
        parts = len(numbers_of(register))
        yield around(BY_CHANCE, parts, damaged(chance, words, chance.pick((0, 1, 1, 1, 2, 3))))


def with_wrong_counts(chance):
    """A table brought on in the same way, in which counts alone are changed."""
    stock = Stock(chance)
    while True:
        register, words, _ = stock.catalogue()
        parts = len(numbers_of(register))
        yield Table(MISCOUNTED, parts, [parts], miscounted(chance, words))


def large(chance, damages):
    """Tables of 4,096 nodes, whole, with damage and with wrong counts; lengths around them."""
    for length in LARGE_LENGTHS:
        yield Table(LENGTHS, 1, range(2), [0] * length)
    yield from all_siblings()
    for kind in LARGE_KINDS:
        words = list(large_table(kind))
        yield around(LARGE % kind, BYTE_PLACES, words)
        for _ in range(damages):
            changed = damaged(chance, words, chance.pick((1, 1, 2)))
            yield Table(LARGE % kind, BYTE_PLACES, [BYTE_PLACES], changed)
            yield Table(MISCOUNTED, BYTE_PLACES, [BYTE_PLACES], miscounted(chance, words))


def everything(seed, wanted, damages):
    """All fixed tables, large ones with so much damage, so many by chance, and half as many of
    which the counts alone are wrong."""
    chance = Chance(seed)
    yield from limits()
    yield from tables_of(SWEPT, index_requests.sweeps())
    yield from large(chance, damages)
    yield from islice(by_chance(chance), wanted)
    yield from islice(with_wrong_counts(chance), wanted // 2)


def requests_of(asked):
    """For each number of parts an insertion of many units, with a tag that no node bears.

    Beside its own number of parts also the count for the empty list.
    """
    yield asked.own, Request("#", R=parts_register(asked.own, max(1, asked.own)), N=asked.words,
                             note="%s, all kits counted" % asked.kind)
    taken = set(asked.words)
    tag = next(tag for tag in count(FIRST_TAG) if tag not in taken)
    for parts in asked.parts:
        yield parts, Request(
            "k", tag, R=parts_register(parts, min(MOST_SLOTS, parts + 1)), N=asked.words,
            L=LONGEST_LIST[:2 * parts], note="%s, beside %d parts" % (asked.kind, parts))


def verdict(answer):
    """The verdict on a table that an answer shows."""
    return {WRONG_LENGTH: WRONG, NOT_SOUND: UNSOUND}.get(answer.number, SOUND)


def note_table(reached, asked, verdicts):
    """Counts the verdict on a table beside its own number of parts."""
    reached.note(TABLE, VERDICT % (asked.kind, verdicts[asked.own]))
