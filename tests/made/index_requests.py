"""Requests that try the index: insertion, finding, deletion, the questions, and soundness."""

from itertools import chain, cycle, product

from run.frame import ROOM
from second import index, nodes
from second.kits import MOST_QUANTITY, beginnings, lines_of, lines_of_words, units, words_of
from second.lent import Request
from second.nodes import MOST_NODES, NODE_WORDS
from second.register import filled
from second.sheet import BYTE_PLACES

from .bookmarks import PAGE_LETTERS, not_begun
from .broken_tables import (
    BROKEN_TABLES, LOST_NODES, RAW_PATHS, STEM, TWO_CHAINS, WRONG_COUNTS, WRONG_LINKS)
from .counts import by_parents, counted
from .register_requests import with_byte
from .short_cases import CONTAINING, DELETE, PRINTED_STEPS, SHORT_CASES, WITHIN
from .tables import (
    LARGE_KINDS, Stock, copied, example_words, large_table, parts_register, raw_path,
    some_new_tag, some_row, some_tables, swapped, table)

# The calls that are lent both tables and look at them, and those that take a list.
TABLE_LETTERS = "kfdwcWCagGs#xX"
LIST_LETTERS = "kfdwcWCagG#x"
QUESTION_LETTERS = "wcWCagG#"
ALL_LETTERS = "e" + TABLE_LETTERS

# Contents of an output before the call, so that what lies behind the answer can be seen.
BEFORE = [61001, 61002, 61003, 61004, 61005, 61006, 61007, 61008, 61009, 61010, 61011, 61012]
SECOND_BEFORE = [62000 + at for at in range(1, 13)]

# Lengths of node tables: nothing and one word, and around one node and two; some that were right
# while a node had six words, of which the last is right again.
SMALL_LENGTHS = [0, 1, NODE_WORDS - 1, NODE_WORDS, NODE_WORDS + 1, 2 * NODE_WORDS - 1,
                 2 * NODE_WORDS, 2 * NODE_WORDS + 1, 12, 18, 36, 42]
# Around the largest table, the largest of six words a node, and the probe's room.
LARGE_LENGTHS = [(MOST_NODES - 1) * NODE_WORDS, MOST_NODES * NODE_WORDS - 1,
                 MOST_NODES * NODE_WORDS, MOST_NODES * NODE_WORDS + 1,
                 (MOST_NODES + 1) * NODE_WORDS, MOST_NODES * 6, ROOM["N"]]

# The longest unit row with few parts: 15 of each of four parts and 4 of a fifth.
LONGEST_LIST = [1, 15, 2, 15, 3, 15, 4, 15, 5, 4]
TOO_LONG_LIST = [1, 15, 2, 15, 3, 15, 4, 15, 5, 5]

# Of so many lists by chance that are inserted one more is empty.
EMPTY_LISTS = 12

# How many lines long lists have ("Volunteers type .. forty"), and how many numbers odd ones.
LINE_COUNTS = [1, 2, 40, 127, 4000]
ODD_LENGTHS = [1, 3, 8191]


def lent_beside(letter, count=6):
    """What a call is lent beside its list: an output of so many places for a listing, two where
    shortfalls stand beside the tags, and for a page a bookmark not begun."""
    return {"P": BEFORE[:count] if letter in "WCa" else [],
            "Q": SECOND_BEFORE[:count] if letter == "a" else [],
            "K": not_begun() if letter in PAGE_LETTERS else []}


def tag_or_most(letter, tag):
    """Argument A: this tag, or the most that a kit may lack, from 0 to 6."""
    return tag % 7 if letter == "a" else tag


def limits():
    """Every limit of the node table, of a list and of the calls on kits."""
    yield from table_lengths()
    yield from emptied_tables()
    yield from tables_in_order()
    yield from spelled_parts()
    yield from broken_tables()
    yield from broken_chains()
    yield from wrong_counts()
    yield from raw_paths()
    yield from old_tables()
    yield from list_limits()
    yield from insertions()
    yield from node_limits()
    yield from deletions()
    yield from short_cases()
    yield from outputs()
    yield from bins()


def table_lengths():
    """Node tables around one and two nodes; the longest ones are among the large requests."""
    register = parts_register(2)
    for length in SMALL_LENGTHS:
        for letter in ALL_LETTERS:
            yield Request(letter, 7, R=register, N=[0] * length, L=[1, 1], **lent_beside(letter),
                          O=b"before the sheet", note="node table of %d words" % length)


def emptied_tables():
    """Tables that hold parts and kits: with a slot and nodes to spare, and with none."""
    for slots, node_count in ((3, 6), (2, 4)):
        yield Request("e", R=parts_register(2, slots),
                      N=table(node_count, ((1,), 4), ((1, 2, 2), 9)),
                      note="%d slots and %d nodes emptied" % (slots, node_count))


def pairs_of_tables():
    """A register and a node table, each right, of wrong length, empty or not sound, with a note."""
    registers = {"right": parts_register(2), "wrong length": bytes(33), "empty": b"",
                 "not sound": bytes(32) + parts_register(1, 1)}
    tables = {"right": [0] * 2 * NODE_WORDS, "wrong length": [0] * (2 * NODE_WORDS + 1),
              "empty": [], "not sound": nodes.words_of(BROKEN_TABLES["a node on no chain"])}
    for register_note, register in registers.items():
        for table_note, words in tables.items():
            yield register, words, "register %s, nodes %s" % (register_note, table_note)


def tables_in_order():
    """The order "1 register, 1 nodes, 2 register, 2 nodes", and 8 and 4 behind them."""
    for register, words, note in pairs_of_tables():
        for letter in ALL_LETTERS:
            for tag, bad in ((0, [1]), (3, [1, 0]), (4, [2, 1])):
                yield Request(letter, tag, R=register, N=words, L=bad, **lent_beside(letter),
                              O=b"a sheet goes here at the start of this output and more",
                              note=note)


def on_two_parts(letter, register, note):
    """A request on two kits, of one unit each of the parts 1 and 2."""
    return Request(letter, tag_or_most(letter, 77), R=register, N=table(3, ((1,), 4), ((2,), 9)),
                   L=[2, 1], **lent_beside(letter, 3), O=bytes(60), note=note)


def spelled_parts():
    """Parts whose numbers differ in case only, one of them twice, and punctuation at an end."""
    for numbers in ([b"74ls00", b"74LS00"], [b"74ls00", b"74LS00", b"74ls00"],
                    [b"CD4016-", b".4016", b"/"]):
        for letter in TABLE_LETTERS:
            yield on_two_parts(letter, filled(numbers, 3), "parts %s" % numbers)


def broken_tables():
    """One small table for each way in which a condition of soundness alone is broken."""
    two = parts_register(2)
    for note, row in BROKEN_TABLES.items():
        for letter in TABLE_LETTERS:
            yield Request(letter, 6, R=two, N=nodes.words_of(row), L=[2, 1],
                          **lent_beside(letter), O=bytes(60), note=note)


def broken_chains():
    """The two chains, sound and broken, for every call that looks at a table."""
    for note, row in {"two chains": TWO_CHAINS, **LOST_NODES, **WRONG_LINKS}.items():
        for letter in TABLE_LETTERS:
            yield Request(letter, 6, R=parts_register(3), N=nodes.words_of(row), L=[1, 2],
                          **lent_beside(letter), O=bytes(60), note=note)


def wrong_counts():
    """Tables whose counts alone are wrong, for every call that looks at a table; two are sound."""
    for note, row in {"two chains": TWO_CHAINS, "a stem": STEM, **WRONG_COUNTS}.items():
        for letter in TABLE_LETTERS:
            yield Request(letter, 6, R=parts_register(3), N=nodes.words_of(row), L=[1, 2],
                          **lent_beside(letter), O=bytes(60), note=note)


def raw_paths():
    """Paths of 64 and 65 nodes, of 15 and 16 equal labels, and labels at the parts' limit."""
    five = parts_register(5)
    for note, row in RAW_PATHS.items():
        words = raw_path(row, spare=2)
        listed = words_of(lines_of(row))
        for letter in TABLE_LETTERS:
            yield Request(letter, 9, R=five, N=words, L=listed, **lent_beside(letter),
                          O=bytes(90), note=note)
        yield Request("k", 9, R=five, N=words, L=[5, 1], note=note)
    # Labels count against the parts registered, not against the slots.
    for parts, slots in ((0, 3), (1, 3), (2, 3), (3, 3)):
        for letter in TABLE_LETTERS:
            yield Request(letter, 9, R=parts_register(parts, slots), N=raw_path((2,)), L=[],
                          **lent_beside(letter), O=bytes(60),
                          note="label 2 beside %d parts in %d slots" % (parts, slots))


def old_tables():
    """Tables of six words a node, sound before request 7, whose length is right all the same."""
    for kits in ([], [((), 3)], [((1,), 4), ((1, 2), 9), ((2, 2, 2), 1)]):
        words = [word for node in nodes.nodes_of(table(7, *kits)) for word in node[:-1]]
        for letter in TABLE_LETTERS:
            yield Request(letter, 6, R=parts_register(2), N=words, L=[1, 1],
                          **lent_beside(letter), O=bytes(60),
                          note="7 nodes of six words, %d kits" % len(kits))


def list_limits():
    """Lists of odd length, and each line's 4, 5 and 6 alone and before one another."""
    three = parts_register(3, 5)
    words = table(24, ((1,), 1), ((1, 2), 2), ((2, 3), 3), ((1,) * 15, 4))
    lists = [
        [], [1], [0], [9], [1, 1, 2], [0, 0, 0], [1, 1, 1], [9, 9, 9], [1, 0, 2],
        [0, 1], [0, 0], [1, 1, 0, 1], [1, 1, 0, 0], [1, 1, 1, 1], [2, 1, 1, 1], [1, 1, 2, 1, 2, 1],
        [1, 1, 3, 1, 2, 1], [3, 1], [4, 1], [5, 1], [6, 1], [255, 1], [256, 1], [257, 1],
        [65535, 1], [3, 1, 4, 1], [1, 0], [1, 1], [1, 2], [1, 14], [1, 15], [1, 16], [1, 17],
        [1, 256], [1, 257], [1, 32769], [1, 65535], [4, 0], [4, 16], [0, 16], [1, 0, 1, 1],
        [1, 0, 4, 1], [1, 16, 0, 1], [4, 1, 1, 0], [1, 1, 4, 1, 2, 1], [1, 1, 2, 0, 4, 1],
        [4, 1, 4, 1], [2, 1, 4, 1, 3, 1], [2, 1, 3, 0], [1, 1, 2, 16], [2, 1, 3, 1],
        [1, 15, 2, 15, 3, 15], [1, 1, 2, 1, 3, 1],
    ]
    for at, listed in enumerate(lists):
        for letter in LIST_LETTERS:
            yield Request(letter, tag_or_most(letter, 100 + at), R=three, N=words, L=listed,
                          **lent_beside(letter), note="list %s" % listed)
        yield Request("k", 0, R=three, N=words, L=listed, note="tag 0 and list %s" % listed)
    for listed in ([], [1, 1], [1, 0], [0, 0], [1]):
        for letter in LIST_LETTERS:
            yield Request(letter, 5, R=parts_register(0, 1), N=[0] * 2 * NODE_WORDS, L=listed,
                          **lent_beside(letter), note="no parts, list %s" % listed)
    five = parts_register(5)
    for listed in (LONGEST_LIST, TOO_LONG_LIST, [1, 15, 2, 15, 3, 15, 4, 15, 5, 15]):
        held = table(70, (units(lines_of_words(LONGEST_LIST)), 12))
        for letter in LIST_LETTERS:
            for words in ([0] * NODE_WORDS, [0] * 65 * NODE_WORDS, held):
                yield Request(letter, 12, R=five, N=words, L=listed, **lent_beside(letter),
                              note="%s %d units" % ("insert" if letter == "k" else "ask for",
                                                    sum(listed[1::2])))


def insertions():
    """19, 9, 10 and 12 in order, chains at their start, middle and end, and beginnings."""
    four = parts_register(4)
    words = table(9, ((2,), 20), ((2, 2, 3), 23), ((4,), 40), ((1, 1), 11), ((), 7))
    tries = [
        ([2, 1], 20), ([2, 1], 40), ([2, 1], 77), ([], 7), ([], 40), ([3, 1], 20), ([3, 1], 7),
        ([2, 2], 50), ([1, 1], 51), ([1, 2], 52), ([3, 1], 53), ([1, 1, 2, 1], 54), ([1, 3], 55),
        ([2, 2, 3, 2], 56), ([2, 2, 3, 1], 57), ([2, 2, 4, 1], 58), ([2, 1, 3, 1], 65535),
        ([2, 1, 4, 2], 59), ([4, 2], 1), ([4, 1], 2), ([3, 1, 4, 1], 60), ([3, 2, 4, 1], 61),
        ([3, 1, 4, 2], 62), ([3, 15], 63), ([3, 15], 20), ([1, 15, 2, 15], 64),
    ]
    for listed, tag in tries:
        for room in (7, 8, 9, 10, 30):
            resized = (words + [0] * 200)[:room * NODE_WORDS]
            yield Request("k", tag, R=four, N=resized, L=listed,
                          note="insert %s, tag %d, into a small table" % (listed, tag))
    example = list(example_words())
    for listed in ([], [1, 1], [1, 2], [1, 3], [2, 1], [2, 1, 3, 1], [3, 1], [3, 2], [1, 1, 2, 2],
                   [1, 1, 3, 1], [1, 2, 3, 1], [2, 2], [2, 1, 3, 3], [1, 2, 2, 1, 3, 1]):
        for tag in (5, 10, 99):
            yield Request("k", tag, R=parts_register(3), N=example, L=listed,
                          note="insert %s, tag %d, freed nodes" % (listed, tag))


def node_limits():
    """The last free node and one too few, from a root alone to a path of 64."""
    five = parts_register(5)
    for count in (1, 2, 3, 63, 64, 65, 66):
        for listed in ([], [1, 1], [1, 2], [5, 15], LONGEST_LIST):
            yield Request("k", 8, R=five, N=[0] * count * NODE_WORDS, L=listed,
                          note="insert %s among %d nodes" % (listed, count))
    # A hole in the middle is taken first, and the rest behind.
    words = table(8, ((1,), 1), ((2,), 2), ((3,), 3), ((4,), 4), ((5,), 5))
    words = index.deleted(index.deleted(words, (2,)), (4,))
    for listed in ([2, 1], [2, 2], [2, 3], [2, 4], [2, 5], [5, 2], [1, 1, 2, 2], [4, 9]):
        yield Request("k", 9, R=five, N=words, L=listed, note="insert %s into holes" % listed)


def deletions():
    """Each kit of a branching table struck out, and lists that are not held."""
    four = parts_register(4)
    kits = [((), 1), ((1,), 2), ((1, 2), 3), ((1, 2, 3), 4), ((1, 2, 3, 3), 5), ((1, 4), 6),
            ((2, 2, 2), 7), ((2, 3), 8), ((3,), 9), ((4, 4, 4, 4), 10)]
    words = table(20, *kits)
    rows = [row for row, _ in kits] + [(2,), (2, 2), (4,), (4, 4), (1, 1), (1, 2, 4), (3, 3)]
    for row in rows:
        for letter in "fd":
            yield Request(letter, R=four, N=words, L=words_of(lines_of(row)),
                          note="row %s" % (row,))
    for first, _ in kits:
        less = index.deleted(words, first)
        for row in [()] + [held for held, _ in kits if held and held[:1] == first[:1]]:
            yield Request("d", R=four, N=less, L=words_of(lines_of(row)),
                          note="row %s after %s" % (row, first))
    for row in beginnings([(1, 1, 2), (1, 3), (2, 3, 3)]):
        for letter in "fd":
            yield Request(letter, R=parts_register(3), N=example_words(),
                          L=words_of(lines_of(row)), note="row %s" % (row,))


# The calls that try each kind of short case.
CASE_LETTERS = {WITHIN: "wWag", CONTAINING: "cCG", DELETE: "d"}


def short_cases():
    """Document 01's table of short cases, and the wrong turns that the trade has seen."""
    five = parts_register(5)
    for held, question, row, _ in SHORT_CASES + PRINTED_STEPS:
        words = table(6, *((kit, tag) for tag, kit in enumerate(held, start=11)))
        for letter in CASE_LETTERS[question]:
            yield Request(letter, R=five, N=words, L=words_of(lines_of(row)),
                          **lent_beside(letter, 3), note="%s %s of %s" % (question, row, held))
    held = [((1, 2, 5), 31), ((1, 3), 32), ((2, 3), 33), ((2, 5), 34), ((3,), 35), ((3, 3), 36),
            ((1, 1, 4), 37), ((4, 5), 38), ((1, 5, 5), 39), ((), 30)]
    lists = [[], [1, 1], [2, 1], [3, 1], [3, 2], [4, 1], [5, 1], [5, 2], [1, 1, 5, 1],
             [2, 1, 5, 1], [1, 1, 2, 1, 5, 1], [1, 2, 4, 1], [1, 1, 4, 1], [1, 15, 2, 15, 3, 1],
             [1, 1, 2, 1, 3, 1, 4, 1, 5, 1], [1, 15, 2, 15, 3, 15, 4, 15, 5, 15], [2, 1, 3, 2]]
    for kits in (held, held[:-1], held[:4]):
        words = table(30, *kits)
        for listed in lists:
            for letter in QUESTION_LETTERS:
                yield Request(letter, 1, R=five, N=words, L=listed, **lent_beside(letter, 11),
                              note="question on %s" % listed)


def outputs():
    """Listings into an output exactly full, one short, empty, and with room behind."""
    three = parts_register(3)
    kits = [((), 1), ((1,), 2), ((1, 2), 3), ((1, 2, 3), 4), ((2,), 5), ((3, 3), 65535)]
    words = table(9, *kits)
    for room in range(8):
        for letter in "WC":
            for listed in ([], [1, 1], [2, 1], [1, 1, 2, 1], [1, 15, 2, 15, 3, 15], [3, 3]):
                yield Request(letter, R=three, N=words, L=listed, P=BEFORE[:room],
                              note="list all into %d places" % room)


def bins():
    """Bins above 64 units, with every quantity around what a kit needs."""
    two = parts_register(2)
    words = table(50, ((1,) * 15 + (2,) * 15, 1), ((1,) * 14, 2), ((2,) * 15, 3), ((1, 2), 4))
    for first in (1, 13, 14, 15):
        for second in (1, 14, 15):
            for letter in QUESTION_LETTERS:
                yield Request(letter, 1, R=two, N=words, L=[1, first, 2, second],
                              **lent_beside(letter), note="%d and %d" % (first, second))


def sweeps():
    """Words of small tables set to many values, and nodes moved, for one call after the other.

    Every byte value in a slot of the register, for all of them.
    """
    letters = cycle(TABLE_LETTERS)
    yield from swept_words(letters)
    yield from swept_pairs(letters)
    yield from moved_nodes(letters)
    yield from swept_slots()


def swept(letters, words, listed, places, room, note):
    """The next call's request on this table beside three parts."""
    letter = next(letters)
    return Request(letter, tag_or_most(letter, 77), R=parts_register(3), N=words, L=listed,
                   **lent_beside(letter, places), O=bytes(room), note=note)


def with_counts_right(before, words):
    """A changed table as it is, and with its counts set right where that is yet another one.

    Else the counts would show nearly every change of a link or a tag.
    """
    yield words
    right = nodes.words_of(counted(nodes.nodes_of(words), by_parents))
    if right not in (before, words):
        yield right


def swept_words(letters):
    """Each word of a small table set to each of many values."""
    words = list(example_words())
    count = len(words) // NODE_WORDS
    for at, word in enumerate(words):
        values = set(range(count + 2)) | {word + 1, (word - 1) % 65536, 5, 10, 64, 65, 65535}
        for value in sorted(values - {word}):
            for changed in with_counts_right(words, words[:at] + [value] + words[at + 1:]):
                yield swept(letters, changed, [1, 1, 2, 1], 9, 80,
                            "word %d set to %d" % (at, value))


def swept_pairs(letters):
    """Each two words of a tiny table set to each two of a few values."""
    tiny = table(4, ((1, 2), 2), ((2,), 3))
    for first in range(len(tiny)):
        for second in range(first + 1, len(tiny)):
            for one, two in product(range(4), repeat=2):
                if one == tiny[first] or two == tiny[second]:
                    continue
                changed = list(tiny)
                changed[first], changed[second] = one, two
                for words in with_counts_right(tiny, changed):
                    yield swept(letters, words, [2, 1], 3, 60,
                                "words %d and %d set to %d and %d" % (first, second, one, two))


def moved_nodes(letters):
    """Two nodes change places, one stands twice, or one is lost."""
    example = nodes.nodes_of(example_words())
    for one, other in product(range(len(example)), repeat=2):
        for changed in (swapped(example, one, other), copied(example, one, other)):
            for words in with_counts_right(list(example_words()), nodes.words_of(changed)):
                yield swept(letters, words, [1, 1, 3, 1], 9, 80, "nodes %d and %d" % (one, other))


def swept_slots():
    """A number with each byte value in the register, its position by turns."""
    for value, letter in product(range(256), TABLE_LETTERS):
        number = with_byte(bytes([value]))[value % 3]
        yield on_two_parts(letter, filled([b"4016", number], 2), "byte %d in a slot" % value)


def large():
    """Tables of 4,096 nodes and one more, chains of 255 siblings, long lists, long outputs."""
    yield from long_lists()
    full = parts_register(BYTE_PLACES, BYTE_PLACES)
    for length in LARGE_LENGTHS:
        for letter in ALL_LETTERS:
            yield Request(letter, 7, R=parts_register(2), N=[0] * length, L=[1, 2],
                          **lent_beside(letter), O=bytes(60), note="%d words" % length)
    everything = [word for place in range(1, BYTE_PLACES + 1) for word in (place, 15)]
    ones = [word for place in range(1, BYTE_PLACES + 1) for word in (place, 1)]
    lists = [[], [1, 1], [BYTE_PLACES, 1], [16, 1, 100, 1], [16, 1, 101, 1], ones, everything,
             everything + [256, 1], everything + [255, 1], ones[:128], ones[:130],
             [word for place in range(1, 4001) for word in (place, 1)], LONGEST_LIST]
    siblings = table(256, *(((place,), 1000 - place) for place in (
        list(range(2, 256, 2)) + list(range(255, 0, -2)))))
    for listed in lists:
        for letter in LIST_LETTERS:
            yield Request(letter, tag_or_most(letter, 40000), R=full, N=siblings, L=listed,
                          P=[9] * 300, Q=[8] * 300, K=not_begun(),
                          note="255 siblings, list of %d words" % len(listed))
    for kind in LARGE_KINDS:
        words = large_table(kind)
        for listed in ([], [16, 1, 100, 1], everything, LONGEST_LIST):
            for letter in LIST_LETTERS:
                yield Request(letter, tag_or_most(letter, 40000), R=full, N=words, L=listed,
                              P=[9] * ROOM["P"], Q=[8] * ROOM["Q"], K=not_begun(),
                              note="4096 nodes, %s, list of %d words" % (kind, len(listed)))
        yield Request("k", 1, R=full, N=words, L=[255, 15], note="4096 nodes, tag taken")
        yield Request("k", 60001, R=full, N=words, L=[200, 1, 255, 15], note="4096 nodes, " + kind)
        yield Request("k", 60001, R=full, N=words, L=TOO_LONG_LIST, note="4096 nodes, " + kind)
        yield Request("e", R=full, N=words, note="4096 nodes, " + kind)
    every = large_table("every node a kit")
    for room in (0, 1, 4094, 4095, 4096, 4097):
        for letter, listed in (("W", everything), ("C", [])):
            yield Request(letter, R=full, N=every, L=listed, P=[7] * room,
                          note="4096 kits into %d places" % room)


def long_lists():
    """Short and long lists at fault on their first line or their last, and odd ones.

    Places strictly rise, and here there are 255 parts: of 4,000 lines, line 256 is at fault by 5
    at the latest, so that what is wrong with the last is never said. They are sent all the same.
    Beside 4,000 parts it is said: many_parts.long_lists.
    """
    full, words = parts_register(BYTE_PLACES, BYTE_PLACES), table(3, ((1,), 4), ((2,), 9))
    for listed in chain(*map(lists_at_fault, LINE_COUNTS), *map(odd_lists, ODD_LENGTHS)):
        for letter in LIST_LETTERS:
            yield Request(letter, tag_or_most(letter, 40000), R=full, N=words, L=listed,
                          **lent_beside(letter), note="%d words at fault" % len(listed))


def good_lines(count):
    """So many lines with one of each part from the first on."""
    return [(place, 1) for place in range(1, count + 1)]


def lists_at_fault(count):
    """Lists of so many lines of which the first is at fault, the last, and both, each with each."""
    good, firsts, lasts = good_lines(count), faulty_lines(1), faulty_lines(count)
    for line in firsts:
        yield words_of([line] + good[1:])
    if count > 1:
        for line in lasts:
            yield words_of(good[:-1] + [line])
        for first, last in product(firsts, lasts):
            yield words_of([first] + good[1:-1] + [last])


def faulty_lines(place):
    """The line of this place at fault by 6, by 4 or 5, and by two at once.

    Instead of its place it has 0, the one before or one beyond the parts.
    """
    wrong = sorted({0, place - 1, BYTE_PLACES + 1})
    return [(place, 0), (place, MOST_QUANTITY + 1),
            *product(wrong, (1, MOST_QUANTITY + 1))]


def odd_lists(length):
    """Lists of so many numbers whose last line lacks its quantity; the first is good, or not."""
    words = words_of(good_lines(length // 2 + 1))[:length]
    yield words
    yield [0] + words[1:]


def some_list(chance, kits, parts):
    """A list: a held kit's, one near it, the union of some, or another; sometimes at fault."""
    rows = sorted(kits)
    quantities = {}
    way = chance.below(8)
    if rows and way < 3:
        quantities = dict(lines_of(chance.pick(rows)))
    elif rows and way == 3:
        for _ in range(chance.between(1, 3)):
            for place, quantity in lines_of(chance.pick(rows)):
                quantities[place] = max(quantities.get(place, 0), quantity)
    elif way < 7:
        quantities = dict(lines_of(some_row(chance, rows, parts)))
    else:
        most = chance.pick((1, 2, 15, 15))
        quantities = {place: chance.pick((0, 1, most, most, most, most))
                      for place in range(1, parts + 1)}
    if parts and chance.one_in(3):
        place = chance.between(1, parts)
        quantity = quantities.get(place, 0) + chance.pick((-1, 1, 1, 2))
        quantities[place] = min(MOST_QUANTITY, max(0, quantity))
    words = words_of(sorted(line for line in quantities.items() if line[1] > 0))
    if chance.one_in(5):
        words = faulty_list(chance, words, parts)
    return words


def faulty_list(chance, words, parts):
    """The list with one thing changed, which mostly puts it at fault."""
    words = list(words)
    way = chance.below(9)
    if way == 0:
        return words + [chance.pick((1, parts, parts + 1))]
    if not words:
        return [chance.pick((0, 1, parts, parts + 1)), chance.pick((0, 1, 15, 16))]
    line = 2 * chance.below(len(words) // 2)
    if way in (1, 2):
        words[line] = chance.pick((0, 1, parts, parts + 1, parts + 2, 256, 65535))
    elif way in (3, 7, 8):
        words[line + 1] = chance.pick((0, 15, 16, 17, 256, 65535))
    elif way == 4:
        words += words[line:line + 2]
    elif way == 5:
        words = words[:line] + words[line:line + 2] + words[line:]
    else:
        words = words[line:] + words[:line]
    return words


def some_tag(chance, kits):
    """A tag for an insertion: mostly new, sometimes 0 or one that is held."""
    if kits and chance.one_in(6):
        return chance.pick(sorted(kits.values()))
    if chance.one_in(12):
        return 0
    return some_new_tag(chance, kits)


def some_room(chance, kits):
    """How long an output is beside what a listing could need."""
    count = len(kits)
    return chance.pick((0, 1, max(0, count - 1), count, count + 1, chance.between(0, count + 2)))


class Maker:
    """Makes requests by chance on catalogues that it keeps."""

    def __init__(self, chance):
        self.chance = chance
        self.stock = Stock(chance)

    def by_chance(self, letter):
        """A request for this call."""
        chance = self.chance
        register, words, kits, parts = some_tables(chance, self.stock)
        output = chance.some_words(some_room(chance, kits)) if letter in "WC" else []
        listed = some_list(chance, kits, parts)
        if letter == "k" and chance.one_in(EMPTY_LISTS):
            listed = []
        return Request(letter, some_tag(chance, kits), R=register, N=words, L=listed, P=output)
