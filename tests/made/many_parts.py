"""Requests beside many parts: registers of up to 4,000 slots, lists and kits of their places."""

import functools
from itertools import islice, permutations, product

from run.frame import ROOM
from second import nodes
from second.kits import MOST_QUANTITY, lines_of, words_of
from second.lent import Request
from second.nodes import FREE, MOST_NODES, NODE_WORDS, Node
from second.register import (
    LONGEST_NUMBER, MOST_SLOTS, NUMBER_BYTES, SLOT_BYTES, filled, slot_for)
from second.sheet import BYTE_PLACES

from .bookmarks import not_begun
from .index_requests import ALL_LETTERS, LIST_LETTERS, tag_or_most
from .register_requests import many_numbers, shortest_numbers
from .tables import parts_register, table

# Slots around as many as one byte tells, and around the most.
AROUND_BYTE = [BYTE_PLACES - 1, BYTE_PLACES, BYTE_PLACES + 1, BYTE_PLACES + 2]
AROUND_MOST = [MOST_SLOTS - 1, MOST_SLOTS]

# Lengths of a register in bytes that every call is tried with, and those for a few.
LONGEST = MOST_SLOTS * SLOT_BYTES
LENGTHS = [*(slots * SLOT_BYTES for slots in AROUND_BYTE), LONGEST - SLOT_BYTES, LONGEST,
           LONGEST + 1, LONGEST + SLOT_BYTES]
OTHER_LENGTHS = [LONGEST - 1, LONGEST + SLOT_BYTES - 1, ROOM["R"]]

# Places whose two bytes differ most from their neighbours', and the last ones of all.
EDGE_PLACES = [BYTE_PLACES, BYTE_PLACES + 1, BYTE_PLACES + 2, MOST_SLOTS - 1, MOST_SLOTS]

# Rows of kits with such places; of these a catalogue holds those that its parts reach.
EDGE_ROWS = [
    (), (1,), (255,), (256,), (257,), (1, 256), (255, 256), (256, 256), (256, 257), (255, 257, 257),
    (3999,), (4000,), (255, 4000), (256, 3999, 4000), (3999, 4000, 4000)]

# What the outputs of a listing hold before it.
FIRST_OUTPUT = list(range(61001, 61021))
SECOND_OUTPUT = list(range(62001, 62021))

# Who looks for a number that stands twice may compare only those of one hash. This one reads the
# bytes as digits to a base, keeps what four bytes hold, and takes the rest by a prime
# (docs/DECISIONS.md, "No number twice by hashes").
HASH_BASE, HASH_ROOM, HASHES = 263, 1 << 32, 4093

# Two bytes each that come to the same where a byte counts 31, 33, 37 or 65 times the next one.
SAME_SUMS = {31: (b"Aa", b"BB"), 33: (b"AS", b"B2"), 37: (b"AZ", b"B5"), 65: (b"Az", b"B9")}


def limits():
    """None: so many parts are no small request."""
    return ()


def sweeps():
    """None: one value after the other is tried on small registers."""
    return ()


def large():
    """Registers around 255 and 4,000 slots, whole and damaged, and what is asked beside them."""
    yield from register_lengths()
    yield from full_registers()
    yield from damaged_registers()
    yield from alike_families()
    yield from edge_places()
    yield from long_lists()
    yield from all_siblings()


def register_lengths():
    """Registers around 255 and 4,000 slots, and of lengths between, for every call."""
    for length in LENGTHS + OTHER_LENGTHS:
        for letter in "pkrS" if length in OTHER_LENGTHS else "plnrS" + ALL_LETTERS:
            yield Request(letter, 2, R=filled([b"A", b"B"], 2) + bytes(length - 2 * SLOT_BYTES),
                          N=[0] * 2 * NODE_WORDS, L=[2, 1], I=b"C" if letter == "p" else b"B",
                          O=bytes(20), K=not_begun(), note="register of %d bytes" % length)


def full_registers():
    """Registers with no free slot and with one: the last places looked up, shown and taken."""
    for slots in AROUND_BYTE + AROUND_MOST:
        for used in (slots - 1, slots):
            numbers, note = many_numbers(used), "%d parts in %d slots" % (used, slots)
            lent = {"R": filled(numbers, slots), "note": note}
            for number in (b"NEW", numbers[-1]):
                yield Request("p", I=number, **lent)
                yield Request("l", I=number, **lent)
            places = {*EDGE_PLACES, used, used + 1}
            for place in sorted(place for place in places if place <= used + 1):
                yield Request("n", place, O=b"before", **lent)
    full = parts_register(MOST_SLOTS, MOST_SLOTS)
    for place in EDGE_PLACES[:3]:
        for letter in "pl":
            yield Request(letter, R=full, I=many_numbers(place)[-1], note="number %d" % place)
    for place in (0, MOST_SLOTS + 256, 65535):
        yield Request("n", place, R=full, note="place %d beside 4,000 parts" % place)


def damaged_registers():
    """A gap, a stray byte, a bad byte or a number once more, in slots around 255 and in the last.

    The number stands 256 slots before, in the slot before, or in the first.
    """
    for slots in (BYTE_PLACES + 2, MOST_SLOTS):
        right = parts_register(slots, slots)
        for place in sorted({BYTE_PLACES, BYTE_PLACES + 1, BYTE_PLACES + 2, slots - 1, slots}):
            start = (place - 1) * SLOT_BYTES
            slot = right[start:start + SLOT_BYTES]
            others = sorted({1, place - 1, max(1, place - 256)})
            for put in (bytes(SLOT_BYTES), slot[:-1] + b"\1", slot[:5] + b"_" + slot[6:],
                        *(slot_for(many_numbers(other)[-1]) for other in others)):
                changed = right[:start] + put + right[start + SLOT_BYTES:]
                yield Request("l", R=changed, I=many_numbers(1)[0],
                              note="slot %d of %d changed" % (place, slots))


def pairs_in_rows(pairs, count):
    """So many numbers of 24 bytes out of these two pairs of bytes."""
    rows = product(pairs, repeat=LONGEST_NUMBER // 2)
    return [b"".join(row) for row in islice(rows, count)]


def one_byte_apart():
    """All numbers of 24 zeros with one byte changed, and the zeros."""
    zeros = b"0" * LONGEST_NUMBER
    return [zeros] + [zeros[:at] + bytes([byte]) + zeros[at + 1:]
                      for at in range(LONGEST_NUMBER) for byte in NUMBER_BYTES if byte != zeros[at]]


def zeros_before(count):
    """So many numbers that read as few integers: "Keep the zeros. They are characters."."""
    every = (b"%d" % number for number in range(1, count))
    return list(islice((number.rjust(size, b"0") for number in every
                        for size in range(len(number), LONGEST_NUMBER + 1)), count))


def hash_of(number):
    """The hash of a number."""
    value = 0
    for byte in number:
        value = (value * HASH_BASE + byte) % HASH_ROOM
    return value % HASHES


def of_one_hash(count):
    """So many numbers of four bytes with one hash: to every front the ends that come to it."""
    pairs = [bytes(pair) for pair in product(NUMBER_BYTES, repeat=2)]
    ends = {}
    for end in pairs:
        ends.setdefault(hash_of(end), []).append(end)
    numbers = (front + end for front in pairs
               for end in ends.get(-hash_of(front) * HASH_BASE ** 2 % HASHES, []))
    return list(islice(numbers, count))


@functools.lru_cache(maxsize=None)
def families():
    """Many numbers each that are alike in all but a byte, in all but their order, or in a sum."""
    return {
        "bytes in every order": shortest_numbers(MOST_SLOTS),
        "seven letters in every order": [bytes(row) for row in islice(
            permutations(b"ABCDEFG"), MOST_SLOTS)],
        "one byte apart": one_byte_apart(),
        "zeros before": zeros_before(MOST_SLOTS),
        "their last bytes alike": [b"%04d-ABCDEFGH" % at for at in range(MOST_SLOTS)],
        "their first bytes alike": [b"ABCDEFGH-%04d" % at for at in range(MOST_SLOTS)],
        "their first and last bytes alike": [
            b"ABCDEFGH%04dABCDEFGH" % at for at in range(MOST_SLOTS)],
        "in case only": pairs_in_rows((b"xY", b"Xy"), MOST_SLOTS),
        "of one hash": of_one_hash(MOST_SLOTS),
        **{"sums by %d" % times: pairs_in_rows(pairs, MOST_SLOTS)
           for times, pairs in SAME_SUMS.items()},
    }


def with_one_twice(numbers):
    """The numbers with the last one replaced by the first, one in the middle, or the one before."""
    for at in (0, len(numbers) // 2, len(numbers) - 2):
        yield [*numbers[:-1], numbers[at]]


def alike_families():
    """Registers full of numbers that a quick comparison would take for each other; one twice."""
    for what, numbers in families().items():
        for row in (numbers, *with_one_twice(numbers)):
            yield Request("l", R=filled(row, len(row)), I=numbers[-2], note="numbers, " + what)
        yield Request("p", R=filled(numbers[:-1], len(numbers)), I=numbers[-1].swapcase(),
                      note="one more number, " + what)


def edge_rows(parts):
    """The rows of kits that so many parts reach, and one of all the edge places among them."""
    edges = tuple(place for place in EDGE_PLACES if place <= parts)
    return [row for row in EDGE_ROWS if max(row, default=0) <= parts] + [edges]


def edge_lists(parts):
    """Lists of kits held and not held, of places just beyond the parts, equal and falling."""
    edges = words_of(lines_of(edge_rows(parts)[-1]))
    yield from ([], edges, [2, 1] + edges, [parts, 1], [parts, 2], [parts + 1, 1],
                [1, 1, parts, 1], [1, 1, parts + 1, 1], [parts, 1, parts - 1, 1],
                [parts, 1, parts, 1], [parts, 16], [parts + 256, 1])
    if parts > BYTE_PLACES:
        yield from ([256, 1], [256, 1, 255, 1], [256, 1, 1, 1], [256, 0])


def edge_places():
    """Kits of places around 255 and 4,000: entered, found, struck out, listed and counted."""
    for parts in AROUND_BYTE + AROUND_MOST:
        register = parts_register(parts, parts)
        words = table(40, *((row, 7000 - at) for at, row in enumerate(edge_rows(parts))))
        lists = list(edge_lists(parts))
        # Large registers are tried with all the lists once.
        lists = lists[:6] if parts == MOST_SLOTS - 1 else lists
        for listed, letter in product(lists, LIST_LETTERS):
            yield Request(letter, tag_or_most(letter, 40000), R=register, N=words, L=listed,
                          P=FIRST_OUTPUT, Q=SECOND_OUTPUT, O=bytes(60), K=not_begun(),
                          note="list %s beside %d parts" % (listed, parts))
    # A label just beyond the parts, which the slots would have room for.
    for label in (BYTE_PLACES + 1, MOST_SLOTS):
        words = table(2, ((label,), 9))
        for parts, letter in product((label - 1, label), LIST_LETTERS + "s"):
            yield Request(letter, tag_or_most(letter, 8), R=parts_register(parts, label), N=words,
                          L=[label - 1, 1], P=FIRST_OUTPUT, Q=SECOND_OUTPUT, O=bytes(24100),
                          K=not_begun(), note="label %d beside %d parts" % (label, parts))


def long_lists():
    """Lists of 4,000 lines and one more, good and at fault in their last line, and odd ones."""
    full, words = parts_register(MOST_SLOTS, MOST_SLOTS), table(3, ((1,), 4), ((4000,), 9))
    every = [word for place in range(1, MOST_SLOTS + 2) for word in (place, MOST_QUANTITY)]
    good, last = every[:-2], every[:-4]
    for listed in (good, every, last + [MOST_SLOTS, 0], last + [MOST_SLOTS, 16], last + [0, 1],
                   last + [MOST_SLOTS - 1, 1], last + [MOST_SLOTS + 1, 1], good[:-1], every[:-1]):
        for letter in LIST_LETTERS:
            yield Request(letter, tag_or_most(letter, 40000), R=full, N=words, L=listed,
                          P=FIRST_OUTPUT, Q=SECOND_OUTPUT, K=not_begun(),
                          note="%d words beside 4,000 parts" % len(listed))


@functools.lru_cache(maxsize=None)
def sibling_words():
    """A sound table of 4,096 nodes: 4,000 siblings, and below the first ones a node of the last
    label each. All are kits but the root."""
    row = [Node(0, 1, 0, 0, 0, 0, 0)]
    below = MOST_NODES - 1 - MOST_SLOTS
    for at in range(1, MOST_SLOTS + 1):
        row.append(Node(0, MOST_SLOTS + at if at <= below else 0, (at + 1) % (MOST_SLOTS + 1), at,
                        1, at, 0))
    row += [Node(at, 0, 0, MOST_SLOTS, 2, MOST_SLOTS + at, 0) for at in range(1, below + 1)]
    return tuple(nodes.words_of(nodes.counted(row)))


def all_siblings():
    """All parts on one chain, in a table with no free node: every call goes along all of it."""
    full, words = parts_register(MOST_SLOTS, MOST_SLOTS), sibling_words()
    every = [word for place in range(1, MOST_SLOTS + 1) for word in (place, MOST_QUANTITY)]
    lent = {"P": [9] * ROOM["P"], "Q": [8] * ROOM["Q"], "K": not_begun()}
    for listed in ([], [MOST_SLOTS, 1], [1, 1, MOST_SLOTS, 1], every):
        for letter in LIST_LETTERS:
            yield Request(letter, tag_or_most(letter, 40000), R=full, N=words, L=listed, **lent,
                          note="4,000 siblings, list of %d words" % len(listed))
    yield Request("a", 64, R=full, N=words, **lent, note="4,000 siblings, d 64")
    yield Request("k", 40000, R=full, N=words, L=[MOST_SLOTS, 2], note="4,000 siblings, no node")
    yield Request("e", R=full, N=words, note="4,000 siblings emptied")
    for room in (0, ROOM["O"]):
        yield Request("s", R=full, N=words, O=b"\x5a" * room, note="4,000 siblings written")
    # The same with some of the last siblings free again, so that a place is taken at the end.
    fewer = list(words)
    at = MOST_SLOTS
    fewer[at * NODE_WORDS:(at + 1) * NODE_WORDS] = FREE
    fewer[(at - 1) * NODE_WORDS + 2] = 0
    fewer[Node._fields.index("tagged")] -= 1
    yield Request("k", 40000, R=full, N=fewer, L=[MOST_SLOTS, 1], note="the 4,000th sibling")
    yield Request("k", 40000, R=full, N=fewer, L=[MOST_SLOTS, 2], note="one node too few")
