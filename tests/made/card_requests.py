"""Requests that try the card: written for kits into outputs of any room, read whole, torn, altered.

What a card says is tried beside registers in which the parts stand in other orders.
"""

from itertools import permutations, product

from run.frame import ROOM
from second import calls, card, index, nodes, sheet
from second.kits import MOST_QUANTITY, MOST_UNITS, lines_of, words_of
from second.lent import Request
from second.nodes import MOST_NODES, NODE_WORDS
from second.refusals import NO_ROOM
from second.register import LONGEST_NUMBER, MOST_SLOTS, SLOT_BYTES, filled, numbers_of
from second.sheet import BYTE_PLACES

from .index_requests import pairs_of_tables, some_list
from .many_parts import AROUND_BYTE, AROUND_MOST, edge_rows, families, sibling_words
from .register_requests import (
    ALIKE, AT_END, BESIDE_LETTERS, CASE_PAIRS, EDGE_BYTES, many_numbers, punctuated,
    some_good_number)
from .sheet_requests import OLD_BYTES, PRINTED_SHEET, SHEET_BYTES
from .tables import (
    LARGE_KINDS, Stock, large_table, parts_register, some_new_tag, some_row, some_tables, table)

# The card of the kit that document 01's desk example enters first.
EXAMPLE_CARD = bytes.fromhex("4B4943 0001 0007 02 05 3030373431 02 04 34303136 01")

# Parts in no order of their numbers: where one begins another, that differ in case or in zeros
# only, and with each of the three bytes at an end.
SHELF = [b"4016", b"741", b"00741", b"A", b"AB", b"a", b"A-", b"A.", b"A/", b"-", b"7410"]
# The same parts at other places.
ORDERS = {"as registered": SHELF, "reversed": SHELF[::-1], "sorted": sorted(SHELF),
          "sorted and reversed": sorted(SHELF, reverse=True)}

# Kits of these parts as lines of numbers, each with a tag.
SHELF_KITS = [
    (9, [(b"741", 1)]), (7, [(b"00741", 2), (b"4016", 1)]), (258, [(b"741", 1), (b"00741", 3)]),
    (65535, [(b"A", 3), (b"AB", 1), (b"A-", 2), (b"A/", 1), (b"a", 1), (b"A.", 1)]),
    (1, [(b"a", 2), (b"A", 2)]), (256, [(b"-", 1), (b"A", 1), (b"7410", 1), (b"741", 2)]),
    (300, [(number, 1) for number in SHELF]),
    (513, [(number, 15) for number in (b"a", b"A", b"4016", b"-")] + [(b"AB", 4)]),
]

# The longest number, and numbers that are not registered where they are tried: near ones of the
# shelf, one of its own that is left out, and the longest.
LONGEST = b"Z" * LONGEST_NUMBER
STRANGERS = [b"0741", b"7", b"ab", b"A", b"74100", b"4016-", LONGEST]

# Values that a byte of a longer card is set to.
CARD_BYTES = sorted(set(SHEET_BYTES) | {66, 67, 73, 75})

# Of so many cards by chance one more is that of an empty kit, which has so many bytes.
EMPTY_CARDS = 14
EMPTY_BYTES = len(card.written(1, []))


def card_of(tag, *lines, count=None, mark=card.MARK, version=card.VERSION, end=b""):
    """A card put together from its items, the lines as they are given; the count is the right one
    where none is given."""
    return b"".join([
        mark, sheet.two_bytes(version), sheet.two_bytes(tag),
        bytes([len(lines) if count is None else count]), *(card.line(*line) for line in lines),
        end])


def row_of(numbers, lines):
    """The units of these lines beside these part numbers."""
    return tuple(sorted(numbers.index(number) + 1 for number, quantity in lines
                        for _ in range(quantity)))


def shelf_table(numbers, kits, spare=0):
    """A table with these kits of part numbers, with so many free nodes."""
    held = [(row_of(numbers, lines), tag) for tag, lines in kits]
    return table(sheet.nodes_needed(held) + spare, *held)


# The catalogue that cards are mostly read into: it holds three kits, and has nodes for a line of 15
# units and a few more, or for the longest kit.
HELD = [SHELF_KITS[0], SHELF_KITS[2], SHELF_KITS[4]]
SHELF_WORDS = shelf_table(SHELF, HELD, MOST_QUANTITY + 3)
ROOMY_WORDS = shelf_table(SHELF, HELD, MOST_UNITS)


def reading(data, numbers=None, words=None, note=""):
    """A request that reads this card beside these part numbers, or those of the shelf."""
    numbers = SHELF if numbers is None else numbers
    return Request("X", R=filled(numbers, max(1, len(numbers))),
                   N=SHELF_WORDS if words is None else words, I=data, note=note)


def writing(numbers, words, lines, room, note=""):
    """A request that writes the card of these lines into so many bytes that hold other things."""
    return Request("x", R=filled(numbers, len(numbers) + 1), N=words,
                   L=words_of(lines_of(row_of(numbers, lines))), O=(OLD_BYTES * 8)[:room],
                   note=note)


def limits():
    """Every limit of the card, its items and faults, its order, its room, and what it is read
    into."""
    yield from written_rooms()
    yield from old_tables()
    yield from carried_across()
    yield from torn_cards()
    yield from item_faults()
    yield from line_faults()
    yield from two_numbers()
    yield from units_on_cards()
    yield from looked_up()
    yield from entered()
    yield from tables_in_order()
    yield from alike_parts()
    yield from other_marks()


def written_rooms():
    """Cards of each kit into an output exactly full, one short, empty, and with room behind."""
    for note, numbers in ORDERS.items():
        words = shelf_table(numbers, SHELF_KITS)
        for tag, lines in SHELF_KITS:
            size = len(card.written(tag, lines))
            for room in (0, 1, size - 1, size, size + 1, size + 30):
                yield writing(numbers, words, lines, room, "card of tag %d, parts %s" % (tag, note))
    longest = [(LONGEST, MOST_QUANTITY)]
    for room in (33, 34, 35):
        yield writing([b"A", LONGEST], table(17, ((2,) * MOST_QUANTITY, 5)), longest, room,
                      "a card of the longest number")
    lines = [(number, 1) for number in many_numbers(MOST_UNITS)]
    for numbers in (many_numbers(MOST_UNITS + 1), many_numbers(MOST_UNITS + 1)[::-1]):
        words, size = shelf_table(numbers, [(3, lines)]), len(card.written(3, lines))
        for room in (size - 1, size, size + 9):
            yield writing(numbers, words, lines, room, "a card of 64 lines")


def old_tables():
    """The card of an empty kit that is held, and lists beside it; read again, it answers 19."""
    for kits in ([((), 30)], [((), 65535), ((1,), 4), ((1, 2), 9)], [((1,), 4)]):
        lent = {"R": filled(SHELF, 12), "N": table(4, *kits), "note": "%d kits, old" % len(kits)}
        for room, listed in product((0, 7, 8, 9, 20), ([], [1, 1], [1, 1, 2, 1], [2, 1])):
            yield Request("x", L=listed, O=OLD_BYTES[:room], **lent)
        for tag, end in product((1, 4, 9, 30, 65535), (b"", b"\0")):
            yield Request("X", I=card_of(tag, end=end), **lent)
    for node_count in (1, 2):
        yield reading(card_of(3), words=table(node_count, ((), 30)), note="an empty kit's card")
        yield reading(card_of(3), [], [0] * node_count * NODE_WORDS, "an empty kit's card, no part")


def carried_across():
    """Each card read where places differ, into just enough nodes and one too few; then the same
    list is found there, its card is written again, and it is read once more."""
    for note, numbers in ORDERS.items():
        for tag, lines in SHELF_KITS:
            data, row = card.written(tag, lines), row_of(numbers, lines)
            for node_count in (1 + len(row), len(row)):
                asked = reading(data, numbers, [0] * node_count * NODE_WORDS,
                                "tag %d carried across, %s" % (tag, note))
                yield asked
                came = calls.answer(asked)
                lent = {"R": came.blocks["R"], "N": came.blocks["N"], "note": asked.note}
                yield Request("f", L=words_of(lines_of(row)), **lent)
                yield Request("x", L=words_of(lines_of(row)), O=OLD_BYTES[:len(data)], **lent)
                yield Request("X", I=data, **lent)


def torn_cards():
    """Cards cut at every byte, and with bytes behind the end."""
    longest = card_of(65535, *((number, 15) for number in (b"-", b"4016", b"A", b"AB")), (b"a", 4))
    for data in (EXAMPLE_CARD, longest, card_of(513), card_of(3, (b"00741", 1), (b"741", 15)),
                 card_of(3, (b"A", 1), (b"A-", 1), (b"AB", 1)), card_of(3, (LONGEST, 1))):
        for length in range(len(data) + 1):
            yield reading(data[:length], note="a card cut short")
        yield reading(data, words=ROOMY_WORDS, note="a whole card")
        for end in (b"\0", b"\n", b"K", card.line(b"a", 1), card.line(b"z", 1), data):
            yield reading(data + end, note="bytes behind a card")


def item_faults():
    """Marks, versions, tags and line counts, good and at fault."""
    lines = [(b"00741", 2), (b"4016", 1)]
    for mark in (b"KIC", b"kic", b"KIT", b"KIc", b"KI", b"KICC", b"CIK", b"\0\0\0"):
        yield reading(card_of(7, *lines, mark=mark), note="a card's mark %s" % mark)
    for version in (0, 1, 2, 3, 255, 256, 257, 512, 65535):
        yield reading(card_of(7, *lines, version=version), note="a card's version %d" % version)
    for tag in (0, 1, 7, 255, 256, 257, 32768, 65535):
        yield reading(card_of(tag, *lines), note="a card's tag %d" % tag)
        yield reading(card_of(tag), note="an empty card's tag %d" % tag)
    for count in (0, 1, 2, 3, 4, 64, 65, 128, 255):
        for kept in range(3):
            note = "line count %d of %d" % (count, kept)
            yield reading(card_of(7, *lines[:kept], count=count), note=note)
            yield reading(card_of(7, *lines[:kept], count=count, end=b"\0"), note=note + ", more")


def faulty_lines():
    """Lines at fault alone, and a few good ones, by name."""
    for length in (0, 1, 2, 23, 24, 25, 26, 31, 32, 255):
        yield "a number of %d bytes" % length, (b"7" * length, 1)
    for value in sorted({*EDGE_BYTES, *BESIDE_LETTERS}):
        yield "byte %d in a number" % value, (b"4" + bytes([value]), 1)
    for quantity in (0, 1, 2, 14, 15, 16, 17, 128, 255):
        yield "quantity %d" % quantity, (b"741", quantity)


def line_faults():
    """Lines at fault alone, before a good line, behind one, and between; and two at fault."""
    before, behind = (b"-", 1), (b"a", 1)
    for note, line in faulty_lines():
        for lines in ([line], [line, behind], [before, line], [before, line, behind]):
            yield reading(card_of(77, *lines), note="a line with " + note)
        yield reading(card_of(77, line, (b"a", 0)), note="two lines, one with " + note)
        yield reading(card_of(77, line, end=b"\0"), note="more behind a line with " + note)
    for shift in (-1, 1):
        data = bytearray(EXAMPLE_CARD)
        data[8] += shift
        yield reading(bytes(data), note="a length byte changed by %d" % shift)


def two_numbers():
    """Every two numbers of the shelf on a card in this order: only one of the two is good.

    The same number twice is at fault at the second line.
    """
    for one, other in product(SHELF, repeat=2):
        yield reading(card_of(77, (one, 1), (other, 2)), note="two numbers")
    ordered = sorted(SHELF)
    for at in range(len(SHELF) - 1):
        swapped = ordered[:at] + [ordered[at + 1], ordered[at]] + ordered[at + 2:]
        twice = ordered[:at] + [ordered[at]] + ordered[at:]
        for numbers in (swapped, twice):
            yield reading(card_of(77, *((number, 1) for number in numbers)), note="out of order")


def units_on_cards():
    """64 units and one more, on few lines and on many; the line that passes 64 is at fault."""
    five = [(number, 15) for number in (b"-", b"4016", b"741", b"A")]
    for last in ([], [(b"AB", 4)], [(b"AB", 5)], [(b"AB", 15)], [(b"AB", 4), (b"a", 1)],
                 [(b"AB", 3), (b"a", 1)], [(b"AB", 3), (b"a", 2)], [(b"AB", 5), (b"a", 0)],
                 [(b"AB", 5), (b"A", 1)], [(b"AB", 4), (b"AB", 1)], [(b"AB", 16)]):
        units = sum(quantity for _, quantity in five + last)
        for end in (b"", b"\0"):
            yield reading(card_of(77, *five, *last, end=end), words=ROOMY_WORDS,
                          note="%d units on a card" % units)
    numbers, many = many_numbers(MOST_UNITS + 1), many_numbers(BYTE_PLACES)
    for parts, lines in product((numbers, numbers[::-1]), (63, 64, 65, 66, BYTE_PLACES)):
        data = card_of(77, *((number, 1) for number in many[:lines]))
        words, note = [0] * (1 + MOST_UNITS) * NODE_WORDS, "%d lines of one unit" % lines
        yield reading(data, parts, words, note)
        yield reading(data[:-1], parts, words, note + ", the last one cut short")
        yield reading(data, parts, words[NODE_WORDS:], note + ", a node less")
    fewer = card_of(77, (numbers[0], 2), *((number, 1) for number in numbers[1:64]))
    for data in (fewer, fewer[:7] + b"\x3f" + fewer[8:]):
        yield reading(data, numbers, [0] * 65 * NODE_WORDS, "the first line of two units")


def looked_up():
    """Numbers that are not registered: on the first line, the last, several or all.

    13 comes before 11, wherever the fault is, and 11 before what insertion refuses.
    """
    for stranger in STRANGERS:
        numbers = [number for number in SHELF if number != stranger]
        for others in ([], [b"-"], [b"a"], [b"-", b"a"], [b"-", b"00741", b"4016", b"741"]):
            lines = card.in_card_order([(number, 1) for number in [*others, stranger]])
            data, note = card_of(77, *lines), "%s not registered" % stranger.decode("ascii")
            yield reading(data, numbers, note=note)
            yield reading(card_of(9, *lines), numbers, shelf_table(SHELF[:3], HELD[:1]),
                          note + ", tag taken, no node free")
            for end in (b"\0", card.line(b"z", 0)):
                yield reading(data + end, numbers, note=note + ", a fault behind")
            yield reading(data[:-1] + b"\x10", numbers, note=note + ", a fault on the last line")
    strange = [(b"0741", 1), (b"4016", 1), (b"4016-", 1), (b"a", 1), (b"ab", 1)]
    for lines in (strange, strange[1:], strange[1:2] + strange[3:], strange[3:], strange[1:3]):
        for last in ([], [(b"b", 16)], [(b"b", 1)]):
            yield reading(card_of(77, *lines, *last), note="several not registered")
        yield reading(card_of(77, *lines), [], [0] * NODE_WORDS, "no part registered")


def entered():
    """9, 10, 12 and 19 in their order, and the nodes taken, for each kit with each kind of tag."""
    full = shelf_table(SHELF, HELD)
    tables = {
        "nothing held": [0] * 70 * NODE_WORDS, "kits held": ROOMY_WORDS, "no node free": full,
        "one node free": shelf_table(SHELF, HELD, 1),
        "an empty kit held": index.inserted(ROOMY_WORDS, (), 30),
        "an empty kit held and no node free": index.inserted(full, (), 30),
    }
    kits = [lines for _, lines in SHELF_KITS] + [
        [], [(b"741", 2)], [(b"741", 1), (b"00741", 1)], [(b"741", 1), (b"00741", 2)],
        [(b"A", 2), (b"AB", 1)], [(b"4016", 1)]]
    for (note, words), lines in product(tables.items(), kits):
        for tag in (9, 258, 30, 77, 65535):
            yield reading(card.written(tag, lines), words=words, note="%s, tag %d" % (note, tag))
    # Freed nodes are used again, the lowest first.
    less = index.deleted(index.deleted(ROOMY_WORDS, (2,)), row_of(SHELF, HELD[1][1]))
    for lines in kits:
        yield reading(card.written(77, lines), words=less, note="freed nodes, a card")


def tables_in_order():
    """1 and 2 for each table before 13, 11, 19 and all else."""
    cards = [card_of(77, (b"00000", 1)), card_of(77, (b"00000", 16)), card_of(77, (b"NEW", 1)),
             card_of(77), b"", card_of(0, (b"00000", 1))]
    for register, words, note in pairs_of_tables():
        for data in cards:
            yield Request("X", R=register, N=words, I=data, note="a card, " + note)


def alike_parts():
    """Numbers that a folding, a trimming or an integer would take for each other: two parts, in
    each order at places; and with one of them registered alone."""
    pairs = [*CASE_PAIRS, (b"00741", b"741"), (b"0", b"00"), (b"741", b"7410"), (b"A", b"A-"),
             (b"-A", b"A"), (b"Z" * 23, b"Z" * 24), (b"1E3", b"1000")]
    for one, other in [pair for both in pairs for pair in permutations(both)]:
        lines, note = [(one, 2), (other, 1)], "%s and %s on a card" % (
            one.decode("ascii"), other.decode("ascii"))
        data = card.written(7, lines)
        words = shelf_table([one, other], [(7, lines)])
        yield writing([one, other], words, lines, len(data), note)
        yield reading(data, [one, other], [0] * 4 * NODE_WORDS, note)
        yield reading(data[:8] + card.line(other, 1) + card.line(one, 2), [one, other], words, note)
        yield reading(data, [one], [0] * 4 * NODE_WORDS, note + ", one alone")
        yield reading(card_of(7, (other, 1)), [one], [0] * 4 * NODE_WORDS, note + ", the other")
    for number in punctuated(AT_END):
        lines = [(number, 2), (b"4016", 1)]
        words, data = shelf_table([b"4016", number], [(7, lines)]), card.written(7, lines)
        yield writing([b"4016", number], words, lines, len(data), "a card of a torn label")
        yield reading(data, [b"4016", number], [0] * 4 * NODE_WORDS, "a card of a torn label")
    row = sorted(ALIKE)
    for at, quantity in product(range(len(row) - 1), (1, 15)):
        data = card_of(77, *((number, quantity) for number in row[at:at + 4]))
        yield reading(data, ALIKE, [0] * 61 * NODE_WORDS, "a card of numbers alike")


def other_marks():
    """A card is no sheet, and a sheet is no card."""
    yield reading(PRINTED_SHEET, note="a sheet read as a card")
    yield reading(b"KIC" + PRINTED_SHEET[3:], note="a sheet under a card's mark")
    for letter, data in product("rS", (EXAMPLE_CARD, b"KIT" + EXAMPLE_CARD[3:], card_of(1))):
        yield Request(letter, R=bytes(4 * SLOT_BYTES), N=[7] * 4 * NODE_WORDS, I=data,
                      note="a card read as a sheet")


def sweeps():
    """Every byte of small cards set to every value; every two small lines; every room."""
    yield from every_value()
    yield from every_two_lines()
    yield from every_room()
    yield from altered_card()


def every_value():
    """Every byte of small cards set to every value. The register has some numbers more that a
    byte set may come to."""
    numbers = [*SHELF, b"4015", b"00742", b"10741", b"B", b"AC", b"b"]
    for small in (EXAMPLE_CARD, card_of(258), card_of(513, (b"A", 15), (b"AB", 1), (b"a", 2))):
        for at in range(len(small)):
            for value in range(256):
                yield reading(small[:at] + bytes([value]) + small[at + 1:], numbers,
                              note="byte %d of a card of %d" % (at, len(small)))


def every_two_lines():
    """Two lines of every small number and of every quantity around the limits; a third behind."""
    lines = list(product((b"", b"-", b"A", b"A-", b"AB", b"_"), (0, 1, 15, 16)))
    for one, other in product(lines, repeat=2):
        yield reading(card_of(77, one, other, (b"a", 2)), note="two small lines")


def every_room():
    """Cards into every output up to their size and beyond, and into every count of nodes."""
    for tag, lines in SHELF_KITS:
        words, data = shelf_table(SHELF, SHELF_KITS), card.written(tag, lines)
        for room in range(len(data) + 3):
            yield writing(SHELF, words, lines, room, "a card into every room")
        row = row_of(SHELF, lines)
        for node_count in range(1, len(row) + 3):
            yield reading(data, words=[0] * node_count * NODE_WORDS, note="into every table")


def altered_card():
    """Every byte of a longer card set to several values, left out or doubled."""
    data = card.written(*SHELF_KITS[3])
    for at, byte in enumerate(data):
        note = "byte %d of a longer card" % at
        for value in sorted({*CARD_BYTES, (byte + 1) % 256, (byte - 1) % 256} - {byte}):
            yield reading(data[:at] + bytes([value]) + data[at + 1:], note=note)
        yield reading(data[:at] + data[at + 1:], note=note + " left out")
        yield reading(data[:at] + data[at:at + 1] + data[at:], note=note + " doubled")


def large():
    """Cards of 64 long numbers, beside many parts, in full tables, and as long as there is room."""
    yield from longest_cards()
    yield from beside_many_parts()
    yield from many_alike()
    yield from full_tables()
    for data in (b"\xff" * ROOM["I"], EXAMPLE_CARD + bytes(ROOM["I"] - len(EXAMPLE_CARD)),
                 card_of(1, *[(b"A", 1)] * 255), card_of(1, count=255, end=b"\xff" * 255)):
        yield reading(data, note="%d bytes" % len(data))


def longest_cards():
    """The longest card: 64 lines of numbers of 24 bytes that differ in their last bytes alone."""
    numbers = [b"Z" * 19 + b"%05d" % at for at in range(MOST_UNITS)]
    lines = [(number, 1) for number in numbers]
    for parts in (numbers, numbers[::-1], numbers[32:] + numbers[:32]):
        words, data = shelf_table(parts, [(9, lines)]), card.written(9, lines)
        for room in (len(data) - 1, len(data), len(data) + 8):
            yield writing(parts, words, lines, room, "the longest card")
        for node_count in (MOST_UNITS, 1 + MOST_UNITS):
            yield reading(data, parts, [0] * node_count * NODE_WORDS, "the longest card")
        yield reading(data, parts[:-1], [0] * 65 * NODE_WORDS, "the longest card, a part less")


def beside_many_parts():
    """Kits of places around 255 and 4,000: their cards written, and read where places differ."""
    for parts in AROUND_BYTE + AROUND_MOST:
        numbers, note = many_numbers(parts), "a card beside %d parts" % parts
        rows = edge_rows(parts)
        words = table(40, *((row, 7000 - at) for at, row in enumerate(rows)))
        reversed_parts = filled(numbers[::-1], parts)
        for at, row in [*enumerate(rows)][-3:]:
            data = card.written(7000 - at, card.numbered(numbers, row))
            yield Request("x", R=filled(numbers, parts), N=words, L=words_of(lines_of(row)),
                          O=OLD_BYTES[:len(data)], note=note)
            for register, words_there in ((reversed_parts, [0] * 9 * NODE_WORDS),
                                          (filled(numbers, parts), words)):
                yield Request("X", R=register, N=words_there, I=data, note=note)
        strange = card_of(3, (numbers[0], 1), (b"NEW", 1))
        yield Request("X", R=reversed_parts, N=words, I=strange, note=note + ", one not registered")
    for length in (MOST_SLOTS * SLOT_BYTES + 1, (MOST_SLOTS + 1) * SLOT_BYTES):
        yield Request("X", R=bytes(length), N=[0] * NODE_WORDS, I=EXAMPLE_CARD,
                      note="a card beside %d bytes" % length)


def many_alike():
    """Registers full of numbers that a quick comparison would take for each other."""
    for what, numbers in families().items():
        lines = [(number, 1) for number in (numbers[0], numbers[len(numbers) // 2], numbers[-1])]
        data, words = card.written(5, lines), [0] * 4 * NODE_WORDS
        yield reading(data, numbers, words, "a card of numbers, " + what)
        yield reading(data, numbers[:-1], words, "a card of one too few, " + what)


def full_tables():
    """4,096 nodes: no node free and one, kits held, tags taken; cards of their kits written."""
    numbers = many_numbers(BYTE_PLACES)
    for kind in LARGE_KINDS:
        words = list(large_table(kind))
        held = nodes.held_kits(words)
        lent, note = {"R": filled(numbers, BYTE_PLACES), "N": words}, "4,096 nodes, a card, " + kind
        for row in (max(held), max(held, key=len), (16, 100)):
            data = card.written(held.get(row, 60001), card.numbered(numbers, row))
            yield Request("x", L=words_of(lines_of(row)), O=OLD_BYTES[:len(data)], note=note,
                          **lent)
            yield Request("X", I=data, note=note, **lent)
        for tag, row in ((60001, (255,) * 15), (1, (255,) * 15), (60001, (16, 100, 100))):
            yield Request("X", I=card.written(tag, card.numbered(numbers, row)), note=note, **lent)
    full, words = parts_register(MOST_SLOTS, MOST_SLOTS), list(sibling_words())
    for row in ((MOST_SLOTS,), (1, MOST_SLOTS), (MOST_SLOTS, MOST_SLOTS)):
        data = card.written(40000, card.numbered(numbers_of(full), row))
        yield Request("X", R=full, N=words, I=data, note="4,000 siblings, a card")
        yield Request("x", R=full, N=words, L=words_of(lines_of(row)), O=OLD_BYTES,
                      note="4,000 siblings, a card")
    for length in (MOST_NODES * NODE_WORDS + 1, (MOST_NODES + 1) * NODE_WORDS):
        yield reading(EXAMPLE_CARD, words=[0] * length, note="a card, %d words" % length)


def bytes_needed(asked):
    """The bytes of a card, as a call without output tells them by 12; some where it is refused."""
    came = calls.answer(Request("x", **{**asked, "O": b""}))
    return came.value if came.number == NO_ROOM else len(EXAMPLE_CARD)


class Maker:
    """Makes requests by chance from catalogues that it keeps."""

    def __init__(self, chance):
        self.chance = chance
        self.stock = Stock(chance)

    def by_chance(self, letter):
        """A request for this call."""
        register, words, kits, parts = some_tables(self.chance, self.stock)
        if letter == "x":
            return self.writing(register, words, kits, parts)
        return Request("X", R=register, N=words, I=self.some_card(numbers_of(register), kits))

    def writing(self, register, words, kits, parts):
        """A card to write, mostly of a held kit and with about the room that it needs."""
        chance = self.chance
        listed = some_list(chance, kits, parts)
        if kits and chance.one_in(2):
            listed = words_of(lines_of(chance.pick(sorted(kits))))
        size = bytes_needed({"R": register, "N": words, "L": listed})
        room = chance.pick((0, size - 1, size, size, size + 1, size + 9, chance.below(size + 20)))
        old = chance.some_bytes(20) * (1 + room // 20)
        return Request("x", R=register, N=words, L=listed, O=old[:room])

    def some_card(self, numbers, kits):
        """A card: of a held kit, of one near it or of another, as it is or with a thing changed."""
        chance = self.chance
        tag = some_new_tag(chance, kits)
        if kits and chance.one_in(4):
            tag = chance.pick(sorted(kits.values()))
        lines = self.some_lines(numbers, kits)
        if chance.one_in(EMPTY_CARDS):
            lines, tag = [], chance.pick((tag, kits.get((), tag)))
        data = card.written(tag, lines)
        for _ in range(chance.pick((0, 0, 0, 1, 1, 2))):
            data = self.altered(data, tag, lines)
        return data

    def some_lines(self, numbers, kits):
        """Lines of registered numbers, now and then of one that is not, though nearly."""
        chance = self.chance
        rows = sorted(kits)
        row = chance.pick(rows) if rows and chance.one_in(4) else some_row(
            chance, rows, len(numbers))
        lines = dict(card.numbered(numbers, [place for place in row if place <= len(numbers)]))
        for _ in range(chance.pick((0, 0, 0, 1, 2)) if lines else 1):
            number = some_good_number(chance)
            if numbers and chance.one_in(2):
                near = chance.pick(numbers)
                number = chance.pick((near[:1], b"0" + near, near + b"0", near.swapcase()))
            lines[number] = chance.pick((1, 2, MOST_QUANTITY))
        return list(lines.items())

    def altered(self, data, tag, lines):
        """The card with something changed: a byte, its length, a count, a line or its order."""
        chance = self.chance
        way, at = chance.below(8), chance.below(len(data)) if data else 0
        if not data or way == 0:
            return data + chance.some_bytes(chance.between(1, 4))
        if way == 1:
            return data[:chance.pick((at, at % (EMPTY_BYTES + 1)))]
        if way in (2, 3):
            value = chance.pick((chance.pick(CARD_BYTES), (data[at] + 1) % 256,
                                 (data[at] - 1) % 256))
            return data[:at] + bytes([value]) + data[at + 1:]
        if way == 4:
            return card_of(tag, *card.in_card_order(lines), count=chance.pick(
                (0, max(0, len(lines) - 1), min(BYTE_PLACES, len(lines) + 1), BYTE_PLACES)))
        return card_of(chance.pick((tag, tag, tag, 0)), *self.changed_lines(lines))

    def changed_lines(self, lines):
        """The lines in card order but for one thing: one twice, two swapped, or another quantity,
        or a number with one byte changed."""
        chance, lines = self.chance, card.in_card_order(lines)
        if not lines:
            return lines
        at, other = chance.below(len(lines)), chance.below(len(lines))
        number, quantity = lines[at]
        way = chance.below(5)
        if way == 0:
            return lines[:at] + lines[at:at + 1] + lines[at:]
        if way == 1:
            lines[at], lines[other] = lines[other], lines[at]
        elif way == 2:
            lines[at] = number, chance.pick((0, 15, 16, 255))
        elif way == 3:
            lines[at] = chance.pick((b"", number[:-1], number + b"_", b"7" * 25)), quantity
        else:
            lines[at] = number + bytes([chance.pick(EDGE_BYTES)]), quantity
        return lines
