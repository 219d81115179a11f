"""Pairs of lists, and the calls that show of them all that document 01 says of kits and bins.

A list's check and its units show where it is inserted; its quantities by what kits lack beside it;
how two rows stand to each other by what one adds to the other, by whether one begins the other, by
whether a page shows one behind the other, by the sheet of both and by reading the two as records;
inclusion by the questions. An empty list is refused where it is inserted, and as a kit held it is
passed over.
"""

from functools import lru_cache
from itertools import chain, permutations, product

from second.kits import (
    MOST_QUANTITY, MOST_UNITS, agreed, first_fault, included, lines_of_words, quantities, units,
    words_of)
from second.lent import Request
from second.nodes import NODE_WORDS
from second.refusals import BAD_ORDER, BEYOND_PARTS
from second.register import MOST_SLOTS
from second.sheet import BYTE_PLACES, version_for

from .bookmarks import begun_at
from .many_parts import AROUND_BYTE, AROUND_MOST, EDGE_PLACES
from .many_ways import BEHIND
from .reached import BEYOND, BY_CHANCE, GOOD, GOOD_PLACE, ON_LINE, PAIR
from .register_requests import many_numbers
from .sheet_requests import record, sheet_of
from .tables import parts_register, table

# Room for one kit and for two, of 64 units each.
ONE_KIT_NODES = 1 + MOST_UNITS
TWO_KITS_NODES = 1 + 2 * MOST_UNITS
TAGS = 1000, 2

# The lines that are at fault by 4, 5 and 6 beside five parts.
FAULTY_LINES = [(0, 1), (6, 1), (5, 16)]


def full(parts, quantity):
    """So many parts with so many of each."""
    return [number for place in range(1, parts + 1) for number in (place, quantity)]


def limits():
    """Pairs of lists at every limit, as (parts, first, second)."""
    yield from quantities_and_units()
    yield from lengths_and_places()
    yield from lines_in_order()
    yield from largest()
    yield from many_parts()
    yield from short_rows()


def quantities_and_units():
    """Quantities in every line; 64 and 65 units, in one line less than there are parts or not."""
    for quantity in (0, 1, 15, 16, 65535):
        yield 3, [2, quantity], [2, 1]
        yield 3, [1, 1, 2, quantity], [1, 1]
        yield 3, [1, 1, 2, quantity, 3, 1], [1, 1, 2, 1]
    sixty_four = full(4, 15) + [5, 4]
    for row in (sixty_four, full(4, 15) + [5, 5], full(64, 1), full(65, 1), full(5, 15)):
        yield 255, row, sixty_four
        yield 255, sixty_four, row


def lengths_and_places():
    """Odd lengths; a place equal to, below and above the one before, 0, and beyond the parts."""
    for row in ([], [1], [0], [1, 1, 2], [0, 0, 0], [1, 16, 1], [1, 1, 2, 1, 3]):
        yield 3, row, [1, 1]
        yield 3, [1, 1], row
        yield 0, row, row
    for place in (0, 1, 2, 3, 4, 255, 256, 65535):
        yield 3, [2, 1, place, 1], [2, 1]
        yield 3, [place, 1], [1, 1]
        yield 3, [place, 16], [1, 1]
        yield 255, [1, 1, 2, 1, place, 2], [1, 1]


def lines_in_order():
    """Line by line: 4, 5 and 6 of one line and of an earlier one."""
    yield 3, [4, 0], []
    yield 3, [1, 0, 1, 1], []
    yield 3, [4, 1, 1, 1], []
    yield 3, [2, 1, 1, 16], []
    yield 3, [1, 16, 4, 0], []


def largest():
    """255 parts of 15 each: a bin of 3,825 units."""
    yield 255, full(255, 15), full(255, 15)
    yield 255, full(255, 15), [255, 15]
    yield 254, full(255, 15), [254, 15]
    yield 255, [255, 15], full(254, 15)
    yield 255, full(255, 1), full(255, 1)[:-1]


def many_parts():
    """Places around 255 and 4,000 beside as many parts, each beside the next and the one behind."""
    for parts in AROUND_BYTE + AROUND_MOST:
        yield parts, [parts, 15], [parts, 1]
        yield parts, [parts - 1, 1, parts, 1], [parts, 1]
        yield parts, [1, 1, parts, 2], [1, 1, 2, 1]
        yield parts, [parts, 1, parts + 1, 1], [parts, 1, parts - 1, 1]
    for one, other in ((1, 257), (255, 256), (256, 257), (2, 512), (258, 513), (256, 4000)):
        yield MOST_SLOTS, [one, 1], [other, 1]
        yield MOST_SLOTS, [one, 1, other, 1], [other, 1, one, 1]
    edges = [number for place in EDGE_PLACES for number in (place, 1)]
    yield MOST_SLOTS, edges, edges[:-2]
    yield MOST_SLOTS, full(MOST_SLOTS, 15), edges
    yield MOST_SLOTS, full(MOST_SLOTS + 1, 15), edges


def short_rows():
    """Repeated labels, beginnings, sets: each beside each."""
    rows = ([], [1, 1], [1, 2], [2, 1], [1, 1, 2, 1], [1, 1, 3, 1], [1, 2, 2, 1], [2, 1, 3, 1],
            [3, 15])
    for first, second in product(rows, repeat=2):
        yield 3, first, second


def first_faults():
    """Each of five lines at fault in one way, and all behind it in another.

    Both the number and the line tell which was found first.
    """
    for good in range(5):
        for fault, behind in permutations(FAULTY_LINES, 2):
            yield 5, full(good, 1) + list(fault) + list(behind) * (4 - good), full(good, 1)


def some_list(chance, parts):
    """A list over these parts, with now and then a quantity that is too many."""
    row = []
    for place in range(1, parts + 1):
        if chance.below(2) == 0:
            row += [place, 1 + chance.below(3 if chance.below(4) else MOST_QUANTITY + 1)]
    return row


def by_chance(chance):
    """A pair of lists over few parts, good or nearly so; the second is often close to the first."""
    parts = 1 + chance.below(6)
    first = some_list(chance, parts)
    if chance.below(3) == 0:
        return parts, first, some_list(chance, parts)
    second = list(first)
    if second and chance.below(2) == 0:
        at = chance.below(len(second))
        second[at] = max(0, second[at] + chance.below(3) - 1)
    elif chance.below(2) == 0:
        second = second[:2 * chance.below(len(second) // 2 + 1)]
    return parts, first, second


def everything(chance, count):
    """All fixed pairs, and so many by chance, each with who it is."""
    for pair in chain(limits(), first_faults()):
        yield PAIR, pair
    for _ in range(count):
        yield BY_CHANCE % PAIR, by_chance(chance)


def registered(parts):
    """A register of so many parts, with a slot free where there may be."""
    return parts_register(parts, min(MOST_SLOTS, parts + 1))


def requests_of(parts, first, second):
    """The requests that show this pair of lists."""
    yield from checks(parts, first)
    yield from checks(parts, second)
    if first_fault(first, parts) or first_fault(second, parts):
        return
    both = lines_of_words(first), lines_of_words(second)
    yield from bins(parts, first)
    yield from bins(parts, second)
    yield from beside(parts, both[0], both[1])
    yield from beside(parts, both[1], both[0])
    if all(len(units(lines)) <= MOST_UNITS for lines in both):
        yield from sheets(parts, *both)


def checks(parts, listed):
    """The list inserted: its refusal, or its row set down node by node."""
    yield Request("k", TAGS[0], R=registered(parts), N=[0] * ONE_KIT_NODES * NODE_WORDS, L=listed,
                  note="insert %s" % listed)


@lru_cache(maxsize=None)
def fifteen_of_each(places):
    """A table that has fifteen of each of these parts as a kit."""
    return tuple(table(1 + len(places) * MOST_QUANTITY, *(
        ((place,) * MOST_QUANTITY, place) for place in places)))


def shown_places(parts):
    """All places, or the edges among them where a table has no room for fifteen of each."""
    if parts <= BYTE_PLACES:
        return tuple(range(1, parts + 1))
    return tuple(place for place in (1, 2, 254, *EDGE_PLACES) if place <= parts)


def bins(parts, listed):
    """What fifteen of each part lack beside the list: fifteen less its quantity."""
    places = shown_places(parts)
    yield Request("a", MOST_QUANTITY, R=registered(parts), N=fifteen_of_each(places), L=listed,
                  P=[0] * len(places), Q=[0] * len(places), note="the quantities of %s" % listed)


def beside(parts, held, other):
    """A list held as a kit: whether it is within the other, contains it or begins with it.

    And what the other adds to it, and whether a page behind the other shows it.
    """
    row, behind = units(held), units(other)
    if len(row) > MOST_UNITS:
        return
    lent = {"R": registered(parts), "N": table(TWO_KITS_NODES, (row, TAGS[0])),
            "L": words_of(other), "note": "%s held, asked for %s" % (held, other)}
    yield Request("W", P=[0], **lent)
    yield Request("C", P=[0], **lent)
    yield Request("#", **lent)
    yield Request("k", TAGS[1], **lent)
    if len(behind) <= MOST_UNITS:
        yield Request("G", **{**lent, "L": [], "K": begun_at(behind)})


def sheets(parts, *both):
    """The sheet of both kits, and both as records one after the other, with nodes and without."""
    rows = dict(zip(map(units, both), TAGS))
    lent, numbers, version = registered(parts), many_numbers(parts), version_for(parts)
    read = [sheet_of(numbers, [record(tag, *lines, version=version)
                               for lines, tag in zip(order, TAGS)], version=version.number)
            for order in (both, both[::-1])]
    yield Request("s", R=lent, N=table(TWO_KITS_NODES, *rows.items()), O=bytes(len(read[0])),
                  note="the sheet of %s and %s" % both)
    for data, node_count in product(read, (1, TWO_KITS_NODES)):
        yield Request("r", R=bytes(len(lent)), N=[0] * node_count * NODE_WORDS, I=data,
                      note="records of %s and %s read into %d nodes" % (*both, node_count))


def check_of(listed, parts):
    """What a list's check says, by names."""
    fault = first_fault(listed, parts)
    if fault is None:
        return [GOOD if sum(listed[1::2]) <= MOST_UNITS else "above 64 units"]
    if len(listed) % 2:
        return ["4 by an odd length"]
    number, _ = fault
    return ["4 by a place" if number == BAD_ORDER else str(number), ON_LINE % fault]


def places_of(listed, parts):
    """The edge places on a good list, or the place just beyond the parts, by names."""
    fault = first_fault(listed, parts)
    if fault is None:
        return [GOOD_PLACE % place for place in EDGE_PLACES if place in listed[0::2]]
    number, line = fault
    behind = number == BEYOND_PARTS and listed[2 * line - 2] == parts + 1
    return [BEYOND % (parts + 1)] if behind and parts + 1 in BEHIND else []


def standing_of(row, other):
    """How a row stands to another, by names."""
    names = ["within the other" if included(quantities(row), quantities(other))
             else "not within the other"]
    if row == other:
        return names + ["the same"]
    names.append("before the other" if row < other else "after the other")
    common = agreed(row, other)
    if common == len(row):
        names.append("begins the other")
    elif common < len(other):
        names.append("apart behind a common beginning" if common
                     else "apart from the first place on")
    return names


def note_pair(reached, who, parts, *both):
    """Counts what a pair of lists comes to, either way round."""
    checked = [check_of(listed, parts) for listed in both]
    reached.note(who, *chain(*checked, *(places_of(listed, parts) for listed in both)))
    if checked == [[GOOD], [GOOD]]:
        rows = [units(lines_of_words(listed)) for listed in both]
        reached.note(who, *standing_of(*rows), *standing_of(*rows[::-1]))
