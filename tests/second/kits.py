"""Lists, their units, inclusion and listing order, as "Kits and bins" in document 01 says.

Request 14 parts the kits that are held from those with at least one unit, of which all else speaks.
"""

from collections import Counter

from .refusals import BAD_ORDER, BAD_QUANTITY, BEYOND_PARTS, Refusal

# "each quantity is 1 to 15"
LEAST_QUANTITY = 1
MOST_QUANTITY = 15
# "A kit is at most 64 units"
MOST_UNITS = 64
# "with 4,294,967,295 standing for any later line too"
MOST_LINE = 4_294_967_295


def first_fault(words, parts):
    """The number of a list's first fault and its line; None where the list is good.

    "then 4 for odd length; then line by line 4, 5, 6"; "an odd list is charged to the line that
    lacks its quantity".
    """
    if len(words) % 2 != 0:
        return BAD_ORDER, len(words) // 2 + 1
    before = 0
    for line, (place, quantity) in enumerate(lines_of_words(words), start=1):
        # "a place 0 or not above the one before"
        if place == 0 or place <= before:
            return BAD_ORDER, line
        if place > parts:
            return BEYOND_PARTS, line
        if not LEAST_QUANTITY <= quantity <= MOST_QUANTITY:
            return BAD_QUANTITY, line
        before = place
    return None


def value_of_line(line):
    """The value that says a line at fault: "the line, counted from 1", or what stands for it."""
    return min(line, MOST_LINE)


def checked_lines(words, parts):
    """The list's lines as (place, quantity), or the refusal that the list gets."""
    fault = first_fault(words, parts)
    if fault:
        number, line = fault
        raise Refusal(number, value_of_line(line))
    return lines_of_words(words)


def units(lines):
    """A list's units: "its places, each repeated as often as its quantity"."""
    return tuple(place for place, quantity in lines for _ in range(quantity))


def quantities(row):
    """How often each place stands in a row; 0 for a place that does not."""
    return Counter(row)


def lines_of(row):
    """The lines whose units are this row."""
    return sorted(quantities(row).items())


def words_of(lines):
    """The lines as a list is lent: place, quantity, place, quantity."""
    return [word for line in lines for word in line]


def lines_of_words(words):
    """A good list's lines."""
    return list(zip(words[0::2], words[1::2]))


def included(need, have):
    """Multiset inclusion of quantities: for each part no more than the other's."""
    return all(quantity <= have[place] for place, quantity in need.items())


def shortfall(need, have):
    """What a kit of these quantities lacks beside a bin of those.

    "the sum over its parts of what it needs beyond the bin's quantity, never below zero for a
    part", so that a surplus of one part never pays for another.
    """
    return sum(max(0, quantity - have[place]) for place, quantity in need.items())


def listing_order(held):
    """Held kits (a row with its tag) in listing order.

    "compares unit rows place by place; a row that begins another comes before it", which is
    how python compares tuples.
    """
    return sorted(held.items())


def with_units(held):
    """All but the empty kit: "Listings, pages, any-kit answers and counts pass over it"."""
    return {row: tag for row, tag in held.items() if row}


def agreed(row, other):
    """In how many places at their front two rows agree."""
    most = min(len(row), len(other))
    return max(length for length in range(most + 1) if row[:length] == other[:length])


def beginnings(rows):
    """The different nonempty beginnings of these rows."""
    return {row[:length] for row in rows for length in range(1, len(row) + 1)}
