"""The questions on the kits held, by trying every kit; how many begin with a row.

All pass over an empty kit, as request 14 says.
"""

from .kits import included, listing_order, quantities, shortfall, with_units


def listed(held):
    """The kits that a question may name, with their tags, in listing order."""
    return listing_order(with_units(held))


def kits_within(held, row):
    """All kits within this bin, with their tags, in listing order."""
    have = quantities(row)
    return [(kit, tag) for kit, tag in listed(held) if included(quantities(kit), have)]


def kits_containing(held, row):
    """All kits that contain this list, with their tags, in listing order."""
    need = quantities(row)
    return [(kit, tag) for kit, tag in listed(held) if included(need, quantities(kit))]


def within(held, row):
    """The tags of all kits within this bin, in listing order."""
    return [tag for _, tag in kits_within(held, row)]


def containing(held, row):
    """The tags of all kits that contain this list, in listing order."""
    return [tag for _, tag in kits_containing(held, row)]


def almost_filled(held, row, most):
    """Tag and shortfall of "exactly those kits whose shortfall is at most d, in listing order"."""
    have = quantities(row)
    short = [(tag, shortfall(quantities(kit), have)) for kit, tag in listed(held)]
    return [(tag, lacking) for tag, lacking in short if lacking <= most]


def beginning_with(held, row):
    """How many kits have this row as a beginning, which may be all of it.

    A row that begins no kit has no path in the table; one above 64 units begins none. The empty kit
    is not counted, "though the root's stored word includes it".
    """
    return sum(kit[:len(row)] == row for kit in with_units(held))
