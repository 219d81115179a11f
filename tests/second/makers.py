"""The maker's table of request 8, which has "the same layout and slot count" as the register."""

from . import register
from .register import SLOT_BYTES, holds_good_number, slot_for, slots_of, stretch_at, used


def right_length(makers, register_bytes):
    """Whether it has a length of the register's kind, and as many slots as this register."""
    return (register.right_length(makers)
            and len(slots_of(makers)) == len(slots_of(register_bytes)))


def sound(makers, parts):
    """Whether "each slot is all zeros or a good number followed by zeros, and slots beyond the
    registered parts are all zeros"; "gaps and repeated numbers are allowed"."""
    slots = slots_of(makers)
    return (all(holds_good_number(slot) for slot in slots if used(slot))
            and not any(used(slot) for slot in slots[parts:]))


def is_set(makers, place):
    """Whether the slot of a registered place has a number in a sound table."""
    return used(slots_of(makers)[place - 1])


def with_slot(makers, place, slot):
    """The table with this slot at a registered place, and all others as they are."""
    slots = slots_of(makers)
    slots[place - 1] = slot
    return b"".join(slots)


def with_number(makers, place, number):
    """The table with this number set at a registered place."""
    return with_slot(makers, place, slot_for(number))


def without_number(makers, place):
    """The table with the slot of a registered place cleared."""
    return with_slot(makers, place, bytes(SLOT_BYTES))


def label_at(register_bytes, makers, place):
    """For a registered place "the maker's number if set and otherwise ours, as the stretch of
    whichever of the two tables holds it"."""
    return stretch_at(makers if is_set(makers, place) else register_bytes, place)
