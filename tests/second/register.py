"""Part numbers and the register: document 01's section of that name, requests 3, 6 and 10."""

from functools import lru_cache

# "A part number is 1 to 24 bytes, each a digit, a capital A to Z, hyphen, full stop or slash."
# Request 3: "The letters a to z join the allowed bytes and are never folded."
SHORTEST_NUMBER = 1
LONGEST_NUMBER = 24
DIGITS = b"0123456789"
CAPITALS = b"ABCDEFGHIJKLMNOPQRSTUVWXYZ"
SMALL_LETTERS = b"abcdefghijklmnopqrstuvwxyz"
PUNCTUATION = b"-./"
NUMBER_BYTES = DIGITS + CAPITALS + SMALL_LETTERS + PUNCTUATION

# "The register is lent bytes, 32 per part". Request 10: it "may be up to 128,000 bytes, 4,000
# slots".
SLOT_BYTES = 32
FEWEST_SLOTS = 1
MOST_SLOTS = 4000

# A call and the next one mostly look at the same register; so many verdicts are remembered.
REMEMBERED = 8


def good_number(number):
    """Whether these bytes keep the part number rule."""
    if not SHORTEST_NUMBER <= len(number) <= LONGEST_NUMBER:
        return False
    return all(byte in NUMBER_BYTES for byte in number)


def punctuation_at_end(number):
    """Whether this is "a number whose first or last byte is a hyphen, full stop or slash"."""
    return any(byte in PUNCTUATION for byte in (*number[:1], *number[-1:]))


def right_length(register):
    """Whether "its length is a multiple of 32 from 32" to request 10's 128,000."""
    slots, rest = divmod(len(register), SLOT_BYTES)
    return rest == 0 and FEWEST_SLOTS <= slots <= MOST_SLOTS


def slots_of(register):
    """The slots in their order."""
    return [bytes(register[start:start + SLOT_BYTES])
            for start in range(0, len(register), SLOT_BYTES)]


def slot_for(number):
    """The slot that holds this number: "length, the number, then zeros"."""
    slot = bytes([len(number)]) + bytes(number)
    return slot + bytes(SLOT_BYTES - len(slot))


def used(slot):
    """A slot is used when any of its bytes is not 0."""
    return any(slot)


def number_in(slot):
    """The number of a slot that holds one."""
    return slot[1:1 + slot[0]]


def holds_good_number(slot):
    """Whether a used slot "holds a good number followed by zeros"."""
    number = number_in(slot)
    if len(number) != slot[0] or not good_number(number):
        return False
    return not any(slot[1 + slot[0]:])


def used_slots_come_first(slots):
    """Whether "used slots come first"; "unused slots are all zero" by what unused means."""
    first_unused = next((at for at, slot in enumerate(slots) if not used(slot)), len(slots))
    return not any(used(slot) for slot in slots[first_unused:])


def no_number_twice(slots):
    """Whether "no number stands twice"."""
    numbers = [number_in(slot) for slot in slots if used(slot)]
    return len(numbers) == len(set(numbers))


def sound(register):
    """Whether a register of right length is sound."""
    return remembered_verdict(bytes(register))


@lru_cache(maxsize=REMEMBERED)
def remembered_verdict(register):
    """Whether this register is sound."""
    slots = slots_of(register)
    return (all(holds_good_number(slot) for slot in slots if used(slot))
            and used_slots_come_first(slots)
            and no_number_twice(slots))


def numbers_of(register):
    """The part numbers of a sound register, in order of registration."""
    return [number_in(slot) for slot in slots_of(register) if used(slot)]


def place_of(register, number):
    """This number's place, "its slot counted from 1", or 0."""
    for place, held in enumerate(numbers_of(register), start=1):
        if held == number:
            return place
    return 0


def filled(numbers, slots):
    """A register of so many slots with these numbers in order."""
    return b"".join(slot_for(number) for number in numbers) + bytes(
        SLOT_BYTES * (slots - len(numbers)))


def with_number_added(register, number):
    """The register with this number in its first free slot, or None where there is none."""
    numbers = numbers_of(register)
    slots = len(register) // SLOT_BYTES
    if len(numbers) == slots:
        return None
    return filled(numbers + [bytes(number)], slots)


def stretch_at(register, place):
    """The "very stretch of the register that holds the number" at a registered place."""
    slot_start = (place - 1) * SLOT_BYTES
    return register[slot_start + 1:slot_start + 1 + register[slot_start]]
