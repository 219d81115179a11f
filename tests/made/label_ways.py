"""The ways that the calls on the maker's table can go: request 8.

Like those of made.ways: each function takes a request and its right answer.
"""

from collections import namedtuple
from functools import lru_cache

from second import makers, register
from second.refusals import BAD_NUMBER, NOT_HELD, NOT_SOUND, WRONG_LENGTH
from second.register import (
    LONGEST_NUMBER, MOST_SLOTS, PUNCTUATION, SLOT_BYTES, good_number, holds_good_number, number_in,
    slots_of, used)
from second.sheet import BYTE_PLACES

from .register_requests import BESIDE_LETTERS

# Slot counts that stand beside each other, of the register first.
COUNTS_BESIDE = [(BYTE_PLACES, BYTE_PLACES + 1), (BYTE_PLACES + 1, BYTE_PLACES),
                 (MOST_SLOTS - 1, MOST_SLOTS), (MOST_SLOTS, MOST_SLOTS - 1),
                 (MOST_SLOTS, MOST_SLOTS + 1), (MOST_SLOTS + 1, MOST_SLOTS + 1)]
SLOTS_BESIDE = "1 for %d slots beside %d"

FIRST_SET, LAST_SET = "byte %02X first in a maker's number", "byte %02X last in a maker's number"
BESIDE_SET = "3 for byte %02X in a maker's number"


# Both tables where each is of right length and the register is sound: the slots of the maker's
# table, our numbers, and the maker's number of each part, where the slot has one.
Lent = namedtuple("Lent", "slots numbers labels")
NOTHING = Lent([], [], [])


def lent_to(asked):
    """Both tables of a request."""
    return tables_beside(asked.blocks["R"], asked.blocks["M"])


@lru_cache(maxsize=1)
def tables_beside(register_bytes, table):
    """These two tables; the ways of one request ask for them again and again."""
    if not register.right_length(register_bytes) or not register.sound(register_bytes) or (
            not makers.right_length(table, register_bytes)):
        return NOTHING
    slots, numbers = slots_of(table), register.numbers_of(register_bytes)
    return Lent(slots, numbers, [number_in(slot) for slot in slots[:len(numbers)]])


def sound_lent(asked, came):
    """Both tables of a request whose answer is neither 1 nor 2."""
    return NOTHING if came.number in (WRONG_LENGTH, NOT_SOUND) else lent_to(asked)


def lengths_beside(asked, came):
    """1: for the register, for the maker's table, "also where slot counts differ"."""
    register_bytes, table = asked.blocks["R"], asked.blocks["M"]
    own, beside = [came.number == WRONG_LENGTH and register.right_length(lent)
                   for lent in (register_bytes, table)]
    neither = came.number == WRONG_LENGTH and not own and not beside
    longer = len(table) - len(register_bytes)
    return {
        "1 for the register alone": beside and not own,
        "1 for the maker's table alone": own and not beside,
        "1 for both tables": neither and longer != 0,
        "1 for both tables of one length": neither and longer == 0 < len(table),
        "1 for two tables of no byte": neither and longer == 0 == len(table),
        "1 for a register of no byte": beside and not register_bytes,
        "1 for a maker's table of no byte": own and not table,
        "1 for a maker's table one byte short": own and longer == -1,
        "1 for a maker's table one byte long": own and longer == 1,
        "1 for a slot too few": own and beside and longer == -SLOT_BYTES,
        "1 for a slot too many": own and beside and longer == SLOT_BYTES,
        "1 for slot counts far apart": own and beside and abs(longer) > SLOT_BYTES,
    }


def many_beside(asked, came):
    """1 for slot counts that differ around 255 and 4,000, and for 4,001 in both tables; numbers set
    in all of 4,000 slots, and the last of them at fault."""
    counts = [len(asked.blocks[name]) / SLOT_BYTES for name in "RM"]
    labels = sound_lent(asked, came).labels
    at_fault = lent_to(asked) if came.number == NOT_SOUND else NOTHING
    return {
        **{SLOTS_BESIDE % pair: came.number == WRONG_LENGTH and tuple(counts) == pair
           for pair in COUNTS_BESIDE},
        "4,000 maker's numbers": len(labels) == MOST_SLOTS and all(labels),
        "2 for the last of 4,000 slots": len(at_fault.slots) == MOST_SLOTS and faults(
            at_fault) == [MOST_SLOTS - 1],
    }


def faults(lent):
    """The slots of the maker's table that are at fault, counted from 0."""
    return [at for at, slot in enumerate(lent.slots) if used(slot) and (
        at >= len(lent.numbers) or not holds_good_number(slot))]


def order_beside(asked, came):
    """1 before 2, "for the register and then the second table", and both before 11."""
    register_bytes, table = asked.blocks["R"], asked.blocks["M"]
    wrong, unsound = came.number == WRONG_LENGTH, came.number == NOT_SOUND
    lent = lent_to(asked) if unsound else NOTHING
    good = all(holds_good_number(slot) for slot in slots_of(table) if used(slot))
    own = unsound and not register.sound(register_bytes)
    absent = not 1 <= asked.a <= len(lent.numbers)
    return {
        "1 for the maker's table where the register is not sound": wrong and register.right_length(
            register_bytes) and not register.sound(register_bytes),
        "1 where the place is 0": wrong and asked.a == 0,
        "2 for the register alone": own and good,
        "2 for both tables": own and not good,
        "2 for the maker's table alone": unsound and not own,
        "2 for the register where the place is 0": own and asked.a == 0,
        "2 for the maker's table where the place is not registered": unsound and not own
                                                                     and absent,
    }


def kind_of_fault(slot):
    """What is wrong with a used slot at a registered place."""
    length, number = slot[0], number_in(slot)
    if length == 0:
        return "no length and bytes behind"
    if length > LONGEST_NUMBER:
        return "a length of 25 to 31" if length < SLOT_BYTES else "a length above 31"
    if not good_number(number):
        return "a bad byte"
    return "a last byte behind a number" if any(slot[-1:]) else "a byte behind a number"


SLOT_FAULTS = ["no length and bytes behind", "a length of 25 to 31", "a length above 31",
               "a bad byte", "a last byte behind a number", "a byte behind a number"]
FAULT_ALONE = "2 for a slot with %s alone"


def slot_at_fault(asked, came):
    """2 for one slot alone: what is wrong with it, and where it is."""
    lent = lent_to(asked) if came.number == NOT_SOUND else NOTHING
    wrong, parts = faults(lent), len(lent.numbers)
    alone = wrong[0] if len(wrong) == 1 else None
    slot = lent.slots[alone] if alone is not None else bytes(SLOT_BYTES)
    kind = kind_of_fault(slot) if alone is not None and alone < parts else ""
    beyond = alone is not None and alone >= parts
    return {
        **{FAULT_ALONE % what: kind == what for what in SLOT_FAULTS},
        "2 for a good number beyond the parts": beyond and holds_good_number(slot),
        "2 for other bytes beyond the parts": beyond and not holds_good_number(slot),
        "2 for the first of several parts": alone == 0 and parts > 1,
        "2 for a part between others": alone is not None and 0 < alone < parts - 1,
        "2 for the last of several parts": alone is not None and alone == parts - 1 > 0,
        "2 for the first slot beyond the parts": beyond and alone == parts,
        "2 for the last slot beyond the parts": beyond and parts < alone == len(lent.slots) - 1,
        "2 for a slot while the place is another's": alone is not None and alone != asked.a - 1,
        "2 for several slots": len(wrong) > 1,
    }


def sound_beside(asked, came):
    """What a sound maker's table holds: "gaps and repeated numbers are allowed"."""
    lent = sound_lent(asked, came)
    labels, several = lent.labels, len(lent.labels) > 1
    some, ours = [label for label in labels if label], set(lent.numbers)
    places = [at for at, label in enumerate(labels) if label]
    return {
        "no maker's number beside parts": several and not some,
        "a maker's number for each part": several and all(labels),
        "a gap between maker's numbers": places and len(places) < places[-1] - places[0] + 1,
        "a gap before the first maker's number": places and places[0] > 0,
        "no number for the last part": some and not labels[-1],
        "a maker's number twice": len(set(some)) < len(some),
        "a maker's number that is another part's": any(
            label != own and label in ours for label, own in zip(labels, lent.numbers)),
        "a maker's number that is the part's own": any(
            label == own for label, own in zip(labels, lent.numbers)),
        "two maker's numbers in case only": len({label.lower() for label in some}) < len(set(some)),
        "maker's numbers in all slots": several and all(labels) and len(labels) == len(lent.slots),
        "slots without a part": lent.slots and not lent.numbers,
    }


def place_beside(asked, came):
    """Places that no part has, and those at the ends of parts and slots."""
    lent, place, absent = sound_lent(asked, came), asked.a, came.number == NOT_HELD
    parts, slots = len(lent.numbers), len(lent.slots)
    done = came.done() and parts > 1
    return {
        "place 0 beside a maker's table": absent and place == 0,
        "a slot behind the last part": absent and place == parts + 1 <= slots,
        "the last slot, and no part's": absent and place == slots > parts + 1,
        "a place behind the last slot": absent and place == parts + 1 > slots,
        "a place whose low byte is a part's": absent and place > 255 and 1 <= place % 256 <= parts,
        "place 65,535 beside a maker's table": absent and place == 65535,
        "the first place of several": done and place == 1,
        "the last part's place": done and place == parts < slots,
        "the last slot's place": done and place == slots,
        "a place between others": done and 1 < place < parts,
    }


def label_of(asked, came):
    """The maker's number and ours at the place of an accepted call, and those of other places."""
    lent = lent_to(asked) if came.done() else NOTHING
    if not 1 <= asked.a <= len(lent.numbers):
        return b"", b"", []
    at = asked.a - 1
    return lent.labels[at], lent.numbers[at], lent.labels[:at] + lent.labels[at + 1:]


def between_set(asked, came):
    """Whether both neighbours of the place of an accepted call are set."""
    labels = lent_to(asked).labels if came.done() else []
    around = [labels[at] for at in (asked.a - 2, asked.a) if 0 <= at < len(labels)]
    return len(around) == 2 and all(around)


def number_set(asked, came):
    """What is set, what stood there before, and what is refused by 3."""
    number, done, bad = asked.blocks["I"], came.done(), came.number == BAD_NUMBER
    before, own, others = label_of(asked, came)
    numbers = lent_to(asked).numbers if done else []
    done = done and number
    return {
        "an unset slot set": done and not before,
        "a longer number replaced": done and len(before) > len(number),
        "a shorter number replaced": done and 0 < len(before) < len(number),
        "a number replaced by one as long": done and len(before) == len(number) and (
            before != number),
        "a number set once more": done and before == number,
        "24 bytes replaced by one": done and len(before) == LONGEST_NUMBER and len(number) == 1,
        "a number set between two others": between_set(asked, came),
        "a maker's number of one byte": done and len(number) == 1,
        "a maker's number of 24 bytes": done and len(number) == LONGEST_NUMBER,
        "a maker's number with a small letter": done and number != number.upper(),
        **{FIRST_SET % byte: done and len(number) > 1 and number[0] == byte
           for byte in PUNCTUATION},
        **{LAST_SET % byte: done and len(number) > 1 and number[-1] == byte
           for byte in PUNCTUATION},
        "a maker's number of punctuation alone": done and not number.strip(PUNCTUATION),
        "the part's own number set": done and number == own,
        "another part's number set": done and number != own and number in numbers,
        "another part's maker's number set": done and number in others,
        "3 for no byte": bad and not number,
        "3 for 25 bytes": bad and len(number) == LONGEST_NUMBER + 1,
        "3 for more bytes than one tells": bad and len(number) > 255,
        "3 for a bad byte": bad and 0 < len(number) <= LONGEST_NUMBER,
        **{BESIDE_SET % byte: bad and byte in number for byte in BESIDE_LETTERS},
        "3 where a number is set": bad and is_set(asked),
    }


def is_set(asked):
    """Whether the slot of the place is set."""
    labels = lent_to(asked).labels
    return 1 <= asked.a <= len(labels) and labels[asked.a - 1]


def number_refused(asked, came):
    """1, 2 and 11 before 3."""
    bad = not good_number(asked.blocks["I"])
    return {
        "1 before 3": came.number == WRONG_LENGTH and bad,
        "2 before 3": came.number == NOT_SOUND and bad,
        "11 before 3": came.number == NOT_HELD and bad,
    }


def number_cleared(asked, came):
    """What is cleared, and what is left."""
    before, own, others = label_of(asked, came)
    done = came.done() and own
    return {
        "an unset slot cleared": done and not before,
        "an unset slot cleared beside others": done and not before and any(others),
        "one byte cleared": done and len(before) == 1,
        "24 bytes cleared": done and len(before) == LONGEST_NUMBER,
        "the only number cleared": done and before and not any(others),
        "a number cleared between two others": before and between_set(asked, came),
        "a number cleared that stands elsewhere": before and before in others,
    }


def label_shown(asked, came):
    """Which of the two tables is shown, and how its number stands to the other's."""
    label, own, others = label_of(asked, came)
    done = came.done() and own
    ours, theirs = done and not label, done and label
    return {
        "the maker's number shown": theirs,
        "ours shown beside maker's numbers": ours and any(others),
        "ours shown and no maker's number set": ours and not any(others),
        "the maker's number shown, shorter than ours": theirs and len(label) < len(own),
        "the maker's number shown, longer than ours": theirs and len(label) > len(own),
        "the maker's number shown, as long as ours": theirs and len(label) == len(own) and (
            label != own),
        "the same number in both tables shown": theirs and label == own,
        "one byte of the maker's shown": theirs and len(label) == 1,
        "24 bytes of the maker's shown": theirs and len(label) == LONGEST_NUMBER,
        "one byte of ours shown": ours and len(own) == 1,
        "24 bytes of ours shown": ours and len(own) == LONGEST_NUMBER,
        "punctuation at an end of the maker's shown": theirs and register.punctuation_at_end(label),
        "punctuation at an end of ours shown": ours and register.punctuation_at_end(own),
        "an output replaced by what is shown": done and asked.blocks["O"],
        "an output replaced by nothing": not came.done() and asked.blocks["O"],
    }


def table_zeroed(asked, came):
    """What is zeroed: "zeroing giving 1 only"."""
    register_bytes, table = asked.blocks["R"], asked.blocks["M"]
    done = came.done() and len(table) > 0
    sound = done and register.sound(register_bytes)
    parts = len(register.numbers_of(register_bytes)) if sound else 0
    good = done and makers.sound(table, len(table) // SLOT_BYTES)
    return {
        "maker's numbers zeroed": sound and makers.sound(table, parts) and any(table),
        "a maker's table of zeros zeroed": done and not any(table),
        "numbers left beyond the parts zeroed": sound and good and not makers.sound(table, parts),
        "a maker's table that is never sound zeroed": done and not good,
        "maker's numbers zeroed beside a register that is not sound": done and not sound,
        "maker's numbers zeroed beside no part": sound and not any(register_bytes) and any(table),
        "a maker's table without a zero zeroed": done and all(table),
    }


# The ways of each call: those of both tables, of a place, and its own.
BOTH_LENT = [lengths_beside, order_beside, slot_at_fault, sound_beside, place_beside]
ZEROING_WAYS = [lengths_beside, table_zeroed]
SETTING_WAYS = [*BOTH_LENT, number_set, number_refused]
CLEARING_WAYS = [*BOTH_LENT, number_cleared]
LABEL_WAYS = [*BOTH_LENT, label_shown]
# Those that requests by chance hardly ever go.
RARE_LABELS = {
    "1 for both tables of one length", "1 for two tables of no byte", "1 for a register of no byte",
    "1 for a maker's table of no byte", "1 for slot counts far apart", "1 where the place is 0",
    "2 for the register where the place is 0", "the last slot, and no part's",
    "2 for the last slot beyond the parts", FAULT_ALONE % "a last byte behind a number",
    "24 bytes replaced by one", "3 for no byte", "3 for 25 bytes",
    "3 for more bytes than one tells", "a maker's table without a zero zeroed",
    "numbers left beyond the parts zeroed", "maker's numbers zeroed beside no part",
    "a number cleared between two others",
    "one byte cleared", "one byte of ours shown", "24 bytes of ours shown",
    "the maker's number shown, as long as ours", "punctuation at an end of ours shown",
    *(BESIDE_SET % byte for byte in BESIDE_LETTERS),
    *(FIRST_SET % byte for byte in PUNCTUATION), *(LAST_SET % byte for byte in PUNCTUATION)}
