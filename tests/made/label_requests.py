"""Requests that try the maker's table of request 8: zeroed, set, cleared, and shown as a label.

Every length, fault, place and number is tried by each of the four calls, and every two neighbours
in the order of refusals at once.
"""

from itertools import product

from run.frame import ROOM
from second.lent import Request
from second.register import (
    LONGEST_NUMBER, MOST_SLOTS, SLOT_BYTES, filled, numbers_of, right_length, slot_for)
from second.sheet import BYTE_PLACES

from .many_parts import AROUND_BYTE, AROUND_MOST, EDGE_PLACES
from .register_requests import (
    ALIKE, AT_END, BAD_AT_END, BESIDE_LETTERS, INSIDE, PLACES, damaged_register, many_numbers,
    punctuated, some_good_number, some_number, some_place, some_register, with_byte)

# The four calls, and those of them that take a place.
LABEL_LETTERS = "zmuv"
PLACE_LETTERS = "muv"

# Three parts of five slots. Of the maker's numbers one is missing, one stands twice, and one is the
# number of another part; filled() leaves a slot of zeros where a number is empty.
SLOTS = 5
OURS = [b"00741", b"0741", b"741"]
THEIRS = [b"MC1741CP1", b"", b"MC1741CP1"]
OURS_THERE = [b"0741", b"741", b"00741"]
REGISTER, MAKERS = filled(OURS, SLOTS), filled(THEIRS, SLOTS)

# Numbers for parts: the shortest and the longest.
SHORTEST, LONGEST = b"A", b"Z" * LONGEST_NUMBER

# Slots by what they hold: those that are sound at a registered place, and those that never are.
GOOD_SLOTS = {
    "zeros": bytes(SLOT_BYTES),
    "one byte": slot_for(SHORTEST),
    "24 bytes": slot_for(LONGEST),
    "small letters": slot_for(b"mc1741cp1"),
    "the part's own number": slot_for(b"00741"),
    "punctuation first": slot_for(b"-A"),
    "punctuation last": slot_for(b"A/"),
    "punctuation alone": slot_for(b"."),
}
BAD_SLOTS = {
    "a byte behind a number": slot_for(b"741")[:4] + b"7" + bytes(27),
    "a byte at the end of a slot": slot_for(b"741")[:-1] + b"\1",
    "a byte behind 24 bytes": slot_for(LONGEST)[:25] + b"A" + bytes(6),
    "a bad first byte": slot_for(b"_41"),
    "a bad byte in the middle": slot_for(b"7 1"),
    "a bad last byte": slot_for(b"74{"),
    "a zero inside a number": slot_for(b"7\x001"),
    "a length one too great": b"\4" + slot_for(b"741")[1:],
    "a length one too small": b"\2" + slot_for(b"741")[1:],
    "25 bytes": slot_for(b"7" * 25),
    "31 bytes": slot_for(b"7" * 31),
    "a length of 32": b"\x20" + b"7" * 31,
    "a length of 255": b"\xff" + b"7" * 31,
    "a length of 255 and zeros": b"\xff" + bytes(31),
    "a length of 25 and zeros": b"\x19" + bytes(31),
    "a length of 1 and zeros": b"\1" + bytes(31),
    "no length and a number behind": b"\0" + slot_for(b"741")[1:],
    "no length and a byte at the end": bytes(31) + b"\1",
}

# Registers and maker's tables by what is wrong with them, places and numbers that are refused.
ORDER_REGISTERS = {
    "a good register": REGISTER,
    "a register of wrong length": REGISTER[:-1],
    "a register that is not sound": filled([OURS[0], OURS[0]], SLOTS),
    "a long register that is not sound": filled([OURS[0], OURS[0]], SLOTS) + b"\1",
}
ORDER_MAKERS = {
    "a good maker's table": MAKERS,
    "a maker's table of wrong length": MAKERS + b"\0",
    "a slot too few": MAKERS[:-SLOT_BYTES],
    "a maker's table that is not sound": filled([b"_"], SLOTS),
    "a number beyond the parts": filled(THEIRS + [b"A"], SLOTS),
}
ORDER_PLACES = [2, 0, 4]
ORDER_NUMBERS = [b"MC1741", b"", b"MC_1741"]


def asked(letters, place, number=b"MC1741", register=REGISTER, makers=MAKERS, note=""):
    """These calls at this place with this number, over an output that holds other things."""
    for letter in letters:
        yield Request(letter, place, R=register, M=makers, I=number, O=b"before", note=note)


def limits():
    """Every limit of the maker's table, of its calls, and of the order of their refusals."""
    yield from table_lengths()
    yield from order_of_refusals()
    yield from slot_contents()
    yield from gaps_and_repeats()
    yield from places()
    yield from numbers_set()
    yield from ends_of_numbers()
    yield from set_over_others()
    yield from cleared()
    yield from shown()
    yield from zeroed()


def sweeps():
    """Every byte value in a number and in a slot, and every length byte."""
    yield from number_bytes()
    yield from slot_bytes()


def large():
    """A number as large as the probe has room for; tables around 255 and 4,000 slots."""
    for letter in PLACE_LETTERS:
        yield from asked(letter, 1, b"7" * ROOM["I"], note="a number of 65,536 bytes")
    yield from many_lengths()
    yield from many_places()
    yield from many_damaged()


def table_lengths():
    """Maker's tables of every length near the register's, also beside registers of wrong length."""
    for slots in (1, 2, 3):
        length, most = slots * SLOT_BYTES, 2 * slots + 2
        for beside in sorted({0, 1, 31, 32, length - 32, length - 1, length, length + 1,
                              length + 31, length + 32, 2 * length, most * SLOT_BYTES}):
            yield from asked(LABEL_LETTERS, 1, register=filled(OURS[:1], slots),
                             makers=filled([b"A"], most)[:beside],
                             note="%d bytes beside %d" % (beside, length))
    for length in (0, 1, 31, 33, 63, 65):
        for beside in sorted({0, 32, 64, length}):
            yield from asked(LABEL_LETTERS, 1, register=filled(OURS[:1], 3)[:length],
                             makers=filled([b"A"], 3)[:beside],
                             note="%d bytes beside a register of %d" % (beside, length))


def order_of_refusals():
    """All that can be wrong at once: "1 for each .., then 2 for each ..; then 11 ..; then 3"."""
    for (what, register), (beside, makers), place, number in product(
            ORDER_REGISTERS.items(), ORDER_MAKERS.items(), ORDER_PLACES, ORDER_NUMBERS):
        note = "%s, %s, place %d" % (what, beside, place)
        yield from asked("m", place, number, register, makers, note)
        if number == ORDER_NUMBERS[0]:
            yield from asked("zuv", place, number, register, makers, note)


def slot_contents():
    """Good and bad slots at each place of a table, registered or beyond, with others set and not.

    The slot is at fault for every place, and for the place of the slot itself.
    """
    for (what, slot), at in product({**GOOD_SLOTS, **BAD_SLOTS}.items(), range(SLOTS)):
        for others in (THEIRS, []):
            makers = bytearray(filled(others, SLOTS))
            makers[at * SLOT_BYTES:(at + 1) * SLOT_BYTES] = slot
            note = "%s in slot %d" % (what, at + 1)
            yield from asked(PLACE_LETTERS if others else "v", 1, makers=makers, note=note)
        yield from asked("v", at + 1, makers=makers, note=note)
        yield from asked("z", 1, makers=makers, note=note)
    for theirs in ([b"_", b"", b"_"], [b"_", b"", b"", b"A"], [*THEIRS, b"A", b"A"]):
        yield from asked(LABEL_LETTERS, 2, makers=filled(theirs, SLOTS), note="two slots at fault")


def gaps_and_repeats():
    """"gaps and repeated numbers are allowed", and so are numbers of the register."""
    rows = {
        "none set": [], "the first alone": [b"A"], "the last alone": [b"", b"", b"A"],
        "the middle alone": [b"", b"A"], "a gap": [b"A", b"", b"B"], "all set": [b"A", b"B", b"C"],
        "one twice": [b"A", b"A"], "one three times": [b"A", b"A", b"A"],
        "one twice around a gap": [b"A", b"", b"A"], "our own numbers": OURS,
        "our numbers at other places": OURS_THERE, "our last number at each place": OURS[-1:] * 3,
    }
    for (note, theirs), slots in product(rows.items(), (len(OURS), SLOTS)):
        for place in range(1, len(OURS) + 1):
            yield from asked(PLACE_LETTERS, place, register=filled(OURS, slots),
                             makers=filled(theirs, slots), note=note)
        yield from asked("z", 1, register=filled(OURS, slots), makers=filled(theirs, slots),
                         note=note)


def places():
    """Places 0, 1, the last part's, one past it, the last slot's, 65,535, and ones that a byte
    would fold; with every part set, with none set, and with none registered."""
    for place, (note, ours, theirs) in product([*PLACES, SLOTS, SLOTS + 1], (
            ("every part set", OURS, [b"A", b"B", b"C"]), ("no part set", OURS, []),
            ("no part registered", [], []), ("one part", OURS[:1], [b"A"]),
            ("all slots taken", many_numbers(SLOTS), [b"A"] * SLOTS))):
        yield from asked(PLACE_LETTERS, place, register=filled(ours, SLOTS),
                         makers=filled(theirs, SLOTS), note="place %d, %s" % (place, note))
    for place in (0, 1, 65535):
        yield from asked("z", place, note="zeroed, A %d" % place)


def numbers_set():
    """Numbers of every length around 1 and 24, good and bad bytes, and those that look alike."""
    for length in (0, 1, 2, 23, 24, 25, 26, 31, 32, 255, 256, 257, 280, 281, 4096):
        for place in (1, 2):
            yield from asked("m", place, b"7" * length, note="number of %d bytes" % length)
    for byte in BESIDE_LETTERS:
        for number in with_byte(bytes([byte])):
            yield from asked("m", 2, number, note="byte %02X beside the letters" % byte)
    for number in ALIKE + [b"741 ", b" 741", b"741\0", b"\0", b"A_", b"\n", b"741\n"]:
        yield from asked("m", 2, number, note="numbers that look alike")


def ends_of_numbers():
    """Punctuation at an end of a maker's number is good: 16 is "on registration only"."""
    for form in AT_END + INSIDE + BAD_AT_END:
        for number in punctuated([form]):
            note = "number %s" % form.decode("ascii")
            yield from asked("m", 2, number, note=note)
            if form not in BAD_AT_END:
                makers = filled([b"", number], SLOTS)
                yield from asked(PLACE_LETTERS, 2, makers=makers, note=note + " set")
                yield from asked("v", 2, register=filled([b"A", number], SLOTS),
                                 makers=filled(THEIRS[:1], SLOTS), note=note + " ours")


def set_over_others():
    """A number over a longer, a shorter, the same one and none, with others set on both sides."""
    sizes = [b"", b"B", b"BC", b"A" * 12, b"Y" * 23, LONGEST]
    for (before, number), around in product(product(sizes, repeat=2), (b"", b"N", LONGEST)):
        note = "%d bytes over %d" % (len(number), len(before))
        for slots in (3, SLOTS):
            yield from asked("m", 2, number, register=filled(OURS, slots),
                             makers=filled([around, before, around], slots), note=note)
    for number in (b"A", b"B", b"MC1741CP1", b"00741", b"0741", b"741"):
        for place in (1, 2, 3):
            yield from asked("m", place, number, note="a number that stands elsewhere")


def cleared():
    """Set and unset slots cleared, the first, the last, and one between others."""
    for number, around in product((b"", b"A", b"MC1741", LONGEST), (b"", b"N", LONGEST)):
        for place, slots in product((1, 2, 3), (3, SLOTS)):
            theirs = [around] * 3
            theirs[place - 1] = number
            yield from asked("u", place, register=filled(OURS, slots),
                             makers=filled(theirs, slots), note="%d bytes cleared" % len(number))


def shown():
    """The maker's number and ours of every size beside each other, and none in either table."""
    sizes = [b"A", b"AB", b"A" * 12, LONGEST]
    for ours, theirs in product(sizes, [b"", *sizes, b"B"]):
        for before, behind in product(([], [b"0"]), ([], [b"9"])):
            numbers = [*before, ours, *behind]
            labels = [*[b"" for _ in before], theirs, *behind]
            yield from asked("v", 1 + len(before), register=filled(numbers, 3),
                             makers=filled(labels, 3),
                             note="%d bytes beside %d" % (len(theirs), len(ours)))
    for output in (b"", b"before", LONGEST):
        for place in (1, 2, 4):
            yield Request("v", place, R=REGISTER, M=MAKERS, O=output, note="over an output")


def zeroed():
    """Whatever the tables hold: both sound, one or the other not, zeros, and bytes of any kind."""
    size = SLOTS * SLOT_BYTES
    registers = {"sound": REGISTER, "zeros": bytes(size), "any bytes": b"\xff" * size,
                 "a gap": bytes(SLOT_BYTES) + filled(OURS, SLOTS - 1)}
    tables = {"sound": MAKERS, "zeros": bytes(size), "any bytes": b"\xa5" * size,
              "beyond the parts": filled([b"A"] * SLOTS, SLOTS),
              "a bad byte": filled([b"_"], SLOTS), "one byte at the end": bytes(size - 1) + b"\1",
              "one byte at the start": b"\1" + bytes(size - 1)}
    for (what, register), (beside, makers) in product(registers.items(), tables.items()):
        yield from asked("z", 1, register=register, makers=makers,
                         note="zeroed, register %s, beside it %s" % (what, beside))


def number_bytes():
    """Every byte value first, in the middle and last, in a number given and in a slot."""
    for value in range(256):
        note = "byte %d in a maker's number" % value
        for number in with_byte(bytes([value])):
            yield from asked("m", 2, number, note=note)
            yield from asked("v", 2, makers=filled([b"", number], SLOTS), note=note)


def slot_bytes():
    """Each length byte, with good bytes in the whole slot or as many; stray bytes everywhere."""
    one = filled([b"00741"], 2)
    for length in range(256):
        slot = bytes([length]) + b"7" * (SLOT_BYTES - 1)
        yield from asked("v", 1, register=one, makers=slot + bytes(32),
                         note="length byte %d" % length)
    for length in range(SLOT_BYTES):
        slot = bytes([length]) + b"7" * length + bytes(SLOT_BYTES - 1 - length)
        yield from asked("v", 1, register=one, makers=slot + bytes(32),
                         note="length byte %d, as many bytes" % length)
    for position, value in product(range(SLOT_BYTES), (1, 55, 255)):
        stray = bytearray(SLOT_BYTES)
        stray[position] = value
        changed = bytearray(slot_for(b"741"))
        changed[position] = value
        for note, first, second in (("an unset slot", stray, bytes(32)),
                                    ("a set slot", changed, bytes(32)),
                                    ("a slot beyond the parts", bytes(32), stray)):
            yield from asked("v", 1, register=one, makers=first + second,
                             note="byte %d of %s" % (position, note))


def many_lengths():
    """Tables around 255 and 4,000 slots, each beside as many slots, one less and one more."""
    for slots in AROUND_BYTE + AROUND_MOST + [MOST_SLOTS + 1]:
        register = filled(OURS, slots)
        for beside in (slots - 1, slots, slots + 1):
            yield from asked(LABEL_LETTERS, 2, register=register,
                             makers=filled(THEIRS, beside)[:ROOM["M"]],
                             note="%d slots beside %d" % (beside, slots))
        for length in (slots * SLOT_BYTES - 1, slots * SLOT_BYTES + 1):
            yield from asked("zv", 2, register=register, makers=filled(THEIRS, slots + 1)[:length],
                             note="%d bytes beside %d slots" % (length, slots))
    longest = filled(OURS, MOST_SLOTS)
    for register in (longest + b"\0", longest + bytes(SLOT_BYTES)):
        yield from asked(LABEL_LETTERS, 2, register=register, makers=filled(THEIRS, MOST_SLOTS),
                         note="a register of %d bytes" % len(register))


def many_places():
    """Many parts with all set, every second one, and none: places around 255 and the last."""
    for parts in AROUND_BYTE + AROUND_MOST:
        numbers = many_numbers(parts)
        rows = {"all alike": [b"A"] * parts, "every second": [b"A", b""] * (parts // 2),
                "our numbers reversed": numbers[::-1]}
        places = sorted(place for place in {*EDGE_PLACES, 1, parts, parts + 1, 65535}
                        if place <= parts + 1 or place == 65535)
        for (what, theirs), place in product(rows.items(), places):
            # Large tables are tried by one call or the other.
            letters = PLACE_LETTERS if parts < MOST_SLOTS - 1 or what == "every second" else "v"
            yield from asked(letters, place, register=filled(numbers, parts),
                             makers=filled(theirs, parts), note="%d parts, %s" % (parts, what))
        yield from asked("z", 1, register=filled(numbers, parts),
                         makers=filled(rows["all alike"], parts), note="%d parts zeroed" % parts)
        yield from asked("v", 1, register=filled(numbers[:-1], parts),
                         makers=filled([b"A"] * parts, parts), note="a last slot beyond")


def many_damaged():
    """A stray, a bad byte or a length of 25 in slots around 255 and in the last, and beyond."""
    for slots in (BYTE_PLACES + 2, MOST_SLOTS):
        numbers = many_numbers(slots)
        right = filled(numbers[::-1], slots)
        for place in sorted({BYTE_PLACES, BYTE_PLACES + 1, slots - 1, slots}):
            start = (place - 1) * SLOT_BYTES
            slot = right[start:start + SLOT_BYTES]
            for put in (bytes(SLOT_BYTES), slot[:-1] + b"\1", slot[:5] + b"_" + slot[6:],
                        slot_for(b"7" * 25)):
                makers = right[:start] + put + right[start + SLOT_BYTES:]
                yield from asked("v", place, register=filled(numbers, slots), makers=makers,
                                 note="slot %d of %d changed" % (place, slots))


def some_labels(chance, numbers):
    """A maker's number for some of these parts: any, one of ours, or one that another part has."""
    often, labels = chance.pick((1, 2, 2, 3, 9)), []
    for _ in numbers:
        number = chance.pick((some_good_number(chance), some_good_number(chance),
                              chance.pick(numbers), chance.pick(labels or numbers)))
        labels.append(b"" if chance.one_in(often + 1) else number)
    return [] if chance.one_in(12) else labels


def damaged_makers(chance, makers, parts):
    """The table with one thing changed: a number beyond the parts, a slot, a byte, the length."""
    slots, way = len(makers) // SLOT_BYTES, chance.below(6)
    if way == 0:
        return makers[:-chance.pick((1, SLOT_BYTES))]
    if way == 1:
        return makers + bytes(chance.pick((1, SLOT_BYTES)))
    if way == 2 and parts < slots:
        start = SLOT_BYTES * chance.pick((parts, slots - 1, chance.between(parts, slots - 1)))
        return makers[:start] + slot_for(some_good_number(chance)) + makers[start + SLOT_BYTES:]
    if way == 3:
        start = SLOT_BYTES * chance.pick((0, max(parts, 1) - 1, chance.below(slots)))
        slot = chance.pick(list(BAD_SLOTS.values()))
        return makers[:start] + slot + makers[start + SLOT_BYTES:]
    return damaged_register(chance, makers)


class Maker:
    """Makes requests by chance."""

    def __init__(self, chance):
        self.chance = chance

    def by_chance(self, letter):
        """A request for this call."""
        chance = self.chance
        register = some_register(chance)
        numbers, slots = numbers_of(register), len(register) // SLOT_BYTES
        labels = some_labels(chance, numbers)
        makers = filled(labels, slots)
        place = some_place(chance, len(numbers))
        number = some_number(chance, numbers + [label for label in labels if label])
        for _ in range(chance.pick((0, 0, 0, 0, 0, 1, 1, 2))):
            if right_length(makers):
                makers = damaged_makers(chance, makers, len(numbers))
        if chance.one_in(8):
            register = damaged_register(chance, register)
        return Request(letter, place, R=register, M=makers, I=number,
                       O=chance.pick((b"", b"before", LONGEST)))
