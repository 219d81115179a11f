"""Requests that try the register's calls: fixed ones at every limit, and ones by chance."""

from itertools import chain, islice, permutations, product

from run.frame import ROOM
from second.lent import Request
from second.register import (
    LONGEST_NUMBER, MOST_SLOTS, NUMBER_BYTES, PUNCTUATION, SLOT_BYTES, filled, numbers_of,
    right_length, slot_for, sound)
from second.sheet import BYTE_PLACES

# Numbers that an integer, a trimming, a folding or a short comparison would take for each other.
ALIKE = [
    b"00741", b"0741", b"741", b"7410", b"74", b"7", b"0", b"00", b"A", b"AA", b"A-", b"-A",
    b"A.", b"A/", b".", b"/", b"-", b"4016", b"LM741", b"1E3", b"0X1", b"Z" * 23, b"Z" * 24,
    b"Z" * 23 + b"A", b"A" + b"Z" * 23, b"74LS00", b"74ls00", b"74Ls00", b"a", b"aA", b"lm741",
    b"1e3", b"0x1", b"z" * 24, b"Z" * 23 + b"z", b".A", b"/A", b"Z" * 23 + b"-",
]

# Bytes at the edges of the allowed stretches, and a few that readers often treat apart.
EDGE_BYTES = [0, 1, 9, 10, 13, 31, 32, 44, 45, 46, 47, 48, 57, 58, 64, 65, 90, 91, 96, 97, 122,
              123, 127, 128, 173, 176, 193, 225, 254, 255]

# The bytes just before and just behind the capitals and the small letters.
BESIDE_LETTERS = b"@[`{"

# Numbers that differ in case only.
CASE_PAIRS = [
    (b"74ls00", b"74LS00"), (b"74LS00", b"74Ls00"), (b"a", b"A"), (b"-z/1", b"-Z/1"),
    (b"z-/1", b"Z-/1"), (b"z" * 24, b"Z" * 24), (b"Z" * 23 + b"z", b"Z" * 24),
]

# Numbers with _ in place of a hyphen, full stop or slash: at an end, as a torn label has it; inside
# alone; and at an end of what is against the rule as well.
AT_END = [b"_", b"__", b"_1", b"1_", b"_4016", b"CD4016_", b"_CD4016_", b"_" + b"7" * 23,
          b"z" * 23 + b"_", b"_" + b"Z" * 22 + b"_"]
INSIDE = [b"CD_4016", b"C_4016", b"401_6", b"1_1", b"1__1", b"7_" + b"7" * 22, b"Z" * 22 + b"_Z"]
BAD_AT_END = [b"_ ", b" _", b"_40 16", b"CD40 16_", b"_CD:4016_", b"_" + b"7" * 24,
              b"7" * 24 + b"_"]

PLACES = [0, 1, 2, 3, 4, 254, 255, 256, 257, 258, 511, 512, 2048, 3999, 4000, 4001, 32767, 32768,
          65535]


def many_numbers(count):
    """So many good numbers, no two the same."""
    return [b"%05d" % (7 * at) for at in range(count)]


def shortest_numbers(count):
    """So many numbers of one byte and then of two, which stand in every order."""
    every = [bytes([byte]) for byte in NUMBER_BYTES]
    pairs = (one + other for one, other in product(every, repeat=2))
    return list(islice(chain(every, pairs), count))


def many_spellings(count):
    """So many numbers, at most 256, no two the same, that differ in case only."""
    return [bytes(letter - 32 * (at >> bit & 1) for bit, letter in enumerate(b"abcdefgh"))
            for at in range(count)]


def torn_labels(count):
    """So many numbers, no two the same, each "with a hyphen at its end"."""
    return [number + b"-" for number in many_numbers(count)]


def punctuated(forms):
    """These numbers with each of the three bytes in place of _."""
    return [form.replace(b"_", bytes([byte])) for form in forms for byte in PUNCTUATION]


def with_byte(byte):
    """Numbers with this byte first, in the middle and last."""
    return byte + b"AB", b"A" + byte + b"B", b"AB" + byte


def limits():
    """Every limit of the register and of a part number."""
    yield from number_lengths()
    yield from register_lengths()
    yield from slots_together()
    yield from full_registers()
    yield from places()
    yield from alike_numbers()
    yield from beside_letters()
    yield from case_pairs()
    yield from ends_of_numbers()
    yield from held_ends()


def sweeps():
    """Every byte value in a number and in a slot."""
    yield from number_bytes()
    yield from slot_contents()


def large():
    """A number as large as the probe has room for; registers around 255 slots, spellings, torn
    labels."""
    yield Request("p", R=bytes(SLOT_BYTES), I=b"7" * ROOM["I"], note="a number of 65,536 bytes")
    yield Request("l", R=slot_for(b"7"), I=b"7" * ROOM["I"], note="a number of 65,536 bytes")
    for letter in "pln":
        for length in (8128, 8159, 8200):
            yield Request(letter, 1, R=filled([b"A"], 257)[:length], I=b"A",
                          note="register of %d bytes" % length)
    *spellings, another = many_spellings(BYTE_PLACES + 1)
    twice = [*spellings[:-1], spellings[0]]
    for number in (spellings[0], spellings[-1], another):
        for letter in "pl":
            yield Request(letter, R=filled(spellings, BYTE_PLACES), I=number, note="255 spellings")
            yield Request(letter, R=filled(twice, BYTE_PLACES), I=number, note="a spelling twice")
    torn = torn_labels(BYTE_PLACES)
    for letter, number in product("pl", (torn[0], torn[-1], b"00000", b"NEW-")):
        yield Request(letter, R=filled(torn, BYTE_PLACES), I=number, note="255 torn labels")


def number_lengths():
    """Numbers of 0, 1, 24 and 25 bytes, and lengths that a byte would fold onto good ones."""
    free = filled([b"A"], 2)
    for length in (0, 1, 2, 23, 24, 25, 26, 31, 32, 255, 256, 257, 280, 281, 4096):
        number = b"7" * length
        for letter in "pl":
            yield Request(letter, R=free, I=number, note="number of %d bytes" % length)
        if length <= LONGEST_NUMBER and length > 0:
            held = filled([number], 2)
            for letter in "pl":
                yield Request(letter, R=held, I=number, note="held, %d bytes" % length)
            yield Request("n", 1, R=held, note="show %d bytes" % length)


def number_bytes():
    """Every byte value first, in the middle and last, in a number given and in a slot."""
    other = filled([b"4016"], 2)
    for value in range(256):
        note = "byte %d in a number" % value
        for number in with_byte(bytes([value])):
            for letter in "pl":
                yield Request(letter, R=other, I=number, note=note)
            for letter in "pln":
                yield Request(letter, 2, R=filled([b"4016", number], 2), I=number, note=note)


def register_lengths():
    """Register lengths around one slot, two slots and the most slots."""
    numbers = [b"A", b"B"]
    for length in (0, 1, 31, 32, 33, 63, 64, 65):
        register = filled(numbers, 3)[:length]
        for letter in "pln":
            yield Request(letter, 1, R=register, I=b"A", note="register of %d bytes" % length)
    longest = BYTE_PLACES * SLOT_BYTES
    for length in (longest, longest + 1, longest + SLOT_BYTES):
        register = filled(numbers, BYTE_PLACES) + bytes(length - longest)
        for letter in "pln":
            number = b"C" if letter == "p" else b"B"
            yield Request(letter, 2, R=register, I=number, note="register of %d bytes" % length)
    # 1 comes before 3, 11 and 2.
    yield Request("p", R=bytes(31), I=b"", note="wrong length and bad number")
    yield Request("l", R=b"\x07" * 33, I=b"_", note="wrong length, unsound, bad number")


def slot_contents():
    """Each length byte, with good bytes in the whole slot or as many, and stray bytes."""
    for length in range(256):
        slot = bytes([length]) + b"7" * (SLOT_BYTES - 1)
        yield Request("n", 1, R=slot, note="length byte %d" % length)
    for length in range(SLOT_BYTES):
        slot = bytes([length]) + b"7" * length + bytes(SLOT_BYTES - 1 - length)
        yield Request("n", 1, R=slot, note="length byte %d, as many bytes" % length)
    for position in range(SLOT_BYTES):
        for value in (1, 55, 255):
            slot = bytearray(slot_for(b"741"))
            slot[position] = value
            yield Request("l", R=slot, I=b"741", note="byte %d of a used slot" % position)
            slot = bytearray(SLOT_BYTES)
            slot[position] = value
            yield Request("p", R=slot_for(b"741") + slot, I=b"4016",
                          note="byte %d of an unused slot" % position)
    for number in (b"", b"_", b"741", b"7" * 25):
        for letter in "pl":
            yield Request(letter, R=b"\x03741" + bytes(27) + b"1", I=number,
                          note="not sound comes before a bad number")


def slots_together():
    """Gaps between slots, and a number that stands twice."""
    a, b, c, none = slot_for(b"A"), slot_for(b"B"), slot_for(b"C"), bytes(SLOT_BYTES)
    rows = {
        "a gap at the start": none + a,
        "a gap in the middle": a + none + b,
        "two gaps": a + none + b + none + c,
        "a long gap": a + none + none + none + b,
        "twice, side by side": a + a,
        "twice, apart": a + b + a,
        "twice at the end": b + c + a + a,
        "twice with room behind": a + b + b + none,
        "sound": a + b + c + none,
        "empty": none + none,
    }
    for note, register in rows.items():
        for letter in "pl":
            for number in (b"A", b"D"):
                yield Request(letter, R=register, I=number, note=note)
        for place in (0, 1, 2):
            yield Request("n", place, R=register, note=note)
    many = filled(many_numbers(BYTE_PLACES - 1), BYTE_PLACES)
    yield Request("l", R=many[:-SLOT_BYTES] + many[:SLOT_BYTES], I=b"00007",
                  note="first and last slot hold one number")


def full_registers():
    """The last free slot; a full register with a number that is new (12), held (9) or torn (16)."""
    for slots in (1, 3, BYTE_PLACES):
        numbers = many_numbers(slots)
        full = filled(numbers, slots)
        yield Request("p", R=full, I=b"NEW", note="full register, new number")
        yield Request("p", R=full, I=b"NEW-", note="full register, torn number")
        yield Request("p", R=full, I=numbers[-1], note="full register, held number")
        yield Request("l", R=full, I=numbers[-1], note="the last number")
        yield Request("n", slots, R=full, note="the last place")
        yield Request("n", slots + 1, R=full, note="past the last place")
        yield Request("p", R=filled(numbers[:-1], slots), I=b"NEW", note="the last free slot")
    yield Request("p", R=filled(many_numbers(3), 3), I=b"NEW_", note="full register, bad number")


def places():
    """Places 0, the last, one past it, 65,535, and ones that a byte would fold."""
    register = filled([b"00741", b"0741", b"741"], 5)
    for place in PLACES:
        yield Request("n", place, R=register, O=b"before", note="show place %d" % place)
        yield Request("n", place, R=bytes(SLOT_BYTES), O=b"before", note="show in an empty one")
    yield Request("n", 0, R=bytes(31), O=b"before", note="wrong length, place 0")
    yield Request("n", 0, R=b"\x01" * 32, O=b"before", note="not sound, place 0")


def alike_numbers():
    """00741, 0741 and 741 are three parts, and a number that begins another is its own."""
    for first in range(3):
        register = filled(ALIKE[first:first + 2], 3)
        for number in ALIKE[:6]:
            for letter in "pl":
                yield Request(letter, R=register, I=number, note="numbers that look alike")
    register = filled(ALIKE, len(ALIKE) + 1)
    for number in ALIKE + [b"A" * 23, b"A" * 24, b"Z" * 22, b"741 ", b" 741", b"741\0", b"A_"]:
        yield Request("l", R=register, I=number, note="numbers that look alike")
    yield Request("p", R=register, I=b"741A", note="numbers that look alike")


def beside_letters():
    """The bytes beside the letters, alone, and at both ends and in the middle of 24 bytes."""
    for value in BESIDE_LETTERS:
        byte, note = bytes([value]), "byte %02X beside the letters" % value
        for number in (byte, byte + b"Z" * 23, b"a" * 12 + byte + b"A" * 11, b"z" * 23 + byte):
            for letter in "pl":
                yield Request(letter, R=filled([b"AZ", b"az"], 3), I=number, note=note)
            for letter in "pln":
                yield Request(letter, 1, R=slot_for(number), I=b"AZ", note=note)


def case_pairs():
    """Letters "are never folded": numbers that differ in case only are two parts."""
    for one, other in chain(*map(permutations, CASE_PAIRS)):
        note = "%s and %s" % (one.decode("ascii"), other.decode("ascii"))
        both = filled([one, other], 3)
        for letter in "pl":
            yield Request(letter, R=filled([one], 2), I=other, note=note)
            yield Request(letter, R=both, I=one, note=note)
            yield Request(letter, R=both, I=other, note=note)
        yield Request("p", R=slot_for(one), I=other, note=note + ", no free slot")
        for place in (1, 2):
            yield Request("n", place, R=both, note=note)
        for letter in "pln":
            yield Request(letter, 2, R=filled([one, other, one], 3), I=other,
                          note=note + ", the first twice")


def ends_of_numbers():
    """Punctuation at an end of a number and inside it, with a free slot and with none."""
    for form in AT_END + INSIDE + BAD_AT_END:
        note = "number %s" % form.decode("ascii")
        for letter, number in product("pl", punctuated([form])):
            yield Request(letter, R=filled([b"4016"], 2), I=number, note=note)
            yield Request(letter, R=slot_for(b"4016"), I=number, note=note + ", no free slot")
    yield Request("p", R=bytes(31), I=b"CD4016-", note="wrong length, torn number")
    yield Request("p", R=filled([b"4016"] * 2, 3), I=b"CD4016-", note="not sound, torn number")


def held_ends():
    """The same numbers where they are held: 16 comes before 9, and they are found and shown.

    With and without the punctuation at its ends a number is two parts: "Nothing is trimmed".
    """
    for form in AT_END + INSIDE:
        note = "held %s" % form.decode("ascii")
        for number in punctuated([form]):
            for letter, slots in product("pln", (2, 3)):
                yield Request(letter, 2, R=filled([b"4016", number], slots), I=number, note=note)
            trimmed = number.strip(PUNCTUATION)
            if trimmed in (b"", number):
                continue
            for letter, (held, asked) in product("pl", permutations((number, trimmed))):
                yield Request(letter, R=filled([held], 2), I=asked, note=note + ", trimmed")


def some_good_number(chance):
    """A good number, often one that looks like another."""
    if chance.one_in(2):
        return chance.pick(ALIKE)
    length = chance.pick((1, 2, 3, 5, 8, 23, 24, chance.between(1, LONGEST_NUMBER)))
    return bytes(chance.pick(NUMBER_BYTES) for _ in range(length))


def some_numbers(chance, count):
    """So many good numbers by chance, no two the same; now and then one in the other case too."""
    numbers, met = [], set()
    while len(numbers) < count:
        number = some_good_number(chance)
        if numbers and chance.one_in(6):
            number = chance.pick(numbers).swapcase()
        if number not in met:
            numbers.append(number)
            met.add(number)
    return numbers


def some_register(chance, used=None):
    """A sound register, often small, often full or nearly so."""
    slots = chance.pick((1, 2, 3, 4, 4, 5, 6, 8, chance.between(1, 40)))
    if chance.one_in(60):
        slots = chance.pick((BYTE_PLACES, BYTE_PLACES + 1, chance.between(41, 2 * BYTE_PLACES)))
    elif chance.one_in(200):
        slots = chance.pick((MOST_SLOTS, MOST_SLOTS - 1, chance.between(BYTE_PLACES, MOST_SLOTS)))
    if used is None:
        used = chance.pick((slots, slots, slots - 1, chance.between(0, slots)))
    return filled(some_numbers(chance, min(used, slots)), slots)


def damaged_register(chance, register):
    """The register with one thing changed, which may leave it sound."""
    changed = bytearray(register)
    slots = len(changed) // SLOT_BYTES
    start = SLOT_BYTES * chance.below(slots)
    other = SLOT_BYTES * chance.below(slots)
    way = chance.below(8)
    if way == 0:
        changed[chance.below(len(changed))] = chance.pick((0, chance.pick(EDGE_BYTES)))
    elif way == 1:
        length = changed[start]
        changed[start] = chance.pick((0, 1, (length + 1) % 256, (length - 1) % 256, 24, 25, 255))
    elif way == 2:
        held = changed[start:start + SLOT_BYTES]
        changed[start:start + SLOT_BYTES] = changed[other:other + SLOT_BYTES]
        changed[other:other + SLOT_BYTES] = held
    elif way == 3:
        changed[start:start + SLOT_BYTES] = changed[other:other + SLOT_BYTES]
    elif way == 4:
        changed[start:start + SLOT_BYTES] = bytes(SLOT_BYTES)
    elif way == 5:
        changed[start + chance.between(1, SLOT_BYTES - 1)] = chance.pick(EDGE_BYTES)
    elif way == 6:
        changed = changed[:chance.below(len(changed) + 1)]
    else:
        changed += bytes(chance.pick((1, 31, 32, 33)))
    return bytes(changed)


def some_number(chance, numbers):
    """A number to ask for: held, nearly held, or against the rule."""
    if numbers and chance.below(8) < 4:
        return chance.pick(numbers)
    number = chance.pick(numbers) if numbers and chance.one_in(2) else some_good_number(chance)
    way = chance.below(13)
    if way == 0:
        number = number[1:]
    elif way == 1:
        number = number[:-1]
    elif way == 2:
        number = number + bytes([chance.pick(NUMBER_BYTES)])
    elif way == 3:
        number = b"0" + number
    elif way == 4:
        at = chance.below(len(number))
        number = number[:at] + bytes([chance.pick(EDGE_BYTES)]) + number[at + 1:]
    elif way == 5:
        number = number * chance.pick((0, 2, 11, 257))
    elif way == 6:
        number = number.swapcase()
    elif way == 7:
        number = number[:-1] + bytes([chance.pick(BESIDE_LETTERS)])
    elif way == 8:
        number = number[:-1] + bytes([chance.pick(PUNCTUATION)])
    elif way == 9:
        number = bytes([chance.pick(PUNCTUATION)]) + number[1:]
    return number


def some_place(chance, used):
    """A place to ask for: held, just past the held ones, or far off."""
    return chance.pick((1, used, used + 1, chance.between(1, used + 1), chance.between(1, used + 1),
                        256 + used, chance.pick(PLACES)))


class Maker:
    """Makes requests by chance."""

    def __init__(self, chance):
        self.chance = chance

    def by_chance(self, letter):
        """A request for this call."""
        chance = self.chance
        register = some_register(chance)
        numbers = numbers_of(register)
        if chance.below(10) < 4:
            for _ in range(chance.pick((1, 1, 1, 2))):
                if right_length(register) and sound(register):
                    register = damaged_register(chance, register)
        return Request(letter, some_place(chance, len(numbers)), R=register,
                       I=some_number(chance, numbers))
