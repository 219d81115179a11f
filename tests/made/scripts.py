"""Scripts that the desk is tried with: fixed ones at every limit, and ones by chance."""

from second.desk import (
    CALL_LETTERS, LIST_LETTERS, LONGEST_LINE, NODES, SHEET_BYTES, SLOTS)
from second.kits import MOST_UNITS, lines_of
from second.register import LONGEST_NUMBER

from .register_requests import ALIKE, EDGE_BYTES, many_numbers, punctuated

# Document 01's example, with the last K reply of request 2: "becomes `K 4 2`".
EXAMPLE_INPUT = b"""\
P 00741
P 741
P 00741
P 4016
K 7 00741 2 4016 1
K 9 00741 1
K 5 741 1
K 6 00741 1
K 7 4016 1
b 00741 1 741 4
S 4016 1
B 4016 1
D 00741 2 4016 1
K 8 4016 2 4016 1
W
"""
EXAMPLE_OUTPUT = b"""\
P 0 1
P 0 2
P 9 1
P 0 3
K 0 3
K 0 0
K 0 1
K 9 9
K 10 0
b 0 2 9 5
S 0 7
B 0 0
D 0 7
K 4 2
W 0 34 4B495400010003053030373431033734310434303136000200090101010005010201
"""

# Two parts whose numbers differ in case only, by request 3: each with a kit, found, listed, written
# and struck out. The replies are worked out by hand for tables that are empty at first.
SPELLINGS_INPUT = b"""\
P 74ls00
P 74LS00
P 74ls00
P 74LS00
K 401 74ls00 1
K 402 74LS00 1
K 403 74ls00 1 74LS00 2
K 404 74LS00 1 74ls00 1
K 404 74Ls00 1
F 74ls00 1
F 74LS00 1
B 74LS00 15
S 74LS00 1
b 74ls00 1
b 74LS00 2
s 74ls00 1
s 74LS00 1
W
D 74ls00 1
F 74ls00 1
F 74LS00 1
D 74LS00 1
D 74ls00 1 74LS00 2
W
"""
SPELLINGS_OUTPUT = b"""\
P 0 1
P 0 2
P 9 1
P 9 2
K 0 1
K 0 1
K 0 2
K 4 2
K 11 0
F 0 401
F 0 402
B 0 402
S 0 403
b 0 1 401
b 0 1 402
s 0 2 401 403
s 0 2 403 402
W 0 40 4B4954000100020637346C7330300637344C53303000030191010101019302010102020192010201
D 0 401
F 11 0
F 0 402
D 0 402
D 0 403
W 0 23 4B4954000100020637346C7330300637344C5330300000
"""

# Request 6: "A torn label gave us a number with a hyphen at its end, and nobody could find the
# part." Then each of the three bytes first, last, alone and inside. The replies are worked out by
# hand for tables that are empty at first.
TORN_LABEL_INPUT = b"""\
P CD4016-
P CD4016
P CD4016-
F CD4016- 1
F CD4016 1
K 501 CD4016 1
K 502 CD4016- 1
F CD4016 1
P -4016
P .4016
P /4016
P 4016-
P 4016.
P 4016/
P -
P .
P /
P -4016/
P CD-4016
P CD.4016
P CD/4016
P CD-4016
P CD:4016-
K 502 CD-4016 1 CD/4016 2
B CD-4016 1 CD.4016 1 CD/4016 2
S CD/4016 1
b -4016 1
W
D CD4016 1
D CD-4016 1 CD/4016 2
W
"""
TORN_LABEL_OUTPUT = b"""\
P 16 0
P 0 1
P 16 0
F 11 0
F 11 0
K 0 1
K 11 0
F 0 501
P 16 0
P 16 0
P 16 0
P 16 0
P 16 0
P 16 0
P 16 0
P 16 0
P 16 0
P 16 0
P 0 2
P 0 3
P 0 4
P 9 2
P 3 0
K 0 3
B 0 502
S 0 502
b 11 0
W 0 52 4B4954000100040643443430313607\
43442D343031360743442E343031360743442F34303136000201F501010101F60202010402
D 0 501
D 0 502
W 0 40 4B4954000100040643443430313607\
43442D343031360743442E343031360743442F343031360000
"""

# Request 14: an empty kit is refused whatever its tag, but for tag 0, and nothing of it is found,
# listed or written. The replies are worked out by hand for tables that are empty at first.
EMPTY_KIT_INPUT = b"""\
K 5
K 0
K 65535
K 65536
K
F
D
B
S
b
s
P 4011
K 5
K 0
K 5 4011 0
K 0 4011 1
K 5 4012 1
K 5 4011 1
K 5
K 6
K 0
K 6 4011 1
K 5 4011 2
F
D
B
S
b
s
B 4011 1
b 4011 1
W
D 4011 1
K 5
B
s
W
"""
EMPTY_KIT_OUTPUT = b"""\
K 19 0
K 8 0
K 19 0
?
?
F 11 0
D 11 0
B 0 0
S 0 0
b 0 0
s 0 0
P 0 1
K 19 0
K 8 0
K 6 1
K 8 0
K 11 0
K 0 1
K 19 0
K 19 0
K 8 0
K 9 5
K 10 0
F 11 0
D 11 0
B 0 0
S 0 5
b 0 0
s 0 1 5
B 0 5
b 0 1 5
W 0 19 4B495400010001043430313100010005010101
D 0 5
K 19 0
B 0 0
s 0 0
W 0 14 4B49540001000104343031310000
"""

LETTERS = "".join(CALL_LETTERS)
MILLION = 1_000_000

# "Volunteers type lists of forty lines": their places, and those of a number that is not
# registered and of one against the rule.
FORTY = range(1, 41)
UNKNOWN, BAD = 41, 42
# A lookup's refusal, whose value stays 0, before and behind a line at fault.
LOOKED_UP_IN_FORTY = [
    {1: (1, 0), 40: (UNKNOWN, 1)}, {1: (UNKNOWN, 1), 40: (40, 16)}, {39: (UNKNOWN, 0)},
    {2: (1, 1), 40: (BAD, 1)}, {2: (BAD, 1), 40: (39, 1)}, {39: (BAD, 16)},
]

# Fields that are or are not a tag or a quantity.
WORDS = [b"0", b"1", b"9", b"10", b"15", b"16", b"255", b"256", b"9999", b"10000", b"65534",
         b"65535", b"65536", b"65537", b"99999", b"100000", b"131073", b"4294967297", b"00", b"01",
         b"007", b"00000", b"000001", b"-1", b"+1", b"1.0", b"1e3", b"0x1", b"1A", b"A1", b"1\t",
         b"\t1", b"1\r", b"1\0", b"\xb2", b"\xd9\xa1", b"/", b":", b"1/", b"1:"]


def text(*lines):
    """Lines, each with its line feed."""
    return b"".join(line + b"\n" for line in lines)


def registering(numbers):
    """The lines that register these numbers."""
    return [b"P " + number for number in numbers]


def paired(lines, numbers):
    """Lines (place, quantity) as number and quantity pairs."""
    return b"".join(b" %s %d" % (numbers[place - 1], quantity) for place, quantity in lines)


def listed(row, numbers):
    """A unit row as number and quantity pairs."""
    return paired(lines_of(row), numbers)


def fixed():
    """Each fixed script with what it tries."""
    yield "the document's example", EXAMPLE_INPUT
    yield "empty input", b""
    yield from ends_of_input()
    yield "lengths of lines", text(*line_lengths())
    for length in (LONGEST_LINE, LONGEST_LINE + 1, 1023, 1024, 1025, 4096, 4097, 65536, MILLION):
        yield "a line of %d bytes" % length, long_line(length)
    yield "spaces and other bytes", text(*stray_bytes())
    yield "every byte as a letter", text(*(
        bytes([byte]) + rest for byte in range(256) if byte != 10
        for rest in (b"", b" A", b" 1", b" A 1")))
    yield "numbers of fields", text(*field_counts())
    yield "tags and quantities", text(*tags_and_quantities())
    yield "lookups before all else", text(*lookups())
    yield "forty lines", text(*forty_lines())
    yield "units and refusals in order", text(*units_and_order())
    yield "questions", text(*questions())
    yield "part numbers", text(*part_numbers())
    yield "every byte first and in the middle", text(*every_byte(b"%sX", b"X%sX"), b"W")
    yield "two spellings", SPELLINGS_INPUT
    yield "a torn label", TORN_LABEL_INPUT
    yield "an empty kit", EMPTY_KIT_INPUT
    yield "the last slot", text(*last_slot())
    yield "the last node", text(*last_node())
    for size in (SHEET_BYTES - 1, SHEET_BYTES, SHEET_BYTES + 1):
        yield "a sheet of %d bytes" % size, text(*sheet_of_size(size))
    yield "a kit for each node but the root", text(*many_kits())


def ends_of_input():
    """Inputs that end with and without a line feed."""
    for data in (b"\n", b"\n\n", b"W", b"W\n", b"W\n\n", b"\nW", b"P A", b"P A\nP A",
                 b"P A\n\nP A\n", b" ", b"\r\n", b"\0", b"P ", b"P A \n", b"W\r\n",
                 b"P A\r\nP A\n",
                 b"A" * LONGEST_LINE, b"A" * (LONGEST_LINE + 1), b"W\n" + b"A" * 600):
        yield "input %r" % data[:20], data


def line_lengths():
    """Lines of 510 to 514 bytes, good ones and others, among short ones."""
    yield from registering([b"A", b"B", b"1"])
    for length in range(LONGEST_LINE - 2, LONGEST_LINE + 3):
        yield b"P " + b"7" * (length - 2)
        yield b"B" + b" A 1" * ((length - 1) // 4) + b" " * ((length - 1) % 4)
        yield b"B" + b" A 1" * ((length - 1) // 4 - 1) + b" A " + b"1" * (
            length - 1 - 4 * ((length - 1) // 4 - 1) - 3)
        yield b"b A 1 B 1".ljust(length, b"9")
        yield b"K 1 A 1 " + b"B" * (length - 10) + b" 1"
        yield b" " * length
        yield b"\0" * length
        yield b"W" * length
        yield b"P C"
    # A good K line of just 512 bytes, the same pairs with other letters, and each made longer.
    numbers = [b"N%04d" % at for at in range(60)]
    head = b"K 100" + b"".join(b" %s 1" % number for number in numbers)
    numbers.append(b"Z" * (LONGEST_LINE - len(head) - len(b"  1")))
    yield from registering(numbers)
    pairs = b"".join(b" %s 1" % number for number in numbers)
    for letter in (b"K 100", b"F", b"b", b"s", b"D"):
        yield letter + pairs
        yield letter + pairs + b"0"
        yield letter + pairs[:-1] + b"10" + b" "
    yield b"W"


def long_line(length):
    """A line of so many bytes between good ones, and another at the end without line feed."""
    line = b"K 1 A 1 " + b"7" * (length - 8)
    return b"P A\n" + line + b"\nK 2 A 1\n" + line + b"\nW\nP " + b"B" * (length - 2)


def stray_bytes():
    """Spaces in every place where none belongs, and bytes that are no space."""
    yield from registering([b"A", b"B"])
    for good in (b"P C", b"K 1 A 1", b"F A 1", b"W", b"b A 1 B 2", b"K 2"):
        yield b" " + good
        yield good + b" "
        yield good.replace(b" ", b"  ")
        for byte in (b"\t", b"\r", b"\0", b"\x0b", b"\x0c", b"\x85", b"\xa0", b"\xff"):
            yield good + byte
            yield byte + good
            yield good.replace(b" ", byte)
            yield good[:-1] + byte + good[-1:]
    yield b"P C\xa0"
    yield b"P \xc3\x84"
    yield b"F A\t1"
    yield b"W"


def field_counts():
    """Each letter with no field up to five."""
    yield from registering([b"A", b"B"])
    for letter in LETTERS + "px?":
        for fields in (b"", b" A", b" 1", b" A 1", b" 1 A", b" 5 A 1", b" A 1 B", b" A 1 B 1",
                       b" 6 A 1 B 1", b" 6 A 1 B", b" A 1 B 1 C", b" 1 1 1 1"):
            yield letter.encode("ascii") + fields
    for letters in (b"PP", b"KK", b"WW", b"Wb", b"bs", b"P.", b"K1", b"F,"):
        for fields in (b"", b" A", b" A 1", b" 1 A 1"):
            yield letters + fields
    yield b"W"


def tags_and_quantities():
    """Every form of a tag and of a quantity."""
    yield from registering([b"A", b"B", b"1", b"0"])
    for word in WORDS:
        yield b"K " + word
        yield b"D"
        yield b"K " + word + b" A 1"
        yield b"D A 1"
        yield b"K 77 A " + word
        yield b"D A " + word
        yield b"K 77 A 1 B " + word
        yield b"D A 1 B " + word
        yield b"K 78 " + word + b" 1"
        yield b"D " + word + b" 1"
        for letter in LIST_LETTERS:
            yield letter.encode("ascii") + b" A " + word
    yield b"W"


def lookups():
    """A lookup's refusal comes before tag 0 and before 4 and 6, and the leftmost counts."""
    yield from registering([b"A", b"B"])
    for letter in ("K 0", "K 1", *LIST_LETTERS):
        head = letter.encode("ascii")
        for pairs in (b" C 1", b" _ 1", b" C 1 _ 1", b" _ 1 C 1", b" A 1 C 1", b" A 0 C 1",
                      b" B 1 A 1 C 1", b" A 1 A 1 _ 1", b" A 99 B 0", b" A 16 C 0", b" B 1 A 1",
                      b" A 1 A 1", b" A 0", b" A 16", b" A 15", b" " + b"A" * 24 + b" 1",
                      b" " + b"A" * 25 + b" 1", b" C x", b" A 1 C", b"", b" a 1", b" A 1 b 1",
                      b" A- 1 _ 1"):
            yield head + pairs
    yield b"W"


def forty_lines():
    """A list of forty lines, which is entered, and others with one or two of them at fault."""
    numbers = many_numbers(len(FORTY))
    yield from registering(numbers)
    numbers += [b"NEW", b"NEW_"]
    good = forty({})
    at_fault = [forty(changed) for changed in (*faults_in_forty(), *LOOKED_UP_IN_FORTY)]
    for lines in (good, *at_fault):
        for head in (b"K 41", b"F", b"B", b"S", b"b", b"s"):
            yield head + paired(lines, numbers)
    for lines in (*at_fault, good):
        yield b"D" + paired(lines, numbers)
    yield b"W"


def forty(changed):
    """One of each of forty parts; lines that are changed, by their number, stand instead."""
    return [changed.get(place, (place, 1)) for place in FORTY]


def faults_in_forty():
    """Changes: quantities 0 and 16, a part twice, two parts in falling order; then two faults."""
    for line in (1, 2, 20, 39, 40):
        yield {line: (line, 0)}
        yield {line: (line, 16)}
        if line > 1:
            yield {line: (line - 1, 1)}
            yield {line - 1: (line, 1), line: (line - 1, 1)}
    yield {1: (1, 0), 2: (1, 1)}
    yield {2: (1, 1), 40: (40, 0)}
    yield {20: (20, 16), 40: (39, 1)}
    yield {40: (39, 16)}


def units_and_order():
    """64 and 65 units, none, and 8, 7, 19, 9 and 10 before one another."""
    numbers = [b"A", b"B", b"C", b"D", b"E"]
    yield from registering(numbers)
    most = (1,) * 15 + (2,) * 15 + (3,) * 15 + (4,) * 15
    for row in (most + (5,) * 4, most + (5,) * 5, most + (5,) * 15, (1,) * 15, (), (2,)):
        pairs = listed(row, numbers)
        yield b"K 0" + pairs
        yield b"K 1" + pairs
        yield b"K 2" + pairs
        yield b"K 65535" + pairs
        for letter in LIST_LETTERS:
            if letter != "D":
                yield letter.encode("ascii") + pairs
    yield b"W"
    for row in (most + (5,) * 5, most + (5,) * 4, (), (1,) * 15):
        yield b"D" + listed(row, numbers)
        yield b"D" + listed(row, numbers)
    yield b"W"


def questions():
    """Every question on a few kits that share beginnings, as kits come and go."""
    numbers = [b"00741", b"741", b"4016"]
    yield from registering(numbers)
    rows = [(), (1,), (1, 1), (1, 2), (1, 3), (2,), (2, 3), (2, 2, 3), (3, 3), (1, 2, 3)]
    for tag, row in enumerate(rows, start=1):
        yield b"K %d" % (100 - tag) + listed(row, numbers)
    for struck in ((), (1,), (1, 2), (2, 3), (3, 3)):
        for row in rows + [(1, 1, 2, 2, 3, 3), (1,) * 15 + (2,) * 15 + (3,) * 15]:
            for letter in "FBSbs":
                yield letter.encode("ascii") + listed(row, numbers)
        yield b"D" + listed(struck, numbers)
        yield b"W"


def part_numbers():
    """Numbers of every length, alike numbers, and every byte as the last."""
    for length in (1, 2, 23, 24, 25, 26, 255, 256, 257, LONGEST_LINE - 2):
        yield b"P " + b"7" * length
    yield from registering(ALIKE)
    yield from registering(ALIKE)
    yield from every_byte(b"X%s")
    yield b"W"


def every_byte(*forms):
    """Numbers of these forms with every byte but the line feed, each registered and looked up."""
    for byte in range(256):
        for number in [form % bytes([byte]) for form in forms if byte != 10]:
            yield b"P " + number
            yield b"B " + number + b" 1"


def last_slot():
    """255 parts, a 256th, and a held, a bad and a torn one in the full register."""
    numbers = many_numbers(SLOTS)
    yield from registering(numbers)
    yield from registering([b"NEW", numbers[0], numbers[-1], b"NEW_", b"NEW-", b"new", b"NEW"])
    yield b"K 1 %s 15 %s 1" % (numbers[0], numbers[-1])
    yield b"K 2 NEW 1"
    yield b"s"
    yield b"W"


def last_node():
    """Kits of 64 units until the last free node is taken, one too few, and freed ones again."""
    numbers = [b"L%d" % at for at in range(40)]
    yield from registering(numbers)
    rows = []
    free = NODES - 1
    while free >= MOST_UNITS:
        place = len(rows) + 1
        rows.append((place,) * 15 + (place + 1,) * 15 + (place + 2,) * 15 + (place + 3,) * 15
                    + (place + 4,) * 4)
        free -= MOST_UNITS
        yield b"K %d" % len(rows) + listed(rows[-1], numbers)
    last = (38,) * 15 + (39,) * 15 + (40,) * 15
    yield b"K 900" + listed((35,) * 15 + (36,) * 15 + (37,) * 15 + (38,) * 15 + (39,) * 4, numbers)
    yield b"K 901" + listed((35,) * 4 + last, numbers)
    while free > 0:
        row = ((36,) * 15 + last)[:free]
        if len(row) < free:
            row = ((36,) * 15 + (37,) * 15 + last)[:free]
        free -= len(row)
        yield b"K 902" + listed(row, numbers)
    for count in (1, 2, 15):
        yield b"K 903" + listed((36, 37) + (40,) * count, numbers)
        yield b"K 904" + listed((5,) * count, numbers)
    yield b"K 905"
    yield b"D" + listed(rows[3], numbers)
    yield b"K 906" + listed((1, 2) + (40,) * 15, numbers)
    yield b"K 907" + listed(rows[3], numbers)
    yield b"D" + listed((1, 2) + (40,) * 15, numbers)
    yield b"K 907" + listed(rows[3], numbers)
    yield b"s"
    yield b"b" + listed(rows[0], numbers)
    yield b"s L4 1"
    yield b"W"


def sheet_of_size(size):
    """A catalogue whose sheet has just so many bytes, and then more.

    An empty kit, which would have a record of three bytes, is refused.
    """
    numbers = [number.rjust(LONGEST_NUMBER, b"0") for number in many_numbers(SLOTS)]
    yield from registering(numbers)
    # Mark, version and both counts, and the parts; then 5 bytes for a line, 7 for two.
    left = size - (3 + 2 + 2 + 2) - SLOTS * (1 + LONGEST_NUMBER)
    doubles = next(count for count in range(5) if (left - 7 * count) % 5 == 0)
    singles = (left - 7 * doubles) // 5
    tag = 0
    for quantity in (1, 2, 3):
        for place in range(1, SLOTS + 1):
            if tag < singles:
                tag += 1
                yield b"K %d" % tag + listed((place,) * quantity, numbers)
    for place in range(1, doubles + 1):
        tag += 1
        yield b"K %d" % tag + listed((place, place + 1), numbers)
    yield b"W"
    yield b"K 9999"
    yield b"W"
    yield b"D"
    for letter in (b"K 9999", b"D"):
        yield letter + listed((SLOTS,) * 4, numbers)
        yield b"W"


def many_kits():
    """A kit for each node but the root, whose empty kit is refused, and all of them listed."""
    numbers = [b"%d" % at for at in range(137)]
    yield from registering(numbers)
    yield b"K 60000"
    tag = 0
    for quantity in range(1, 16):
        for place in range(1, len(numbers) + 1):
            if tag < NODES - 1:
                tag += 1
                yield b"K %d" % tag + listed((place,) * quantity, numbers)
    yield b"K 60001" + listed((137,) * 15, numbers)
    yield b"s"
    yield b"s 5 2"
    yield b"b 7 15 8 2"
    yield b"B 136 15"
    yield b"S 136 15"
    yield b"W"


# Numbers that a script by chance uses, and now and then one against the rule or one with
# punctuation at an end.
GOOD_NUMBERS = [b"A", b"B", b"C", b"AA", b"00741", b"0741", b"741", b"4016", b"1", b"0", b"2",
                b"X-1", b"X.1", b"X/1", b"Z" * 24, b"a", b"aA", b"x-1", b"z" * 24]
BAD_NUMBERS = [b"`", b"a{", b"A_", b"Z" * 25, b"A\0", b"\xc4"]
TORN_NUMBERS = punctuated([b"_", b"_741", b"A_"])


def stored():
    """The one script that is stored: the document's example, then limits one behind another."""
    return EXAMPLE_INPUT + text(
        *questions(), *line_lengths(), *stray_bytes(), *field_counts(), *tags_and_quantities(),
        *lookups(), *units_and_order()
    ) + SPELLINGS_INPUT + TORN_LABEL_INPUT + EMPTY_KIT_INPUT + text(
        *part_numbers(), *last_node(), *last_slot()) + long_line(1025)


def by_chance(chance):
    """A script of good and malformed lines on a few parts."""
    lines = []
    numbers = [some_number(chance) for _ in range(chance.between(1, 7))]
    for number in numbers[:-1] if chance.one_in(3) else numbers:
        lines.append(b"P " + number)
    rows = []
    for _ in range(chance.between(5, 45)):
        line = some_line(chance, numbers, rows)
        if chance.one_in(8):
            line = malformed(chance, line)
        lines.append(line)
    if chance.one_in(2):
        lines.append(b"W")
    data = text(*lines)
    if chance.one_in(5):
        data = data[:-1]
    elif chance.one_in(8):
        data = data[:chance.below(len(data) + 1)]
    return data


def some_number(chance):
    """A part number, now and then a bad or a torn one."""
    return chance.pick(chance.pick([GOOD_NUMBERS] * 23 + [BAD_NUMBERS, TORN_NUMBERS]))


def some_line(chance, numbers, rows):
    """A line, mostly good; the pairs of inserted kits are remembered in rows."""
    letter = chance.pick("PKKKKFDDBSbsbsW")
    if letter == "P":
        return b"P " + some_number(chance)
    if letter == "W":
        return b"W"
    if rows and (letter in "FD" or chance.one_in(4)):
        pairs = chance.pick(rows)
    else:
        pairs = some_pairs(chance, numbers)
    if letter == "K":
        rows.append(pairs)
        return b"K %d" % chance.pick((chance.between(1, 9), chance.between(1, 9),
                                      chance.between(0, 65535))) + pairs
    return letter.encode("ascii") + pairs


def some_pairs(chance, numbers):
    """Pairs in the order of registration, or now and then in any order."""
    chosen = [number for number in numbers if chance.one_in(2)]
    if chance.one_in(8) and chosen:
        chosen.append(chance.pick(numbers))
    if chance.one_in(12):
        chosen.append(some_number(chance))
    most = chance.pick((1, 1, 2, 3, 15, 15))
    return b"".join(b" %s %d" % (number, chance.pick((1, 1, most, most, most, chance.below(18))))
                    for number in chosen)


def malformed(chance, line):
    """The line with a byte put in, taken out or changed, a field changed, or made long."""
    at = chance.below(len(line) + 1)
    way = chance.below(7)
    byte = bytes([chance.pick([byte for byte in EDGE_BYTES if byte != 10])])
    if way == 0:
        return line[:at] + b" " + line[at:]
    if way == 1:
        return line[:at] + byte + line[at:]
    if way == 2:
        return line[:at] + line[at + 1:]
    if way == 3:
        return line[:at] + byte + line[at + 1:]
    fields = line.split(b" ")
    where = chance.below(len(fields))
    if way == 4:
        fields[where] = chance.pick(WORDS)
    elif way == 5:
        del fields[where]
    else:
        fields[where] = fields[where].ljust(chance.pick((24, 25, 490, 512, 700)), b"1")
    return b" ".join(fields)
