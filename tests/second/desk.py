"""The desk program of document 01: lines on standard input, one reply line each."""

from . import nodes, register
from .calls import answer
from .lent import Request

# "It reads standard input with 255 slots, 2,048 nodes, 2,048 output places and 8,192 sheet bytes."
SLOTS = 255
NODES = 2048
OUTPUT_PLACES = 2048
SHEET_BYTES = 8192
# "A line is at most 512 bytes before its line feed .., fields parted by one space."
LONGEST_LINE = 512
LINE_FEED = b"\n"
SPACE = b" "
# "Tags and quantities are one to five digits, .. at most 65,535."
MOST_DIGITS = 5
LARGEST_WORD = 65535

# The desk's letters and the calls that they make; those of LIST_LETTERS take pairs alone.
CALL_LETTERS = {"P": "p", "K": "k", "F": "f", "D": "d", "B": "w", "S": "c", "b": "W", "s": "C",
                "W": "s"}
LIST_LETTERS = "FDBSbs"
LISTING_LETTERS = "bs"
# "Other lines answer `?`"
OTHER_LINE = b"?"


class OtherLine(Exception):
    """A line that is none of the desk's."""


def lines_of(data):
    """The lines of the input; "the last may lack" its line feed."""
    lines = data.split(LINE_FEED)
    if lines[-1] == b"":
        lines.pop()
    return lines


def fields_of(line):
    """The fields; "an empty or overlong line, an empty field" are no good."""
    if len(line) > LONGEST_LINE:
        raise OtherLine
    fields = line.split(SPACE)
    if any(field == b"" for field in fields):
        raise OtherLine
    return fields


def word_in(field):
    """A tag or quantity: digits, "no leading zero unless just 0, at most 65,535"."""
    if len(field) > MOST_DIGITS or not all(byte in register.DIGITS for byte in field):
        raise OtherLine
    if field[0:1] == b"0" and field != b"0":
        raise OtherLine
    word = int(field)
    if word > LARGEST_WORD:
        raise OtherLine
    return word


def pairs_in(fields):
    """Number and quantity pairs."""
    if len(fields) % 2 != 0:
        raise OtherLine
    return [(fields[at], word_in(fields[at + 1])) for at in range(0, len(fields), 2)]


class Line:
    """A good line: its letter, a part number, a tag and pairs, as far as it has them.

    All of a line is judged here, "before anything is called".
    """

    def __init__(self, line):
        fields = fields_of(line)
        self.letter = fields[0].decode("latin-1")
        self.number, self.tag, self.pairs = b"", 0, []
        if self.letter == "P" and len(fields) == 2:
            self.number = fields[1]
        elif self.letter == "K" and len(fields) >= 2:
            self.tag = word_in(fields[1])
            self.pairs = pairs_in(fields[2:])
        elif len(self.letter) == 1 and self.letter in LIST_LETTERS:
            self.pairs = pairs_in(fields[1:])
        elif self.letter != "W" or len(fields) != 1:
            raise OtherLine


class Desk:
    """The desk's tables, which "start empty", and its replies."""

    def __init__(self):
        self.register = bytes(SLOTS * register.SLOT_BYTES)
        self.nodes = [0] * (NODES * nodes.NODE_WORDS)

    def call(self, letter, **lent):
        """The answer of a call on the desk's tables, which keep what it leaves."""
        given = answer(Request(letter, R=self.register, N=self.nodes, **lent))
        self.register, self.nodes = given.blocks["R"], given.blocks["N"]
        return given

    def reply(self, text):
        """The reply to one line, without its line feed."""
        try:
            line = Line(text)
        except OtherLine:
            return OTHER_LINE
        # "Part numbers are looked up first, left to right; a lookup refusal is the answer."
        places = []
        for number, _ in line.pairs:
            found = self.call("l", I=number)
            if not found.done():
                return reply_line(line.letter, found)
            places.append(found.value)
        words = [word for place, (_, quantity) in zip(places, line.pairs)
                 for word in (place, quantity)]
        given = self.call(CALL_LETTERS[line.letter], a=line.tag, I=line.number, L=words,
                          P=[0] * OUTPUT_PLACES, O=bytes(SHEET_BYTES))
        more = []
        if given.done() and line.letter in LISTING_LETTERS:
            more = [b"%d" % tag for tag in given.blocks["P"][:given.value]]
        elif given.done() and line.letter == "W":
            more = [given.blocks["O"][:given.value].hex().upper().encode("ascii")]
        return reply_line(line.letter, given, more)


def reply_line(letter, given, more=()):
    """A reply: "letter, number, value, then tags for b and s, or the sheet .. for W"."""
    return SPACE.join([letter.encode("latin-1"), b"%d" % given.number, b"%d" % given.value, *more])


def output_for(data):
    """All that the desk writes for this input; "every reply ends in a line feed"."""
    desk = Desk()
    return b"".join(desk.reply(line) + LINE_FEED for line in lines_of(data))
