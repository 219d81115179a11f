"""The requests that the probe is tried with: fixed, by chance, and broken ones."""

from run.frame import COUNT, REQUEST_HEAD, ROOM, element_bytes, pack_request
from second.lent import REQUEST_BLOCKS, WORD_BLOCKS, Request

from . import (
    almost_requests, card_requests, count_requests, empty_requests, index_requests, label_requests,
    many_parts, page_requests, register_requests, salvage_requests, sheet_requests,
    version_requests)
from .bookmarks import NO_BOOKMARKS, PAGE_LETTERS, not_begun
from .chance import Chance

# Who makes the requests of each letter by chance. Each maker's fixed requests are its limits
# (the document's own, each small), its sweeps (many values of one thing) and large ones.
MAKERS = [
    ("pln", register_requests),
    ("ekfdwcWC", index_requests),
    ("a", almost_requests),
    ("gG", page_requests),
    ("#", count_requests),
    ("sr", sheet_requests),
    ("S", salvage_requests),
    ("xX", card_requests),
    ("zmuv", label_requests),
]
# Makers of fixed requests alone, of several letters.
FIXED_MAKERS = [many_parts, version_requests, empty_requests]

# The blocks that each call uses; it must leave the others as they are.
USES = {
    "e": "RN", "p": "RI", "l": "RI", "n": "RO", "k": "RNL", "f": "RNL", "d": "RNL", "w": "RNL",
    "c": "RNL", "W": "RNLP", "C": "RNLP", "a": "RNLPQ", "g": "RNLK", "G": "RNLK", "#": "RNL",
    "s": "RNO", "r": "RNI", "S": "RNI", "x": "RNLO", "X": "RNI", "z": "RM", "m": "RMI", "u": "RM",
    "v": "RMO",
}

# The calls that use argument A; none uses B yet.
USES_A = "nkamuv"

# The calls with the most ways to go wrong are made more often.
OFTEN = "kdWCagGrSXm"

# Bytes outside the printable ones, tried as letters.
OTHER_LETTERS = bytes([0, 1, 10, 13, 31, 127, 128, 255])

# How many elements of a block that is too large are really sent.
MOST_SENT = 131_072


def limits(letters):
    """The limits for these letters."""
    return chosen(letters, "limits")


def sweeps(letters):
    """The sweeps for these letters."""
    return chosen(letters, "sweeps")


def large(letters):
    """The large requests for these letters."""
    return chosen(letters, "large")


def chosen(letters, kind):
    """The fixed requests of one kind for these letters, from every maker."""
    for maker in [*(maker for _, maker in MAKERS), *FIXED_MAKERS]:
        for request in getattr(maker, kind)():
            if request.letter in letters:
                yield request


def one_of_each(row):
    """Of the requests that try the same thing one each, by one letter after the other."""
    same = {}
    for request in row:
        same.setdefault(request.note, []).append(request)
    return [group[turn % len(group)] for turn, group in enumerate(same.values())]


def by_chance(letters, seed, count):
    """So many requests by chance for these letters; the blocks not used hold anything."""
    chance = Chance(seed)
    makers = {}
    for made, module in MAKERS:
        maker = module.Maker(chance)
        makers.update((letter, maker) for letter in made)
    drawn = letters + "".join(letter for letter in letters if letter in OFTEN) * 2
    for _ in range(count):
        letter = chance.pick(drawn)
        request = makers[letter].by_chance(letter)
        fill_unused(chance, request)
        yield request


def fill_unused(chance, request):
    """Puts anything into what the call does not use: blocks still empty, A and B."""
    for name in REQUEST_BLOCKS:
        if name not in USES[request.letter] and not request.blocks[name] and chance.one_in(2):
            request.blocks[name] = some_block(chance, name)
    if request.letter not in USES_A:
        request.a = chance.some_words(1)[0]
    request.b = chance.some_words(1)[0]


def some_block(chance, name):
    """A few elements of any value."""
    count = chance.pick((0, 1, 2, 5, 9))
    return chance.some_words(count) if name in WORD_BLOCKS else chance.some_bytes(count)


def broken(letters):
    """Inputs that end the program: one good request, then one that cannot be read."""
    good = pack_request(Request(letters[0], R=bytes(64), I=b"741", N=[1, 2], L=[3], P=[4], Q=[5],
                                O=b"6", K=[7], D=[8], M=b"9"))
    for at in range(1, len(good)):
        yield good + good[:at]
    for letter in bytes(range(32, 127)) + OTHER_LETTERS:
        if chr(letter) not in letters:
            yield good + bytes([letter]) + good[1:]
    for name in REQUEST_BLOCKS:
        for count in (ROOM[name] + 1, 65536 + 1, 1 << 31, (1 << 32) - 1):
            if count > ROOM[name]:
                yield good + oversize(letters[0], name, count) + good
    for letter in PAGE_LETTERS:
        for words in NO_BOOKMARKS if letter in letters else []:
            yield good + pack_request(Request(letter, R=bytes(64), K=words)) + good


def oversize(letter, name, count):
    """A request whose one block announces so many elements, and sends them up to a limit."""
    parts = [REQUEST_HEAD.pack(letter.encode("latin-1"), 0, 0)]
    for block in REQUEST_BLOCKS:
        parts.append(COUNT.pack(count if block == name else 0))
        if block == name:
            parts.append(bytes(min(count, MOST_SENT) * element_bytes(name)))
    return b"".join(parts)


def roomiest(letters):
    """A request for each letter with one block as large as its room, for each block.

    A bookmark is always as large, and says whether paging has begun.
    """
    for letter in letters:
        for name in REQUEST_BLOCKS:
            element = [0xA55A] if name in WORD_BLOCKS else b"\xa5"
            lent = {name: element * ROOM[name]}
            if letter in PAGE_LETTERS:
                lent["K"] = not_begun()
            yield Request(letter, note="block %s as large as its room" % name, **lent)
