"""The bytes of a request to the probe and of its answer.

All numbers have the high byte first.
"""

import struct

from second.lent import ANSWER_BLOCKS, REQUEST_BLOCKS, WORD_BLOCKS, Answer, Request

# How many elements of each block the probe has room for.
ROOM = {
    "R": 128064, "M": 128064, "N": 28700, "L": 8200, "I": 65536,
    "P": 4200, "Q": 4200, "O": 65536, "K": 66, "D": 1024,
}

# "the program writes the one byte 255 and ends"
BROKEN_ANSWER = b"\xff"

REQUEST_HEAD = struct.Struct(">cHH")
ANSWER_HEAD = struct.Struct(">BIII")
COUNT = struct.Struct(">I")


class Broken(Exception):
    """A request or answer that cannot be read from its bytes."""


def pack_request(request):
    """A request's bytes."""
    parts = [REQUEST_HEAD.pack(request.letter.encode("latin-1"), request.a, request.b)]
    parts += [pack_block(name, request.blocks[name]) for name in REQUEST_BLOCKS]
    return b"".join(parts)


def pack_answer(answer):
    """An answer's bytes."""
    parts = [ANSWER_HEAD.pack(answer.number, answer.value, answer.second, answer.third)]
    parts += [pack_block(name, answer.blocks[name]) for name in ANSWER_BLOCKS]
    return b"".join(parts)


def pack_block(name, elements):
    """A block: the count of its elements in four bytes, then the elements."""
    count = COUNT.pack(len(elements))
    if name in WORD_BLOCKS:
        return count + struct.pack(">%dH" % len(elements), *elements)
    return count + bytes(elements)


def element_bytes(name):
    """How many bytes an element of this block takes."""
    return 2 if name in WORD_BLOCKS else 1


def unpack_block(name, data, offset):
    """The block at this offset, and the offset behind it."""
    if offset + COUNT.size > len(data):
        raise Broken("cut short in the count of block " + name)
    (count,) = COUNT.unpack_from(data, offset)
    offset += COUNT.size
    if count > ROOM[name]:
        raise Broken("block %s of %d elements is larger than its room" % (name, count))
    size = count * element_bytes(name)
    if offset + size > len(data):
        raise Broken("cut short in block " + name)
    if name in WORD_BLOCKS:
        elements = list(struct.unpack_from(">%dH" % count, data, offset))
    else:
        elements = bytes(data[offset:offset + size])
    return elements, offset + size


def unpack_request(data, offset):
    """The request at this offset, and the offset behind it."""
    if offset + REQUEST_HEAD.size > len(data):
        raise Broken("cut short before the blocks")
    letter, a, b = REQUEST_HEAD.unpack_from(data, offset)
    offset += REQUEST_HEAD.size
    blocks = {}
    for name in REQUEST_BLOCKS:
        blocks[name], offset = unpack_block(name, data, offset)
    return Request(letter.decode("latin-1"), a, b, **blocks), offset


def unpack_answer(data, offset):
    """The answer at this offset, and the offset behind it."""
    if offset + ANSWER_HEAD.size > len(data):
        raise Broken("cut short before the blocks")
    number, value, second, third = ANSWER_HEAD.unpack_from(data, offset)
    offset += ANSWER_HEAD.size
    blocks = {}
    for name in ANSWER_BLOCKS:
        blocks[name], offset = unpack_block(name, data, offset)
    return Answer(number, value, blocks, second, third), offset


def request_bytes(take):
    """The bytes of the next request, as far as they come and can be told apart.

    `take` gives so many bytes, and fewer only where there are no more.
    """
    return taken(take, REQUEST_HEAD, REQUEST_BLOCKS)


def answer_bytes(take):
    """The bytes of the next answer in the same way."""
    return taken(take, ANSWER_HEAD, ANSWER_BLOCKS)


def taken(take, head, blocks):
    """The bytes of a head and its blocks."""
    data = take(head.size)
    for name in blocks:
        count = take(COUNT.size)
        data += count
        if len(count) < COUNT.size or COUNT.unpack(count)[0] > ROOM[name]:
            break
        data += take(COUNT.unpack(count)[0] * element_bytes(name))
    return data
