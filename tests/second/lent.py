"""A call with all the memory that it is lent, and its answer with all of it afterwards."""

from .refusals import DONE

# The blocks of memory in their order, those that an answer has, and those of 16-bit numbers.
REQUEST_BLOCKS = "RMNLIPQOKD"
ANSWER_BLOCKS = "RMNPQOKD"
WORD_BLOCKS = "NLPQKD"


class Request:
    """One call: its letter, two arguments, and all the memory that it is lent.

    A block of bytes is held as bytes, a block of 16-bit numbers as a list.
    `note` says what the request is meant to try; it is not sent.
    """

    def __init__(self, letter, a=0, b=0, note="", **blocks):
        self.letter = letter
        self.a = a
        self.b = b
        self.note = note
        self.blocks = {name: fitting(name, blocks.pop(name, ())) for name in REQUEST_BLOCKS}
        if blocks:
            raise ValueError("no such block: " + " ".join(blocks))


class Answer:
    """What a call gives back: number, value, a second and third number, the memory."""

    def __init__(self, number, value, blocks, second=0, third=0):
        self.number = number
        self.value = value
        self.second = second
        self.third = third
        self.blocks = blocks

    def done(self):
        """Whether the call was not refused."""
        return self.number == DONE


def fitting(name, elements):
    """The elements in the form in which this block is held."""
    if name in WORD_BLOCKS:
        return list(elements)
    return bytes(elements)
