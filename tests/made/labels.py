"""The maker's numbers by their places, read off the accepted calls of request 8 alone.

They are not among the contents of a catalogue: "Demands 2 and 3 don't read it".
"""

from second.refusals import BAD_NUMBER, DONE, NOT_HELD, NOT_SOUND
from second.register import filled, good_number


class Labels:
    """Which places have a maker's number, and which."""

    def __init__(self):
        self.numbers = {}

    def __eq__(self, other):
        return self.numbers == other.numbers

    def __repr__(self):
        return "maker's numbers %s" % sorted(self.numbers.items())

    def take_note(self, request, answer):
        """The numbers after this call; a refused one leaves them, and so do all other calls."""
        if not answer.done():
            return
        if request.letter == "z":
            self.numbers = {}
        elif request.letter == "m":
            self.numbers[request.a] = request.blocks["I"]
        elif request.letter == "u":
            self.numbers.pop(request.a, None)

    def left_behind(self, parts):
        """The places with a maker's number that are beyond so many parts."""
        return sorted(place for place in self.numbers if place > parts)

    def told(self, request, parts):
        """The number that one of the four calls is answered with beside so many parts."""
        if request.letter == "z":
            return DONE
        if self.left_behind(parts):
            return NOT_SOUND
        if not 1 <= request.a <= parts:
            return NOT_HELD
        if request.letter == "m" and not good_number(request.blocks["I"]):
            return BAD_NUMBER
        return DONE

    def shown(self, place, ours):
        """What is shown for a place beside our numbers."""
        return self.numbers.get(place, ours[place - 1])

    def table(self, slots):
        """Every byte of the maker's table."""
        return filled([self.numbers.get(place, b"") for place in range(1, slots + 1)], slots)
