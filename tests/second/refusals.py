"""The answer numbers of documents 01 and 02, by name, and a refusal that carries one."""

DONE = 0
WRONG_LENGTH = 1
NOT_SOUND = 2
BAD_NUMBER = 3
BAD_ORDER = 4
BEYOND_PARTS = 5
BAD_QUANTITY = 6
TOO_MANY_UNITS = 7
TAG_ZERO = 8
ALREADY_HELD = 9
TAG_TAKEN = 10
NOT_HELD = 11
NO_ROOM = 12
SHEET_AT_FAULT = 13
# Request 1: "new 14, d above 64".
TOO_FAR_SHORT = 14
# Request 4: "new 15, a begun bookmark whose row is longer than 64, falls somewhere, ..".
BOOKMARK_AT_FAULT = 15
# Request 6: "new 16, on registration only, after 3 and before 9".
PUNCTUATION_AT_END = 16
# Request 14: "new 19, on inserting it or reading its card, after 7 and before 9".
EMPTY_KIT = 19

# What is wrong with a list.
LIST = {BAD_ORDER, BEYOND_PARTS, BAD_QUANTITY}


class Refusal(Exception):
    """A call that is refused: its number, and its value ("0 unless stated")."""

    def __init__(self, number, value=0):
        super().__init__(number, value)
        self.number = number
        self.value = value
