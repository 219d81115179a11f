"""The ways that a call can go which turns a page: request 4.

Like those of made.ways: each function takes a request and its right answer.
"""

from itertools import combinations

from second import nodes, paging, questions, register
from second.kits import MOST_QUANTITY, MOST_UNITS, lines_of_words, quantities, units
from second.refusals import BOOKMARK_AT_FAULT, LIST, NOT_SOUND, WRONG_LENGTH
from second.register import SLOT_BYTES

from .bookmarks import not_begun
from .empty_ways import passed_over

QUESTIONS = {"g": questions.kits_within, "G": questions.kits_containing}

# Beside so many parts a place is at fault only where it is beside any.
ANY_PARTS = 65535
ALONE = "15 alone: %s"
BOTH = "15 by two things: %s, and %s"


def bookmark_lent(asked):
    """The bookmark that was lent; in a request of nothing one that is not begun."""
    return paging.bookmark_of(asked.blocks["K"] or not_begun())


def row_shown(asked, came):
    """The row of the kit that was shown, or nothing."""
    shown = came.done() and came.value > 0 and asked.letter in QUESTIONS
    return paging.row_of(paging.bookmark_of(came.blocks["K"])) if shown else ()


def left_unmoved(came):
    """Whether no page was left."""
    return came.done() and came.value == 0


def kits_held(asked, came):
    """The kits held, with their tags, and those of them that answer."""
    if not came.done() or asked.letter not in QUESTIONS:
        return {}, {}
    held = nodes.held_kits(asked.blocks["N"])
    row = units(lines_of_words(asked.blocks["L"]))
    return held, dict(QUESTIONS[asked.letter](held, row))


def page_turned(asked, came):
    """Which of the pages it was, and how the bookmark's row stands to the kits."""
    bookmark, shown, none = bookmark_lent(asked), row_shown(asked, came), left_unmoved(came)
    held, answering = kits_held(asked, came)
    first, last = (min(answering), max(answering)) if answering else (None, None)
    row, begun = paging.row_of(bookmark), came.done() and bookmark.begun
    later = shown and begun
    return {
        "the first of several pages": shown and not begun and len(answering) > 1,
        "the only page": shown and not begun and len(answering) == 1,
        "a page between others": later and first != shown != last,
        "the last of several pages": later and first != shown == last,
        "the first page once more": later and row and shown == first,
        "no page, and none was shown": none and not begun and held,
        "no page behind the last kit that answers": none and begun and row == last,
        "no page behind a row past all that answer": none and begun and answering and row > last,
        "no page, and no kit answers": none and begun and held and not answering,
        "a kit passed over that does not answer": later and any(
            row < kit < shown for kit in held if kit not in answering),
        "begun at a kit that answers": later and row in answering,
        "begun at a kit that does not answer": later and row in held and row
                                               and row not in answering,
        "begun at a row that is not held": later and row and row not in held,
    }


def row_begun(asked, came):
    """How the row of the bookmark stands to that of the kit shown; the shortest and the longest."""
    bookmark, shown, none = bookmark_lent(asked), row_shown(asked, came), left_unmoved(came)
    row, begun = paging.row_of(bookmark), came.done() and bookmark.begun
    both = begun and row and shown
    equal = max(quantities(row).values(), default=0)
    return {
        "the row begins the kit shown": both and shown[:len(row)] == row,
        "the kit shown parts from the row at its first place": both and shown[0] != row[0],
        "the kit shown parts from the row further on": both and shown[0] == row[0]
                                                       and shown[:len(row)] != row,
        "a shorter row shown": both and len(shown) < len(row),
        "begun at the empty row": shown and begun and not row,
        "begun at the empty row, and no page": none and begun and not row,
        "begun at 64 places": begun and len(row) == MOST_UNITS,
        "a kit of 64 units shown": len(shown) == MOST_UNITS,
        "begun at 15 equal places": begun and equal == MOST_QUANTITY,
    }


def junk_lent(asked, came):
    """Junk in a bookmark not begun, and behind the row of one that is: ignored, or left."""
    bookmark, shown, none = bookmark_lent(asked), row_shown(asked, came), left_unmoved(came)
    row, begun, parts = paging.row_of(bookmark), bookmark.begun, ANY_PARTS
    bad = any(paging.faults_of(bookmark, parts).values())
    bad_behind = any(paging.faults_of(bookmark._replace(length=MOST_UNITS), parts).values())
    behind = any(bookmark.places[bookmark.length:]) and bad_behind
    return {
        "junk not begun, and a kit is shown": shown and not begun and bad,
        "junk not begun stays": none and not begun and bad,
        "a good row not begun is ignored": shown and not begun and not bad and row >= shown,
        "junk behind the row, and a kit is shown": shown and begun and behind,
        "junk behind the row stays": none and begun and behind,
        "junk behind the empty row": came.done() and begun and not row and behind,
    }


def bookmark_refused(asked, came):
    """Each thing that is wrong with a bookmark alone, each two at once; what is said before 15."""
    bookmark, refused = bookmark_lent(asked), came.number == BOOKMARK_AT_FAULT
    row, lent = paging.row_of(bookmark), asked.blocks["R"]
    parts = len(register.numbers_of(lent)) if refused else ANY_PARTS
    wrong = paging.faults_of(bookmark, parts)
    faults = [what for what, really in wrong.items() if really and bookmark.begun]
    alone = faults[0] if refused and len(faults) == 1 else ""
    falls, beyond = alone == "falls", alone == "a place beyond the parts"
    return {
        **{ALONE % what: alone == what for what in wrong},
        **{BOTH % two: refused and faults == list(two) for two in combinations(wrong, 2)},
        "15 by a length of 65": alone == "longer than 64" and bookmark.length == MOST_UNITS + 1,
        "15 by a length of 65,535": alone == "longer than 64" and bookmark.length == 65535,
        "15 by a fall between the first two places": falls and row[1] < row[0],
        "15 by a fall at the last place": falls and len(row) > 2 and not paging.falls(row[:-1]),
        "15 by the place just behind the parts": beyond and max(row) == parts + 1,
        "15 by a place that has a slot and no part": beyond and max(row) <= len(lent) // SLOT_BYTES,
        "15 by 16 equal places": alone == "more than 15 equal places"
                                 and max(quantities(row).values()) == MOST_QUANTITY + 1,
        "15 by two things at once": refused and len(faults) > 1,
        "a wrong length before 15": came.number == WRONG_LENGTH and faults,
        "a table that is not sound before 15": came.number == NOT_SOUND and faults,
        "a list at fault before 15": came.number in LIST and faults,
    }


def passed_by_pages(by_every_list):
    """The ways of an empty kit that a page passes over; behind a row it never comes."""
    over = passed_over(by_every_list)

    def ways(asked, came):
        """An empty kit passed over where paging has not begun."""
        begun = bookmark_lent(asked).begun
        return {what: really and not begun for what, really in over(asked, came).items()}
    return ways


# The ways of a page, and those that requests by chance hardly ever go.
PAGE_WAYS = [page_turned, row_begun, junk_lent, bookmark_refused]
RARE_PAGES = {"begun at 64 places", "a kit of 64 units shown",
              *(BOTH % two for two in combinations(
                  paging.faults_of(paging.bookmark_of(not_begun()), ANY_PARTS), 2))}
