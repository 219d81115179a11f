"""A request and the answers to it in words, for whoever has to find out why two answers differ."""

from second.lent import ANSWER_BLOCKS, REQUEST_BLOCKS, WORD_BLOCKS

SHOWN_ELEMENTS = 600
SHOWN_PLACES = 20


def describe(request, came, right):
    """The request field by field, then both answers block by block."""
    return (request_lines(request)
            + answer_lines("the answer that came:", came, right)
            + answer_lines("the answer that is right:", right, came))


def describe_broken(request, came, right, fault):
    """The same where what came is no answer."""
    return (request_lines(request)
            + answer_lines("the answer that is right:", right, right)
            + ["the answer that came cannot be read (%s):" % fault,
               "  " + came.hex(" ")[:SHOWN_ELEMENTS]])


def request_lines(request):
    """A request field by field."""
    lines = ["request %s, A %d, B %d%s" % (
        request.letter, request.a, request.b, ": " + request.note if request.note else "")]
    return lines + ["  %s %s" % (name, elements_text(name, request.blocks[name]))
                    for name in REQUEST_BLOCKS]


def answer_lines(title, answer, other):
    """An answer block by block, each marked where it differs from the other answer."""
    lines = [title]
    for field in ("number", "value", "second", "third"):
        mark = "" if getattr(answer, field) == getattr(other, field) else "   <- differs"
        lines.append("  %s %d%s" % (field, getattr(answer, field), mark))
    for name in ANSWER_BLOCKS:
        mine = answer.blocks[name]
        lines.append("  %s %s%s" % (
            name, elements_text(name, mine), places_mark(mine, other.blocks[name])))
    return lines


def places_mark(mine, its):
    """Where a block differs from the other answer's, the first places of it."""
    where = [at for at in range(max(len(mine), len(its))) if mine[at:at + 1] != its[at:at + 1]]
    if not where:
        return ""
    return "   <- differs at %s%s" % (
        " ".join(map(str, where[:SHOWN_PLACES])), " .." if len(where) > SHOWN_PLACES else "")


def elements_text(name, elements):
    """A block's count and its elements, a long one cut."""
    shown = elements[:SHOWN_ELEMENTS]
    text = " ".join(map(str, shown)) if name in WORD_BLOCKS else bytes(shown).hex(" ")
    return "[%d] %s%s" % (len(elements), text, " .." if len(elements) > SHOWN_ELEMENTS else "")
