"""The second program behind the probe's door: all the answers to a stream of requests."""

from second import calls, paging

from . import frame

# The letters whose block K is a bookmark.
TURNING = "gG"


def known_letters(text):
    """The letters given in place of the probe's, each one of a call."""
    if not text or any(letter not in calls.LETTERS for letter in text):
        raise ValueError("letters are some of " + calls.LETTERS)
    return text


def answer_stream(data, letters=calls.LETTERS):
    """All that the probe writes when this is its whole input.

    To turn a page of what is no bookmark is a request that cannot be read.
    """
    written = []
    offset = 0
    while offset < len(data):
        try:
            if data[offset:offset + 1].decode("latin-1") not in letters:
                raise frame.Broken("unknown letter")
            request, offset = frame.unpack_request(data, offset)
            if request.letter in TURNING and not paging.is_bookmark(request.blocks["K"]):
                raise frame.Broken("no bookmark in block K")
        except frame.Broken:
            written.append(frame.BROKEN_ANSWER)
            break
        written.append(frame.pack_answer(calls.answer(request)))
    return b"".join(written)
