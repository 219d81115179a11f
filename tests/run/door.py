"""The probe in conversation: asked, answered and asked again, where every answer must be right."""

from . import frame
from .running import Conversation
from .showing import describe, describe_broken


class Different(Exception):
    """What differs, told in lines."""

    def __init__(self, lines):
        super().__init__(lines)
        self.lines = lines


class Door:
    """The program in conversation.

    `chance` is where a sequence takes its turns from, and `reached` counts what it came to.
    """

    def __init__(self, conversation, chance=None, reached=None):
        self.conversation = conversation
        self.chance = chance
        self.reached = reached
        self.calls = 0

    def ask(self, request, right):
        """The answer that came, where every byte of it is right."""
        self.calls += 1
        self.conversation.send(frame.pack_request(request))
        came = frame.answer_bytes(self.conversation.take)
        try:
            answer, _ = frame.unpack_answer(came, 0)
        except frame.Broken as fault:
            raise Different(describe_broken(request, came, right, fault)) from fault
        if came != frame.pack_answer(right):
            raise Different(describe(request, answer, right))
        return answer


def played(command, play, **given):
    """Plays in a conversation of its own, to its end or its first difference.

    Gives how many calls were made, and what differs in lines, none where nothing does.
    """
    conversation = Conversation(command)
    door = Door(conversation, **given)
    lines = []
    try:
        play(door)
    except Different as different:
        lines = different.lines
    end = conversation.end()
    if lines or end:
        lines = lines + ["call %d; the program %s" % (door.calls, end or "ended well")]
    return door.calls, lines
