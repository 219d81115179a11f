"""Every call of the built probe, every byte of every answer.

Sends the fixed requests, then so many by chance, then inputs that end the program.
"""

import concurrent.futures

from made import requests
from made.reached import AllCallsReached
from run import frame, running, stream
from run.showing import SHOWN_ELEMENTS, describe, describe_broken
from second import calls

from .telling import Differences, verdict

PROGRAM = "probe"
BATCH_REQUESTS = 500
BATCH_BYTES = 4_000_000
RUNS_AT_ONCE = 4


def add_options(parser):
    """The options of this word."""
    parser.add_argument("--requests", type=int, default=20000, help="how many by chance")
    parser.add_argument("--letters", type=stream.known_letters, default=calls.LETTERS,
                        help="the probe's letters")


class Comparison:
    """The running count of requests and differences."""

    def __init__(self, command, letters):
        self.command = command
        self.letters = letters
        self.requests = 0
        self.differences = Differences()
        self.reached = AllCallsReached(letters)
        self.runs = concurrent.futures.ThreadPoolExecutor(RUNS_AT_ONCE)

    def row(self, row, take_note):
        """Sends all these requests, and takes note of each with its right answer."""
        for batch in batches(row):
            for request, right in zip(batch, self.batch(batch)):
                take_note(request, right)

    def batch(self, batch):
        """Sends these requests in one run and compares the answers: the right ones."""
        data = b"".join(frame.pack_request(request) for request in batch)
        run = self.runs.submit(running.output_of, self.command, data)
        answers = [calls.answer(request) for request in batch]
        self.answers_that_came(batch, answers, *run.result())
        return answers

    def answers_that_came(self, batch, answers, came, end):
        """Compares the answers one by one with what a run wrote, and how it ended."""
        offset = 0
        for request, right in zip(batch, answers):
            self.requests += 1
            packed = frame.pack_answer(right)
            if came[offset:offset + len(packed)] == packed:
                offset += len(packed)
                continue
            try:
                answer, behind = frame.unpack_answer(came, offset)
            except frame.Broken as fault:
                self.differences.tell(describe_broken(request, came[offset:], right, fault)
                                      + ["the program " + (end or "ended well")])
                return
            self.differences.tell(describe(request, answer, right))
            offset = behind
        if offset != len(came):
            self.differences.tell(["%d bytes behind the last answer: %s" % (
                len(came) - offset, came[offset:offset + SHOWN_ELEMENTS].hex(" "))])
        if end:
            self.differences.tell(["the program %s behind its last answer" % end])

    def broken(self, inputs):
        """Sends each input that ends the program, and compares all that it writes."""
        outputs = self.runs.map(lambda data: running.output_of(self.command, data), inputs)
        for data, (came, end) in zip(inputs, outputs):
            self.requests += 1
            right = stream.answer_stream(data, self.letters)
            if came != right:
                self.differences.tell([
                    "an input that cannot be read to its end, %d bytes:" % len(data),
                    "  " + data[:SHOWN_ELEMENTS].hex(" "),
                    "came:  " + came[:SHOWN_ELEMENTS].hex(" "),
                    "right: " + right[:SHOWN_ELEMENTS].hex(" "),
                    "the program " + (end or "ended well")])


def batches(row):
    """The requests in batches that one run takes."""
    batch, size = [], 0
    for request in row:
        batch.append(request)
        size += sum(len(elements) for elements in request.blocks.values())
        if len(batch) == BATCH_REQUESTS or size > BATCH_BYTES:
            yield batch
            batch, size = [], 0
    if batch:
        yield batch


def compare(command, options):
    """Compares, and says how it went; the status."""
    letters = options.letters
    comparison = Comparison(command, letters)
    for row in (requests.limits(letters), requests.sweeps(letters), requests.large(letters),
                requests.roomiest(letters)):
        comparison.row(row, comparison.reached.note_call)
    comparison.row(requests.by_chance(letters, options.seed, options.requests),
                   comparison.reached.note_by_chance)
    # Last, an empty input, which ends the program before any request.
    comparison.broken([*requests.broken(letters), b""])
    return verdict("calls", comparison.reached, "%d requests" % comparison.requests,
                   comparison.differences)
