"""Scripts through the built desk, every byte of every reply.

Runs the fixed scripts, then so many by chance; the short fixed ones once more in small pieces; and
holds the document's example as a conversation.
"""

import concurrent.futures
from collections import namedtuple

from made import scripts
from made.chance import Chance
from made.reached import (
    BY_CHANCE, IN_PIECES, INPUT, NO_LINE_FEED, TALKED, desk_reached, note_reply)
from run import running
from second import desk

from .telling import Differences, verdict

PROGRAM = "desk"
SHOWN_BYTES = 2000
SHOWN_LINES = 5
# Fixed scripts up to this size are read once more in pieces of these sizes.
SMALL_SCRIPT = 2000
PIECE_SIZES = (1, 7)


def add_options(parser):
    """The options of this word."""
    parser.add_argument("--scripts", type=int, default=40, help="how many by chance")


# A run: what it tries, its input, its output to come, whose lines they are, and what it shows.
Run = namedtuple("Run", "note data output who whats")


def all_runs(runs, command, seed, count):
    """The fixed scripts, so many by chance, the fixed ones in pieces, and a conversation."""
    for note, data in scripts.fixed():
        yield Run(note, data, runs.submit(running.output_of, command, data), "%s", [])
    chance = Chance(seed)
    for at in range(count):
        data = scripts.by_chance(chance)
        yield Run("script %d by chance, seed %d" % (at + 1, seed), data,
                  runs.submit(running.output_of, command, data), BY_CHANCE, [])
    yield from runs_in_pieces(runs, command)
    example = scripts.EXAMPLE_INPUT
    talk = runs.submit(lambda: running.conversation(command, desk.lines_of(example)))
    yield Run("a conversation", example, talk, "%s", [TALKED])


def runs_in_pieces(runs, command):
    """The short fixed scripts, handed on in pieces of each size."""
    for note, data in scripts.fixed():
        for size in PIECE_SIZES if len(data) <= SMALL_SCRIPT else ():
            cut = any(len(line) >= size for line in desk.lines_of(data))
            yield Run("%s, in pieces of %d" % (note, size), data,
                      runs.submit(running.output_in_pieces, command, data, size), "%s",
                      [IN_PIECES] if cut else [])


def describe(note, data, came, right, end):
    """Where two outputs part: the line read and both replies, with the lines before them."""
    lines = desk.lines_of(data)
    came_lines, right_lines = came.split(b"\n"), right.split(b"\n")
    at = next((at for at, (one, other) in enumerate(zip(came_lines, right_lines))
               if one != other), min(len(came_lines), len(right_lines)))
    told = ["%s: %d bytes, %d lines; the program %s" % (
        note, len(data), len(lines), end or "ended well")]
    for before in range(max(0, at - SHOWN_LINES), min(at + 1, len(lines))):
        told.append("line %d (%d bytes): %r" % (
            before + 1, len(lines[before]), lines[before][:SHOWN_BYTES]))
    for name, row in (("came", came_lines), ("is right", right_lines)):
        reply = "%r" % row[at][:SHOWN_BYTES] if at < len(row) else "nothing more"
        told.append("reply %d that %s: %s" % (at + 1, name, reply))
    return told


def note_run(reached, run, right):
    """Counts what the lines of a run come to, and the run itself."""
    reached.note(INPUT, *run.whats)
    if run.data and not run.data.endswith(desk.LINE_FEED):
        reached.note(INPUT, NO_LINE_FEED)
    for line, reply in zip(desk.lines_of(run.data), right.split(desk.LINE_FEED)):
        note_reply(reached, line, reply, run.who)


def compare(command, options):
    """Compares, and says how it went; the status."""
    reached = desk_reached()
    differences = Differences()
    compared = lines = 0
    with concurrent.futures.ThreadPoolExecutor() as runs:
        for run in all_runs(runs, command, options.seed, options.scripts):
            right = desk.output_for(run.data)
            came, end = run.output.result()
            compared += 1
            lines += len(desk.lines_of(run.data))
            note_run(reached, run, right)
            if came != right or end:
                differences.tell(describe(run.note, run.data, came, right, end))
    return verdict("desk", reached, "%d scripts, %d lines" % (compared, lines), differences)
