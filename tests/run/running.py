"""Runs a built program: once, in pieces, in conversation."""

import fcntl
import pathlib
import struct
import subprocess
import termios
import threading
import time

LONGEST_RUN = 600


class CannotRun(Exception):
    """A program that is not there, or that cannot be built or run."""


def command_for(program):
    """The command that runs this program, a built one or a script."""
    program = pathlib.Path(program).resolve()
    if not program.is_file():
        raise CannotRun("no program %s" % program)
    return [str(program)]


def output_of(command, data):
    """What the program writes for this input, and how it ended ("" when well)."""
    try:
        run = subprocess.run(command, input=data, stdout=subprocess.PIPE, timeout=LONGEST_RUN)
    except subprocess.TimeoutExpired as slow:
        return slow.stdout or b"", "did not end within %d seconds" % LONGEST_RUN
    except OSError as fault:
        raise CannotRun(str(fault)) from fault
    if run.returncode != 0:
        return run.stdout, "ended with status %d" % run.returncode
    return run.stdout, ""


def output_in_pieces(command, data, size):
    """What the program writes for this input, handed to it in pieces of so many bytes, each once
    the one before it was read; and how it ended ("" when well)."""
    with subprocess.Popen(command, bufsize=0, stdin=subprocess.PIPE, stdout=subprocess.PIPE) as run:
        came = []
        reader = threading.Thread(target=lambda: came.append(run.stdout.read()))
        reader.start()
        for at in range(0, len(data), size):
            run.stdin.write(data[at:at + size])
            wait_until_read(run)
        run.stdin.close()
        reader.join()
        ended = run.wait()
    return came[0], "" if ended == 0 else "ended with status %d" % ended


def wait_until_read(run):
    """Waits until the program has read all that was written to it, or has ended."""
    while run.poll() is None:
        held = fcntl.ioctl(run.stdin.fileno(), termios.FIONREAD, struct.pack("i", 0))
        if struct.unpack("i", held)[0] == 0:
            return
        time.sleep(0)


class Conversation:
    """A running program that is asked, answers, and is asked again."""

    def __init__(self, command):
        try:
            self.process = subprocess.Popen(command, stdin=subprocess.PIPE, stdout=subprocess.PIPE)
        except OSError as fault:
            raise CannotRun(str(fault)) from fault
        self.limit = threading.Timer(LONGEST_RUN, self.process.kill)
        self.limit.daemon = True
        self.limit.start()

    def send(self, data):
        """Sends these bytes; a program that has ended takes none, and then gives none."""
        try:
            self.process.stdin.write(data)
            self.process.stdin.flush()
        except BrokenPipeError:
            pass

    def take(self, count):
        """So many bytes of what the program writes, fewer only where it has ended."""
        return self.process.stdout.read(count)

    def take_line(self):
        """The next line of what the program writes."""
        return self.process.stdout.readline()

    def end(self):
        """Ends the input: how the program ended ("" when well, with nothing more written)."""
        try:
            self.process.stdin.close()
        except BrokenPipeError:
            pass
        behind = self.process.stdout.read()
        self.process.stdout.close()
        status = self.process.wait()
        self.limit.cancel()
        if status != 0:
            return "ended with status %d" % status
        return "wrote %d bytes behind its last answer" % len(behind) if behind else ""


def conversation(command, lines):
    """The reply to each line, each line written once the reply to the one before it came; and how
    the program ended ("" when well, with nothing more written)."""
    talk = Conversation(command)
    replies = []
    for line in lines:
        talk.send(line + b"\n")
        replies.append(talk.take_line())
    return b"".join(replies), talk.end()
