"""The programs of the repository, as `rt` leaves them: proved, and built as crates/NAME/out/NAME."""

import os
import pathlib
import subprocess
import sys
import time

from .running import CannotRun

ROOT = pathlib.Path(__file__).resolve().parents[2]
# What a program is made of, beside crates.txt.
SOURCES = ("src", "specs", "proofs")


def built(name, root=ROOT):
    """The program of this crate; where there is none, or a source is newer, it is proved and built.

    `rt ci` leaves the programs that it proved and ran, so nothing is built behind it.
    """
    program = program_of(name, root)
    if is_older(program, root):
        begun = time.time_ns()
        build(name, root)
        # Also where rt found nothing to do, the program is made of what stood there then.
        os.utime(program, ns=(begun, begun))
    return program


def program_of(name, root):
    """Where rt leaves the program of this crate."""
    return root / "crates" / name / "out" / name


def is_older(program, root):
    """Whether there is no such program, or something that it may be made of changed since."""
    if not program.is_file():
        return True
    since = program.stat().st_mtime_ns
    return any(path.stat().st_mtime_ns > since for path in sources(root))


def sources(root):
    """The list of crates, and all sources; a folder is changed when a file comes or goes."""
    yield root / "crates.txt"
    for kind in SOURCES:
        for top in root.glob("crates/*/" + kind):
            yield top
            yield from top.rglob("*")


def build(name, root):
    """Proves, builds and runs the program, with an empty input: where it is. What has not changed
    is not built again."""
    program = program_of(name, root)
    print("%s: proving and building" % program, file=sys.stderr)
    try:
        run = subprocess.run(["rt", "run"], cwd=root / "crates" / name, stdin=subprocess.DEVNULL,
                             stdout=subprocess.DEVNULL)
    except OSError as fault:
        raise CannotRun(str(fault)) from fault
    if run.returncode != 0:
        raise CannotRun("rt run in crates/%s ended with status %d" % (name, run.returncode))
    if not program.is_file():
        raise CannotRun("rt run leaves no %s" % program)
    return program
