"""Proves and builds crates for C programs that measure them, and runs these programs."""

import os
import pathlib
import platform
import shutil
import subprocess
import sys
import tempfile

MEASURE = pathlib.Path(__file__).resolve().parent
ROOT = MEASURE.parents[1]
EDITS = "must-fail"
# What rt leaves in a crate's folder.
OUT = "out"
# The crate that lends functions to C, made of a file here.
TIMED = "timed"
COMPILERS = ("gcc", "cc")
SHOWN_LINES = 20


class CannotMeasure(Exception):
    """Something that the measuring needs is not there or failed."""


def done(command, **options):
    """What a command writes; it must end well, or the end of what it wrote is told."""
    try:
        run = subprocess.run(command, stdout=subprocess.PIPE, **options)
    except OSError as fault:
        raise CannotMeasure(str(fault)) from fault
    if run.returncode != 0:
        told = run.stdout.decode(errors="replace").splitlines()[-SHOWN_LINES:]
        told.append("%s ended with status %d" % (" ".join(command), run.returncode))
        raise CannotMeasure("\n".join(told))
    return run.stdout


def c_compiler(names=COMPILERS):
    """The first of these C compilers that is there, on a machine that links the libraries."""
    if platform.machine() != "x86_64":
        raise CannotMeasure("the libraries link on x86-64 only, this is %s" % platform.machine())
    for name in names:
        if shutil.which(name):
            return shutil.which(name)
    raise CannotMeasure("no C compiler %s" % " or ".join(names))


def crate_paths(crates):
    """The folders of these crates, from the folder that they stand in."""
    return ["crates/" + crate for crate in crates]


def crates_below(text, crate):
    """This crate and those below it, each with the crates that it stands on, as crates.txt lists them."""
    listed = dict(line.split(":", 1) for line in text.splitlines() if ":" in line and line[0] != "#")
    if crate not in listed:
        raise CannotMeasure("no crate %s is listed" % crate)
    wanted = [crate]
    for name in wanted:
        wanted += [below for below in listed.get(name, "").split() if below not in wanted]
    return {name: below for name, below in listed.items() if name in wanted}


def listing(crates):
    """The list of these crates, and of the archive that is timed, on all of them."""
    text = "".join("%s:%s\n" % line for line in crates.items())
    return "%s%s staticlib: %s\n" % (text, TIMED, " ".join(crates))


def empty_crates(folder):
    """Leaves no crate there, and of each only what rt left."""
    (folder / "crates").mkdir(parents=True, exist_ok=True)
    # The top of a repository, for rt.
    (folder / ".git").mkdir(exist_ok=True)
    for path in folder.glob("crates/*/*"):
        if path.name != OUT:
            shutil.rmtree(path) if path.is_dir() else path.unlink()


def copy_crates(source, crates, folder):
    """Puts crates there as they stand below another folder."""
    for path in crate_paths(crates):
        if not (source / path).is_dir():
            raise CannotMeasure("no folder %s" % (source / path))
        shutil.copytree(source / path, folder / path, ignore=shutil.ignore_patterns(OUT),
                        dirs_exist_ok=True)


def without_edits(crates, folder):
    """Takes away the edits of these crates, which nobody tries here."""
    for path in crate_paths(crates):
        shutil.rmtree(folder / path / EDITS, ignore_errors=True)


def put_timed(folder, text, crates_text):
    """Puts the crate of this text there, which lends functions to C, and the list of crates."""
    source = folder / "crates" / TIMED / "src"
    source.mkdir(parents=True)
    (source / "lib.rt").write_text(text, encoding="utf-8")
    (folder / "crates.txt").write_text(crates_text, encoding="utf-8")


def library(folder):
    """Proves and builds the archive in this folder: its path."""
    print("%s: proving and building in %s" % (program_name(), folder), file=sys.stderr)
    crate = folder / "crates" / TIMED
    done(["rt", "lib"], cwd=crate, stdin=subprocess.DEVNULL, stderr=subprocess.STDOUT)
    return crate / OUT / ("lib%s.a" % TIMED)


def compiled(compiler, source, options, libraries, program):
    """Builds a C program with these libraries: its path."""
    done([compiler, "-O2", "-fno-tree-vectorize", "-Wall", "-Wextra"] + options
         + [str(MEASURE / source)] + [str(path) for path in libraries] + ["-o", str(program)])
    return program


def rows_written(program, file):
    """The rows of numbers that a C program writes for a file, run on one processor."""
    pin = ["taskset", "-c", str(max(os.sched_getaffinity(0)))] if shutil.which("taskset") else []
    said = done(pin + [str(program), str(file)])
    return [[float(word) for word in line.split()] for line in said.decode().splitlines()]


def program_name():
    """The name that the measuring program was called by."""
    return pathlib.Path(sys.argv[0]).name


def status_of(measure):
    """Measures in the folder SCRATCH, or in one that goes again: the status to end with."""
    try:
        if "SCRATCH" in os.environ:
            measure(pathlib.Path(os.environ["SCRATCH"]).resolve())
        else:
            with tempfile.TemporaryDirectory() as scratch:
                measure(pathlib.Path(scratch))
    except CannotMeasure as fault:
        print("%s: %s" % (program_name(), fault))
        return 1
    return 0
