#!/usr/bin/env python3
"""Counts the places of older forms in crates/*/src, by point of docs/DESIGN-PASS.md: tools/forms.py [-v]; -v names each place."""
import collections
import glob
import re
import sys

VERBOSE = "-v" in sys.argv[1:]
FN = re.compile(r'\s*(?:pub )?(?:extern "C" )?fn (\w+)')
FACTS = {
    "Width w": r"\bWidth w\b",
    "Ready reg": r"\bReady reg\.",
    "Sound most_place nodes": r"\bSound most_place nodes\.",
    "Shape most_place nodes": r"\bShape most_place nodes\.",
    "SoundTables": r"\bSoundTables\b",
    "good_list of the greatest place": r"good_list most_place",
    "len ≤ most_units": r"\w+\.len ≤ most_units",
    "Used, Live": r"\b(?:Used|Live) nodes\.",
    "Room of a reply": r"head_room \+",
}


class Source:
    def __init__(self, path):
        self.crate = path.split("/")[1]
        self.lines = open(path, encoding="utf-8").read().split("\n")

    def places(self):
        """Each line with the function that it stands in."""
        name = "-"
        for line in self.lines:
            found = FN.match(line)
            if found:
                name = found.group(1)
            yield name, line

    def loops(self):
        """Each `while`: its function, its test and its body."""
        name = "-"
        for at, line in enumerate(self.lines):
            found = FN.match(line)
            if found:
                name = found.group(1)
            head = re.match(r"(\s*)(?:'\w+: )?while (.*)\{$", line)
            if head:
                end = at + 1
                while not self.lines[end].startswith(head.group(1) + "}"):
                    end += 1
                yield name, head.group(2), "\n".join(self.lines[at + 1:end])


def matching(sources, pattern, comments=False):
    for source in sources:
        for name, line in source.places():
            text = line if comments else line.split("//")[0]
            for found in re.finditer(pattern, text):
                yield f"{source.crate}::{name}", found.group(0)


def tell(point, what, places):
    places = list(places)
    print(f"{point}  {len(places):4d}  {what}")
    if VERBOSE:
        for place, count in collections.Counter(p if isinstance(p, str) else p[0] for p in places).items():
            print(f"          {place}" + (f" ({count})" if count > 1 else ""))


def by_hand(body):
    """A loop that moves a variable on by a constant, or to behind an end that was found."""
    return re.search(r"^\s*\w+ (\+=|-=) (1|2|LINE_WORDS);|\w+ = (end|at|number_end)[^;\n]* \+ 1;|at = end_of|turns", body, re.M)


def parameters(source):
    text = "\n".join(source.lines)
    for found in re.finditer(r"fn (\w+)(?:<[^>(]*>)?\(([^)]*)\)", text):
        taken = [p for p in found.group(2).split(",") if p.strip()]
        if len(taken) >= 6:
            yield f"{source.crate}::{found.group(1)}", str(len(taken))


def main():
    sources = [Source(p) for p in sorted(glob.glob("crates/*/src/*.rt"))]
    inner = [s for s in sources if s.crate != "face_c"]
    tell(1, "enums of our own", matching(sources, r"^\s*(pub )?enum \w+"))
    tell(1, "flags in a struct, and lent ones", matching(sources, r"pub \w+: bool\b|&mut bool"))
    tell(1, "`if refused(..)`", matching(sources, r"if refused\("))
    tell(1, "numbers for kinds: constants of a byte", matching(sources, r"^(pub )?const [A-Z_]+: u8\b"))
    tell(1, "answers that say `none` by a number (comments)",
         matching(sources, r"^// .*(0 where|, or 0\b|0 where there is none|; m where none|number of nodes\.$|where it starts|the same\b.*place)", True))
    tell(2, "functions of two kinds of question", matching(sources, r"fn \w*(within|containing)\b"))
    tell(2, "conversions for each width, and word readers", matching(sources, r"fn (wide8|wide16|wide32|word|\w+_at)\("))
    tell(2, "the same written for bytes and for words", matching(sources, r"fn (zeros|free_at|clear|clear_nodes|turns_left)\("))
    tell(3, "`while` loops", ((f"{s.crate}::{n}", t) for s in sources for n, t, _ in s.loops()))
    tell(3, "of these, by hand", ((f"{s.crate}::{n}", t) for s in sources for n, t, b in s.loops() if by_hand(b)))
    tell(4, "conversions through functions of our own", matching(sources, r"(?<!fn )\b(wide8|wide16|wide32|narrow16|word|long)\("))
    tell(4, "comparisons and copies through functions of our own",
         matching(sources, r"(?<!fn )\b(same|least|number_before|compare|copy_in|copy_places|is_between|is_digit)\("))
    tell(4, "numbers put together from bytes, and taken apart", matching(sources, r"BYTE_LIMIT|\b256\b|65536\b|16777216"))
    for fact, pattern in FACTS.items():
        tell(5, f"contracts that say {fact}", matching(inner, pattern))
    tell(5, "functions of six parameters and more", (p for s in inner for p in parameters(s)))
    tell(6, "an array with its length, taken apart", matching(sources, r"let places = \w+(\.\w+)*\.places;|let places = row\.places;"))
    tell(6, "structs that hold an array", matching(sources, r"^\s*pub \w+: \[\w+; \w+\],"))
    tell(7, "tests of a letter", matching(sources, r"if letter ==|letter == |ask\.letter =="))


main()
