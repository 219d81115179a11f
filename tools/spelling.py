#!/usr/bin/env python3
"""Brings the repository's own definitions and lemmas to the spelling of today's Rattle: words in snake case.

usage: python3 tools/spelling.py            at the top of a checkout in which port.py has run
       python3 tools/spelling.py --list     prints old and new name, a pair a line, and writes nothing

Of each name that a file of specs/ or proofs/ declares (definition, lemma, field, constructor), a dash and a capital inside become an underscore.
Types and modules keep their capitals; functions of src/, exported C names, strings, inputs and outputs keep their names.
Where two names would fall together in one file, CHOSEN has another.
"""
import os
import re
import sys

NAME = r"[A-Za-z_0-9'\u2080-\u2089\u03b1-\u03c9-]+"
TOKEN = re.compile(NAME)
LINE = re.compile(r"^ *(?:(?:abbrev|unfoldable|pub|opaque)\s+)*([^\s(){}:.,=;]+(?: [^\s(){}:.,=;]+)*)(?: \{[^{}]*\}| \([^()]*\))*\s+:(?:\s|$)")
KIND = re.compile(r"^(?:(?:abbrev|unfoldable|pub)\s+)*(?:data|record)\s+([^\s(){}:.,]+)")
LIBRARY = re.compile(r"^\s*(?:pub |ghost )?use (?!Rattle\.(?!std\.))[^{;]*\{([^}]*)\}", re.M)
# A lemma that would have its definition's name gets _lem; a name of a library, or of another definition in the same file, is left alone.
CHOSEN = {
    "bit-or": "bit_or_lem",
    "fits_along": "fits_along_lem",
    "inOrder": "kits_in_order",
    "lastRow": "last_row_of",
    "left_by": "left_by_lem",
    "line-here": "line_here_lem",
    "new_line": "new_line_lem",
    "slice-val": "slice_val_of",
    "tag_in": "tag_in_lem",
    "up-to": "up_to_lem",
}
# A name of one file alone that has another definition's name.
LOCAL = {"crates/answers/proofs/Answers.antt": {"inOrder": "in_order"}}


def files(root, ends):
    for folder, dirs, names in os.walk(root):
        dirs[:] = sorted(d for d in dirs if d not in ("out", ".git", "target", "__pycache__"))
        for n in sorted(names):
            if n.endswith(ends):
                yield os.path.join(folder, n)


def read(path):
    with open(path, encoding="utf-8") as f:
        return f.read()


def of_function(path):
    """Whether the file is of one function's proof, whose names Rattle makes."""
    return os.path.basename(path) in ("Proof.antt", "Answers.antt", "Invariants.antt") and "/proofs/" in path and not re.search(r"/proofs/[^/]*$", path)


def declared(text):
    for line in text.split("\n"):
        m = LINE.match(line) or KIND.match(line)
        if m:
            yield from m[1].split(" ")


def snake(name):
    words = re.sub(r"(?<=[A-Za-z0-9])[A-Z]", lambda m: "_" + m[0].lower(), name)
    words = re.sub(r"(?<=[a-z0-9'])-(?=\w)", "_", words)
    return words


def names(root):
    found = set()
    for p in files(os.path.join(root, "crates"), ".antt"):
        if not of_function(p):
            found |= set(declared(read(p)))
    words = {n for n in found if re.fullmatch(NAME, n) and n[0].islower()}
    definitions = {snake(n) for n in words if "-" not in n and snake(n) != n}
    pairs = {}
    for n in sorted(words):
        if n in CHOSEN and (snake(n) != n or n in definitions):
            pairs[n] = CHOSEN[n]
        elif snake(n) != n:
            pairs[n] = snake(n) + ("_lem" if "-" in n and snake(n) in definitions else "")
    return pairs, found


def spelled(text, pairs, own):
    """The text with each own name spelled anew. In a function's proof a step of the code keeps its name."""
    def word(m):
        w = m[0]
        if w not in pairs:
            return w
        before = text[max(0, m.start() - 1): m.start()]
        if own and before == "." and not re.search(r"[a-z][A-Z]", w):
            return w
        if own and "-" in w and (m.start() == 0 or text[m.start() - 1] == "\n"):
            return w
        return pairs[w]

    brought = set()
    for m in LIBRARY.finditer(text):
        brought |= {w.strip() for w in m[1].split(",")}
    if brought & set(pairs):
        pairs = {k: v for k, v in pairs.items() if k not in brought}
    return TOKEN.sub(word, text)


# What port.py does to a line of specs/ or src/, as far as edits have it.
PORTED = [
    (r"Rattle\u00b7(\w+)\u00b7specs\.specs\.", r"Rattle.\1.specs."),
    (r"Rattle\u00b7(\w+)\u00b7proofs\.proofs\.", r"Rattle.\1.proofs."),
    (r"Rattle\u00b7(\w+)\.", r"Rattle.\1."),
    (r" \.(?=[a-z_0-9])", "."),
    (r"(?<![\w\]])\(([\w'\u2080-\u2089]+(?:\.[\w'\u2080-\u2089]+)+)\)", r"\1"),
    (r"\b_(\|\||&&|\+\+|\u2237|\+|-|\*|/|<|\u2264|\u2261|\u2262|\u2194|\u228e|\^|%)_", "\u25cc\\1\u25cc"),
    (r"(?<=[{ ,])_(\|\||&&|\+\+|\u2237|\+|-|\*|/|<|\u2264|\u2261|\u2262|\u2194|\u228e|\^|%)_(?=[} ,])", "\u25cc\\1\u25cc"),
    (r"\bgetD\b", "get_or"),
    (r"\u2032", "'"),
]


def edited(text, pairs, found):
    """An edit's line as today's files spell it."""
    def word(m):
        w = m[0]
        if w in pairs:
            return pairs[w]
        return snake(w) if w[0].islower() and snake(w) in found else w

    for old, new in PORTED:
        text = re.sub(old, new, text)
    return TOKEN.sub(word, text)


def edits(root, pairs, found):
    """Spells the lines of each edit anew, and prints those whose old text stands no longer once in its file."""
    done = left = 0
    for p in files(os.path.join(root, "crates"), ".edit"):
        lines = read(p).split("\n")
        target = None
        for i, line in enumerate(lines):
            if line.startswith("file: "):
                target = os.path.join(os.path.dirname(os.path.dirname(p)), edited(line[6:].strip(), {}, set()))
            for head in ("old: ", "new: "):
                if line.startswith(head):
                    lines[i] = head + edited(line[5:], pairs, found)
        text = "\n".join(lines)
        with open(p, "w", encoding="utf-8") as f:
            f.write(text)
        body = read(target) if target and os.path.isfile(target) else ""
        bad = []
        for line in lines:
            if line.startswith("old: "):
                if body.count(line[5:]) != 1:
                    bad.append(line[5:])
            elif line.startswith("new: ") and not bad:
                body = body.replace(lines[lines.index(line) - 1][5:], line[5:]) if lines[lines.index(line) - 1].startswith("old: ") else body
        if bad:
            left += 1
            print(f"left: {p}: {bad}")
        else:
            done += 1
    print(f"edits: {done} stand, {left} left")


def quoted(text, pairs):
    """A page, or a script: names between backquotes alone."""
    return re.sub(r"`[^`\n]*`", lambda m: TOKEN.sub(lambda w: pairs.get(w[0], w[0]), m[0]), text)


def main():
    root = "."
    pairs, _ = names(root)
    if "--list" in sys.argv:
        for a, b in sorted(pairs.items()):
            print(a, b)
        return
    for p in files(os.path.join(root, "crates"), (".antt", ".rt")):
        old = read(p)
        new = spelled(old, pairs | LOCAL.get(os.path.relpath(p, root), {}), of_function(p))
        if new != old:
            with open(p, "w", encoding="utf-8") as f:
                f.write(new)
    _, found = names(root)
    edits(root, pairs, found)
    pages = ["README.md"] + [os.path.join("docs", n) for n in sorted(os.listdir("docs"))]
    for p in pages:
        if p.endswith(".md") and os.path.isfile(p):
            old = read(p)
            new = quoted(old, pairs)
            if new != old:
                with open(p, "w", encoding="utf-8") as f:
                    f.write(new)


if __name__ == "__main__":
    main()
